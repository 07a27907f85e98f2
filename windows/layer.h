// What the files of the layer share: each function that the program asks of Linux's C library, for Windows (x86-64).
// The program's machine code is the one that was made for Linux. So a function here has Linux's calling convention, and answers with
// Linux's numbers; what it does is Windows'. The comment of each says what it stands for, and what Windows promises in that place.
// There is one thread, and there are no signals.
#pragma once
#define WIN32_LEAN_AND_MEAN
#define _WIN32_WINNT 0x0A00
#include <ws2tcpip.h> // and so winsock2.h and windows.h
#include <stdbool.h>
#include <stdio.h>
#include <stdlib.h>

// a function that the program calls: windows/build gives each name that it asks for this prefix
#define ASKED(type, name) __attribute__((sysv_abi)) type sysv_##name

// Linux's numbers of faults, of kinds of files, and of what `open` and `statx` are asked for
enum { L_EPERM = 1, L_ENOENT = 2, L_EIO = 5, L_EBADF = 9, L_EAGAIN = 11, L_ENOMEM = 12, L_EACCES = 13, L_EBUSY = 16, L_EEXIST = 17, L_EXDEV = 18,
    L_ENOTDIR = 20, L_EISDIR = 21, L_EINVAL = 22, L_EMFILE = 24, L_EFBIG = 27, L_ENOSPC = 28, L_ESPIPE = 29, L_EROFS = 30, L_EPIPE = 32, L_ENAMETOOLONG = 36,
    L_ENOTEMPTY = 39, L_ENOTSOCK = 88, L_EAFNOSUPPORT = 97, L_EADDRINUSE = 98, L_ECONNRESET = 104, L_ETIMEDOUT = 110, L_ECONNREFUSED = 111 };
enum { L_SOCKET = 0140000, L_LINK = 0120000, L_REGULAR = 0100000, L_FOLDER = 0040000, L_CHARACTERS = 0020000, L_PIPE = 0010000 };
enum { L_WRITES = 1, L_ACCESS = 3, L_CREATES = 0100, L_EXCLUSIVE = 0200, L_TRUNCATES = 01000, L_APPENDS = 02000 };
enum { L_HERE = -100, L_NO_FOLLOW = 0x100, L_EMPTY_PATH = 0x1000 };

// others may read, write and remove what is open here, as on Linux
#define SHARED (FILE_SHARE_READ | FILE_SHARE_WRITE | FILE_SHARE_DELETE)
// the most UTF-16 units of a path (32,767), with a 0
#define PATH_ROOM 33000

// What a number is open on.
enum kind { A_FILE, A_FOLDER, A_LISTING, A_CONSOLE, A_SOCKET, A_PORT, NEW_SOCKET };
struct opened {
    enum kind kind;
    int numbers;
    HANDLE handle;
    SOCKET socket;
    DWORD read_wait, write_wait; // in ms; 0: without an end
    WIN32_FIND_DATAW next;       // a listing's entry, of which nobody was told yet; and whether there is none
    bool is_over;
};

int fail(int error), fail_of(DWORD windows_error), failed(void); // errors.c
char *narrow(const wchar_t *wide), *variable(const char *name);  // text.c
// paths.c
bool widen(const char *name, wchar_t *path);
HANDLE there(const wchar_t *path, DWORD rights, DWORD more, DWORD flags);
int standard_of(const char *name);
// files.c
#define NUMBERS 512
// what is open under a number, which a function is given; where nothing is, the function ends
#define OPENED(it, number) struct opened *it = at(number); if (it == NULL) return fail(L_EBADF)
extern struct opened *table[NUMBERS];
struct opened *at(int number), *made(enum kind kind, HANDLE handle);
int numbered(struct opened *it, int from);
ASKED(long long, read)(int number, void *buf, size_t room);
ASKED(long long, write)(int number, const void *buf, size_t n);
SECURITY_ATTRIBUTES *for_user_alone(void); // rights.c
unsigned mode_of(HANDLE handle, bool is_folder, unsigned *owner);
// line.c, port.c, tcp.c
extern const char *asked_speed, *asked_wiring;
bool is_port(const char *name), is_tcp(const char *name);
int open_port(struct opened *it, const char *name), open_tcp(struct opened *it, const char *name, bool listens);
void close_port(struct opened *it);
long long receive_port(struct opened *it, void *buf, size_t room), receive_tcp(struct opened *it, void *buf, size_t room);
long long transmit_port(struct opened *it, const void *buf, size_t n), transmit_tcp(struct opened *it, const void *buf, size_t n);
