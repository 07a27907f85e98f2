// Files: what is open, under which number, and what is read and written.
#include "layer.h"

struct opened *table[NUMBERS];

struct opened *at(int number) { return number >= 0 && number < NUMBERS ? table[number] : NULL; }

// What is open, before it has a number; NULL without memory.
struct opened *made(enum kind kind, HANDLE handle)
{
    struct opened *it = calloc(1, sizeof *it);
    if (it != NULL)
        *it = (struct opened){.kind = kind, .handle = handle, .socket = INVALID_SOCKET};
    return it;
}

static void end(struct opened *it)
{
    if (it->kind == A_PORT)
        close_port(it);
    if (it->socket != INVALID_SOCKET)
        closesocket(it->socket);
    if (it->handle != NULL && it->handle != INVALID_HANDLE_VALUE)
        (it->kind == A_LISTING ? FindClose : CloseHandle)(it->handle);
    free(it);
}

// Gives it the lowest free number from one on, as Linux does. Where none is free, or there was no memory for it, it is closed.
int numbered(struct opened *it, int from)
{
    if (it == NULL)
        return fail(L_ENOMEM);
    for (int number = from; number < NUMBERS; number++)
        if (table[number] == NULL) {
            table[number] = it;
            it->numbers++;
            return number;
        }
    if (it->numbers == 0)
        end(it);
    return fail(L_EMFILE);
}

// open. What is added to a file goes to its end in one step (FILE_APPEND_DATA), also beside other programs. A new file for its user
// alone has rights that say so; any other has its folder's. A folder is opened to be synced, for which it has to be one that may be
// written; where that is refused, it is open all the same.
ASKED(int, open)(const char *name, int flags, unsigned mode)
{
    static wchar_t path[PATH_ROOM];
    struct opened *standard = at(standard_of(name));
    if (standard != NULL)
        return numbered(standard, 3);
    if (!widen(name, path))
        return -1;
    bool writes = (flags & L_ACCESS) != 0, creates = (flags & L_CREATES) != 0, is_private = creates && (mode & 077) == 0;
    DWORD access = (flags & L_ACCESS) == L_WRITES ? FILE_READ_ATTRIBUTES | READ_CONTROL : GENERIC_READ;
    if (writes)
        access |= flags & L_APPENDS ? FILE_APPEND_DATA | FILE_WRITE_ATTRIBUTES | SYNCHRONIZE : GENERIC_WRITE;
    if (is_private)
        access |= WRITE_DAC;
    DWORD how = !creates ? OPEN_EXISTING : flags & L_EXCLUSIVE ? CREATE_NEW : OPEN_ALWAYS;
    DWORD is = writes || creates ? INVALID_FILE_ATTRIBUTES : GetFileAttributesW(path);
    HANDLE handle = is != INVALID_FILE_ATTRIBUTES && (is & FILE_ATTRIBUTE_DIRECTORY) ? there(path, access, GENERIC_WRITE, 0)
        : CreateFileW(path, access, SHARED, is_private ? for_user_alone() : NULL, how, FILE_FLAG_BACKUP_SEMANTICS, NULL);
    if (handle == INVALID_HANDLE_VALUE)
        return failed();
    BY_HANDLE_FILE_INFORMATION told;
    bool folder = GetFileInformationByHandle(handle, &told) && (told.dwFileAttributes & FILE_ATTRIBUTE_DIRECTORY);
    int status = folder && writes ? fail(L_EISDIR) : (flags & L_TRUNCATES) && !SetEndOfFile(handle) ? failed() : 0;
    if (status == 0)
        return numbered(made(folder ? A_FOLDER : A_FILE, handle), 3);
    CloseHandle(handle);
    return status;
}

// close: what is open is closed with the last of its numbers, and so are its locks.
ASKED(int, close)(int number)
{
    OPENED(it, number);
    table[number] = NULL;
    if (--it->numbers == 0)
        end(it);
    return 0;
}

// fcntl, of which the program asks for another number of what is open (F_DUPFD_CLOEXEC).
ASKED(int, fcntl)(int number, int command, long long from)
{
    OPENED(it, number);
    return command != 1030 ? fail(L_EINVAL) : numbered(it, (int)from);
}

// read: up to 1 GiB. The end of a pipe is an error for Windows. A console ends its lines by CR LF; where a read has just the CR, it reads on.
ASKED(long long, read)(int number, void *buf, size_t room)
{
    OPENED(it, number);
    DWORD n = 0, most = room > 0x40000000 ? 0x40000000 : (DWORD)room;
    if (it->kind == A_SOCKET || it->kind == A_PORT)
        return it->kind == A_PORT ? receive_port(it, buf, room) : receive_tcp(it, buf, room);
    if (it->kind == A_FOLDER || it->kind == A_LISTING)
        return fail(L_EISDIR);
    if (!ReadFile(it->handle, buf, most, &n, NULL))
        return GetLastError() == ERROR_BROKEN_PIPE || GetLastError() == ERROR_HANDLE_EOF ? 0 : failed();
    char *text = buf, *to = buf;
    for (DWORD i = 0; it->kind == A_CONSOLE && i < n; i++)
        if (text[i] != '\r')
            *to++ = text[i];
    return it->kind != A_CONSOLE || n == 0 ? n : to != text ? to - text : sysv_read(number, buf, room);
}

// write: up to 1 GiB, and it answers how many bytes went.
ASKED(long long, write)(int number, const void *buf, size_t n)
{
    OPENED(it, number);
    DWORD done = 0, most = n > 0x40000000 ? 0x40000000 : (DWORD)n;
    if (it->kind == A_SOCKET || it->kind == A_PORT)
        return it->kind == A_PORT ? transmit_port(it, buf, n) : transmit_tcp(it, buf, n);
    return WriteFile(it->handle, buf, most, &done, NULL) ? (long long)done : failed();
}

// glibc's other name of it, which a proved program calls where its processor is too old.
ASKED(long long, __write)(int number, const void *buf, size_t n) { return sysv_write(number, buf, n); }

// lseek, of a file on a disk.
ASKED(long long, lseek)(int number, long long offset, int whence)
{
    OPENED(it, number);
    LARGE_INTEGER to = {.QuadPart = offset}, now;
    if (it->kind != A_FILE || GetFileType(it->handle) != FILE_TYPE_DISK)
        return fail(L_ESPIPE);
    return SetFilePointerEx(it->handle, to, &now, (DWORD)whence) ? now.QuadPart : failed();
}

// ftruncate: the place where it is read and written stays.
ASKED(int, ftruncate)(int number, long long length)
{
    OPENED(it, number);
    FILE_END_OF_FILE_INFO to = {.EndOfFile.QuadPart = length};
    return SetFileInformationByHandle(it->handle, FileEndOfFileInfo, &to, sizeof to) ? 0 : failed();
}

ASKED(int, isatty)(int number) { return at(number) != NULL && at(number)->kind == A_CONSOLE; } // isatty: a console
