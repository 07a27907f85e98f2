// What the program asks of each function of windows/*.c, tried. It is linked with the layer, of which test_layer.py puts some of Windows'
// functions into the hands of this file, and called in an empty folder as
//   FIRST=one EMPTY= SAID_N=.. test_layer WORDS COM5 COM6 --wiring=dtr-reset,rts-boot0 --wiring
// with a text of Linux for each fault N, and the words of test_layer.py. It prints what doesn't hold, and its status says whether all does.
#include "layer.h"
#include <aclapi.h>
#include <cpuid.h>
#include <sddl.h>
#include <time.h>
#include <winternl.h>

static int tried_so_far, wrong;

#define HOLDS(fact) (tried_so_far++, (fact) || (wrong++, printf("line %d: %s\n", __LINE__, #fact), false))
// (the fault stays until another comes)
#define FAILS(call, error) HOLDS((call) < 0 && sysv_rattle_errno() == (error) && sysv_rattle_errno() == (error))

struct tried { bool ok; void *p; };
struct statx { unsigned mask, blksize; unsigned long long attributes; unsigned nlink, uid, gid; unsigned short mode, none0;
    unsigned long long ino, size, none1[10]; unsigned major, minor, dev_major, dev_minor; unsigned long long none2[14]; };
struct features { unsigned is[4], usable[4]; };
// what the program asks for, by files
ASKED(int, rattle_errno)(void), sysv___xpg_strerror_r(int error, char *buf, size_t room);
ASKED(void, rattle_set_errno)(int error);
ASKED(struct tried, rattle_alloc)(size_t n, size_t a), sysv_rattle_realloc(void *p, size_t kept, size_t n, size_t a);
ASKED(void, rattle_dealloc)(void *p);
ASKED(int, memcmp)(const void *one, const void *other, size_t n), sysv_bcmp(const void *one, const void *other, size_t n);
ASKED(void *, memmove)(void *to, const void *from, size_t n), *sysv_memcpy(void *to, const void *from, size_t n), *sysv_memset(void *to, int byte, size_t n);
ASKED(long long, rattle_arg)(size_t i, char *buf, size_t room), sysv_rattle_env(const char *name, char *buf, size_t room), sysv_rattle_env_at(size_t i, char *buf, size_t room);
ASKED(int, clock_gettime)(int clock, long long *time);
ASKED(const struct features *, __x86_get_cpuid_feature_leaf)(unsigned leaf);
ASKED(long long, __sysv_signal)(int signal), sysv___write(int number, const void *buf, size_t n), sysv_readlink(const char *name, char *buf, size_t room);
ASKED(int, open)(const char *name, int flags, unsigned mode), sysv_close(int number), sysv_fcntl(int number, int command, long long from),
    sysv_ftruncate(int number, long long length), sysv_isatty(int number);
ASKED(long long, lseek)(int number, long long offset, int whence);
ASKED(int, fchmod)(int number, unsigned mode), sysv_chmod(const char *name, unsigned mode), sysv_lchown(const char *name, unsigned owner, unsigned group);
ASKED(int, flock)(int number, int how), sysv_fsync(int number), sysv_fdatasync(int number);
ASKED(int, statx)(int number, const char *name, int flags, unsigned mask, struct statx *found);
ASKED(char *, realpath)(const char *name, char *resolved);
ASKED(int, unlink)(const char *name), sysv_rename(const char *from, const char *to), sysv_link(const char *from, const char *to);
ASKED(int, rattle_open_dir_at)(int folder, const char *name);
ASKED(long long, getdents64)(int number, unsigned char *buf, size_t room);
ASKED(int, socket)(int family, int type, int protocol), sysv_connect(int number, const unsigned char *address, unsigned length),
    sysv_bind(int number, const unsigned char *address, unsigned length), sysv_listen(int number, int most),
    sysv_accept4(int number, unsigned char *address, unsigned *length, int flags), sysv_poll(void *asked, unsigned long long count, int wait),
    sysv_setsockopt(int number, int level, int name, const void *value, unsigned length);
ASKED(long long, send)(int number, const void *buf, size_t n, int flags), sysv_recv(int number, void *buf, size_t room, int flags);

// --- what of Windows is in our hands: each is done, and taken down; POSIX's way may be there or not

static int flushes, through, renamed_at, signalled_at; // (so many flushes were before a rename, and before the last signal)
static ULONG flushed_by; // the rights of the handle
static ULONGLONG locked;
static int option;
static DCB state;
static bool has_posix, private, is_link, is_opened, is_bare; // (is_bare: a port by its bare name; private: a list that has none of its folder's entries; is_link: each name is a link, which was opened itself)
static char signals[64];
static const wchar_t *list; // in the place of an open file's rights; the answer that Windows gives, and what it was given; and whether there is a list
static DWORD security, secured, posix_flags;
static bool is_listed;
static DWORD refused, came; // the error by which no file is opened; and how a byte of a port came wrong
static DWORD most = -1, bytes; // so many bytes are read or written at once; and how many were asked for
static const wchar_t *leads; // where Windows says that an open file is; NULL: what it says
static int opened;          // so many handles, listings and sockets: one that is closed twice counts so too
static COMMTIMEOUTS waits;
static DWORD nap = 50;       // a short sleep; and whether a listing breaks behind its first entry
static int breaks, takes;            // each setting of a port is taken and left as it is (1), or none is (-1)
static DWORD barred, asked_for, created_how, shared, move_error; // rights that are refused; the newest file's rights, way and share; why moves fail, and how many
static HANDLE written; // what was written last, and where
static const char *said;
static UINT consoles, page_count, pages[9]; // (consoles: how many show colors)
static bool is_new; // POSIX's way knows files that may not be written
static int naps, moves, came_at;    // (naps: how often it slept for a moment; came_at: the call alone that says how a byte came wrong)
static long long ticks;             // what each clock says, of which the steady one has 3,000,000 in a second
static const BY_HANDLE_FILE_INFORMATION *instead; // what is said of each file

static bool is_for_one(SECURITY_ATTRIBUTES *rights)
{
    BOOL any; PACL only; ACCESS_ALLOWED_ACE *one;
    return rights != NULL && (((SECURITY_DESCRIPTOR *)rights->lpSecurityDescriptor)->Control & SE_DACL_PROTECTED) && GetSecurityDescriptorDacl(rights->lpSecurityDescriptor, &any, &only, &any)
        && only->AceCount == 1 && GetAce(only, 0, (void **)&one) && one->Mask == FILE_ALL_ACCESS;
}

static HANDLE WINAPI tried_CreateFileW(const wchar_t *path, DWORD access, DWORD share, SECURITY_ATTRIBUTES *rights, DWORD how, DWORD flags, HANDLE like)
{
    is_bare = wcsncmp(path, L"\\\\.\\COM", 7) == 0, is_opened = (flags & FILE_FLAG_OPEN_REPARSE_POINT) != 0, private = is_for_one(rights), asked_for = access, created_how = how, shared = share;
    SetLastError(refused != 0 ? refused : ERROR_ACCESS_DENIED);
    HANDLE it = refused != 0 || (access & barred) ? INVALID_HANDLE_VALUE : CreateFileW(path, access, share, rights, how, flags, like);
    return opened += it != INVALID_HANDLE_VALUE, it;
}

static BOOL WINAPI tried_FlushFileBuffers(HANDLE handle)
{
    PUBLIC_OBJECT_BASIC_INFORMATION told = {0};
    NtQueryObject(handle, ObjectBasicInformation, &told, sizeof told, NULL);
    return flushes++, flushed_by = told.GrantedAccess, FlushFileBuffers(handle);
}

static BOOL WINAPI tried_ClearCommError(HANDLE port, DWORD *errors, COMSTAT *waiting) { BOOL done = ClearCommError(port, errors, waiting); return *errors |= came_at == 0 || --came_at == 0 ? came : 0, done; }
static BOOL WINAPI tried_LockFileEx(HANDLE handle, DWORD how, DWORD none, DWORD low, DWORD high, OVERLAPPED *place) { return locked = (ULONGLONG)place->OffsetHigh << 32 | place->Offset, HOLDS(low == 1 && high == 0), LockFileEx(handle, how, none, low, high, place); }
static int WINAPI tried_setsockopt(SOCKET socket, int level, int name, const char *value, int length) { return option = level == SOL_SOCKET && getsockname(socket, &(struct sockaddr){0}, &(int){16}) != 0 ? name : option, setsockopt(socket, level, name, value, length); }
static BOOL WINAPI tried_SetCommState(HANDLE port, DCB *set) { return state = *set, SetLastError(ERROR_INVALID_PARAMETER), takes > 0 || (takes == 0 && SetCommState(port, set)); }
static BOOL WINAPI tried_PurgeComm(HANDLE port, DWORD what) { return snprintf(signals + strlen(signals), sizeof signals - strlen(signals), "purge "), PurgeComm(port, what); }
static BOOL WINAPI tried_SetCommTimeouts(HANDLE port, COMMTIMEOUTS *set) { return waits = *set, SetCommTimeouts(port, set); }
static BOOL WINAPI tried_WriteFile(HANDLE handle, const void *buf, DWORD n, DWORD *done, OVERLAPPED *place) { return bytes = n, written = handle, said = buf, WriteFile(handle, buf, n < most ? n : most, done, place); }
static BOOL WINAPI tried_ReadFile(HANDLE handle, void *buf, DWORD n, DWORD *done, OVERLAPPED *place) { return bytes = n, ReadFile(handle, buf, n < most ? n : most, done, place); }

static BOOL WINAPI tried_SetFileInformationByHandle(HANDLE handle, FILE_INFO_BY_HANDLE_CLASS what, void *value, DWORD size)
{
    static wchar_t path[PATH_ROOM];
    struct { DWORD flags; HANDLE root; DWORD length; wchar_t name[1]; } *renamed = value;
    if (what != 21 && what != 22) return SetFileInformationByHandle(handle, what, value, size);
    SetLastError(ERROR_INVALID_PARAMETER);
    if (!has_posix || (what == 22 && (renamed->flags & 0x40) && !is_new)) return FALSE;
    posix_flags = what == 22 ? renamed->flags : *(DWORD *)value;
    FILE_DISPOSITION_INFO remove = {.DeleteFile = posix_flags & 1};
    if (what == 21) return SetFileInformationByHandle(handle, FileDispositionInfo, &remove, sizeof remove);
    if (renamed->root != NULL || renamed->length != wcslen(renamed->name) * sizeof(wchar_t) || GetFinalPathNameByHandleW(handle, path, PATH_ROOM, 0) == 0)
        return FALSE;
    renamed_at = flushes;
    return MoveFileExW(renamed->name, L"aside", MOVEFILE_REPLACE_EXISTING), MoveFileExW(path, renamed->name, MOVEFILE_REPLACE_EXISTING);
}

static BOOL WINAPI tried_MoveFileExW(const wchar_t *from, const wchar_t *to, DWORD flags) { return moves > 0 ? moves--, SetLastError(move_error), FALSE : (through += (flags & ~MOVEFILE_REPLACE_EXISTING) == MOVEFILE_WRITE_THROUGH, MoveFileExW(from, to, flags)); }

static BOOL WINAPI tried_EscapeCommFunction(HANDLE, DWORD what)
{
    return signalled_at = flushes, snprintf(signals + strlen(signals), sizeof signals - strlen(signals), "%s ", what == SETRTS ? "rts" : what == CLRRTS ? "-rts" : what == SETDTR ? "dtr" : "-dtr");
}

static DWORD WINAPI tried_GetSecurityInfo(HANDLE handle, SE_OBJECT_TYPE kind, SECURITY_INFORMATION what, PSID *owner, PSID *group, PACL *entries, PACL *more,
    PSECURITY_DESCRIPTOR *rights)
{
    BOOL ignored;
    if (list == NULL || security != ERROR_SUCCESS)
        return security != ERROR_SUCCESS ? security : GetSecurityInfo(handle, kind, what, owner, group, entries, more, rights);
    if (!HOLDS(ConvertStringSecurityDescriptorToSecurityDescriptorW(list, SDDL_REVISION_1, rights, NULL))) return ERROR_INVALID_ACL;
    GetSecurityDescriptorOwner(*rights, owner, &ignored);
    GetSecurityDescriptorDacl(*rights, &ignored, entries, &ignored);
    *entries = is_listed ? *entries : NULL;
    return ERROR_SUCCESS;
}

static DWORD WINAPI tried_GetFileAttributesW(const wchar_t *path) { return GetFileAttributesW(path) | (is_link ? FILE_ATTRIBUTE_REPARSE_POINT : 0); }
static BOOL WINAPI tried_GetFileInformationByHandle(HANDLE it, BY_HANDLE_FILE_INFORMATION *told) { return GetFileInformationByHandle(it, told) && (*told = instead != NULL ? *instead : *told, told->dwFileAttributes |= is_link && is_opened ? FILE_ATTRIBUTE_REPARSE_POINT : 0, TRUE); }
static DWORD WINAPI tried_GetFinalPathNameByHandleW(HANDLE handle, wchar_t *path, DWORD room, DWORD how) { return leads != NULL ? (DWORD)wcslen(wcscpy(path, leads)) : GetFinalPathNameByHandleW(handle, path, room, how); }
static DWORD WINAPI tried_SetSecurityInfo(HANDLE handle, SE_OBJECT_TYPE kind, SECURITY_INFORMATION what, PSID owner, PSID group, PACL entries, PACL more) { return secured = what, SetSecurityInfo(handle, kind, what, owner, group, entries, more); }
static HANDLE WINAPI tried_FindFirstFileW(const wchar_t *path, WIN32_FIND_DATAW *found) { return opened++, FindFirstFileW(path, found); }
static BOOL WINAPI tried_FindNextFileW(HANDLE listing, WIN32_FIND_DATAW *found) { return breaks ? SetLastError(ERROR_CRC), FALSE : FindNextFileW(listing, found); }
static BOOL WINAPI tried_FindClose(HANDLE listing) { return opened--, FindClose(listing); }
static BOOL WINAPI tried_CloseHandle(HANDLE it) { return opened -= it != INVALID_HANDLE_VALUE, CloseHandle(it); }
static SOCKET counted(SOCKET it) { return opened += it != INVALID_SOCKET, it; }
static SOCKET WSAAPI tried_socket(int family, int kind, int protocol) { return counted(socket(family, kind, protocol)); }
static SOCKET WSAAPI tried_accept(SOCKET server, struct sockaddr *who, int *length) { return counted(accept(server, who, length)); }
static int WSAAPI tried_WSAPoll(WSAPOLLFD *one, ULONG n, int wait) { return HOLDS(n == 1 && wait > 0), WSAPoll(one, n, wait); }
static int WSAAPI tried_closesocket(SOCKET it) { return opened--, closesocket(it); }
static void WSAAPI tried_freeaddrinfo(struct addrinfo *it) { memset(it->ai_addr, 0, it->ai_addrlen), freeaddrinfo(it); }

static BOOL WINAPI tried_GetConsoleMode(HANDLE it, DWORD *mode) { return *mode = 3, it != GetStdHandle(STD_OUTPUT_HANDLE); }
static BOOL WINAPI tried_SetConsoleMode(HANDLE it, DWORD mode) { return consoles += it == GetStdHandle(STD_ERROR_HANDLE) && mode == 7 ? 1 : 9, TRUE; }
static UINT WINAPI tried_GetConsoleOutputCP(void) { return 850; }
static BOOL WINAPI tried_SetConsoleOutputCP(UINT page) { return pages[page_count++ % 9] = page, TRUE; }
int main(void), __wgetmainargs(int *count, wchar_t ***words, wchar_t ***variables, int globs, int *mode);
int tried___wgetmainargs(int *count, wchar_t ***words, wchar_t ***variables, int globs, int *mode) { int status = __wgetmainargs(count, words, variables, globs, mode); return *count -= page_count != 0, (*words)[12] = page_count == 4 ? L"-h" : (*words)[12], status; }

// It begins twice more, without what is typed and the last word, and ends well; so help is told, the second time, where it is asked for.
static void WINAPI tried_ExitProcess(UINT status)
{
    HOLDS(pages[0] == CP_UTF8 && pages[1] == 850 && status == (page_count == 2 ? 7 : 0) && (page_count > 2 || consoles == 1));
    HOLDS(page_count == 6 ? written == table[1]->handle && bytes > 100 : bytes == 0);
    HOLDS(page_count != 4 || (table[0] == NULL && table[1]->handle == GetStdHandle(STD_OUTPUT_HANDLE) && table[2]->handle == GetStdHandle(STD_ERROR_HANDLE)));
    static struct opened *none;
    if (page_count == 2)
        none = table[1], table[0] = table[1] = table[2] = NULL, SetStdHandle(STD_INPUT_HANDLE, NULL);
    else
        table[1] = none;
    if (page_count < 6 && wrong == 0) main();
    if (HOLDS(bytes != 0 && said[bytes - 1] == '\n' && memcmp(said, "\nOn Windows a device is COM3", 28) == 0 && strcmp(asked_wiring, "dtr-reset,rts-boot0") == 0 && sysv_rattle_arg(13, NULL, 0) == -1))
        printf("%d of %d hold\n", tried_so_far, tried_so_far);
    ExitProcess(wrong != 0);
}

static BOOL WINAPI tried_QueryPerformanceCounter(LARGE_INTEGER *now) { return ticks == 0 ? QueryPerformanceCounter(now) : (now->QuadPart = ticks, TRUE); }
static BOOL WINAPI tried_QueryPerformanceFrequency(LARGE_INTEGER *second) { return ticks == 0 ? QueryPerformanceFrequency(second) : (second->QuadPart = 3000000, TRUE); }
static void WINAPI tried_GetSystemTimePreciseAsFileTime(FILETIME *day) { ticks == 0 ? GetSystemTimePreciseAsFileTime(day) : (void)(*day = (FILETIME){(DWORD)ticks, (DWORD)(ticks >> 32)}); }

static void WINAPI tried_Sleep(DWORD millis)
{
    if (millis != 0 && millis != 50) snprintf(signals + strlen(signals), sizeof signals - strlen(signals), "%lu ", millis);
    naps += millis == 50;
    Sleep(millis == 50 ? nap : 0);
}

#define IMPORT(name) void *__imp_tried_##name = tried_##name;
IMPORT(FlushFileBuffers) IMPORT(SetFileInformationByHandle) IMPORT(MoveFileExW) IMPORT(EscapeCommFunction) IMPORT(Sleep) IMPORT(LockFileEx)
IMPORT(setsockopt) IMPORT(SetCommState) IMPORT(GetSecurityInfo) IMPORT(CreateFileW) IMPORT(ClearCommError) IMPORT(SetCommTimeouts) IMPORT(WriteFile)
IMPORT(FindFirstFileW) IMPORT(FindClose) IMPORT(CloseHandle) IMPORT(SetSecurityInfo) IMPORT(PurgeComm) IMPORT(socket) IMPORT(accept)
IMPORT(closesocket) IMPORT(GetFinalPathNameByHandleW) IMPORT(GetFileAttributesW) IMPORT(GetFileInformationByHandle) IMPORT(FindNextFileW)
IMPORT(QueryPerformanceCounter) IMPORT(QueryPerformanceFrequency) IMPORT(GetSystemTimePreciseAsFileTime) IMPORT(ReadFile) IMPORT(GetConsoleMode)
IMPORT(SetConsoleMode) IMPORT(GetConsoleOutputCP) IMPORT(SetConsoleOutputCP) IMPORT(ExitProcess) IMPORT(WSAPoll) IMPORT(freeaddrinfo)

// --- helpers

// a noun closes all that it opened, and is the last one where something doesn't hold
#define CLOSES(noun) do { int before = opened; noun; HOLDS(opened == before); if (wrong != 0) return 1; } while (0)

static int put_file(const char *name, const char *text)
{
    int number = sysv_open(name, 01101, 0666);
    bool done = sysv_write(number, text, strlen(text)) == (long long)strlen(text);
    return sysv_close(number) == 0 && done ? 0 : -1;
}

static bool holds(const char *name, const char *text)
{
    char buf[256] = "";
    int number = sysv_open(name, 0, 0);
    long long n = number < 0 ? -1 : sysv_read(number, buf, 255);
    sysv_close(number);
    return n == (long long)strlen(text) && strcmp(buf, text) == 0;
}

static bool is_put(long long answer, const char *buf, const char *text) { return answer == (long long)strlen(text) && memcmp(buf, text, strlen(text)) == 0 && buf[strlen(text)] == '#'; }

static struct statx told(const char *name, int flags)
{
    struct statx found;
    memset(&found, 0x55, sizeof found);
    if (sysv_statx(-100, name, flags, 0xfff, &found) < 0) memset(&found, 0, sizeof found);
    return found;
}

// --- noun by noun

static void test_errors(void)
{
    char text[64], name[16];
    sysv_rattle_set_errno(77);
    HOLDS(sysv_rattle_errno() == 77);
    static const struct { DWORD windows; int error; } same[] = {{ERROR_FILE_NOT_FOUND, 2}, {ERROR_PATH_NOT_FOUND, 2}, {ERROR_BAD_NETPATH, 2}, {ERROR_BAD_NET_NAME, 2}, {ERROR_INVALID_DRIVE, 2},
        {WSAHOST_NOT_FOUND, 2}, {ERROR_CRC, 5}, {ERROR_INVALID_HANDLE, 9}, {ERROR_LOCK_VIOLATION, 11}, {ERROR_IO_PENDING, 11}, {ERROR_NOT_ENOUGH_MEMORY, 12}, {ERROR_OUTOFMEMORY, 12},
        {ERROR_ACCESS_DENIED, 13}, {ERROR_SHARING_VIOLATION, 16}, {ERROR_FILE_EXISTS, 17}, {ERROR_ALREADY_EXISTS, 17}, {ERROR_NOT_SAME_DEVICE, 18}, {ERROR_DIRECTORY, 20}, {ERROR_INVALID_NAME, 22},
        {ERROR_INVALID_PARAMETER, 22}, {ERROR_BAD_PATHNAME, 22}, {ERROR_NEGATIVE_SEEK, 22}, {ERROR_TOO_MANY_OPEN_FILES, 24}, {ERROR_FILE_TOO_LARGE, 27}, {ERROR_DISK_FULL, 28},
        {ERROR_HANDLE_DISK_FULL, 28}, {1295, 28}, {ERROR_WRITE_PROTECT, 30}, {ERROR_BROKEN_PIPE, 32}, {ERROR_NO_DATA, 32}, {ERROR_FILENAME_EXCED_RANGE, 36}, {ERROR_DIR_NOT_EMPTY, 39},
        {WSAEAFNOSUPPORT, 97}, {WSAEADDRINUSE, 98}, {WSAEACCES, 98}, {WSAECONNRESET, 104}, {WSAECONNABORTED, 104}, {WSAETIMEDOUT, 110}, {WSAECONNREFUSED, 111}};
    for (size_t i = 0; i < sizeof same / sizeof *same; i++) FAILS(fail_of(same[i].windows), same[i].error);
    // what each is in words, and one that nobody knows; and where there is no room for all
    static const int more[] = {1, 21, 29, 88};
    for (size_t i = 0; i < sizeof same / sizeof *same + 4; i++) {
        int error = i < 4 ? more[i] : same[i - 4].error;
        snprintf(name, sizeof name, "SAID_%d", error);
        HOLDS(sysv___xpg_strerror_r(error, text, sizeof text) == 0 && strcmp(text, error == 16 ? "another program has it open" : getenv(name)) == 0);
    }
    HOLDS(sysv___xpg_strerror_r(77, text, sizeof text) == 0 && strcmp(text, "Unknown error") == 0 && sysv___xpg_strerror_r(2, text, 5) == 0 && memcmp(text, "No s\0wn", 7) == 0);
}

static void test_memory(void)
{
    char one[64], other[64];
    for (size_t n = 0; n < 200; n++) {
        struct tried got = sysv_rattle_alloc(n, 16), beside = sysv_rattle_alloc(n, 1);
        HOLDS(got.ok && beside.ok && got.p != NULL && got.p != beside.p && (uintptr_t)got.p % 16 == 0);
        memset(got.p, 7, n);
        struct tried more = sysv_rattle_realloc(got.p, n, n + 5000, 16);
        HOLDS(more.ok && (n == 0 || (((char *)more.p)[0] == 7 && ((char *)more.p)[n - 1] == 7)));
        sysv_rattle_dealloc(more.p);
        sysv_rattle_dealloc(beside.p);
    }
    struct tried none = sysv_rattle_alloc((size_t)1 << 62, 16), empty = sysv_rattle_realloc(sysv_rattle_alloc(8, 8).p, 0, 0, 8);
    HOLDS(!none.ok && none.p != NULL && empty.ok && empty.p != NULL);
    struct tried stays = sysv_rattle_alloc(40, 8), beside = (memset(stays.p, 5, 40), sysv_rattle_realloc(stays.p, 40, (size_t)1 << 62, 8));
    HOLDS(!beside.ok && beside.p != NULL && ((char *)stays.p)[39] == 5 && sysv_rattle_alloc(40, 8).p != stays.p);
    for (int i = 0; i < 64; i++) one[i] = (char)i;
    HOLDS(sysv_memcpy(other, one, 64) == other && sysv_memcmp(one, other, 64) == 0 && sysv_bcmp(one, other, 64) == 0);
    HOLDS(sysv_memmove(one + 3, one, 32) == one + 3 && memcmp(one + 3, other, 32) == 0 && one[2] == 2 && one[35] == 35);
    HOLDS(sysv_memmove(one, one + 3, 40) == one && memcmp(one, other, 32) == 0 && memcmp(one + 33, other + 36, 7) == 0);
    HOLDS(sysv_memset(one, 9, 10) == one && one[9] == 9 && sysv_memcmp(one, other, 3) > 0 && sysv_memcmp(other, one, 3) < 0 && sysv_bcmp(one, other, 3) != 0);
}

static void test_words(void)
{
    static const char *const given[] = {"stmflash", "--baud=9600", "word", "", "zwei Wörter", "--wirings=x", "a/b", "--baud", "57600", "help", "end"};
    char buf[64];
    for (size_t i = 0; i < sizeof given / sizeof *given; i++) {
        memset(buf, '#', sizeof buf);
        HOLDS(is_put(sysv_rattle_arg(i, buf, 60), buf, given[i]));
    }
    memset(buf, '#', sizeof buf);
    HOLDS(is_put(sysv_rattle_arg(13, buf, 60), buf, "--wiring") && sysv_rattle_arg(14, buf, 60) == -1 && memset(buf, '#', 9) == buf); // (one without a value is told by the program)
    HOLDS(sysv_rattle_arg(2, buf, 3) == -2 && memcmp(buf, "wor#", 4) == 0 && sysv_rattle_arg(2, buf, 4) == 4 && sysv_rattle_arg(3, NULL, 0) == 0);
    HOLDS(sysv_rattle_arg(SIZE_MAX, buf, 60) == -1 && strcmp(asked_speed, "57600") == 0 && strcmp(asked_wiring, "dtr-reset,rts-boot0") == 0);
    memset(buf, '#', sizeof buf);
    HOLDS(is_put(sysv_rattle_env("FIRST", buf, 60), buf, "one") && sysv_rattle_env("FIRS", buf, 60) == -1 && sysv_rattle_env("EMPTY", buf, 60) == 0);
    long long n = sysv_rattle_env("XDG_CONFIG_HOME", buf, 60);
    HOLDS(n > 3 && memcmp(buf + 1, ":/", 2) == 0 && n == sysv_rattle_env("APPDATA", buf, 60) && memchr(buf, '\\', (size_t)n) == NULL);
    static char entry[33000], value[33000], wide[] = {[0 ... 31999] = 'x', 0};
    n = sysv_rattle_env("HOME", entry, sizeof entry);
    HOLDS(n > 3 && n == sysv_rattle_env("USERPROFILE", value, sizeof value) && memcmp(entry, value, (size_t)n) == 0 && SetEnvironmentVariableA("LONG", wide) && sysv_rattle_env("LONG", value, sizeof value) == 32000);
    HOLDS(SetEnvironmentVariableW(L"HOME", L"own") && sysv_rattle_env("HOME", buf, 60) == 3);
    // each entry is a name and its value, also where they aren't ASCII
    int found = 0;
    HOLDS(SetEnvironmentVariableW(L"=Q:", L"Q:\\") && SetEnvironmentVariableW(L"NÄME", L"C:\\имя\\名前"));
    for (size_t i = 0; (n = sysv_rattle_env_at(i, entry, sizeof entry)) != -1; i++) {
        long long length = HOLDS(n > 0 && memchr(entry + 1, '=', (size_t)n - 1) != NULL) ? strchr(entry + 1, '=') - entry : 0;
        entry[length] = 0;
        HOLDS(entry[0] != 0 && entry[0] != '=' && sysv_rattle_env(entry, value, sizeof value) == n - length - 1 && memcmp(value, entry + length + 1, (size_t)(n - length - 1)) == 0);
        found += strcmp(entry, "FIRST") == 0 || (strcmp(entry, "NÄME") == 0 && memcmp(value, "C:/имя/名前", (size_t)(n - length - 1)) == 0);
    }
    HOLDS(found == 2 && sysv_rattle_env_at(100000, entry, 9) == -1);
    static const struct { const wchar_t *wide; const char *text; } texts[] = {{L"", ""}, {L"\\\\a\\", "//a/"}, {L"\xd83d\xdcdf\xe9", "\xf0\x9f\x93\x9f\xc3\xa9"}, {L"a\xd83d", "\xff"}, {L"\1\\", "\1/"}};
    for (size_t i = 0; i < sizeof texts / sizeof *texts; i++) {
        char *text = narrow(texts[i].wide);
        HOLDS(text != NULL && strcmp(text, texts[i].text) == 0);
        free(text);
    }
}

static void test_clock(void)
{
    long long before[2], after[2], day[2];
    HOLDS(sysv_clock_gettime(1, before) == 0);
    Sleep(40);
    HOLDS(sysv_clock_gettime(1, after) == 0 && after[1] >= 0 && after[1] < 1000000000);
    long long took = (after[0] - before[0]) * 1000000000 + after[1] - before[1];
    HOLDS(took > 30000000 && took < 600000000000LL); HOLDS((ticks = 7 * 3000000 + 1000, sysv_clock_gettime(1, after)) == 0 && after[0] == 7 && after[1] == 333333);
    HOLDS((ticks = 116444736020000015, sysv_clock_gettime(0, day)) == 0 && day[0] == 2 && day[1] == 1500 && (ticks = 0) == 0 && sysv___sysv_signal(13) == 0);
    static const unsigned leaves[] = {1, 7, 0x80000001};
    for (unsigned i = 0; i < 5; i++) { // (the first one's EBX says which processor it is)
        unsigned is[4] = {0};
        const struct features *all = sysv___x86_get_cpuid_feature_leaf(i);
        if (i < 3)
            __cpuid_count(leaves[i], 0, is[0], is[1], is[2], is[3]);
        HOLDS(memcmp(all->is, all->usable, sizeof all->is) == 0 && all->is[0] == is[0] && (i == 0 || all->is[1] == is[1]) && memcmp(all->is + 2, is + 2, 8) == 0);
    }
    HOLDS(sysv_clock_gettime(0, day) == 0 && llabs(day[0] - (long long)time(NULL)) < 600 && day[1] >= 0 && day[1] < 1000000000);
}

static void test_paths(void)
{
    static wchar_t path[PATH_ROOM], program[PATH_ROOM];
    static char name[5000], real[5000], other[5000];
    static const char *const refused[] = {"CON", "con.txt", "folder/AUX", "com1.log", "LPT9", "file:b", "C:/a:b", "\xff\xfe", "PRN.x.y", "//?/C:/x/con.txt", "CONIN$", "conout$.x", "x/Lpt1 .a", "PRN", "aux:",
        "//?/C:/a:b", "//./pipe/x", "//./COM3", "//server/share/a:b", "//?/C:/x/com1.a", "//?/C:/x/LPT9", "//?/C:/x/conout$", "//?/C:/CONIN$.b"};
    for (size_t i = 0; i < sizeof refused / sizeof *refused; i++)
        if (!HOLDS(!widen(refused[i], path) && sysv_rattle_errno() == 22 && sysv_open(refused[i], 0, 0) < 0 && sysv_rattle_errno() == 22))
            printf("    %s\n", refused[i]);
    // each call says so, of either name, and makes none
    FAILS(sysv_open("CON", 0102, 0666), 22); FAILS(sysv_unlink("CON"), 22); FAILS(sysv_rename("CON", "b"), 22); FAILS(sysv_rename("b", "CON"), 22); FAILS(sysv_link("CON", "b"), 22);
    FAILS(sysv_link("b", "CON"), 22); FAILS(sysv_rattle_open_dir_at(-100, "CON"), 22); FAILS(sysv_readlink("b", name, 9), 22); HOLDS(sysv_realpath("CON", real) == NULL && sysv_rattle_errno() == 22);
    HOLDS(!widen("", path) && sysv_rattle_errno() == 2);
    static const char *const taken[] = {"console", "com", "com10x", "COMB.journal", "auxiliary.txt", "C:/x", "NUL", "CON1", "com0", "xCON", "con_", "//?/C:/x", "CON/x"};
    for (size_t i = 0; i < sizeof taken / sizeof *taken; i++) HOLDS(widen(taken[i], path));
    HOLDS(widen("C:/a/../b", path) && wcscmp(path, L"C:\\b") == 0); HOLDS(widen("//server/share/x", path) && wcscmp(path, L"\\\\server\\share\\x") == 0);
    memset(name, 'y', 400);
    memcpy(name, "//server/share/", 15);
    HOLDS(widen(name, path) && wcsncmp(path, L"\\\\?\\UNC\\server\\share\\yyy", 24) == 0 && wcslen(path) == 406);
    // one is long from 248 on, and too long from 32,992; the table lies beside the program
    memset(memset(name, 'z', 400), 'C', 1), memcpy(name + 1, ":/", 2);
    for (size_t n = 246; n < 250; n++) {
        name[n] = 0;
        HOLDS(widen(name, path) && wcslen(path) == (n < 248 ? n : n + 4) && wcsncmp(path, n < 248 ? L"C:\\zzz" : L"\\\\?\\C:\\zzz", n < 248 ? 6 : 10) == 0);
        name[n] = 'z';
    }
    HOLDS(widen(strcat(memcpy(real, "//?/", 5), name), path) && wcslen(path) == 404 && wcsncmp(path, L"\\\\?\\C:\\zz", 9) == 0);
    static char far_off[40000] = {[0 ... 32985] = 'y', 0};
    HOLDS(!widen(far_off, path) && sysv_rattle_errno() == 36 && !widen(memset(far_off, 'y', 39000), path) && sysv_rattle_errno() == 22 && (far_off[32700] = 0, widen(far_off, path)));
    GetModuleFileNameW(NULL, program, PATH_ROOM);
    HOLDS(widen("/usr/share/stmflash/chips.toml", path) && wcscmp(wcscpy(wcsrchr(program, L'\\') + 1, L"chips.toml") ? program : NULL, path) == 0);
    HOLDS(widen("/usr/share/stmflash/chips.tom", path) && wcsstr(path, L":\\usr\\share\\stmflash\\chips.tom") == path + 1);
    // a path of 400 characters, by folders of 100
    memset(name, 0, sizeof name);
    char folder[101] = "";
    memset(folder, 'd', 100);
    *name = 0;
    for (int i = 0; i < 4; i++) {
        strcat(strcat(name, i ? "/" : ""), folder);
        HOLDS(widen(name, path) && (CreateDirectoryW(path, NULL) || GetLastError() == ERROR_ALREADY_EXISTS));
    }
    strcat(name, "/file");
    HOLDS(put_file(name, "far") == 0 && holds(name, "far") && told(name, 0).size == 3);
    HOLDS(sysv_realpath(name, real) == real && strlen(real) > 400 && strstr(real, "/file") != NULL && strchr(real, '\\') == NULL && real[0] != '/');
    HOLDS(sysv_realpath("./", other) == other && strncmp(real, other, strlen(other)) == 0); HOLDS(sysv_realpath("none", real) == NULL && sysv_rattle_errno() == 2);
    HOLDS(sysv_realpath("/dev/stdin", real) == real && strcmp(real, "/dev/stdin") == 0 && sysv_realpath("tcp:a:1", real) == real && strcmp(real, "tcp:a:1") == 0);
    // a name leads where Windows says that the open file is: behind each link, and in the case in which it was made
    static const wchar_t too_far[5000] = {[0 ... 4095] = L'x'};
    static const struct { const wchar_t *leads; const char *real; } ways[] = {{L"\\\\?\\C:\\Real\\имя", "C:/Real/имя"}, {L"\\\\?\\UNC\\server\\share\\x", "//server/share/x"}, {L"C:\\x", "C:/x"}};
    for (size_t i = 0; i < sizeof ways / sizeof *ways; i++)
        HOLDS((leads = ways[i].leads, sysv_realpath(name, real)) == real && strcmp(real, ways[i].real) == 0);
    HOLDS((leads = too_far, sysv_realpath(name, real)) == NULL && sysv_rattle_errno() == 36);
    HOLDS((leads = L"", sysv_realpath("./", real)) == real && (leads = NULL, sysv_realpath("./", other)) == other && strncmp(real, other, strlen(other)) == 0);
    // names in every script, and case that counts for nothing
    static const char *const scripts[] = {"näme ü", "имя", "名前", "\xf0\x9f\x93\x9f", "اسم"};
    for (size_t i = 0; i < sizeof scripts / sizeof *scripts; i++) {
        HOLDS(put_file("any", "x") == 0 && sysv_rename("any", scripts[i]) == 0 && holds(scripts[i], "x") && told(scripts[i], 0).size == 1);
        HOLDS(sysv_realpath(scripts[i], real) == real && strcmp(strrchr(real, '/') + 1, scripts[i]) == 0);
    }
    HOLDS(put_file("Board.journal", "x") == 0);
    struct statx one = told("Board.journal", 0), two = told("BOARD.JOURNAL", 0);
    HOLDS(one.ino != 0 && one.ino == two.ino && one.dev_minor == two.dev_minor && one.ino != told("име", 0).ino); HOLDS((one.mode & 0170000) == 0100000 && one.nlink == 1 && one.size == 1 && one.mask == 0x31f);
    HOLDS((told(".", 0).mode & 0170000) == 0040000 && (told("tcp:127.0.0.1:1", 0).mode & 0170000) == 0140000);
    HOLDS(told(strcpy(memset(real, 1, 99), "tcp:127.0.0.1:1"), 0).ino == told("tcp:127.0.0.1:1", 0).ino && told(real, 0).ino != told("tcp:127.0.0.1:2", 0).ino && (told("NUL", 0).mode & 0170000) == 0020000); HOLDS(told("NUL", 0).major == 1 && told("NUL", 0).minor == 3);
    static const char *const ports[] = {"COM3", "com12", "//./COM3", "COM3:57600", "//./com77:9600"}, *const others[] = {"COM", "COM3x", "COM3:", "COM3:x", "tcp:1", "XCOM3"};
    struct statx none;
    HOLDS(put_file("com12", "x") == 0); // a file of that name is none
    for (int i = 0; i < 5; i++) {
        HOLDS(is_port(ports[i])); FAILS(sysv_statx(-100, ports[i], 0, 0, &none), 2);
    }
    for (int i = 0; i < 6; i++) HOLDS(!is_port(others[i]));
    static const char *const streams[] = {"/dev/stdin", "/dev/stdout", "/dev/stderr", "/dev/fd/0", "/dev/fd/1", "/dev/fd/2"};
    for (int i = 0; i < 6; i++)
        HOLDS(standard_of(streams[i]) == i % 3 && sysv_open(streams[i], 0, 0) == 3 && table[3] == table[i % 3] && sysv_close(3) == 0 && table[i % 3] != NULL && (told(streams[i], 0).mode & 0170000) == 0020000);
    HOLDS(standard_of("/dev/fd/3") == -1);
    // each number of a file is told where it belongs, and what is open is told by its number alone
    static const BY_HANDLE_FILE_INFORMATION parts = {.nFileIndexHigh = 1, .nFileIndexLow = 2, .nFileSizeHigh = 3, .nFileSizeLow = 4, .nNumberOfLinks = 5, .dwVolumeSerialNumber = 6};
    one = (instead = &parts, told("Board.journal", 0));
    HOLDS(one.ino == (1ULL << 32 | 2) && one.size == (3ULL << 32 | 4) && one.nlink == 5 && one.dev_minor == 6 && one.dev_major == 0 && one.blksize == 4096 && (instead = NULL) == NULL);
    FAILS(sysv_statx(-100, "", 0, 0, &none), 2); FAILS(sysv_statx(77, "", 0x1000, 0, &none), 9); HOLDS(sysv_statx(77, "Board.journal", 0x1000, 0, &none) == 0 && none.size == 1);
    HOLDS((barred = READ_CONTROL, told("Board.journal", 0).size) == 1 && (barred = 0) == 0);
}

static void test_files(void)
{
    char buf[64];
    FAILS(sysv_open("none", 0, 0), 2); FAILS(sysv_open("none/none", 0101, 0666), 2);
    int one = sysv_open("one", 0302, 0666);
    HOLDS(one == 3 && sysv_write(one, "abcdef", 6) == 6 && sysv_lseek(one, 2, 0) == 2 && sysv_read(one, buf, 3) == 3 && memcmp(buf, "cde", 3) == 0);
    HOLDS(sysv_lseek(one, -1, 1) == 4 && sysv_lseek(one, 0, 2) == 6 && sysv_read(one, buf, 3) == 0); FAILS(sysv_lseek(one, -1, 0), 22); FAILS(sysv_open("one", 0301, 0666), 17); FAILS(sysv_open(".", 1, 0), 21);
    HOLDS(sysv_ftruncate(one, 3) == 0 && told("one", 0).size == 3 && sysv_lseek(one, 0, 1) == 6);
    HOLDS(sysv_lseek(one, 5LL << 30, 0) == 5LL << 30 && sysv_ftruncate(one, 5LL << 30) == 0 && told("one", 0).size == 5ULL << 30 && sysv_ftruncate(one, 3) == 0);
    HOLDS(sysv_lseek(one, 0, 0) == 0 && (most = 2, sysv_read(one, buf, (size_t)1 << 32 | 1)) == 2 && bytes == 1 << 30 && (most = 1, sysv_write(one, "xy", (size_t)1 << 32)) == 1 && bytes == 1 << 30);
    HOLDS((most = -1, sysv_write(one, "xyz", 2)) == 2 && sysv___write(one, "uv", 1) == 1 && sysv_lseek(one, 2, 0) == 2 && sysv_read(one, buf, 9) == 4 && memcmp(buf, "xxyu", 4) == 0 && sysv_ftruncate(one, 3) == 0);
    // what Windows is asked for; and nothing is emptied or made anew
    static const DWORD adds = FILE_READ_ATTRIBUTES | READ_CONTROL;
    static const struct { int flags; unsigned mode; DWORD access, how; } ways[] = {{0, 0, GENERIC_READ, OPEN_EXISTING}, {1, 0, adds | GENERIC_WRITE, OPEN_EXISTING}, {2, 0600, GENERIC_READ | GENERIC_WRITE, OPEN_EXISTING},
        {0102, 0666, GENERIC_READ | GENERIC_WRITE, OPEN_ALWAYS}, {0102, 0610, GENERIC_READ | GENERIC_WRITE, OPEN_ALWAYS}, {0101, 0600, adds | GENERIC_WRITE | WRITE_DAC, OPEN_ALWAYS},
        {02001, 0, adds | FILE_APPEND_DATA | FILE_WRITE_ATTRIBUTES | SYNCHRONIZE, OPEN_EXISTING}};
    for (size_t i = 0; i < sizeof ways / sizeof *ways; i++) {
        int number = sysv_open("one", ways[i].flags, ways[i].mode);
        HOLDS(number == 4 && asked_for == ways[i].access && created_how == ways[i].how && shared == SHARED && private == ((asked_for & WRITE_DAC) != 0) && told("one", 0).size == 3 && sysv_close(number) == 0);
    }
    int looks = sysv_open("one", 0, 0);
    FAILS(sysv_write(looks, "x", 1), 13); FAILS(sysv_fcntl(one, 3, 0), 22); FAILS(numbered(NULL, 3), 12);
    HOLDS(sysv_ftruncate(looks, 0) < 0 && sysv_open("one", 01000, 0) < 0 && told("one", 0).size == 3 && sysv_close(looks) == 0 && !sysv_isatty(99));
    // another number of the same, from one on
    int same = sysv_fcntl(one, 1030, 20);
    HOLDS(same == 20 && sysv_lseek(same, 1, 0) == 1 && sysv_lseek(one, 0, 1) == 1 && sysv_close(one) == 0 && sysv_read(same, buf, 9) == 2 && sysv_close(same) == 0);
    FAILS(sysv_close(same), 9); FAILS(sysv_fcntl(3, 1030, 0), 9); FAILS(sysv_read(3, buf, 1), 9); FAILS(sysv_write(-1, buf, 1), 9);
    // a console ends its lines by CR LF, and none of its reads is an end before the end: a reader of single bytes takes each line
    HOLDS(put_file("typed", "y\r\n\r\nyes\r\n") == 0);
    for (size_t room = 1, n = 0; room <= sizeof buf; room++, n = 0) {
        int typed = sysv_open("typed", 0, 0);
        table[typed]->kind = A_CONSOLE;
        for (long long got; n < sizeof buf && (got = sysv_read(typed, buf + n, room < sizeof buf - n ? room : sizeof buf - n)) > 0;)
            n += (size_t)got;
        HOLDS(n == 7 && memcmp(buf, "y\n\nyes\n", 7) == 0 && sysv_isatty(typed) && sysv_close(typed) == 0);
    }
    HOLDS(holds("typed", "y\r\n\r\nyes\r\n"));
    HANDLE reader, writer; // a pipe ends where nobody writes any more
    HOLDS(CreatePipe(&reader, &writer, NULL, 0) && CloseHandle(writer) && opened++ >= 0);
    int piped = numbered(made(A_FILE, reader), 3);
    struct statx of_pipe;
    FAILS(sysv_lseek(piped, 0, 1), 29); HOLDS(sysv_read(piped, buf, 9) == 0 && sysv_statx(piped, "", 0x1000, 0, &of_pipe) == 0 && (of_pipe.mode & 0170000) == 0010000 && sysv_close(piped) == 0);
    // what is added goes to the end, also beside another that adds
    int first = sysv_open("added", 02102, 0600), second = sysv_open("added", 02001, 0);
    HOLDS(first == 3 && second == 4 && sysv_write(first, "1", 1) == 1 && sysv_write(second, "2", 1) == 1 && sysv_write(first, "3", 1) == 1);
    HOLDS(sysv_lseek(first, 0, 0) == 0 && sysv_read(first, buf, 9) == 3 && memcmp(buf, "123", 3) == 0); FAILS(sysv_read(second, buf, 1), 13);
    HOLDS(sysv_close(first) == 0 && sysv_close(second) == 0 && put_file("added", "x") == 0 && holds("added", "x"));
    int folder = (barred = GENERIC_WRITE, sysv_open(".", 0, 0));
    barred = 0;
    FAILS(sysv_lseek(folder, 0, 0), 29); FAILS(sysv_read(folder, buf, 1), 21); HOLDS(folder == 3 && !sysv_isatty(folder) && sysv_close(folder) == 0);
    // 512 numbers, and what has none is closed
    int last = 0, count = 0;
    for (int number; (number = sysv_open("one", 0, 0)) >= 0; count++) last = number;
    HOLDS(sysv_rattle_errno() == 24 && last == 511 && count == 509);
    FAILS(sysv_fcntl(last, 1030, 3), 24); FAILS(sysv_open("/dev/stdin", 0, 0), 24); HOLDS(sysv_lseek(last, 0, 2) == 3 && at(0) != NULL && at(512) == NULL && at(-1) == NULL);
    for (int number = 3; number < 512; number++) HOLDS(sysv_close(number) == 0);
    HOLDS(sysv_unlink("one") == 0);
    int nothing = sysv_open("NUL", 1, 0);
    HOLDS(nothing == 3 && (most = 1, sysv_write(nothing, "xy", 2)) == 1 && (most = -1, sysv_write(nothing, "xy", 2)) == 2); FAILS(sysv_lseek(nothing, 0, 0), 29); HOLDS(sysv_close(nothing) == 0);
}

static void test_rights(void)
{
    int one = sysv_open("private", 0302, 0600);
    struct statx found;
    HOLDS(one == 3 && private && sysv_statx(one, "", 0x1000, 0, &found) == 0 && (found.mode & 0777) == 0600 && (told("private", 0).mode & 0777) == 0600);
    HOLDS(put_file("public", "x") == 0 && (told("public", 0).mode & 0777) == 0644);
    HOLDS(sysv_fchmod(one, 0600) == 0 && (told("private", 0).mode & 0777) == 0600 && secured == 0 && sysv_fchmod(one, 0666) == 0 && (told("private", 0).mode & 0777) == 0644);
    HOLDS(secured == (DACL_SECURITY_INFORMATION | UNPROTECTED_DACL_SECURITY_INFORMATION)); HOLDS(sysv_fchmod(one, 0444) == 0 && (told("private", 0).mode & 0222) == 0 && sysv_close(one) == 0);
    FAILS(sysv_fchmod(77, 0600), 9); FAILS(sysv_lchown("private", 1007, 1007), 1); HOLDS(sysv_chmod("none", 0600) == 0);
    // who may what, as Windows writes it: SY the system, BA administrators, BU users, AU who has logged in, WD everybody; as much by a mark (%ls):
    // what is a folder's, or is handed on
    static const wchar_t *const marks[] = {L"", L"ID", L"OICI", L"CIID", L"NPOI"};
    static const struct { const wchar_t *list; unsigned file, folder, owner; } each[] = {
        {L"O:BAD:(A;%ls;FA;;;SY)(A;%ls;FA;;;BA)", 0600, 01700, 0},
        {L"O:SYD:(A;%ls;FR;;;BU)", 0644, 01744, 0},
        {L"O:BAD:(A;%ls;0x1301bf;;;AU)", 0666, 01766, 0},
        {L"O:BAD:(A;%ls;FA;;;WD)", 0666, 0766, 0},
        {L"O:BAD:(A;%ls;SD;;;WD)", 0622, 01700, 0},
        {L"O:BAD:(A;%ls;WD;;;WD)", 0622, 0722, 0},
        {L"O:BAD:(D;%ls;FA;;;WD)(A;%ls;FA;;;BA)", 0600, 01700, 0},
        {L"O:BAD:(A;OICIIO;FA;;;WD)", 0600, 01700, 0},
        {L"O:WDD:(A;%ls;FA;;;WD)", 0644, 01744, 0},
        {L"O:S-1-5-21-1-2-3-1007D:(A;%ls;FA;;;BA)", 0600, 01700, 1007},
        {L"O:BAD:(A;%ls;FA;;;S-1-3-4)", 0600, 01700, 0}};
    wchar_t marked[100];
    is_listed = true, list = marked;
    for (size_t i = 0; i < sizeof each / sizeof *each * 5; i++) {
        _snwprintf(marked, 100, each[i / 5].list, marks[i % 5], marks[i % 5]);
        found = told("public", 0);
        if (!HOLDS((found.mode & 01777) == each[i / 5].file && found.uid == each[i / 5].owner && found.gid == found.uid && (told(".", 0).mode & 01777) == each[i / 5].folder))
            printf("    %ls: %o, %o, %u\n", list, found.mode, told(".", 0).mode, found.uid);
    }
    HOLDS((is_listed = false, told(".", 0).mode & 01777) == 0766); HOLDS((security = ERROR_ACCESS_DENIED, told(".", 0).mode & 01777) == 0766); HOLDS((security = ERROR_NOT_SUPPORTED, told(".", 0).mode & 01777) == 01744);
    list = NULL, security = ERROR_SUCCESS;
}

static void test_locks_and_syncs(void)
{
    char buf[4];
    HOLDS(put_file("lock", "abc") == 0);
    int one = sysv_open("lock", 2, 0), two = sysv_open("lock", 2, 0), same = sysv_fcntl(one, 1030, 3);
    HOLDS(sysv_flock(one, 2 | 4) == 0 && locked == 0x7ffffffffffffffe); FAILS(sysv_flock(two, 2 | 4), 11); FAILS(sysv_flock(two, 1 | 4), 11);
    HOLDS(sysv_read(two, buf, 3) == 3 && sysv_write(two, "d", 1) == 1 && holds("lock", "abcd")); HOLDS(sysv_close(one) == 0 && sysv_flock(two, 2 | 4) < 0 && sysv_close(same) == 0 && sysv_flock(two, 2 | 4) == 0);
    one = sysv_open("lock", 0, 0);
    HOLDS(sysv_flock(two, 8) == 0 && sysv_flock(two, 1 | 4) == 0 && sysv_flock(one, 1 | 4) == 0 && sysv_flock(one, 8) == 0 && sysv_flock(two, 8) == 0); FAILS(sysv_flock(99, 2), 9);
    int folder = sysv_open(".", 0, 0), before = flushes;
    HOLDS(sysv_fsync(two) == 0 && flushes == before + 1 && sysv_fdatasync(two) == 0 && flushes == before + 2 && sysv_fsync(folder) == 0 && flushes == before + 3);
    HOLDS((flushed_by & FILE_WRITE_DATA) != 0); FAILS(sysv_fsync(99), 9); FAILS(sysv_fdatasync(99), 9); FAILS(sysv_ftruncate(99, 0), 9); FAILS(sysv_lseek(99, 0, 0), 9);
    struct statx none;
    tried_CloseHandle(table[one]->handle), table[one]->handle = INVALID_HANDLE_VALUE;
    tried_CloseHandle(table[folder]->handle), table[folder]->handle = INVALID_HANDLE_VALUE;
    HOLDS(sysv_fsync(folder) == 0); FAILS(sysv_fsync(one), 9); FAILS(sysv_read(one, buf, 1), 9); FAILS(sysv_flock(one, 6), 9); FAILS(sysv_flock(one, 8), 9); FAILS(sysv_statx(one, "", 0x1000, 0, &none), 9); FAILS(sysv_fchmod(one, 0400), 9);
    HOLDS(sysv_close(one) == 0 && sysv_close(two) == 0 && sysv_close(folder) == 0);
}

static DWORD WINAPI let_go_soon(void *handle) { return Sleep(300), CloseHandle(handle); }

static void test_names(bool posix)
{
    has_posix = posix;
    through = 0;
    HOLDS(put_file("old", "old") == 0 && put_file("new", "new") == 0);
    int before = flushes;
    HOLDS((flushed_by = 0, sysv_rename("new", "old")) == 0 && is_opened && holds("old", "new") && told("new", 0).nlink == 0 && (!posix || (flushed_by & FILE_WRITE_DATA)));
    HOLDS(posix ? posix_flags == 3 && renamed_at == before && flushes == before + 1 && through == 0 : through == 1);
    // where others have it, it is tried for two seconds; what else is wrong is told at once. What this program has of the other file alone is closed
    static const struct { DWORD error; int moves, answer, naps; } each[] = {{ERROR_ACCESS_DENIED, 40, 0, 40}, {ERROR_SHARING_VIOLATION, 40, 0, 40}, {ERROR_ACCESS_DENIED, 41, 13, 40}, {ERROR_SHARING_VIOLATION, 41, 16, 40},
        {ERROR_DISK_FULL, 1, 28, 0}, {ERROR_NOT_SAME_DEVICE, 1, 18, 0}};
    for (size_t i = 0; !posix && i < sizeof each / sizeof *each; i++) {
        HOLDS(put_file("new", "new") == 0 && put_file("old", "old") == 0 && put_file("beside", "beside") == 0);
        int its = sysv_open("old", 0, 0), others = sysv_open("new", 0, 0), beside = sysv_open("beside", 0, 0);
        char buf[9];
        nap = 0, naps = 0, moves = each[i].moves, move_error = each[i].error;
        HOLDS(sysv_rename("new", "old") == (each[i].answer ? -1 : 0) && (each[i].answer == 0 || sysv_rattle_errno() == each[i].answer) && naps == each[i].naps && (moves = 0) == 0 && (nap = 50));
        HOLDS(holds("old", each[i].answer ? "old" : "new") && sysv_read(its, buf, 9) < 0 && sysv_read(others, buf, 9) == 3 && sysv_read(beside, buf, 9) == 6);
        HOLDS(sysv_close(its) == 0 && sysv_close(others) == 0 && sysv_close(beside) == 0 && sysv_unlink("beside") == 0);
        // the name is new, and another program is there for a moment
        HOLDS(put_file("new", "new") == 0 && (others = sysv_open("new", 0, 0)) == 3 && (moves = 1, move_error = ERROR_SHARING_VIOLATION, sysv_rename("new", "beside")) == 0 && sysv_read(others, buf, 9) == 3);
        // what can't be put aside is removed all the same
        HOLDS(sysv_close(others) == 0 && (moves = 1, sysv_unlink("beside")) == 0 && moves == 0 && told("beside", 0).nlink == 0);
    }
    HOLDS(put_file("new", "new") == 0 && (is_new = true, barred = GENERIC_WRITE, sysv_rename("new", "old")) == 0 && (barred = 0) == 0 && holds("old", "new") && (!posix || posix_flags == 0x43) && (is_new = false) == 0);
    // over one that this program has open, and its lock
    HOLDS(put_file("new", "2") == 0);
    int open = sysv_open("old", 2, 0);
    HOLDS(sysv_flock(open, 6) == 0 && sysv_rename("new", "old") == 0 && holds("old", "2") && (!posix || sysv_flock(open, 8) == 0) && sysv_close(open) == 0);
    FAILS(sysv_rename("none", "old"), 2); FAILS(sysv_rename("old", "none/none"), 2); HOLDS(holds("old", "2"));
    // another program has it for a moment, and for longer
    HOLDS(put_file("new", "3") == 0);
    HANDLE other = CreateFileW(L"old", GENERIC_READ, FILE_SHARE_READ, NULL, OPEN_EXISTING, 0, NULL), thread = CreateThread(NULL, 0, let_go_soon, other, 0, NULL);
    HOLDS(sysv_rename("new", "old") == 0 && holds("old", "3")); HOLDS(WaitForSingleObject(thread, INFINITE) == 0 && CloseHandle(thread) && put_file("new", "4") == 0);
    other = CreateFileW(L"old", GENERIC_READ, FILE_SHARE_READ, NULL, OPEN_EXISTING, 0, NULL), nap = 1;
    FAILS(sysv_unlink("old"), 16); HOLDS(sysv_rename("new", "old") < 0 && CloseHandle(other) && (nap = 50) && holds("old", "3") && sysv_unlink("new") == 0);
    // a name goes at once, also of what is open
    open = sysv_open("old", 0, 0);
    before = through;
    HOLDS(sysv_unlink("old") == 0 && is_opened && (posix || (told("old", 0).nlink == 0 && through == before + 1)));
    int second = posix ? -1 : put_file("old", "y") == 0 ? sysv_open("old", 0, 0) : -1;
    HOLDS(posix ? posix_flags == 0x13 : sysv_unlink("old") == 0 && told("old", 0).nlink == 0 && sysv_close(second) == 0); HOLDS(sysv_close(open) == 0 && told("old", 0).nlink == 0);
    FAILS(sysv_unlink("old"), 2); HOLDS(put_file("old", "x") == 0);
    if (posix)
        HOLDS(sysv_link("old", "second") == 0 && is_opened && posix_flags == 0 && sysv_link("old", "second") < 0 && sysv_rattle_errno() == 17 && told("second", 0).ino == told("old", 0).ino && told("old", 0).nlink == 2 && sysv_unlink("second") == 0 && holds("old", "x"));
    else
        FAILS(sysv_link("old", "second"), 1);
    FAILS(sysv_link("none", "second"), 2); HOLDS(told("second", 0).nlink == 0 && sysv_unlink("old") == 0 && sysv_unlink("tcp:127.0.0.1:9") == 0);
}

static void test_folder(void)
{
    char name[32];
    unsigned char buf[4096];
    HOLDS(CreateDirectoryW(L"many", NULL));
    for (int i = 0; i < 120; i++) {
        snprintf(name, sizeof name, "many/%d-ü", i);
        HOLDS(put_file(name, "") == 0);
    }
    for (size_t room = 100; room <= sizeof buf; room += 1998) {
        memset(buf, 0x55, sizeof buf);
        bool seen[120] = {false};
        int folder = sysv_rattle_open_dir_at(-100, room == 100 ? "many/" : "many"), entries = 0, files = 0;
        long long n;
        while ((n = sysv_getdents64(folder, buf, room)) > 0)
            for (long long at = 0; at < n; at += buf[at + 16] | buf[at + 17] << 8, entries++) {
                int i = atoi((char *)buf + at + 19);
                snprintf(name, sizeof name, "%d-ü", i);
                bool is_file = strcmp(name, (char *)buf + at + 19) == 0 && i >= 0 && i < 120 && !seen[i];
                HOLDS(buf[at] != 0 && buf[at + 18] == 0 && buf[at + 16] % 8 == 0 && (is_file || buf[at + 19] == '.'));
                if (is_file)
                    seen[i] = true, files++;
            }
        HOLDS(n == 0 && files == 120 && entries == 122 && sysv_getdents64(folder, buf, room) == 0 && sysv_close(folder) == 0);
    }
    int folder = sysv_rattle_open_dir_at(-100, "many");
    FAILS(sysv_rattle_open_dir_at(3, "many"), 22); FAILS(sysv_read(folder, buf, 9), 21); FAILS(sysv_getdents64(folder, buf, 8), 22); HOLDS(sysv_getdents64(folder, buf, 24) == 24); breaks = true; FAILS(sysv_getdents64(folder, buf, sizeof buf), 5); breaks = false;
    HOLDS(sysv_close(folder) == 0); FAILS(sysv_rattle_open_dir_at(-100, "many/1-ü"), 20); FAILS(sysv_rattle_open_dir_at(-100, "none"), 2);
    is_link = true; // which is followed for what is told of it, unless that is asked for, and not for its entries
    FAILS(sysv_rattle_open_dir_at(-100, "many"), 20); HOLDS((told("many", 0).mode & 0170000) == 0040000 && (told("many", 0x100).mode & 0170000) == 0120000 && (told("many/1-ü", 0x100).mode & 0170000) == 0120000);
    is_link = false;
    int file = sysv_open("many/1-ü", 0, 0);
    FAILS(sysv_getdents64(file, buf, sizeof buf), 20); FAILS(sysv_getdents64(99, buf, sizeof buf), 9); HOLDS(sysv_close(file) == 0);
}

static int by_name(__attribute__((sysv_abi)) int (*how)(int, const unsigned char *, unsigned), int number, const char *name)
{
    unsigned char address[110] = {1, 0};
    strcpy((char *)address + 2, name);
    return how(number, address, (unsigned)strlen(name) + 3);
}

static void wait_for(int number, long long millis)
{
    long long parts[2] = {millis / 1000, millis % 1000 * 1000 - (millis % 1000 != 0 ? 999 : 0)}, writes[2] = {90, 0}; // (a part of one is one: 0 has no end)
    HOLDS(sysv_setsockopt(number, 1, 20, parts, sizeof parts) == 0 && sysv_setsockopt(number, 1, 21, writes, sizeof writes) == 0);
    if (!HOLDS(table[number]->read_wait == millis && table[number]->write_wait == 90000))
        exit(1); // it would wait for ever
    // what else is asked is no matter
    HOLDS(sysv_setsockopt(number, 6, 20, writes, sizeof parts) == 0 && sysv_setsockopt(number, 1, 22, writes, sizeof parts) == 0 && sysv_setsockopt(number, 1, 20, writes, 4) == 0 && table[number]->read_wait == millis);
}

static void test_tcp(void)
{
    char name[40], buf[16];
    unsigned char who[128];
    unsigned length = sizeof who;
    int server = sysv_socket(1, 1, 0), port = 20000 + (int)(GetCurrentProcessId() * 37 + GetTickCount()) % 20000;
    FAILS(sysv_socket(2, 1, 0), 97);
    static const char *const bad[] = {"tcp:", "tcp:127.0.0.1", "tcp:127.0.0.1:", "tcp:127.0.0.1:x", "tcp::9"};
    for (int i = 0; i < 5; i++) FAILS(by_name(sysv_connect, server, bad[i]), 22);
    FAILS(by_name(sysv_bind, server, "COM1"), 97); FAILS(sysv_connect(server, who, 2), 88); FAILS(sysv_connect(server, who, 130), 88); FAILS(by_name(sysv_connect, 99, "x"), 9); FAILS(sysv_listen(99, 1), 9);
    FAILS(sysv_accept4(99, who, &length, 0), 9); FAILS(sysv_accept4(server, who, &length, 0), 88); FAILS(sysv_setsockopt(99, 1, 20, buf, 16), 9); FAILS(sysv_send(99, buf, 1, 0), 9); FAILS(sysv_recv(server, buf, 1, 0), 88);
    FAILS(by_name(sysv_bind, server, "board"), 97); FAILS(by_name(sysv_connect, server, "board"), 2); FAILS(sysv_listen(server, 1), 88);
    snprintf(name, sizeof name, "tcp:127.0.0.1:%d", port);
    HOLDS(by_name(sysv_bind, server, name) == 0 && sysv_listen(server, 1) == 0 && option == SO_EXCLUSIVEADDRUSE);
    int second = sysv_socket(1, 1, 0), client = sysv_socket(1, 1, 0);
    FAILS(by_name(sysv_bind, second, name), 98); HOLDS(by_name(sysv_connect, client, name) == 0);
    int served = sysv_accept4(server, who, &length, 0);
    HOLDS(served >= 0 && length == 2 && who[0] == 1 && who[1] == 0 && by_name(sysv_connect, client, name) < 0 && sysv_rattle_errno() == 88);
    for (int i = 0, on = 0; i < 2; i++) // each byte goes at once
        HOLDS(getsockopt(table[i ? client : served]->socket, IPPROTO_TCP, TCP_NODELAY, (char *)&on, &(int){4}) == 0 && on != 0);
    struct statx found;
    HOLDS(sysv_statx(client, "", 0x1000, 0, &found) == 0 && (found.mode & 0170000) == 0140000);
    HOLDS(sysv_send(client, "\x7f", 1, 0) == 1 && sysv_recv(served, buf, 16, 0) == 1 && buf[0] == 0x7f && sysv_write(served, "ab", 2) == 2 && sysv_read(client, buf, (size_t)1 << 32) == 2 && sysv_send(client, "", 0, 0) == 0);
    wait_for(client, 1999999999), wait_for(client, 2000000000), wait_for(client, 1), wait_for(client, 1001);
    HOLDS(sysv_setsockopt(client, 1, 20, (long long[]){1LL << 32, 0}, 16) == 0 && table[client]->read_wait == 2000000000);
    wait_for(client, 120);
    ULONGLONG begun = GetTickCount64();
    FAILS(sysv_recv(client, buf, 1, 0), 11); HOLDS(GetTickCount64() - begun >= 90 && GetTickCount64() - begun < 60000 && sysv_close(served) == 0);
    HOLDS(sysv_recv(client, buf, 1, 0) == 0 && sysv_close(client) == 0 && sysv_close(second) == 0);
    // one who leaves in the middle, and nobody at all, are told by a fault
    HOLDS(by_name(sysv_connect, client = sysv_socket(1, 1, 0), name) == 0 && (served = sysv_accept4(server, who, &length, 0)) >= 0);
    setsockopt(table[served]->socket, SOL_SOCKET, SO_LINGER, (char *)&(struct linger){1, 0}, sizeof(struct linger));
    HOLDS(sysv_close(served) == 0);
    while (sysv_send(client, buf, 9, 0) > 0)
        Sleep(1);
    HOLDS(sysv_rattle_errno() == 104 && tried_closesocket(table[client]->socket) == 0); FAILS(sysv_recv(client, buf, 1, 0), 5); wait_for(client, 9); FAILS(sysv_recv(client, buf, 1, 0), 5); FAILS(sysv_send(client, buf, 1, 0), 5);
    HOLDS((table[client]->socket = INVALID_SOCKET) != 0 && sysv_close(client) == 0);
    // a write waits for room by a time of its own: here nobody reads
    static char many[4096];
    HOLDS(by_name(sysv_connect, client = sysv_socket(1, 1, 0), name) == 0);
    table[client]->read_wait = 1, table[client]->write_wait = 300;
    do begun = GetTickCount64(); while (sysv_send(client, many, sizeof many, 0) > 0);
    HOLDS(sysv_rattle_errno() == 11 && GetTickCount64() - begun >= 250 && sysv_close(client) == 0 && sysv_close(server) == 0);
    client = sysv_socket(1, 1, 0);
    FAILS(by_name(sysv_connect, client, name), 111); FAILS(sysv_send(client, "x", 1, 0), 88); HOLDS(sysv_close(client) == 0 && sysv_poll(buf, 1, 0) == 0);
}

// Behind both ports is somebody who answers 7F by 79, and `e` by nothing. (A pseudo-terminal takes a parity once.)
static void test_port(const char *port, const char *other)
{
    char name[32], buf[16];
    int line = sysv_socket(1, 1, 0);
    FAILS(by_name(sysv_connect, line, "COM88"), 2); HOLDS(by_name(sysv_connect, line, port) == 0 && strcmp(signals, "-rts dtr 100 -dtr 200 purge ") == 0);
    HOLDS(state.fParity && state.Parity == EVENPARITY && state.ByteSize == 8 && state.StopBits == ONESTOPBIT && state.fAbortOnError && state.fBinary);
    HOLDS(!state.fOutX && !state.fInX && !state.fNull && !state.fOutxCtsFlow && !state.fOutxDsrFlow);
    wait_for(line, 60000);
    HOLDS((most = 1, sysv_send(line, "\x7f\x7f", 2, 0)) == 1 && sysv_recv(line, buf, 16, 0) == 1 && buf[0] == 0x79);
    HOLDS(waits.ReadTotalTimeoutConstant == 60000 && waits.WriteTotalTimeoutConstant == 90000 && (waits = (COMMTIMEOUTS){0}, sysv_send(line, "e", 1, 0)) == 1 && waits.WriteTotalTimeoutConstant == 90000);
    HANDLE kept = table[line]->handle; // one that is gone
    FAILS((table[line]->handle = INVALID_HANDLE_VALUE, sysv_recv(line, buf, 1, 0)), 5); FAILS(sysv_send(line, "e", 1, 0), 5); HOLDS((table[line]->handle = kept) == kept); FAILS((most = 0, sysv_send(line, "x", 1, 0)), 11);
    most = -1, wait_for(line, 150);
    ULONGLONG begun = GetTickCount64();
    HOLDS(sysv_write(line, "e", 1) == 1); FAILS(sysv_read(line, buf, 16), 11); HOLDS(GetTickCount64() - begun >= 100 && GetTickCount64() - begun < 60000);
    wait_for(line, 20);
    for (came = CE_RXOVER; came <= CE_BREAK; came *= 2) FAILS(sysv_read(line, buf, 16), 5);
    // several that come at once are taken in order, as many as there is room for; a wrong one among them, or behind them, ends the line
    wait_for(line, 60000);
    for (int i = came = 0, n = 0, reads = 0; i < 4; i++, n = 0) {
        HOLDS(sysv_write(line, "m", 1) == 1 && sysv_send(line, "", 0, 0) == 0);
        for (long long got = 0; i < 2 && n < 5 && got >= 0; n += (int)got, reads++)
            HOLDS((memset(buf + n, '#', 4), got = sysv_read(line, buf + n, 3)) > 0 && got <= 3 && buf[n + 3] == '#');
        HOLDS(i > 1 || (n == 5 && reads < 5 + 5 * i && memcmp(buf, "12345", 5) == 0));
        for (came = CE_FRAME, came_at = i - 1; i > 1 && n < 1; n++) // (the first one is asked where a byte came)
            FAILS(sysv_read(line, buf, 16), 5);
        came = 0;
    }
    signals[0] = 0;
    int before = flushes;
    HOLDS(sysv_close(line) == 0 && strcmp(signals, "rts dtr 100 -dtr ") == 0 && signalled_at > before);
    line = sysv_socket(1, 1, 0);
    refused = ERROR_ACCESS_DENIED; FAILS(by_name(sysv_connect, line, other), 16); refused = 0;
    asked_wiring = "nothing";
    FAILS(by_name(sysv_connect, line, other), 22);
    asked_wiring = NULL;
    HOLDS(SetEnvironmentVariableW(L"STMFLASH_WIRING", L"nothing")); FAILS(by_name(sysv_connect, line, other), 22);
    asked_wiring = "inverted-rts-reset", signals[0] = 0;
    snprintf(name, sizeof name, "//./%s:19200", other);
    HOLDS(by_name(sysv_connect, line, name) == 0 && is_bare && strcmp(signals, "-rts 100 rts 200 purge ") == 0);
    wait_for(line, 60000);
    HOLDS(sysv_send(line, "\x7f", 1, 0) == 1 && sysv_recv(line, buf, 16, 0) == 1);
    signals[0] = 0;
    HOLDS(sysv_close(line) == 0 && signals[0] == 0);
    // each wiring, and what has no reset
    static const struct { const char *wiring, *in, *out; } wirings[] = {{"rts-boot0,dtr-reset", "-rts dtr 100 -dtr 200 purge ", "rts dtr 100 -dtr "}, {"rts-reset", "rts 100 -rts 200 purge ", ""},
        {"inverted-dtr-reset,dtr-boot0", "-dtr -dtr 100 dtr 200 purge ", "dtr -dtr 100 dtr "}, {"rts-reset,inverted-dtr-boot0", "dtr rts 100 -rts 200 purge ", "-dtr rts 100 -rts "},
        {"dtr-reset,inverted-rts-boot0", "rts dtr 100 -dtr 200 purge ", "-rts dtr 100 -dtr "}, {"", "purge ", ""}, {"dtr-boot0", NULL, ""}, {"xrts-reset", NULL, ""}};
    FAILS((takes = -1, signals[0] = 0, by_name(sysv_connect, line = sysv_socket(1, 1, 0), other)), 22); HOLDS(signals[0] == 0 && sysv_close(line) == 0 && (takes = 1));
    for (size_t i = 0; i < sizeof wirings / sizeof *wirings; i++) {
        asked_wiring = i % 2 ? NULL : wirings[i].wiring, signals[0] = 0, line = sysv_socket(1, 1, 0);
        SetEnvironmentVariableA("STMFLASH_WIRING", i % 2 ? wirings[i].wiring : "nothing");
        HOLDS(by_name(sysv_connect, line, other) == (wirings[i].in ? 0 : -1) && strcmp(signals, wirings[i].in ? wirings[i].in : "") == 0 && shared == 0 && (wirings[i].in || sysv_rattle_errno() == 22));
        signals[0] = 0;
        HOLDS(sysv_close(line) == 0 && strcmp(signals, wirings[i].out) == 0);
    }
    asked_wiring = NULL, SetEnvironmentVariableW(L"STMFLASH_WIRING", NULL);
    // the speed that is asked for, that a variable says, the usual one, and none
    static const struct { const char *asked; const wchar_t *said; DWORD speed; } speeds[] = {{"9600", L"38400", 9600}, {NULL, L"38400", 38400}, {NULL, L"", 115200}, {NULL, NULL, 115200}, {NULL, L"1", 1},
        {NULL, L"x", 0}, {NULL, L"0", 0}, {NULL, L"-9", 0}};
    for (size_t i = 0; i < sizeof speeds / sizeof *speeds; i++) {
        SetEnvironmentVariableW(L"STMFLASH_BAUD", speeds[i].said);
        state.BaudRate = 0, asked_speed = speeds[i].asked;
        line = sysv_socket(1, 1, 0);
        HOLDS((by_name(sysv_connect, line, other) == 0) == (speeds[i].speed != 0)); HOLDS(state.BaudRate == speeds[i].speed && sysv_close(line) == 0);
    }
}

// the layer's own start calls it, with a console for what is typed and for what is told of faults
__attribute__((sysv_abi)) int rattle_main(void)
{
    if (page_count > 1)
        return 0;
    setvbuf(stdout, NULL, _IONBF, 0);
    for (int i = 0; i < 3; i++)
        HOLDS(table[i]->kind == (i == 1 ? A_FILE : A_CONSOLE) && table[i]->numbers == 1 && table[i]->handle == GetStdHandle(STD_INPUT_HANDLE - (DWORD)i) && table[3] == NULL && page_count == 1);
    for (int i = 0; i < 3; i++)
        table[i] = NULL, numbered(made(A_FILE, CreateFileW(L"NUL", GENERIC_READ | GENERIC_WRITE, SHARED, NULL, OPEN_EXISTING, 0, NULL)), i);
    CLOSES(test_errors()); CLOSES(test_memory()); CLOSES(test_words()); CLOSES(test_clock()); CLOSES(test_paths()); CLOSES(test_files()); CLOSES(test_rights());
    CLOSES(test_locks_and_syncs()); CLOSES(test_names(true)); CLOSES(test_names(false)); CLOSES(test_folder()); CLOSES(test_tcp());
    CLOSES(test_port(__argv[__argc - 4], __argv[__argc - 3]));
    return bytes = 0, 7; // (so no help is told)
}
