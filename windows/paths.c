// Paths: a name as Windows takes it, what is at it, and where it leads.
#include "layer.h"

static wchar_t path_room[PATH_ROOM], final_room[PATH_ROOM];

// The table that Linux has at this name lies beside the program.
static const wchar_t *beside_program(const char *name)
{
    DWORD n = strcmp(name, "/usr/share/stmflash/chips.toml") == 0 ? GetModuleFileNameW(NULL, final_room, PATH_ROOM - 16) : 0;
    wchar_t *slash = n != 0 && n < PATH_ROOM - 16 ? wcsrchr(final_room, L'\\') : NULL;
    return slash != NULL ? wcscpy(slash + 1, L"chips.toml"), final_room : NULL;
}

// Whether the last part of a path is a device's name (CON, aux.txt, COM1), which Windows before 11 opens in any folder.
static bool is_device(const wchar_t *path)
{
    static const wchar_t *const names[] = {L"CON", L"PRN", L"AUX", L"CONIN$", L"CONOUT$", L"COM", L"LPT"};
    const wchar_t *last = wcsrchr(path, L'\\');
    last = last != NULL ? last + 1 : path;
    size_t all = wcscspn(last, L".: "), n = all == 4 && last[3] >= L'1' && last[3] <= L'9' ? 3 : all;
    for (size_t i = 0; i < sizeof names / sizeof *names; i++)
        if (n == wcslen(names[i]) && _wcsnicmp(last, names[i], n) == 0 && (all == 4) == (i > 4))
            return true;
    return false;
}

// The whole path of a name, with `\\?\` where it is long, so that it may have 32,767 units; into PATH_ROOM of them. Refused are devices but
// NUL, and `a:b`, a stream of a file that no copy takes along.
bool widen(const char *name, wchar_t *path)
{
    static wchar_t given[PATH_ROOM];
    if (*name == 0 || MultiByteToWideChar(CP_UTF8, MB_ERR_INVALID_CHARS, name, -1, given, PATH_ROOM - 8) == 0)
        return fail(*name == 0 ? L_ENOENT : L_EINVAL), false;
    const wchar_t *beside = beside_program(name);
    DWORD n = GetFullPathNameW(beside != NULL ? beside : given, PATH_ROOM - 8, path, NULL);
    if (n == 0 || n >= PATH_ROOM - 8)
        return fail(L_ENAMETOOLONG), false;
    if (_wcsicmp(path, L"\\\\.\\NUL") == 0)
        return true;
    bool is_long = wcsncmp(path, L"\\\\?\\", 4) == 0, is_drive = path[0] != 0 && path[1] == L':';
    const wchar_t *colon = wcschr(path + (is_long ? 6 : is_drive ? 2 : 0), L':');
    if (wcsncmp(path, L"\\\\.\\", 4) == 0 || colon != NULL || is_device(path) || is_device(given))
        return fail(L_EINVAL), false;
    if (n >= 248 && !is_long) {
        // `\\?\C:\..`, or `\\?\UNC\server\..` of `\\server\..`
        const wchar_t *head = is_drive ? L"\\\\?\\" : L"\\\\?\\UNC";
        size_t more = wcslen(head), from = is_drive ? 0 : 1;
        memmove(path + more, path + from, (n + 1 - from) * sizeof *path);
        memcpy(path, head, more * sizeof *path);
    }
    return true;
}

// The number of a stream that Linux has in /dev; -1 of any other name.
int standard_of(const char *name)
{
    static const char *const names[] = {"/dev/stdin", "/dev/stdout", "/dev/stderr", "/dev/fd/0", "/dev/fd/1", "/dev/fd/2"};
    for (int i = 0; i < 6; i++)
        if (strcmp(name, names[i]) == 0)
            return i % 3;
    return -1;
}

// Opens what is at a path, for others too; without the rights `more` where these are refused.
HANDLE there(const wchar_t *path, DWORD rights, DWORD more, DWORD flags)
{
    HANDLE handle = CreateFileW(path, rights | more, SHARED, NULL, OPEN_EXISTING, FILE_FLAG_BACKUP_SEMANTICS | flags, NULL);
    return handle != INVALID_HANDLE_VALUE || more == 0 ? handle : there(path, rights, 0, flags);
}

// Linux's struct statx. Times and blocks, for which nobody asks, aren't told: the mask says so.
struct statx { unsigned mask, blksize; unsigned long long attributes; unsigned nlink, uid, gid; unsigned short mode, none0;
    unsigned long long ino, size, none1[10]; unsigned rdev_major, rdev_minor, dev_major, dev_minor; unsigned long long none2[14]; };
_Static_assert(sizeof(struct statx) == 256, "statx");

static int tell_mode(struct statx *found, int mode)
{
    // what is no disk is a console or NUL: both take bytes, as Linux's device 1, 3 does
    *found = (struct statx){.mask = 0x31f, .blksize = 4096, .nlink = 1, .mode = (unsigned short)mode, .rdev_major = 1, .rdev_minor = 3};
    return 0;
}

// What is told of an open file. The volume's number and the file's on it say which file it is, also under another name: NTFS keeps
// that until it is removed; on FAT it is where its entry lies, and a file that moves has another.
static int tell(HANDLE handle, bool of_link, struct statx *found)
{
    BY_HANDLE_FILE_INFORMATION told;
    DWORD type = GetFileType(handle);
    if (type == FILE_TYPE_CHAR || type == FILE_TYPE_PIPE)
        return tell_mode(found, (type == FILE_TYPE_CHAR ? L_CHARACTERS : L_PIPE) | 0666);
    if (!GetFileInformationByHandle(handle, &told))
        return failed();
    DWORD is = told.dwFileAttributes;
    int kind = of_link && (is & FILE_ATTRIBUTE_REPARSE_POINT) ? L_LINK : is & FILE_ATTRIBUTE_DIRECTORY ? L_FOLDER : L_REGULAR;
    unsigned owner, who = mode_of(handle, kind == L_FOLDER, &owner);
    tell_mode(found, kind | (int)(is & FILE_ATTRIBUTE_READONLY && kind == L_REGULAR ? who & 0444 : who));
    found->uid = found->gid = owner;
    found->nlink = told.nNumberOfLinks;
    found->ino = (unsigned long long)told.nFileIndexHigh << 32 | told.nFileIndexLow;
    found->dev_minor = told.dwVolumeSerialNumber;
    found->size = (unsigned long long)told.nFileSizeHigh << 32 | told.nFileSizeLow;
    return 0;
}

// statx, of what is open and of a name. A port isn't there (of one that is the program would name stmflash-line), a place of TCP is a socket.
ASKED(int, statx)(int number, const char *name, int flags, unsigned, struct statx *found)
{
    bool is_open = *name == 0 && (flags & L_EMPTY_PATH);
    struct opened *it = at(is_open ? number : standard_of(name));
    if (is_open && it == NULL)
        return fail(L_EBADF);
    if (it != NULL ? it->kind >= A_SOCKET : is_tcp(name)) {
        tell_mode(found, L_SOCKET | 0666);
        for (const char *p = name; *p != 0; p++)
            found->ino = found->ino * 31 + (unsigned char)*p;
        return 0;
    }
    if (it != NULL)
        return tell(it->handle, false, found);
    if (is_port(name) || !widen(name, path_room))
        return is_port(name) ? fail(L_ENOENT) : -1;
    HANDLE handle = there(path_room, FILE_READ_ATTRIBUTES, READ_CONTROL, flags & L_NO_FOLLOW ? FILE_FLAG_OPEN_REPARSE_POINT : 0);
    if (handle == INVALID_HANDLE_VALUE)
        return failed();
    int done = tell(handle, (flags & L_NO_FOLLOW) != 0, found);
    CloseHandle(handle);
    return done;
}

// realpath: the path behind each link, as Windows has it of the open file, in the case in which it was made.
ASKED(char *, realpath)(const char *name, char *resolved)
{
    if (standard_of(name) >= 0 || is_tcp(name))
        return strcpy(resolved, name);
    if (!widen(name, path_room))
        return NULL;
    HANDLE handle = there(path_room, FILE_READ_ATTRIBUTES, 0, 0);
    if (handle == INVALID_HANDLE_VALUE)
        return failed(), NULL;
    DWORD n = GetFinalPathNameByHandleW(handle, final_room, PATH_ROOM, VOLUME_NAME_DOS);
    CloseHandle(handle);
    wchar_t *path = n != 0 && n < PATH_ROOM ? final_room : path_room;
    if (wcsncmp(path, L"\\\\?\\UNC\\", 8) == 0)
        *(path += 6) = L'\\';
    else if (wcsncmp(path, L"\\\\?\\", 4) == 0)
        path += 4;
    char *text = narrow(path);
    bool fits = text != NULL && strlen(text) < 4096;
    if (fits)
        strcpy(resolved, text);
    free(text);
    return fits ? resolved : (fail(L_ENAMETOOLONG), NULL);
}

// readlink, which is asked where realpath found nothing: of a link that leads nowhere. It isn't followed here.
ASKED(long long, readlink)(const char *, char *, size_t) { return fail(L_EINVAL); }
