// Names of files: taken, given and removed.
#include "layer.h"

// Windows' numbers, which not every header has: a name as POSIX gives and removes it, since Windows 10 1607 and 1709 on NTFS
enum { DISPOSITION_EX = 21, RENAME_EX = 22, REPLACES = 1, DELETES = 1, POSIX_WAY = 2, ALSO_READ_ONLY = 0x10, ALSO_READ_ONLY_RENAMED = 0x40 };

static wchar_t room_one[PATH_ROOM], room_two[PATH_ROOM];

static bool set(HANDLE handle, int what, void *value, DWORD size) { return SetFileInformationByHandle(handle, (FILE_INFO_BY_HANDLE_CLASS)what, value, size); }
static HANDLE to_change(const wchar_t *path, DWORD more) { return there(path, DELETE | SYNCHRONIZE, more, FILE_FLAG_OPEN_REPARSE_POINT); }

// Whether it was a virus scanner or an indexer that has a file open for a moment: it is tried again for two seconds.
static bool is_brief(DWORD error, int *tries)
{
    return (error == ERROR_ACCESS_DENIED || error == ERROR_SHARING_VIOLATION) && ++*tries <= 40 && (Sleep(50), true);
}

// unlink: the name is gone at once, also where the file is open. Without POSIX's way it stays until that is closed, so it is renamed first.
ASKED(int, unlink)(const char *name)
{
    static unsigned count;
    if (is_tcp(name) || !widen(name, room_one))
        return is_tcp(name) ? 0 : -1;
    HANDLE handle = to_change(room_one, 0);
    if (handle == INVALID_HANDLE_VALUE)
        return failed();
    DWORD how = DELETES | POSIX_WAY | ALSO_READ_ONLY;
    bool done = set(handle, DISPOSITION_EX, &how, sizeof how);
    CloseHandle(handle);
    if (done)
        return 0;
    int n = _snwprintf(room_two, PATH_ROOM, L"%ls.%lx-%x.gone", room_one, GetCurrentProcessId(), count++);
    bool is_aside = n > 0 && n < PATH_ROOM && MoveFileExW(room_one, room_two, MOVEFILE_WRITE_THROUGH);
    return DeleteFileW(is_aside ? room_two : room_one) || is_aside ? 0 : failed();
}

// Closes what this program has open of the file of this path. (Its numbers stay, and answer that there is no such handle.)
static void let_go(const wchar_t *path)
{
    BY_HANDLE_FILE_INFORMATION named, other;
    HANDLE handle = there(path, FILE_READ_ATTRIBUTES, 0, 0);
    bool told = GetFileInformationByHandle(handle, &named);
    CloseHandle(handle);
    for (int i = 3; told && i < NUMBERS; i++)
        if (table[i] != NULL && table[i]->kind == A_FILE && GetFileInformationByHandle(table[i]->handle, &other) && named.nFileIndexLow == other.nFileIndexLow
            && named.nFileIndexHigh == other.nFileIndexHigh && named.dwVolumeSerialNumber == other.dwVolumeSerialNumber) {
            CloseHandle(table[i]->handle);
            table[i]->handle = INVALID_HANDLE_VALUE;
        }
}

// The name of one file becomes that of another by POSIX's way: in one step, also where a program has the other open.
static bool rename_posix(const wchar_t *from, const wchar_t *to)
{
    static struct { DWORD flags; HANDLE root; DWORD length; wchar_t name[PATH_ROOM]; } how;
    HANDLE handle = to_change(from, GENERIC_WRITE);
    how.flags = REPLACES | POSIX_WAY | ALSO_READ_ONLY_RENAMED;
    how.length = (DWORD)(wcslen(wcscpy(how.name, to)) * sizeof *to);
    bool done = set(handle, RENAME_EX, &how, sizeof how);
    how.flags = REPLACES | POSIX_WAY; // (1607 knows no flag for files that may not be written)
    done = done || set(handle, RENAME_EX, &how, sizeof how);
    if (done) // NTFS' log reaches the disk as far as this file's last change
        FlushFileBuffers(handle);
    CloseHandle(handle);
    return done;
}

// rename. Without POSIX's way MoveFileEx does it in one step too, unless the other file is open: then what this program has open of it is
// closed before. Its lock ends so before the new file is in place; who takes it in between has the file open, and the second try fails.
ASKED(int, rename)(const char *from, const char *to)
{
    if (!widen(from, room_one) || !widen(to, room_two))
        return -1;
    int tries = 0;
    while (!rename_posix(room_one, room_two) && !MoveFileExW(room_one, room_two, MOVEFILE_REPLACE_EXISTING | MOVEFILE_WRITE_THROUGH)) {
        DWORD error = GetLastError();
        if (tries == 0)
            let_go(room_two);
        if (!is_brief(error, &tries))
            return fail_of(error);
    }
    return 0;
}

// link: a second name, on NTFS. Where a name can't be removed at once from a file that is open, the program couldn't give the first up
// again; it hears that there are none, and renames.
ASKED(int, link)(const char *from, const char *to)
{
    if (!widen(from, room_one) || !widen(to, room_two))
        return -1;
    HANDLE handle = to_change(room_one, 0);
    DWORD stays = 0;
    if (handle == INVALID_HANDLE_VALUE)
        return failed();
    bool is_posix = set(handle, DISPOSITION_EX, &stays, sizeof stays);
    CloseHandle(handle);
    return !is_posix ? fail(L_EPERM) : CreateHardLinkW(room_two, room_one, NULL) ? 0 : failed();
}
