// A folder's entries.
#include "layer.h"

// The kit's: opens a folder for its entries. It is asked from the working folder alone.
ASKED(int, rattle_open_dir_at)(int folder, const char *name)
{
    static wchar_t path[PATH_ROOM];
    if (folder != L_HERE || !widen(name, path))
        return folder != L_HERE ? fail(L_EINVAL) : -1;
    DWORD is = GetFileAttributesW(path);
    if (is == INVALID_FILE_ATTRIBUTES)
        return failed();
    if (!(is & FILE_ATTRIBUTE_DIRECTORY) || (is & FILE_ATTRIBUTE_REPARSE_POINT))
        return fail(L_ENOTDIR);
    struct opened *it = made(A_LISTING, NULL);
    if (it != NULL && (it->handle = FindFirstFileW(wcscat(path, L"\\*"), &it->next)) == INVALID_HANDLE_VALUE)
        return failed(), free(it), -1;
    return numbered(it, 3);
}

// getdents64: entries of a length each, with the name from byte 19 on, and a number that says that it is there. Windows tells them by
// FindNextFile, where one that is made or removed meanwhile may be told or not, as on Linux.
ASKED(long long, getdents64)(int number, unsigned char *buf, size_t room)
{
    OPENED(it, number);
    size_t used = 0;
    while (it->kind == A_LISTING && !it->is_over) {
        char *name = narrow(it->next.cFileName);
        size_t length = name != NULL ? (19 + strlen(name) + 1 + 7) / 8 * 8 : 0;
        bool fits = length != 0 && used + length <= room;
        if (fits) {
            memset(buf + used, 0, length);
            buf[used] = 1;
            memcpy(buf + used + 16, &(unsigned short){(unsigned short)length}, 2);
            strcpy((char *)buf + used + 19, name);
            used += length;
        }
        free(name);
        if (!fits)
            return used != 0 ? (long long)used : fail(length == 0 ? L_ENOMEM : L_EINVAL);
        it->is_over = !FindNextFileW(it->handle, &it->next);
        if (it->is_over && GetLastError() != ERROR_NO_MORE_FILES)
            return failed();
    }
    return it->kind != A_LISTING ? fail(L_ENOTDIR) : (long long)used;
}
