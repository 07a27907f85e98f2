// errno, and what Windows' errors are in Linux's numbers.
#include "layer.h"

static int error_now;

int fail(int error) { return error_now = error, -1; }

#define E(windows, error) {ERROR_##windows, L_##error}
int fail_of(DWORD windows_error)
{
    static const struct { DWORD windows; int linux_error; } same[] = {
        E(FILE_NOT_FOUND, ENOENT), E(PATH_NOT_FOUND, ENOENT), E(BAD_NETPATH, ENOENT), E(BAD_NET_NAME, ENOENT), E(INVALID_DRIVE, ENOENT),
        E(INVALID_NAME, EINVAL), E(INVALID_PARAMETER, EINVAL), E(BAD_PATHNAME, EINVAL), E(NEGATIVE_SEEK, EINVAL), E(ACCESS_DENIED, EACCES),
        E(SHARING_VIOLATION, EBUSY), E(LOCK_VIOLATION, EAGAIN), E(IO_PENDING, EAGAIN), E(FILE_EXISTS, EEXIST), E(ALREADY_EXISTS, EEXIST),
        E(DISK_FULL, ENOSPC), E(HANDLE_DISK_FULL, ENOSPC), {1295 /* a quota */, L_ENOSPC}, E(FILE_TOO_LARGE, EFBIG), E(NOT_SAME_DEVICE, EXDEV),
        E(WRITE_PROTECT, EROFS), E(DIR_NOT_EMPTY, ENOTEMPTY), E(BROKEN_PIPE, EPIPE), E(NO_DATA, EPIPE), E(INVALID_HANDLE, EBADF),
        E(TOO_MANY_OPEN_FILES, EMFILE), E(NOT_ENOUGH_MEMORY, ENOMEM), E(OUTOFMEMORY, ENOMEM), E(DIRECTORY, ENOTDIR),
        E(FILENAME_EXCED_RANGE, ENAMETOOLONG), {WSAEADDRINUSE, L_EADDRINUSE}, {WSAEACCES, L_EADDRINUSE}, {WSAECONNREFUSED, L_ECONNREFUSED},
        {WSAECONNRESET, L_ECONNRESET}, {WSAECONNABORTED, L_ECONNRESET}, {WSAETIMEDOUT, L_ETIMEDOUT}, {WSAEAFNOSUPPORT, L_EAFNOSUPPORT},
        {WSAHOST_NOT_FOUND, L_ENOENT}};
    for (size_t i = 0; i < sizeof same / sizeof *same; i++)
        if (same[i].windows == windows_error)
            return fail(same[i].linux_error);
    return fail(L_EIO);
}

int failed(void) { return fail_of(GetLastError()); }

// The kit's: C's errno, and setting it.
ASKED(int, rattle_errno)(void) { return error_now; }
ASKED(void, rattle_set_errno)(int error) { error_now = error; }

// strerror_r, with glibc's texts; but a port that is in use has one of its own, since Windows doesn't say by whom.
ASKED(int, __xpg_strerror_r)(int error, char *buf, size_t room)
{
    static const struct { int error; const char *text; } texts[] = {
        {L_EPERM, "Operation not permitted"}, {L_ENOENT, "No such file or directory"}, {L_EIO, "Input/output error"}, {L_EBADF, "Bad file descriptor"},
        {L_EAGAIN, "Resource temporarily unavailable"}, {L_ENOMEM, "Cannot allocate memory"}, {L_EACCES, "Permission denied"},
        {L_EBUSY, "another program has it open"}, {L_EEXIST, "File exists"}, {L_EXDEV, "Invalid cross-device link"}, {L_ENOTDIR, "Not a directory"},
        {L_EISDIR, "Is a directory"}, {L_EINVAL, "Invalid argument"}, {L_EMFILE, "Too many open files"}, {L_EFBIG, "File too large"},
        {L_ENOSPC, "No space left on device"}, {L_ESPIPE, "Illegal seek"}, {L_EROFS, "Read-only file system"}, {L_EPIPE, "Broken pipe"},
        {L_ENAMETOOLONG, "File name too long"}, {L_ENOTEMPTY, "Directory not empty"}, {L_ENOTSOCK, "Socket operation on non-socket"},
        {L_EAFNOSUPPORT, "Address family not supported by protocol"}, {L_EADDRINUSE, "Address already in use"},
        {L_ECONNRESET, "Connection reset by peer"}, {L_ETIMEDOUT, "Connection timed out"}, {L_ECONNREFUSED, "Connection refused"}};
    const char *text = "Unknown error";
    for (size_t i = 0; i < sizeof texts / sizeof *texts; i++)
        text = texts[i].error == error ? texts[i].text : text;
    snprintf(buf, room, "%s", text);
    return 0;
}
