// Locks between programs.
#include "layer.h"

// flock, whose lock holds against those alone that ask for one. Windows' lock holds against reads and writes of just its bytes, also
// our own by another handle; so it is on one byte that no file reaches. It ends with the handle, also where the program is killed.
ASKED(int, flock)(int number, int how)
{
    OPENED(it, number);
    OVERLAPPED place = {.Offset = 0xfffffffe, .OffsetHigh = 0x7fffffff};
    DWORD flags = (how & 2 ? LOCKFILE_EXCLUSIVE_LOCK : 0) | (how & 4 ? LOCKFILE_FAIL_IMMEDIATELY : 0);
    return (how & 8 ? UnlockFileEx(it->handle, 0, 1, 0, &place) : LockFileEx(it->handle, flags, 0, 1, 0, &place)) ? 0 : failed();
}
