// What is on the disk.
#include "layer.h"

// fsync and fdatasync: FlushFileBuffers answers once bytes and length are on the disk, and the disk's own buffer is. Of a folder NTFS does it by
// a handle that may write. File systems without that refuse it (FAT, some shares); there a name is on the disk when the system writes it.
ASKED(int, fsync)(int number)
{
    OPENED(it, number);
    return FlushFileBuffers(it->handle) || it->kind == A_FOLDER ? 0 : failed();
}
ASKED(int, fdatasync)(int number) { return sysv_fsync(number); }
