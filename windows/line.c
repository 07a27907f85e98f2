// A line to a board, which the program asks for as a Unix socket: a port of this PC, or a place of TCP, by its name.
#include "layer.h"

// socket: each begins as nothing, and its name says what it is.
ASKED(int, socket)(int family, int, int) { return family != 1 ? fail(L_EAFNOSUPPORT) : numbered(made(NEW_SOCKET, NULL), 3); }

// connect, and bind, to what the path of a Unix socket's address names.
static int open_line(int number, const unsigned char *address, unsigned length, bool listens)
{
    OPENED(it, number);
    char name[128] = "";
    if (it->kind != NEW_SOCKET || length < 3 || length > 129)
        return fail(L_ENOTSOCK);
    memcpy(name, address + 2, length - 2);
    if (is_port(name) && !listens)
        return open_port(it, name);
    return is_tcp(name) ? open_tcp(it, name, listens) : fail(listens ? L_EAFNOSUPPORT : L_ENOENT);
}

ASKED(int, connect)(int number, const unsigned char *address, unsigned length) { return open_line(number, address, length, false); }
ASKED(int, bind)(int number, const unsigned char *address, unsigned length) { return open_line(number, address, length, true); }

// setsockopt, of which the program asks for the waits of a read (20) and a write (21), in seconds and microseconds.
ASKED(int, setsockopt)(int number, int level, int name, const unsigned char *value, unsigned length)
{
    OPENED(it, number);
    long long parts[2];
    if (level != 1 || (name != 20 && name != 21) || length != sizeof parts)
        return 0;
    memcpy(parts, value, sizeof parts);
    *(name == 20 ? &it->read_wait : &it->write_wait) = (DWORD)(parts[0] > 2000000 ? 2000000000 : parts[0] * 1000 + (parts[1] + 999) / 1000);
    return 0;
}

static int connected(int number)
{
    OPENED(it, number);
    return it->kind == A_SOCKET || it->kind == A_PORT ? 0 : fail(L_ENOTSOCK);
}

// send and recv, of what is connected: they are write and read.
ASKED(long long, send)(int number, const void *buf, size_t n, int) { return connected(number) < 0 ? -1 : sysv_write(number, buf, n); }
ASKED(long long, recv)(int number, void *buf, size_t room, int) { return connected(number) < 0 ? -1 : sysv_read(number, buf, room); }

// poll, which is asked whether anybody reads a pipe: here the write says that nobody does.
ASKED(int, poll)(void *, unsigned long long, int) { return 0; }
