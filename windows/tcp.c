// A line over TCP: tcp:ADDRESS:PORT, of a simulator or of a port that another program serves.
#include "layer.h"

bool is_tcp(const char *name) { return strncmp(name, "tcp:", 4) == 0; }
static int failed_socket(void) { return fail_of((DWORD)WSAGetLastError()); }
static void set_on(SOCKET socket, int level, int option) { setsockopt(socket, level, option, (const char *)&(BOOL){TRUE}, sizeof(BOOL)); }

// Makes a socket that is connected to the address of a name, or that waits there for others. Each byte goes at once, as by a Unix socket.
// An address that another program listens at is refused, which Windows by itself would share.
int open_tcp(struct opened *it, const char *name, bool listens)
{
    WSADATA told;
    char host[128] = "";
    const char *port = strrchr(name, ':') + 1;
    struct addrinfo wanted = {.ai_family = AF_INET, .ai_socktype = SOCK_STREAM}, *found;
    if (port - name > 4)
        memcpy(host, name + 4, (size_t)(port - name) - 5);
    if (port[0] == 0 || host[0] == 0 || port[strspn(port, "0123456789")] != 0)
        return fail(L_EINVAL);
    if (WSAStartup(MAKEWORD(2, 2), &told) != 0)
        return fail(L_EAFNOSUPPORT);
    if (getaddrinfo(host, port, &wanted, &found) != 0)
        return fail(L_ENOENT);
    struct sockaddr place = *found->ai_addr;
    freeaddrinfo(found);
    it->socket = socket(AF_INET, SOCK_STREAM, 0);
    set_on(it->socket, IPPROTO_TCP, TCP_NODELAY);
    if (listens)
        set_on(it->socket, SOL_SOCKET, SO_EXCLUSIVEADDRUSE);
    if ((listens ? bind : connect)(it->socket, &place, sizeof place) != 0)
        return failed_socket();
    it->kind = A_SOCKET;
    return 0;
}

// listen, and accept4: who connects is told as a Unix socket without a name.
ASKED(int, listen)(int number, int most)
{
    OPENED(it, number);
    return it->kind != A_SOCKET ? fail(L_ENOTSOCK) : listen(it->socket, most) == 0 ? 0 : failed_socket();
}

ASKED(int, accept4)(int number, unsigned char *address, unsigned *length, int)
{
    OPENED(it, number);
    if (it->kind != A_SOCKET)
        return fail(L_ENOTSOCK);
    SOCKET socket = accept(it->socket, NULL, NULL);
    if (socket == INVALID_SOCKET)
        return failed_socket();
    struct opened *client = made(A_SOCKET, NULL);
    if (client == NULL)
        return closesocket(socket), fail(L_ENOMEM);
    set_on(client->socket = socket, IPPROTO_TCP, TCP_NODELAY);
    memcpy(address, "\1", *length = 2);
    return numbered(client, 3);
}

// Whether something can be read, or written, within so many ms; 0: without an end.
static bool is_ready(SOCKET socket, short how, DWORD wait)
{
    WSAPOLLFD one = {.fd = socket, .events = how};
    return wait == 0 || WSAPoll(&one, 1, (int)wait) != 0;
}

long long receive_tcp(struct opened *it, void *buf, size_t room)
{
    if (!is_ready(it->socket, POLLRDNORM, it->read_wait))
        return fail(L_EAGAIN);
    int n = recv(it->socket, buf, (int)(room > 65536 ? 65536 : room), 0);
    return n >= 0 ? n : failed_socket();
}

long long transmit_tcp(struct opened *it, const void *buf, size_t n)
{
    if (!is_ready(it->socket, POLLWRNORM, it->write_wait))
        return fail(L_EAGAIN);
    int done = send(it->socket, buf, (int)(n > 65536 ? 65536 : n), 0);
    return done >= 0 ? done : failed_socket();
}
