// A port of this PC: COM3, \\.\COM12, COM3:57600.
#include "layer.h"

// what `--baud` and `--wiring` say
const char *asked_speed, *asked_wiring;

// The name behind `//./`, to which `\\.\` was turned.
static const char *bare(const char *name) { return name + (strncmp(name, "//./", 4) == 0 ? 4 : 0); }

bool is_port(const char *name)
{
    name = bare(name);
    size_t digits = _strnicmp(name, "COM", 3) == 0 ? strspn(name + 3, "0123456789") : 0, more = digits != 0 && name[3 + digits] == ':';
    size_t speed = more ? strspn(name + 4 + digits, "0123456789") : 0;
    return digits != 0 && (speed != 0) == more && name[3 + digits + more + speed] == 0;
}

// What a word or its variable says; NULL: neither.
static char *setting(const char *word, const char *name) { return word != NULL ? _strdup(word) : variable(name); }

// A wiring, as stmflash-line has it (docs/LINE.md): at an adapter's pin a signal that is raised is low. 0 where the pin isn't wired; else
// what raises the signal, and with `high` what lowers it, or the other way round where it is inverted.
static DWORD pin(const char *wiring, const char *of, bool high)
{
    char word[32];
    for (int i = 0; wiring != NULL && i < 4; i++) {
        bool inverted = i & 1, dtr = i & 2;
        snprintf(word, sizeof word, "%s%s-%s", inverted ? "inverted-" : "", dtr ? "dtr" : "rts", of);
        for (const char *at = wiring; (at = strstr(at, word)) != NULL; at++)
            if (at == wiring || at[-1] == ',')
                return high == inverted ? (dtr ? SETDTR : SETRTS) : (dtr ? CLRDTR : CLRRTS);
    }
    return 0;
}

// Resets the board: into its bootloader, where BOOT0 is high, or into its program.
static void reset(HANDLE port, const char *wiring, bool boot0)
{
    if (pin(wiring, "boot0", boot0) != 0)
        EscapeCommFunction(port, pin(wiring, "boot0", boot0));
    EscapeCommFunction(port, pin(wiring, "reset", false));
    Sleep(100);
    EscapeCommFunction(port, pin(wiring, "reset", true));
    Sleep(boot0 ? 200 : 0);
}

// Opens a port, which Windows gives to one program at a time: 8 data bits, even parity, one stop bit, at the speed of the name, of --baud,
// of STMFLASH_BAUD, or 115,200. A board that is wired (--wiring, STMFLASH_WIRING) is reset into its bootloader.
int open_port(struct opened *it, const char *name)
{
    wchar_t path[64];
    name = bare(name);
    const char *colon = strchr(name, ':');
    char *speed = colon != NULL ? _strdup(colon + 1) : setting(asked_speed, "STMFLASH_BAUD"), *wiring = setting(asked_wiring, "STMFLASH_WIRING");
    _snwprintf(path, 64, L"\\\\.\\%.*hs", colon != NULL ? (int)(colon - name) : 20, name);
    HANDLE port = CreateFileW(path, GENERIC_READ | GENERIC_WRITE, 0, NULL, OPEN_EXISTING, 0, NULL);
    // (no flow control, of which the characters have to be two all the same)
    DCB set = {.DCBlength = sizeof set, .BaudRate = speed != NULL && *speed != 0 ? (DWORD)atoi(speed) : 115200, .fBinary = TRUE, .fParity = TRUE,
        .ByteSize = 8, .Parity = EVENPARITY, .StopBits = ONESTOPBIT, .fDtrControl = DTR_CONTROL_DISABLE, .fRtsControl = RTS_CONTROL_DISABLE,
        .fAbortOnError = TRUE, .XonChar = 17, .XoffChar = 19};
    int status = 0;
    if (port == INVALID_HANDLE_VALUE)
        status = GetLastError() == ERROR_ACCESS_DENIED ? fail(L_EBUSY) : failed();
    else if ((speed != NULL && *speed != 0 && atoi(speed) <= 0) || (wiring != NULL && *wiring != 0 && pin(wiring, "reset", true) == 0))
        status = fail(L_EINVAL);
    else if (!SetCommState(port, &set))
        status = failed();
    if (status == 0 && wiring != NULL && *wiring != 0)
        reset(port, wiring, true);
    if (status == 0) {
        PurgeComm(port, PURGE_RXCLEAR | PURGE_TXCLEAR);
        it->kind = A_PORT;
        it->handle = port;
    } else
        CloseHandle(port);
    free(speed);
    free(wiring);
    return status;
}

// In the end a board whose BOOT0 is wired is reset into its program.
void close_port(struct opened *it)
{
    char *wiring = setting(asked_wiring, "STMFLASH_WIRING");
    FlushFileBuffers(it->handle);
    if (pin(wiring, "boot0", false) != 0)
        reset(it->handle, wiring, false);
    free(wiring);
}

static bool set_waits(struct opened *it)
{
    return SetCommTimeouts(it->handle, &(COMMTIMEOUTS){.ReadTotalTimeoutConstant = it->read_wait, .WriteTotalTimeoutConstant = it->write_wait});
}

// One byte within the wait, and with it those that are there by then. (Windows has waits that say just this; wine 8 hasn't.) A wrong byte,
// one that came too fast, and a port that is gone end the line, also for those that came before.
long long receive_port(struct opened *it, void *buf, size_t room)
{
    DWORD n = 0, more = 0, before = 0, behind = 0;
    COMSTAT state = {0};
    bool done = set_waits(it) && ReadFile(it->handle, buf, 1, &n, NULL);
    if (done && n == 1 && room > 1 && ClearCommError(it->handle, &before, &state) && state.cbInQue != 0) {
        DWORD most = state.cbInQue < room - 1 ? state.cbInQue : (DWORD)(room - 1);
        done = ReadFile(it->handle, (char *)buf + 1, most, &more, NULL);
    }
    bool is_told = ClearCommError(it->handle, &behind, &state);
    if (!done || !is_told || ((before | behind) & (CE_RXPARITY | CE_FRAME | CE_OVERRUN | CE_RXOVER | CE_BREAK)))
        return fail(L_EIO);
    return n != 0 ? (long long)n + more : fail(L_EAGAIN);
}

long long transmit_port(struct opened *it, const void *buf, size_t n)
{
    DWORD done = 0;
    if (!set_waits(it) || !WriteFile(it->handle, buf, (DWORD)n, &done, NULL))
        return fail(L_EIO);
    return done != 0 || n == 0 ? (long long)done : fail(L_EAGAIN);
}
