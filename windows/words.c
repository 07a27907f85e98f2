// The program's words and variables, and its start.
#include "layer.h"
int __wgetmainargs(int *count, wchar_t ***words, wchar_t ***variables, int globs, int *mode); // msvcrt's

static int count;
static char **words;
static bool for_help;

// Puts a text, without its 0, at the start of buf, and answers its length: -1 where there is none, or -2 where it doesn't fit: buf is full.
static long long put(const char *text, char *buf, size_t room)
{
    size_t length = text != NULL ? strlen(text) : 0;
    bool fits = length <= room;
    if (length != 0 && room != 0)
        memcpy(buf, text, fits ? length : room);
    return text == NULL ? -1 : fits ? (long long)length : -2;
}

// The same, and the text is freed.
static long long give(char *text, char *buf, size_t room)
{
    long long length = put(text, buf, room);
    free(text);
    return length;
}

// The kit's: argument i, counted from the program's name.
ASKED(long long, rattle_arg)(size_t i, char *buf, size_t room) { return put(i < (size_t)count ? words[i] : NULL, buf, room); }

// The kit's: a variable's value. Where Linux has the user's settings and folder, Windows has APPDATA and USERPROFILE.
ASKED(long long, rattle_env)(const char *name, char *buf, size_t room)
{
    const char *other = strcmp(name, "XDG_CONFIG_HOME") == 0 ? "APPDATA" : strcmp(name, "HOME") == 0 ? "USERPROFILE" : name;
    char *value = variable(name);
    return give(value != NULL ? value : variable(other), buf, room);
}

// The kit's: entry i of the environment, NAME=VALUE. Those that begin by `=` are the command line's own.
ASKED(long long, rattle_env_at)(size_t i, char *buf, size_t room)
{
    wchar_t *all = GetEnvironmentStringsW();
    char *entry = NULL;
    for (wchar_t *it = all; it != NULL && *it != 0 && entry == NULL; it += wcslen(it) + 1)
        if (*it != L'=' && i-- == 0)
            entry = narrow(it);
    FreeEnvironmentStringsW(all);
    return give(entry, buf, room);
}

// The value of the last `--NAME VALUE` or `--NAME=VALUE`. What the program itself doesn't know is taken out of the words.
static const char *asked(const char *name, bool is_ours)
{
    const char *value = NULL;
    size_t length = strlen(name);
    int kept = 0;
    for (int i = 0; i < count; i++) {
        bool has_both = strncmp(words[i], name, length) == 0 && words[i][length] == '=', is_it = i + 1 < count && strcmp(words[i], name) == 0;
        value = has_both ? words[i] + length + 1 : is_it ? words[i + 1] : value;
        if ((has_both || is_it) && is_ours)
            i += is_it;
        else
            words[kept++] = words[i];
    }
    count = kept;
    return value;
}

void read_words(void)
{
    wchar_t **given, **variables; // (as CommandLineToArgvW, whose shell32 takes as long to load as the rest)
    __wgetmainargs(&count, &given, &variables, 0, &(int){0});
    words = calloc((size_t)count + 1, sizeof *words);
    for (int i = 0; i < count; i++) {
        words[i] = narrow(given[i]);
        for_help = for_help || strcmp(words[i], "--help") == 0 || strcmp(words[i], "-h") == 0 || (i == 1 && strcmp(words[i], "help") == 0);
    }
    words[0] = "stmflash"; // as it is told in a usage, under any name of the file
    asked_speed = asked("--baud", false);
    asked_wiring = asked("--wiring", true);
}

// what is told behind each help, which is Linux's
static const char HERE[] = "\nOn Windows a device is COM3, COM3:57600 or tcp:ADDRESS:PORT, in the place of a Unix socket and of stmflash-line.\n"
    "Nothing was run on Windows yet, only under wine.\n";
__attribute__((sysv_abi)) int rattle_main(void);

// 0, 1 and 2 are what the program was started with; a console shows UTF-8 and colors meanwhile.
int main(void)
{
    UINT page = 0;
    read_words();
    for (int i = 0; i < 3; i++) {
        HANDLE handle = GetStdHandle(STD_INPUT_HANDLE - (DWORD)i);
        DWORD mode;
        bool is_console = GetConsoleMode(handle, &mode);
        if (handle != NULL && handle != INVALID_HANDLE_VALUE)
            numbered(made(is_console ? A_CONSOLE : A_FILE, handle), i);
        if (is_console && i != 0 && SetConsoleMode(handle, mode | ENABLE_VIRTUAL_TERMINAL_PROCESSING))
            page = GetConsoleOutputCP();
    }
    if (page != 0)
        SetConsoleOutputCP(CP_UTF8);
    int status = rattle_main();
    if (status == 0 && for_help)
        sysv_write(1, HERE, sizeof HERE - 1);
    if (page != 0)
        SetConsoleOutputCP(page);
    ExitProcess((UINT)status);
}
