// What the kit asks of each function of layer.c, tried. It is linked with the layer under test, and called as
//   env -i FIRST=one EMPTY= test_layer word '' 'two words'
// It prints what doesn't hold, and its status says whether all does.
#include <dirent.h>
#include <errno.h>
#include <fcntl.h>
#include <malloc.h>
#include <stdbool.h>
#include <stdint.h>
#include <stdio.h>
#include <stdlib.h>
#include <string.h>
#include <sys/stat.h>
#include <sys/types.h>
#include <unistd.h>

extern char **environ;

struct tried { bool ok; void *p; };

struct tried rattle_alloc(size_t n, size_t a), rattle_realloc(void *p, size_t kept, size_t n, size_t a);
void rattle_dealloc(void *p), rattle_set_errno(int error);
ssize_t rattle_arg(size_t i, char *buf, size_t room), rattle_env(const char *name, char *buf, size_t room), rattle_env_at(size_t i, char *buf, size_t room);
int rattle_errno(void), rattle_open_dir_at(int dir, const char *name);

// more than any machine has
#define TOO_MUCH ((size_t)1 << 62)

static int tried_so_far, failed;

#define HOLDS(fact) ((void)(tried_so_far++, (fact) || (failed++, printf("line %d: %s\n", __LINE__, #fact))))

static void fill(char *p, size_t n) { for (size_t k = 0; k < n; k++) p[k] = (char)(k * 7 + 1); }
static bool is_filled(const char *p, size_t n) { size_t k = 0; while (k < n && p[k] == (char)(k * 7 + 1)) k++; return k == n; }

static void test_alloc(void)
{
    for (size_t n = 0; n < 300; n++) {
        struct tried got = rattle_alloc(n, 16), beside = rattle_alloc(n, 1);
        HOLDS(got.ok && got.p != NULL && (uintptr_t)got.p % 16 == 0 && beside.ok && beside.p != NULL && beside.p != got.p);
        fill(got.p, n);
        memset(beside.p, 0, n);
        HOLDS(is_filled(got.p, n));
        rattle_dealloc(got.p), rattle_dealloc(beside.p);
    }
    size_t before = mallinfo2().hblkhd;
    struct tried large = rattle_alloc(1 << 20, 16);
    HOLDS(large.ok && mallinfo2().hblkhd > before);
    rattle_dealloc(large.p);
    HOLDS(mallinfo2().hblkhd == before);
    struct tried one = rattle_alloc(0, 8), other = rattle_alloc(0, 8);
    HOLDS(one.ok && other.ok && one.p != NULL && one.p != other.p);
    rattle_dealloc(one.p), rattle_dealloc(other.p);
    struct tried none = rattle_alloc(TOO_MUCH, 16);
    HOLDS(!none.ok && none.p != NULL);
}

static void test_realloc(void)
{
    static const size_t sizes[] = {1, 16, 17, 5000, 2000000, 100, 3};
    size_t n = 8;
    char *p = rattle_alloc(n, 8).p;
    fill(p, n);
    for (size_t k = 0; k < sizeof sizes / sizeof *sizes; k++) {
        size_t kept = n < sizes[k] ? n : sizes[k];
        struct tried got = rattle_realloc(p, kept, sizes[k], 8);
        HOLDS(got.ok && got.p != NULL && (uintptr_t)got.p % 16 == 0 && is_filled(got.p, kept));
        fill(p = got.p, n = sizes[k]);
    }
    struct tried none = rattle_realloc(p, n, TOO_MUCH, 8);
    HOLDS(!none.ok && none.p != NULL && is_filled(p, n));
    // to no bytes and back
    struct tried empty = rattle_realloc(p, 0, 0, 8);
    HOLDS(empty.ok && empty.p != NULL);
    struct tried again = rattle_realloc(empty.p, 0, 24, 8);
    HOLDS(again.ok && again.p != NULL);
    fill(again.p, 24);
    rattle_dealloc(again.p);
}

// Whether a text of this length was put into a room of that size, or as much of it as there is room for, and nothing behind it. It's
// taken away again.
static bool is_put(ssize_t answer, char *buf, size_t room, const char *text)
{
    size_t length = strlen(text), put = length < room ? length : room;
    bool is_so = answer == (length <= room ? (ssize_t)length : -2) && memcmp(buf, text, put) == 0 && buf[put] == '#';
    memset(buf, '#', put);
    return is_so;
}

static void test_texts(int count, char **given)
{
    char buf[64];
    memset(buf, '#', sizeof buf);
    for (size_t room = 0; room < sizeof buf; room++) {
        // (the program's name is a path of any length)
        for (int i = strlen(given[0]) >= sizeof buf; i < count; i++)
            HOLDS(is_put(rattle_arg((size_t)i, buf, room), buf, room, given[i]));
        HOLDS(is_put(rattle_env("FIRST", buf, room), buf, room, "one") && is_put(rattle_env("EMPTY", buf, room), buf, room, ""));
        for (size_t i = 0; environ[i] != NULL; i++)
            HOLDS(is_put(rattle_env_at(i, buf, room), buf, room, environ[i]));
        // (the variables stand behind the words, and what the system told the program behind the variables)
        HOLDS(rattle_arg((size_t)count, buf, room) == -1 && rattle_arg((size_t)count + 1, buf, room) == -1 && rattle_arg(SIZE_MAX, buf, room) == -1 && buf[0] == '#');
        HOLDS(rattle_env("FIRS", buf, room) == -1 && rattle_env_at(2, buf, room) == -1 && rattle_env_at(3, buf, room) == -1 && rattle_env_at(SIZE_MAX, buf, room) == -1 && buf[0] == '#');
    }
    HOLDS(rattle_arg(2, NULL, 0) == 0 && rattle_arg(1, NULL, 0) == -2);
}

// Words and values of any length are whole, as a path of 4,095 bytes is.
static void test_long_texts(void)
{
    static char text[1 << 16], buf[1 << 16];
    memset(buf, '#', sizeof buf);
    for (size_t length = 200; length < sizeof text; length = length * 5 / 4) {
        memset(text, 'x', length);
        HOLDS((text[length] = '\0') == 0 && setenv("LONG", text, 1) == 0);
        for (size_t room = length - 1; room <= length + 1; room++)
            HOLDS(is_put(rattle_env("LONG", buf, room), buf, room, text));
    }
    HOLDS(unsetenv("LONG") == 0);
}

static void test_no_environment(void)
{
    char buf[8] = "#";
    char **were = environ;
    environ = NULL;
    HOLDS(rattle_env_at(0, buf, sizeof buf) == -1 && rattle_env_at(5, buf, sizeof buf) == -1 && rattle_env("FIRST", buf, sizeof buf) == -1 && buf[0] == '#');
    environ = were;
}

static void test_errno(void)
{
    static const int errors[] = {0, ENOENT, EAGAIN, 1 << 20, -1};
    for (size_t k = 0; k < sizeof errors / sizeof *errors; k++) {
        errno = errors[k];
        // (it stays until another comes)
        HOLDS(rattle_errno() == errors[k] && rattle_errno() == errors[k]);
        errno = 77;
        rattle_set_errno(errors[k]);
        HOLDS(errno == errors[k]);
    }
}

// What is no folder is told by the system's own number, isn't waited for, and leaves nothing open.
static void test_open_dir(void)
{
    static const struct { const char *name; int error; } refused[] = {{"", ENOENT}, {"none", ENOENT}, {"none/", ENOENT}, {"file", ENOTDIR}, {"file/", ENOTDIR},
        {"file/x", ENOTDIR}, {"link", ENOTDIR}, {"nowhere", ENOTDIR}, {"nowhere/", ENOENT}, {"loop", ENOTDIR}, {"loop/", ELOOP}, {"pipe", ENOTDIR}};
    char place[] = "/tmp/test_layer.XXXXXX";
    HOLDS(mkdtemp(place) != NULL);
    int at = rattle_open_dir_at(AT_FDCWD, place);
    HOLDS(at >= 0 && (fcntl(at, F_GETFD) & FD_CLOEXEC) != 0);
    HOLDS(symlinkat(".", at, "link") == 0 && symlinkat("no", at, "nowhere") == 0 && symlinkat("loop", at, "loop") == 0 && mkfifoat(at, "pipe", 0600) == 0);
    HOLDS(close(openat(at, "file", O_WRONLY | O_CREAT, 0600)) == 0);
    // (what is in it can be read)
    bool is_named = false;
    DIR *names = fdopendir(dup(at));
    for (struct dirent *name; names != NULL && (name = readdir(names)) != NULL;)
        is_named |= strcmp(name->d_name, "file") == 0;
    HOLDS(is_named && closedir(names) == 0);
    int through = rattle_open_dir_at(at, "link/");
    HOLDS(through >= 0 && close(through) == 0);
    size_t held = 0;
    alarm(10);
    while (held < sizeof refused / sizeof *refused && rattle_open_dir_at(at, refused[held].name) == -1 && errno == refused[held].error)
        held++;
    HOLDS(alarm(0) != 0 && held == sizeof refused / sizeof *refused); HOLDS(dup(at) == through && close(through) == 0);
    HOLDS(rattle_open_dir_at(-1, ".") == -1 && errno == EBADF);
    for (size_t k = 0; k < sizeof refused / sizeof *refused; k++)
        unlinkat(at, refused[k].name, 0);
    HOLDS(close(at) == 0 && rmdir(place) == 0);
}

int main(int count, char **given)
{
    HOLDS(count == 4 && given[2][0] == '\0' && environ[0] != NULL && environ[1] != NULL && environ[2] == NULL);
    test_alloc(), test_realloc(), test_texts(count, given), test_long_texts(), test_no_environment(), test_errno(), test_open_dir();
    printf("%d of %d hold\n", tried_so_far - failed, tried_so_far);
    return failed != 0;
}
