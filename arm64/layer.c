// What the kit's library asks of C, for 64-bit ARM. The kit has these functions compiled for x86-64, and for nothing else.
//
// Here are those that stmflash reaches, and no more; all else that it calls is the C library's, by the C library's own names. Each
// answers one declaration of the kit, in `heap.rt` (of KIT/rattle/libc/src) or `c.rt` (of KIT/rattle/os/src), and its comment says
// which, and what that asks. A slice `&mut [u8]` comes as its address and its length; a `Memory` has no bytes, and isn't passed.
#include <errno.h>
#include <fcntl.h>
#include <stdbool.h>
#include <stddef.h>
#include <stdlib.h>
#include <string.h>
#include <sys/types.h>

extern char **environ;

// types.rt, `Tried`: whether there is memory, and where. Where there is none, the address is still that of a byte.
struct tried { bool ok; void *p; };
static char nothing;
static struct tried tried(void *p) { return p != NULL ? (struct tried){true, p} : (struct tried){false, &nothing}; }

// heap.rt: memory for a value of n bytes, aligned to a, or none. a divides 16, as malloc aligns, and n is below 2^63. A value of no
// bytes gets an address of its own too, so malloc is asked for more than none.
struct tried rattle_alloc(size_t n, size_t a) { return tried(malloc(n != 0 ? n : a)); }

// heap.rt: makes the block at p, which either function answered, one of n bytes. Its first `kept` bytes, at most n of them, are as
// they were; it may move. Where there is no memory, the block stays, and is as it was. realloc would free it where n is 0.
struct tried rattle_realloc(void *p, size_t kept, size_t n, size_t a)
{
    (void)kept;
    return tried(realloc(p, n != 0 ? n : a));
}

// heap.rt: frees what either answered.
void rattle_dealloc(void *p) { free(p); }

// Puts a text, without the 0 that ends it, at the start of buf, and answers its length: -1 where there is no text, or -2 where it
// does not fit, and then buf is full.
static ssize_t put(const char *text, char *buf, size_t room)
{
    if (text == NULL)
        return -1;
    size_t length = strlen(text);
    bool fits = length <= room;
    // (an empty slice may have any address)
    if (length != 0 && room != 0)
        memcpy(buf, text, fits ? length : room);
    return fits ? (ssize_t)length : -2;
}

static size_t word_count;
static char **words;

// The program's `main` takes no words. glibc hands them to each such function before it.
__attribute__((constructor)) static void keep_words(int count, char **given) { word_count = (size_t)count, words = given; }

// c.rt: puts argument i, counted from the program's name, at the start of buf, and answers as `put` does.
ssize_t rattle_arg(size_t i, char *buf, size_t room) { return put(i < word_count ? words[i] : NULL, buf, room); }

// c.rt: the same of an environment variable's value. The name is ended by a 0.
ssize_t rattle_env(const char *name, char *buf, size_t room) { return put(getenv(name), buf, room); }

// c.rt: the same of entry i of the environment, NAME=VALUE.
ssize_t rattle_env_at(size_t i, char *buf, size_t room)
{
    size_t k = 0;
    while (environ != NULL && environ[k] != NULL && k < i)
        k++;
    return put(environ != NULL ? environ[k] : NULL, buf, room);
}

// c.rt: C's errno, which is a macro there.
int rattle_errno(void) { return errno; }

// c.rt: sets it.
void rattle_set_errno(int error) { errno = error; }

// c.rt: opens the directory that name reaches from dir, for reading, and answers a descriptor, or -1, also where name ends in a link
// with no `/` behind it, or reaches no directory. The name is ended by a 0. (These flags aren't the bits that they are on x86-64.)
int rattle_open_dir_at(int dir, const char *name) { return openat(dir, name, O_RDONLY | O_DIRECTORY | O_NOFOLLOW | O_CLOEXEC); }
