// Memory: the kit's three functions, and those of C that the compiler calls.
#include "layer.h"

// Whether there is memory, and where. Where there is none, the address is still that of a byte.
struct tried { bool ok; void *p; };
static char nothing;
static struct tried tried(void *p) { return p != NULL ? (struct tried){true, p} : (struct tried){false, &nothing}; }

// The kit's: memory for n bytes, aligned to a, which divides 16, as malloc aligns; also for none an address of its own.
ASKED(struct tried, rattle_alloc)(size_t n, size_t a) { return tried(malloc(n != 0 ? n : a)); }

// The kit's: the block at p becomes one of n bytes, of which the first ones stay. Without memory it is as it was.
ASKED(struct tried, rattle_realloc)(void *p, size_t, size_t n, size_t a) { return tried(realloc(p, n != 0 ? n : a)); }
ASKED(void, rattle_dealloc)(void *p) { free(p); }
ASKED(void *, memcpy)(void *to, const void *from, size_t n) { return memcpy(to, from, n); }
ASKED(void *, memmove)(void *to, const void *from, size_t n) { return memmove(to, from, n); }
ASKED(void *, memset)(void *to, int byte, size_t n) { return memset(to, byte, n); }
ASKED(int, memcmp)(const void *one, const void *other, size_t n) { return memcmp(one, other, n); }
ASKED(int, bcmp)(const void *one, const void *other, size_t n) { return memcmp(one, other, n); }
