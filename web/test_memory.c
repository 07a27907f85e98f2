// Tries web/memory.c on this machine: blocks that are taken, grown and freed in any order, and arithmetic on 128 bits.
// A reserved range of addresses is the memory, of which so many pages are there.
#include <stdio.h>
#include <stdlib.h>
#include <string.h>
#include <sys/mman.h>

static size_t pages_there, most;
static unsigned char *heap;

static size_t grow(size_t pages) { return pages_there + pages > most ? (size_t)-1 : (pages_there += pages) - pages; }

#define __builtin_wasm_memory_size(memory) pages_there
#define __builtin_wasm_memory_grow(memory, pages) grow(pages)
#define __heap_base (*heap)
#include MEMORY

enum { BLOCKS = 200, ROUNDS = 200000 };
static size_t held, all;

static void holds(const char *what, int is_so) { all++, is_so ? (void)held++ : (void)printf("FAILED: %s\n", what); }

static unsigned long long seed = 1;
static size_t any(size_t below) { return (size_t)((seed = seed * 6364136223846793005ULL + 1442695040888963407ULL) >> 33) % below; }

static struct held_block { unsigned char *at; size_t size; unsigned char is; } blocks[BLOCKS];

static int is(const struct held_block *b, size_t n) { while (n != 0 && b->at[n - 1] == b->is) n--; return n == 0; }
static int is_whole(const struct held_block *b) { return is(b, b->size) && ((size_t)b->at & 15) == 0 && (size_t)b->at + b->size <= pages_there * 65536; }

// Any calls in any order, of which some are refused: every block keeps its bytes, whatever is done with the others, or can't be.
static void mix(void)
{
    size_t wrong = 0;
    for (size_t i = 0; i < ROUNDS; i++) {
        struct held_block *b = &blocks[any(BLOCKS)];
        int is_refused = any(10) == 0;
        size_t size = is_refused ? (size_t)1 << (any(2) ? 31 : 62) : any(20) ? any(300) : any(70000), kept = b->size < size ? b->size : size;
        wrong += b->at != NULL && !is_whole(b);
        if (b->at != NULL && any(2)) {
            rattle_dealloc(b->at);
            *b = (struct held_block){0};
            continue;
        }
        struct tried t = b->at == NULL ? rattle_alloc(size, 8) : rattle_realloc(b->at, kept, size, 8);
        wrong += t.ok == is_refused || t.p == NULL;
        if (is_refused)
            continue;
        *b = (struct held_block){t.p, kept, b->is};
        wrong += !is_whole(b);
        *b = (struct held_block){t.p, size, (unsigned char)any(256)};
        memset(b->at, b->is, size);
    }
    for (size_t i = 0; i < BLOCKS; i++)
        wrong += blocks[i].at != NULL && !is_whole(&blocks[i]);
    holds("each block keeps its bytes", wrong == 0);
}

static void grows(void)
{
    size_t size = 1 << 20, moves = 0;
    struct tried t = rattle_alloc(size, 1);
    for (; size < 50u << 20; size += size / 2) {
        void *before = t.p;
        t = rattle_realloc(t.p, size, size + size / 2, 1);
        moves += t.p != before;
    }
    holds("the last block grows where it is", t.ok && moves <= 1);
    size_t pages = pages_there;
    rattle_dealloc(t.p);
    t = rattle_alloc(40u << 20, 1);
    holds("and is given back", t.ok && pages_there == pages);
    rattle_dealloc(t.p);
    struct tried one = rattle_alloc(5000, 1), other = rattle_alloc(5000, 1);
    rattle_realloc(one.p, 5000, 90000, 1);
    holds("a block that is left by one that grows is taken again", rattle_alloc(4900, 1).p == one.p);
    rattle_dealloc(other.p);
    struct tried grown = rattle_realloc(rattle_alloc(2 << 20, 1).p, 2 << 20, 3 << 20, 1), behind = rattle_alloc(2 << 20, 1);
    rattle_dealloc(grown.p);
    holds("and so is one that grew where it was, by all that it has", rattle_alloc(3 << 20, 1).p == grown.p);
    rattle_dealloc(behind.p);
    struct tried none = rattle_alloc(0, 8), another = rattle_alloc(0, 8);
    holds("no bytes have an address too", none.ok && another.ok && none.p != another.p);
}

static void is_used_up(void)
{
    most = pages_there + 1;
    struct tried small = {1, NULL};
    for (size_t i = 0; small.ok && i < 1 << 24; i++)
        small = rattle_alloc(200, 1);
    holds("memory is used up to its end", pages_there == most && !small.ok);
}

static void computes(void)
{
    size_t wrong = 0;
    for (size_t i = 0; i < 10000; i++) {
        u128 a = 0, b = 0;
        for (int k = 0; k < 4; k++) {
            a = a << 32 | (any(8) ? any(1u << 31) * 2 + any(2) : any(2) ? 0xffffffff : 0);
            b = b << 32 | (any(8) ? any(1u << 31) * 2 + any(2) : any(2) ? 0xffffffff : 0);
        }
        int n = (int)any(128);
        wrong += __multi3(a, b) != a * b || __ashlti3(a, n) != a << n || __lshrti3(a, n) != a >> n;
        wrong += __ashlti3(a, 0) != a || __lshrti3(a, 0) != a || __ashlti3(a, 64) != a << 64 || __lshrti3(a, 64) != a >> 64;
    }
    holds("128 bits", wrong == 0);
}

int main(void)
{
    size_t reserved = (size_t)1 << 30;
    unsigned char *at = mmap(NULL, reserved, PROT_READ | PROT_WRITE, MAP_PRIVATE | MAP_ANONYMOUS | MAP_NORESERVE, -1, 0);
    if (at == MAP_FAILED)
        return 2;
    heap = at + 65536 - (size_t)at % 65536 + 5;
    pages_there = (size_t)heap / 65536 + 1;
    most = ((size_t)at + reserved) / 65536;
    computes();
    mix();
    grows();
    is_used_up();
    printf("%zu of %zu hold\n", held, all);
    return held == all ? 0 : 1;
}
