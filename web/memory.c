// What the kit's library asks of C, for 64-bit WebAssembly: memory, and arithmetic on 128 bits. All else is asked of the page.
//
// A block has one of few sizes: of each power of two four, so that at most a quarter of it is lost. One that is freed waits in the list
// of its size for the next that wants as much. The last block can grow, and be given back, where it is. Each run of the program has a
// memory of its own, so nothing is joined. Which declaration of the kit's each function answers, arm64/layer.c says.
#define NULL ((void *)0)
typedef __SIZE_TYPE__ size_t;

enum { HEAD = 16, PAGE = 65536, GROWTH = 16, LISTS = 4 * 64 };

// before the bytes of each block; free ones are chained
struct block { size_t list; struct block *next; };

struct tried { _Bool ok; void *p; };

extern unsigned char __heap_base;
static struct block *waiting[LISTS];
// where the last block begins, and where it ends
static size_t last, end;
static char nothing;

// The size of the blocks of a list.
static size_t size_of(size_t list) { return (4 + list % 4) << (list / 4 + 2); }

// The list of the smallest blocks that have so many bytes with their heads.
static size_t list_for(size_t size)
{
    if (size <= 4 * 4)
        return 0;
    size_t power = 63 - (size_t)__builtin_clzll(size - 1);
    return (power - 4) * 4 + (((size - 1) >> (power - 2)) & 3) + 1;
}

// Whether memory reaches so far. It grows by a sixteenth at least, and by a megabyte.
static _Bool reaches(size_t far)
{
    size_t there_is = __builtin_wasm_memory_size(0) * PAGE;
    if (far <= there_is)
        return 1;
    size_t least = (far - there_is + PAGE - 1) / PAGE, more = there_is / PAGE / GROWTH + GROWTH;
    return __builtin_wasm_memory_grow(0, more > least ? more : least) != (size_t)-1 || __builtin_wasm_memory_grow(0, least) != (size_t)-1;
}

// Blocks begin at multiples of 16.
static size_t rounded(size_t n) { return (n + 15) & ~(size_t)15; }

static void *take(size_t n)
{
    if (n > (size_t)1 << 40)
        return NULL;
    size_t list = list_for(n + HEAD);
    struct block *b = waiting[list];
    if (b != NULL) {
        waiting[list] = b->next;
        return (char *)b + HEAD;
    }
    size_t begin = end != 0 ? end : rounded((size_t)&__heap_base);
    if (!reaches(begin + rounded(size_of(list))))
        return NULL;
    last = begin;
    end = begin + rounded(size_of(list));
    b = (struct block *)begin;
    b->list = list;
    return (char *)b + HEAD;
}

static struct tried tried(void *p) { return p != NULL ? (struct tried){1, p} : (struct tried){0, &nothing}; }

struct tried rattle_alloc(size_t n, size_t a) { return tried(take(n != 0 ? n : a)); }

void rattle_dealloc(void *p)
{
    struct block *b = (struct block *)((char *)p - HEAD);
    if ((size_t)b == last) {
        end = last;
        last = 0;
        return;
    }
    b->next = waiting[b->list];
    waiting[b->list] = b;
}

struct tried rattle_realloc(void *p, size_t kept, size_t n, size_t a)
{
    struct block *b = (struct block *)((char *)p - HEAD);
    if (n > (size_t)1 << 40)
        return tried(NULL);
    if (n + HEAD <= size_of(b->list))
        return tried(p);
    size_t list = list_for(n + HEAD);
    if ((size_t)b == last && reaches(last + rounded(size_of(list)))) {
        b->list = list;
        end = last + rounded(size_of(list));
        return tried(p);
    }
    void *to = take(n != 0 ? n : a);
    if (to == NULL)
        return tried(NULL);
    __builtin_memcpy(to, p, kept);
    rattle_dealloc(p);
    return tried(to);
}

// What LLVM calls by these names for 128 bits; elsewhere they are compiler-rt's.
typedef unsigned long long u64;
typedef unsigned __int128 u128;

union wide { u128 all; struct { u64 low, high; } half; };

// The product of two halves, by their quarters.
static u128 product(u64 a, u64 b)
{
    u64 a0 = (unsigned)a, a1 = a >> 32, b0 = (unsigned)b, b1 = b >> 32;
    u64 low = a0 * b0, one = a1 * b0 + (low >> 32), other = a0 * b1 + (unsigned)one;
    union wide r;
    r.half.low = (other << 32) | (unsigned)low;
    r.half.high = a1 * b1 + (one >> 32) + (other >> 32);
    return r.all;
}

u128 __multi3(u128 a, u128 b)
{
    union wide x = {.all = a}, y = {.all = b}, r = {.all = product(x.half.low, y.half.low)};
    r.half.high += x.half.high * y.half.low + x.half.low * y.half.high;
    return r.all;
}

u128 __ashlti3(u128 a, int n)
{
    union wide x = {.all = a}, r = x;
    if (n >= 64)
        r.half.low = 0, r.half.high = x.half.low << (n - 64);
    else if (n > 0)
        r.half.low = x.half.low << n, r.half.high = x.half.high << n | x.half.low >> (64 - n);
    return r.all;
}

u128 __lshrti3(u128 a, int n)
{
    union wide x = {.all = a}, r = x;
    if (n >= 64)
        r.half.high = 0, r.half.low = x.half.high >> (n - 64);
    else if (n > 0)
        r.half.high = x.half.high >> n, r.half.low = x.half.low >> n | x.half.high << (64 - n);
    return r.all;
}
