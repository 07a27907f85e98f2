// The clock, the question for the processor, and a signal that Windows hasn't.
#include "layer.h"
#include <cpuid.h>

// clock_gettime, by the counter that never goes back (1) and by the time of day, which Windows counts from 1601 on, in ticks of 100 ns.
ASKED(int, clock_gettime)(int clock, long long *time)
{
    union { FILETIME day; LARGE_INTEGER ticks; } now;
    LARGE_INTEGER second = {.QuadPart = 10000000};
    if (clock == 1)
        QueryPerformanceCounter(&now.ticks), QueryPerformanceFrequency(&second);
    else
        GetSystemTimePreciseAsFileTime(&now.day), now.ticks.QuadPart -= 116444736000000000LL;
    time[0] = now.ticks.QuadPart / second.QuadPart;
    time[1] = now.ticks.QuadPart % second.QuadPart * 1000000000 / second.QuadPart;
    return 0;
}

// signal: of a line or a pipe that was closed Windows tells by an error alone.
ASKED(long long, __sysv_signal)(int, long long) { return 0; }

// glibc's: what CPUID says in the leaves 1, 7 and 80000001, and how much of it may be used. A proved program asks at its start.
struct features { unsigned is[4], usable[4]; };
ASKED(const struct features *, __x86_get_cpuid_feature_leaf)(unsigned leaf)
{
    static const unsigned leaves[] = {1, 7, 0x80000001};
    static struct features all[3], none;
    if (leaf > 2)
        return &none;
    unsigned *is = all[leaf].is;
    __cpuid_count(leaves[leaf], 0, is[0], is[1], is[2], is[3]);
    memcpy(all[leaf].usable, is, sizeof all[leaf].usable);
    return &all[leaf];
}
