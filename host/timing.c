/* Times the script run on scripts of 1,000, 10,000 and 32,768 bytes, of four kinds. */
#define _POSIX_C_SOURCE 199309L
#include "lomkashe.h"

#include <stdio.h>
#include <string.h>
#include <time.h>

static uint8_t script[LOMKASHE_MOST_SCRIPT_BYTES];
static uint8_t output[LOMKASHE_MOST_SCRIPT_BYTES * LOMKASHE_BYTES_FOR_A_LINE];

static uint32_t state = 1;

static uint32_t draw(void)
{
    state ^= state << 13;
    state ^= state >> 17;
    state ^= state << 5;
    return state;
}

static void random_bytes(size_t size)
{
    for (size_t i = 0; i < size; i++)
        script[i] = (uint8_t)draw();
}

static void one_long_line(size_t size)
{
    memset(script, 'a', size);
    script[0] = '(';
    script[size - 1] = '\n';
}

static void empty_lines(size_t size)
{
    memset(script, '\n', size);
}

static void calls(size_t size)
{
    static const char first[] =
        "(engine (threads 8) (stripes 64) (shift 0) (limit 2147483647) (words 256) (kind registers) (policy karma))\n";
    static const char round[] = "(begin 1)\n(load 1 7)\n(store 1 200 4294967295)\n(seal 1)\n(drain 1)\n";
    memset(script, '\n', size);
    memcpy(script, first, sizeof first - 1);
    for (size_t at = sizeof first - 1; at + sizeof round - 1 <= size; at += sizeof round - 1)
        memcpy(script + at, round, sizeof round - 1);
}

static double microseconds(size_t size)
{
    struct timespec from, to;
    const int rounds = 50;
    clock_gettime(CLOCK_MONOTONIC, &from);
    for (int i = 0; i < rounds; i++)
        if (lomkashe_run(script, size, output, sizeof output) < 0)
            return -1;
    clock_gettime(CLOCK_MONOTONIC, &to);
    return ((double)(to.tv_sec - from.tv_sec) * 1e6 + (double)(to.tv_nsec - from.tv_nsec) / 1e3) / rounds;
}

int main(void)
{
    static const size_t sizes[] = { 1000, 10000, 32768 };
    static const struct { const char *name; void (*fill)(size_t); } kinds[] = {
        { "random bytes", random_bytes }, { "one long line", one_long_line }, { "empty lines", empty_lines }, { "calls", calls }
    };
    for (size_t k = 0; k < sizeof kinds / sizeof kinds[0]; k++) {
        printf("%-14s", kinds[k].name);
        for (size_t s = 0; s < sizeof sizes / sizeof sizes[0]; s++) {
            kinds[k].fill(sizes[s]);
            printf("  %6zu bytes: %8.1f us", sizes[s], microseconds(sizes[s]));
        }
        printf("\n");
    }
    return 0;
}
