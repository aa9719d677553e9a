/*
 * Replays the calls of the frozen list (docs/TESTING.md, "The stream") through the archive, and holds each answer to
 * the one in the list, word by word. Fails where one differs, and where an exported function is not called at all.
 *   replay CALLS ANSWERS
 * It is compiled as C and as C++. calls.h, the sizes and places of the stream, is made by tests/calls.py.
 */
#include <stdio.h>
#include <stdlib.h>
#include <string.h>
#include <urtemval.h>

#include "calls.h"

enum { BLOCK = 65536 };

static void fail(const char *message)
{
    fprintf(stderr, "replay: %s\n", message);
    exit(1);
}

static float number(uint32_t word)
{
    float x;
    memcpy(&x, &word, sizeof x);
    return x;
}

static UrtemvalPoints points(const uint32_t *words)
{
    UrtemvalPoints x;
    memcpy(&x, words, sizeof x);
    return x;
}

/* Makes the call, if the function is exported, and says so. The records have the order of the stream's words. */
static int answer(uint32_t function, const uint32_t *in, uint32_t *out)
{
    UrtemvalPoints x, dx;
    UrtemvalLimits limits;
    UrtemvalValue value;
    UrtemvalRoots roots;
    UrtemvalDistance distance;
    UrtemvalSafeTime safe;
    switch (function) {
    case SQUARE_ROOT:
        value = urtemval_square_root(number(in[SQUARE_ROOT_X]));
        memcpy(out, &value, sizeof value);
        return 1;
    case SQUARED_DISTANCE:
        x = points(in + SQUARED_DISTANCE_X);
        distance = urtemval_squared_distance(&x, in[SQUARED_DISTANCE_SPLIT]);
        memcpy(out, &distance, sizeof distance);
        return 1;
    case MAX_RELATIVE_NORM:
        x = points(in + MAX_RELATIVE_NORM_X);
        value = urtemval_max_relative_norm(&x, in[MAX_RELATIVE_NORM_SPLIT]);
        memcpy(out, &value, sizeof value);
        return 1;
    case SCALE_PAIR:
        x = points(in + SCALE_PAIR_X);
        dx = points(in + SCALE_PAIR_DX);
        value = urtemval_scale_pair(&x, &dx, number(in[SCALE_PAIR_MAX_T]));
        memcpy(out, &value, sizeof value);
        memcpy(out + SCALE_PAIR_ANSWER_X, &x, sizeof x);
        memcpy(out + SCALE_PAIR_ANSWER_DX, &dx, sizeof dx);
        return 1;
    case QUADRATIC_ROOTS:
        roots = urtemval_quadratic_roots(number(in[QUADRATIC_ROOTS_C0]), number(in[QUADRATIC_ROOTS_C1]),
                                         number(in[QUADRATIC_ROOTS_C2]));
        memcpy(out, &roots, sizeof roots);
        return 1;
    case CUBIC_ROOTS:
        roots = urtemval_cubic_roots(number(in[CUBIC_ROOTS_C0]), number(in[CUBIC_ROOTS_C1]),
                                     number(in[CUBIC_ROOTS_C2]), number(in[CUBIC_ROOTS_C3]),
                                     number(in[CUBIC_ROOTS_T]), number(in[CUBIC_ROOTS_EPSILON]));
        memcpy(out, &roots, sizeof roots);
        return 1;
    case COPLANAR_TIMES:
        x = points(in + COPLANAR_TIMES_X0);
        dx = points(in + COPLANAR_TIMES_DX);
        roots = urtemval_coplanar_times(&x, &dx);
        memcpy(out, &roots, sizeof roots);
        return 1;
    case SAFE_TIME:
        x = points(in + SAFE_TIME_X0);
        dx = points(in + SAFE_TIME_DX);
        /* the record's fields are the stream's, in their order */
        memcpy(&limits, in + SAFE_TIME_OFFSET, sizeof limits);
        safe = urtemval_safe_time(&x, &dx, in[SAFE_TIME_SPLIT], limits);
        memcpy(out, &safe, sizeof safe);
        return 1;
    case SAFE_TIME_ALLOWING:
        x = points(in + SAFE_TIME_ALLOWING_X0);
        dx = points(in + SAFE_TIME_ALLOWING_DX);
        memcpy(&limits, in + SAFE_TIME_ALLOWING_OFFSET, sizeof limits);
        safe = urtemval_safe_time_allowing(&x, &dx, in[SAFE_TIME_ALLOWING_SPLIT], limits,
                                           in[SAFE_TIME_ALLOWING_ALLOWANCE]);
        memcpy(out, &safe, sizeof safe);
        return 1;
    default:
        return 0;
    }
}

/* A call that is refused leaves what it was lent bit for bit: also NaNs that the stream does not tell apart. */
static void refused_bits_stay(void)
{
    static const uint32_t odd[3] = {0x7fa12345u, 0xffc00001u, 0x80000000u};
    UrtemvalPoints x, dx, was;
    memset(&was, 0, sizeof was);
    memcpy(&was, odd, sizeof odd);
    memcpy(&x, &was, sizeof x);
    memcpy(&dx, &was, sizeof dx);
    if (urtemval_scale_pair(&x, &dx, 1).refusal != URTEMVAL_NOT_FINITE)
        fail("a pair with a NaN is scaled");
    if (memcmp(&x, &was, sizeof x) != 0 || memcmp(&dx, &was, sizeof dx) != 0)
        fail("a refused scaling changed what it was lent");
}

int main(int count, char **words)
{
    static uint32_t block[BLOCK / 4];
    uint32_t got[MOST_ANSWER_WORDS], want[MOST_ANSWER_WORDS];
    long calls[FUNCTIONS] = {0};
    long all = 0;
    size_t size;
    FILE *in = count == 3 ? fopen(words[1], "rb") : NULL;
    FILE *frozen = count == 3 ? fopen(words[2], "rb") : NULL;
    if (in == NULL || frozen == NULL)
        fail("usage: replay CALLS ANSWERS");
    while ((size = fread(block, 4, BLOCK / 4, in)) > 0) {
        size_t at = 0;
        while (at < size && block[at] != 0) {
            uint32_t f = block[at];
            if (f >= FUNCTIONS || at + 1 + call_words[f] > size)
                fail("the list of calls is damaged");
            if (fread(want, 4, answer_words[f], frozen) != answer_words[f])
                fail("the list of answers ends too early");
            if (answer(f, block + at + 1, got)) {
                if (memcmp(got, want, 4 * answer_words[f]) != 0) {
                    fprintf(stderr, "replay: call %ld, of urtemval_%s, is answered otherwise\n", calls[f], names[f]);
                    return 1;
                }
                calls[f]++;
                all++;
            }
            at += 1 + call_words[f];
        }
    }
    if (fgetc(frozen) != EOF)
        fail("there are more answers than calls");
    refused_bits_stay();
    for (int f = 1; f < FUNCTIONS; f++) {
        if (names[f][0] == 0)
            continue;
        if (calls[f] == 0) {
            fprintf(stderr, "replay: urtemval_%s is not called\n", names[f]);
            return 1;
        }
        printf("%s%s %ld", f == 1 ? "" : ", ", names[f], calls[f]);
    }
    printf("; %ld calls, all answered as in the frozen list\n", all);
    return 0;
}
