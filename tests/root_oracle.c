/* The judge of the square root: makes bit patterns, and holds the answers of `square_root_test` to the machine's own
   root.

   root_oracle patterns            writes the patterns, four bytes each, lowest first
   root_oracle judge PATTERNS ANSWERS
                                   compares; an answer is five bytes: 0 and the root's pattern, or 1 and the refusal
   root_oracle range FIRST LAST    compares the roots of these patterns, LAST left out, that root_range writes
   Ends with status 1 where an answer differs, is missing or is one too many, or where there are too few patterns. */
#include <math.h>
#include <stdint.h>
#include <stdio.h>
#include <stdlib.h>
#include <string.h>

enum { LEAST_COUNT = 2000000 };

static uint32_t pattern_of(float x) {
    uint32_t b;
    memcpy(&b, &x, sizeof b);
    return b;
}

static float float_of(uint32_t b) {
    float x;
    memcpy(&x, &b, sizeof x);
    return x;
}

/* ---- the patterns */

static void put(uint32_t b) {
    for (int i = 0; i < 4; i++) putchar(b >> (8 * i) & 0xff);
}

/* a pattern and its neighbours */
static void put_around(uint32_t b) {
    put(b - 1);
    put(b);
    put(b + 1);
}

static uint64_t state = 0x9e3779b97f4a7c15u;

static uint32_t random_word(void) {
    state ^= state << 13;
    state ^= state >> 7;
    state ^= state << 17;
    return (uint32_t)(state >> 16);
}

/* every exponent and sign, at the edges of its binade and about the middle */
static void put_edges(void) {
    static const uint32_t digits[] = {0, 1, 2, 3, 0x3fffff, 0x400000, 0x400001, 0x7ffffd, 0x7ffffe, 0x7fffff};
    for (uint32_t field = 0; field < 512; field++)
        for (size_t i = 0; i < sizeof digits / sizeof *digits; i++) put(field << 23 | digits[i]);
}

static void put_subnormals(void) {
    for (int i = 0; i < 23; i++) put_around(1u << i);
    for (int i = 0; i < 200000; i++) put(random_word() & 0x7fffff);
}

/* squares that an f32 holds, at many exponents, and their neighbours */
static void put_squares(void) {
    for (uint32_t r = 1; r < 4096; r++)
        for (int e = -146; e <= 100; e += 6) put_around(pattern_of(ldexpf((float)(r * r), e)));
}

/* next to the square of a middle between two roots, where a root that is one bit off shows */
static void put_middles(void) {
    for (int i = 0; i < 200000; i++) {
        double middle = (double)(0x800000 + (random_word() & 0x7fffff)) + 0.5;
        int e = (int)(random_word() % 120) - 90;
        put_around(pattern_of((float)ldexp(middle * middle, 2 * e)));
    }
}

static void put_random(void) {
    for (int i = 0; i < 1000000; i++) put(random_word());
}

/* ---- the judgement */

static int read_bytes(FILE *file, uint8_t *bytes, size_t count) { return fread(bytes, 1, count, file) == count; }

static uint32_t word(const uint8_t *bytes) {
    return bytes[0] | (uint32_t)bytes[1] << 8 | (uint32_t)bytes[2] << 16 | (uint32_t)bytes[3] << 24;
}

static int judge(FILE *patterns, FILE *answers) {
    uint8_t in[4], out[5];
    long count = 0, roots = 0, differences = 0;
    while (read_bytes(patterns, in, sizeof in)) {
        uint32_t b = word(in);
        float x = float_of(b);
        uint8_t kind = 1;
        uint32_t value;
        if (isnan(x) || isinf(x)) {
            value = 1;
        } else if (x < 0) {
            value = 2;
        } else {
            kind = 0;
            value = pattern_of(sqrtf(x)) & 0x7fffffff;
            roots++;
        }
        count++;
        if (!read_bytes(answers, out, sizeof out)) {
            printf("square root: no answer for %08x\n", b);
            return 1;
        }
        if (out[0] != kind || word(out + 1) != value) {
            if (differences++ < 10)
                printf("square root of %08x: %d %08x, not %d %08x\n", b, out[0], word(out + 1), kind, value);
        }
    }
    if (read_bytes(answers, out, 1)) {
        printf("square root: more answers than patterns\n");
        return 1;
    }
    printf("square root: %ld patterns, %ld of them roots, %ld differences\n", count, roots, differences);
    return differences > 0 || count < LEAST_COUNT;
}

static int judge_range(uint32_t first, uint32_t last) {
    static uint8_t bytes[4 * 16384];
    uint32_t next = first;
    long differences = 0;
    for (size_t got; (got = fread(bytes, 1, sizeof bytes, stdin)) > 0;) {
        for (size_t i = 0; i + 4 <= got && next < last; i += 4, next++) {
            uint32_t root = pattern_of(sqrtf(float_of(next)));
            if (word(bytes + i) != root && differences++ < 10)
                printf("square root of %08x: %08x, not %08x\n", next, word(bytes + i), root);
        }
        if (next == last) break;
    }
    if (next < last || getchar() != EOF) {
        printf("square root: fewer answers than patterns, or more\n");
        return 1;
    }
    printf("square root: %08x to %08x, %u patterns, %ld differences\n", first, last - 1, last - first, differences);
    return differences > 0;
}

int main(int argc, char **argv) {
    if (argc == 2 && !strcmp(argv[1], "patterns")) {
        put_edges();
        put_subnormals();
        put_squares();
        put_middles();
        put_random();
        return fflush(stdout) != 0;
    }
    if (argc == 4 && !strcmp(argv[1], "judge")) {
        FILE *patterns = fopen(argv[2], "rb");
        FILE *answers = fopen(argv[3], "rb");
        if (!patterns || !answers) {
            perror("root_oracle");
            return 1;
        }
        return judge(patterns, answers);
    }
    if (argc == 4 && !strcmp(argv[1], "range"))
        return judge_range((uint32_t)strtoul(argv[2], NULL, 0), (uint32_t)strtoul(argv[3], NULL, 0));
    fprintf(stderr, "usage: root_oracle patterns | judge PATTERNS ANSWERS | range FIRST LAST\n");
    return 2;
}
