/* The library's square roots of a range of bit patterns, for root_oracle to judge.

   root_range FIRST LAST    writes the root of each pattern from FIRST up to LAST, which is left out: four bytes, lowest
                            first; all ones where it is refused */
#include <stdio.h>
#include <stdlib.h>
#include <string.h>

#include "urtemval.h"

enum { BLOCK = 16384 };

int main(int argc, char **argv) {
    static uint8_t bytes[4 * BLOCK];
    if (argc != 3) return 2;
    uint32_t next = (uint32_t)strtoul(argv[1], NULL, 0), last = (uint32_t)strtoul(argv[2], NULL, 0);
    while (next < last) {
        size_t count = 0;
        for (; count < BLOCK && next < last; count++, next++) {
            float x;
            memcpy(&x, &next, sizeof x);
            UrtemvalValue root = urtemval_square_root(x);
            uint32_t b = 0xffffffff;
            if (!root.refusal) memcpy(&b, &root.value, sizeof b);
            for (int i = 0; i < 4; i++) bytes[4 * count + i] = (uint8_t)(b >> (8 * i));
        }
        if (fwrite(bytes, 4, count, stdout) != count) return 1;
    }
    return fflush(stdout) != 0;
}
