/* Keys that collide in the toolchain's hash tables, whose seed is fixed: a line in hexadecimal for each.
 * Usage: colliding FRONT LENGTH LETTERS COUNT, where each key is the bytes FRONT (hexadecimal, `-` for none) and so many letters
 * of LETTERS behind them (`-` stands for all 256 bytes). A key is hashed as its length in eight bytes, and then byte by byte.
 * Of the 32 bits of a hash a table takes the highest eight as a tag and as many of the lowest as it has groups; all keys have the
 * same tag and the same eleven lowest bits, which is enough for 18,000 entries. */
#include <stdint.h>
#include <stdio.h>
#include <stdlib.h>
#include <string.h>

#define MULTIPLIER UINT64_C(0x9e3779b97f4a7c15)
#define SEED UINT64_C(0x243f6a8885a308d3)
#define TAKEN UINT32_C(0xff0007ff)

static uint8_t key[4096], letters[256];
static size_t length, letter_count;
static long left;

static uint64_t folded(uint64_t a, uint64_t b) {
    unsigned __int128 product = (unsigned __int128)a * b;
    return (uint64_t)product ^ (uint64_t)(product >> 64);
}

/* What is hashed in one write of at most eight bytes. */
static uint64_t after(uint64_t state, uint64_t bytes, uint64_t count) {
    return folded(state ^ bytes, MULTIPLIER ^ (2 * count));
}

static uint64_t after_byte(uint64_t state, uint8_t byte) {
    return after(state, byte * UINT64_C(0x010101), 1);
}

static void print(void) {
    for (size_t i = 0; i < length; i++) {
        printf("%02x", key[i]);
    }
    putchar('\n');
}

/* Goes through all letters from `at` on, after the state of those before. */
static void search(uint64_t state, size_t at) {
    for (size_t i = 0; i < letter_count && left > 0; i++) {
        uint64_t next = after_byte(state, letters[i]);
        key[at] = letters[i];
        if (at + 1 < length) {
            search(next, at + 1);
        } else if (((uint32_t)(next ^ next >> 32) & TAKEN) == UINT32_C(0x5a000000)) {
            print();
            left--;
        }
    }
}

int main(int count, char **words) {
    if (count != 5) {
        fprintf(stderr, "usage: colliding FRONT LENGTH LETTERS COUNT\n");
        return 2;
    }
    size_t front = strcmp(words[1], "-") ? strlen(words[1]) / 2 : 0;
    length = front + strtoul(words[2], NULL, 10);
    left = strtol(words[4], NULL, 10);
    if (length > sizeof key || length == front) {
        return 2;
    }
    for (size_t i = 0; i < front; i++) {
        unsigned byte;
        sscanf(words[1] + 2 * i, "%2x", &byte);
        key[i] = (uint8_t)byte;
    }
    letter_count = strcmp(words[3], "-") ? strlen(words[3]) : 256;
    for (size_t i = 0; i < letter_count; i++) {
        letters[i] = letter_count == 256 ? (uint8_t)i : (uint8_t)words[3][i];
    }
    /* A number is read as two halves of four bytes, the lowest first. */
    uint64_t state = after(SEED, length, 8);
    for (size_t i = 0; i < front; i++) {
        state = after_byte(state, key[i]);
    }
    search(state, front);
    return left > 0;
}
