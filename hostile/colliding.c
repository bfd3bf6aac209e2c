/* Names that a hash table with a fixed seed takes for one another: colliding COUNT BITS

   It prints COUNT names of eight characters whose hashes agree in their lowest BITS bits, which choose the group of a table of 2^BITS groups or fewer, and in their
   highest eight, by which the places of a group are told apart. It is the hash that the tables of `fbr` use: state times a constant, the halves of the product joined. */
#include <stdint.h>
#include <stdio.h>
#include <stdlib.h>

static const uint64_t SEED = 0x243f6a8885a308d3, MULTIPLIER = 0x9e3779b97f4a7c15;
static const char LETTERS[] = "ABCDEFGHIJKLMNOPQRSTUVWXYZ0123456789";

static uint64_t folded(uint64_t a, uint64_t b) {
    unsigned __int128 product = (unsigned __int128)a * b;
    return (uint64_t)product ^ (uint64_t)(product >> 64);
}

static uint32_t hash_of(uint64_t word) {
    uint64_t state = folded(SEED ^ word, MULTIPLIER ^ 16);
    /* A byte of 255 ends a text. */
    state = folded(state ^ 0xffffff, MULTIPLIER ^ 2);
    return (uint32_t)(state ^ state >> 32);
}

/* The characters of a word, the lowest first. */
static void print(uint64_t word) {
    for (int at = 0; at < 8; at++) putchar((int)(word >> 8 * at & 0xff));
    putchar('\n');
}

int main(int count, char **words) {
    if (count != 3) return 2;
    long left = atol(words[1]);
    uint32_t mask = 0xff000000u | ((1u << atoi(words[2])) - 1);
    uint32_t wanted = hash_of(0x4f4c4c4944455321) & mask;
    /* The last three letters are tried together, and the four before them are counted. */
    for (uint32_t number = 0; left > 0; number++) {
        uint64_t front = 'Q';
        uint32_t rest = number;
        for (int at = 1; at < 5; at++) {
            front |= (uint64_t)LETTERS[rest % 36] << 8 * at;
            rest /= 36;
        }
        if (rest) return 1;
        for (int a = 0; a < 36; a++) {
            for (int b = 0; b < 36; b++) {
                uint64_t word = front | (uint64_t)LETTERS[a] << 40 | (uint64_t)LETTERS[b] << 48;
                for (int c = 0; c < 36; c++) {
                    uint64_t whole = word | (uint64_t)LETTERS[c] << 56;
                    if ((hash_of(whole) & mask) == wanted && left > 0) {
                        print(whole);
                        left--;
                    }
                }
            }
        }
    }
    return 0;
}
