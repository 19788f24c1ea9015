// The plain word loop over the same rows, for comparison with bit_rows.
#include <stdint.h>
#include <stdio.h>
#include <stdlib.h>
#include <time.h>

enum { ROWS = 4096, WORDS = 512, PASSES = 20 };

__attribute__((noinline)) static int union_with(uint64_t *row, const uint64_t *other, size_t words) {
    uint64_t changes = 0;
    for (size_t k = 0; k < words; k++) {
        uint64_t old = row[k];
        row[k] = old | other[k];
        changes |= old ^ row[k];
    }
    return changes != 0;
}

__attribute__((noinline)) static int meet_with(uint64_t *row, const uint64_t *other, size_t words) {
    uint64_t changes = 0;
    for (size_t k = 0; k < words; k++) {
        uint64_t old = row[k];
        row[k] = old & other[k];
        changes |= old ^ row[k];
    }
    return changes != 0;
}

__attribute__((noinline)) static uint32_t count(const uint64_t *row, size_t words) {
    uint32_t total = 0;
    for (size_t k = 0; k < words; k++) {
        total += (uint32_t)__builtin_popcountll(row[k]);
    }
    return total;
}

static uint64_t now(void) {
    struct timespec t;
    clock_gettime(CLOCK_MONOTONIC, &t);
    return (uint64_t)t.tv_sec * 1000000000u + (uint64_t)t.tv_nsec;
}

static uint64_t *rows[ROWS];

static uint64_t pass(int operation, const uint64_t *other, uint64_t *answer) {
    uint64_t start = now();
    uint64_t sum = 0;
    for (size_t i = 0; i < ROWS; i++) {
        if (operation == 0) sum += (uint64_t)union_with(rows[i], other, WORDS);
        if (operation == 1) sum += (uint64_t)meet_with(rows[i], other, WORDS);
        if (operation == 2) sum += count(rows[i], WORDS);
    }
    *answer = sum;
    return now() - start;
}

int main(void) {
    static const char *names[] = {"union_with", "meet_with", "count"};
    uint64_t other[WORDS] = {0};
    for (size_t i = 0; i < ROWS; i++) {
        rows[i] = calloc(WORDS, sizeof **rows);
        if (!rows[i]) return 1;
        for (size_t at = i % 13; at < 64 * WORDS; at += 13) rows[i][at / 64] |= (uint64_t)1 << (at % 64);
    }
    for (size_t at = 0; at < 64 * WORDS; at += 3) other[at / 64] |= (uint64_t)1 << (at % 64);
    for (int operation = 0; operation < 3; operation++) {
        uint64_t best = UINT64_MAX, first = 0, last = 0;
        for (int i = 0; i < PASSES; i++) {
            uint64_t taken = pass(operation, other, &last);
            if (i == 0) first = last;
            if (taken < best) best = taken;
        }
        printf("%s %llu %llu %llu\n", names[operation], (unsigned long long)best, (unsigned long long)first, (unsigned long long)last);
    }
    return 0;
}
