/* Sums the points of `bench/make big 3600` by six seconds: a plain loop over the same coded blocks (ts_block's grammar),
   1,000 columns of 3,600 points. Prints the processor milliseconds of an answer, the mean of 100, and a sum to compare. */
#include <stdint.h>
#include <stdio.h>
#include <stdlib.h>
#include <time.h>

enum { COLUMNS = 1000, POINTS = 3600, MOST = 256, ROWS = POINTS / 6, ANSWERS = 100 };

struct block { uint8_t *steps, *values; int64_t first; int count; };

static struct block blocks[COLUMNS][(POINTS + MOST - 1) / MOST];

static uint8_t *put(uint8_t *at, uint64_t number) {
    for (; number >= 128; number /= 128) *at++ = 128 + number % 128;
    *at++ = number;
    return at;
}

static inline const uint8_t *get(const uint8_t *at, uint64_t *number) {
    uint64_t value = *at & 127;
    for (int shift = 7; *at++ >= 128; shift += 7) value += (uint64_t)(*at & 127) << shift;
    *number = value;
    return at;
}

static void encode(struct block *block, int column, int from, int count) {
    uint8_t *at = malloc(20 * count);
    block->first = from * INT64_C(1000000000);
    block->count = count;
    block->steps = at;
    for (int i = 1; i < count; i++) at = put(at, 999999999);
    block->values = at;
    for (int i = 0; i < count; i++) at = put(at, 2 * (uint64_t)(from + i) * column);
}

static __int128 rows[ROWS];

static void add(const struct block *block) {
    const uint8_t *steps = block->steps, *values = block->values;
    int64_t time = block->first;
    int row = time / INT64_C(6000000000);
    int64_t end = (row + 1) * INT64_C(6000000000);
    __int128 sum = 0;
    for (int left = block->count; left > 0; left--) {
        uint64_t number, step;
        if (time >= end) {
            rows[row++] += sum;
            sum = 0;
            end += INT64_C(6000000000);
        }
        values = get(values, &number);
        sum += (int64_t)(number / 2) ^ -(int64_t)(number % 2);
        if (left > 1) {
            steps = get(steps, &step);
            time += step + 1;
        }
    }
    rows[row] += sum;
}

int main(void) {
    for (int c = 0; c < COLUMNS; c++)
        for (int b = 0, from = 0; from < POINTS; b++, from += MOST)
            encode(&blocks[c][b], c, from, POINTS - from < MOST ? POINTS - from : MOST);
    struct timespec start, end;
    clock_gettime(CLOCK_PROCESS_CPUTIME_ID, &start);
    for (int answer = 0; answer < ANSWERS; answer++) {
        for (int r = 0; r < ROWS; r++) rows[r] = 0;
        for (int c = 0; c < COLUMNS; c++)
            for (int b = 0, from = 0; from < POINTS; b++, from += MOST) add(&blocks[c][b]);
    }
    clock_gettime(CLOCK_PROCESS_CPUTIME_ID, &end);
    double time = (end.tv_sec - start.tv_sec) * 1e3 + (end.tv_nsec - start.tv_nsec) / 1e6;
    printf("%.2f ms, the last row is %lld\n", time / ANSWERS, (long long)rows[ROWS - 1]);
    return 0;
}
