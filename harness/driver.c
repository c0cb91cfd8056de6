/* Calls Sweep from C on the cases of a file and compares each answer with the one stored there. Built with the address and
 * undefined-behaviour sanitizers: the bytes of a case lie in a block of just that size, and once more on the stack.
 *
 * A record of the file: length (u32), bytes, four numbers and the answer (i64), all little-endian.
 */
#include <inttypes.h>
#include <stdio.h>
#include <stdlib.h>
#include <string.h>

#include "sweep.h"

/* The most bytes of a case. */
enum { MOST = 3 * 4096 };

struct record {
    uint32_t length;
    uint8_t *bytes;
    int64_t numbers[4];
    int64_t answer;
};

/* Reads n bytes, or ends the program if the file stops before them. */
static void must_read(FILE *file, void *to, size_t n) {
    if (n != 0 && fread(to, 1, n, file) != n) {
        fputs("driver: the last case is not whole\n", stderr);
        exit(1);
    }
}

/* A number of n bytes, the low one first. */
static uint64_t number(FILE *file, size_t n) {
    uint8_t bytes[8];
    uint64_t value = 0;
    must_read(file, bytes, n);
    for (size_t i = n; i > 0; i--)
        value = value << 8 | bytes[i - 1];
    return value;
}

/* A number of eight bytes with sign. */
static int64_t number_with_sign(FILE *file) {
    uint64_t bits = number(file, 8);
    int64_t value;
    memcpy(&value, &bits, sizeof value);
    return value;
}

/* Reads the next record, and answers whether there was one. */
static int next_record(FILE *file, struct record *record) {
    int c = getc(file);
    if (c == EOF)
        return 0;
    ungetc(c, file);
    record->length = (uint32_t)number(file, 4);
    if (record->length > MOST) {
        fputs("driver: a case is too long\n", stderr);
        exit(1);
    }
    record->bytes = malloc(record->length);
    if (record->bytes == NULL) {
        fputs("driver: no memory\n", stderr);
        exit(1);
    }
    must_read(file, record->bytes, record->length);
    for (int i = 0; i < 4; i++)
        record->numbers[i] = number_with_sign(file);
    record->answer = number_with_sign(file);
    return 1;
}

/* The answer for a record whose bytes lie there. */
static int64_t answer(const struct record *record, const uint8_t *bytes) {
    const int64_t *v = record->numbers;
    return sweep_sheet(bytes, record->length, v[0], v[1], v[2], v[3]);
}

/* The answer with the bytes on the stack. */
static int64_t answer_on_stack(const struct record *record) {
    uint8_t bytes[MOST];
    uint8_t *at = bytes + (MOST - record->length);
    memcpy(at, record->bytes, record->length);
    return answer(record, at);
}

int main(int count, char **words) {
    if (count != 2) {
        fputs("use: driver FILE\n", stderr);
        return 1;
    }
    FILE *file = fopen(words[1], "rb");
    if (file == NULL) {
        perror(words[1]);
        return 1;
    }
    struct record record;
    unsigned long done = 0;
    while (next_record(file, &record)) {
        int64_t first = answer(&record, record.bytes);
        int64_t second = answer_on_stack(&record);
        if (first != record.answer || second != record.answer) {
            fprintf(stderr, "driver: case %lu: %" PRId64 " and %" PRId64 " instead of %" PRId64 "\n", done, first, second, record.answer);
            return 1;
        }
        free(record.bytes);
        done++;
    }
    fclose(file);
    printf("driver: %lu cases agree\n", done);
    return 0;
}
