/* Calls Sweep as the drawing program does: a sheet file and as many numbers as it has allowances, none to four.
 *
 *     examples/build && target/examples/sweep SHEET [P [Q [R [S]]]]
 */
#include <errno.h>
#include <stdio.h>
#include <stdlib.h>
#include <string.h>

#include "sweep.h"

/* One byte more than a sheet may have, so that a longer file is refused and not cut. */
enum { MOST = 4097 };

/* The byte of a sheet that has the count of its allowances. */
enum { ALLOWANCES = 22 };

static const char *meaning(int64_t answer) {
    switch (answer) {
    case SWEEP_RUN: return "a run follows the route";
    case SWEEP_VOID: return "no run follows the route";
    case SWEEP_SIZE: return "refused: the file's size";
    case SWEEP_CONTENTS: return "refused: the file's contents";
    case SWEEP_BODY: return "refused: a field of a body";
    case SWEEP_ROUTE: return "refused: the route does not link";
    case SWEEP_OUTSIDE: return "refused: a number outside its range";
    case SWEEP_WIDTHS: return "refused: the product of the ranges' widths";
    default: return "not an answer";
    }
}

static int number(const char *text, int64_t *to) {
    char *end;
    errno = 0;
    long long value = strtoll(text, &end, 10);
    if (errno != 0 || end == text || *end != '\0') return 0;
    *to = value;
    return 1;
}

int main(int count, char **words) {
    static uint8_t sheet[MOST];
    int64_t at[4] = {0, 0, 0, 0};
    if (count < 2 || count > 6) {
        fprintf(stderr, "usage: %s SHEET [P [Q [R [S]]]]\n", words[0]);
        return 2;
    }
    for (int i = 2; i < count; i++) {
        if (!number(words[i], &at[i - 2])) {
            fprintf(stderr, "%s: not a number: %s\n", words[0], words[i]);
            return 2;
        }
    }
    FILE *file = fopen(words[1], "rb");
    if (file == NULL) {
        fprintf(stderr, "%s: %s: %s\n", words[0], words[1], strerror(errno));
        return 2;
    }
    size_t length = fread(sheet, 1, MOST, file);
    if (ferror(file)) {
        fprintf(stderr, "%s: %s: cannot be read\n", words[0], words[1]);
        fclose(file);
        return 2;
    }
    fclose(file);
    int64_t answer = sweep_sheet(sheet, length, at[0], at[1], at[2], at[3]);
    int is_sheet = answer == SWEEP_RUN || answer == SWEEP_VOID || answer == SWEEP_OUTSIDE;
    if (is_sheet && count - 2 != sheet[ALLOWANCES]) {
        fprintf(stderr, "%s: %s: numbers given: %d; expected one for each allowance: %d\n", words[0], words[1], count - 2,
                sheet[ALLOWANCES]);
        return 2;
    }
    printf("%lld %s\n", (long long)answer, meaning(answer));
    return answer == SWEEP_RUN || answer == SWEEP_VOID ? 0 : 1;
}
