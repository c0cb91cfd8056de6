/* Sweep: does a run follow the route of a sheet with its parameters at given numbers?
 *
 * Link with libsweep_c.a (`tools/prove lib sweep_c` writes target/staticlib/libsweep_c.a); it needs only memcpy, memmove and memset.
 */
#ifndef SWEEP_H
#define SWEEP_H

#include <stddef.h>
#include <stdint.h>

#ifdef __cplusplus
extern "C" {
#endif

enum {
    SWEEP_RUN = 0,      /* a run follows the route */
    SWEEP_VOID = 1,     /* no run does */
    SWEEP_SIZE = 2,     /* refused: the file has fewer than 22 or more than 4,096 bytes */
    SWEEP_CONTENTS = 3, /* refused: version, count, a kind, an offset or a length is wrong */
    SWEEP_BODY = 4,     /* refused: a field of a body is wrong, or its end is */
    SWEEP_ROUTE = 5,    /* refused: the route's moves do not link */
    SWEEP_OUTSIDE = 6,  /* refused: a number lies outside its range, or is not 0 where the sheet has no such allowance */
    SWEEP_WIDTHS = 16   /* refused: the product of the ranges' widths passes 262,144 */
};

/* sheet: the bytes of a sheet file, length of them. A length of 0 is answered too (2); sheet is then not read, but may not be null.
 * p1, p2, p3, p4: one number for each allowance of the sheet, in order; 0 for one that it lacks. Any four numbers are answered.
 * Returns one of the numbers above.
 *
 * It reads only the given bytes, writes nothing, keeps nothing between calls, allocates nothing and always returns. It may be called
 * from any thread, also at the same time. A call takes some 10 KB of the stack.
 */
int64_t sweep_sheet(const uint8_t *sheet, size_t length, int64_t p1, int64_t p2, int64_t p3, int64_t p4);

#ifdef __cplusplus
}
#endif

#endif
