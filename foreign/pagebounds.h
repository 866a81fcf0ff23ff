/* Page bounds for maps: the library for callers in C.
 *
 * Link with libforeign.a (`rt lib`, run in crates/foreign, makes crates/foreign/out/libforeign.a). Nothing else is needed: no call
 * allocates, keeps a pointer, or has any state, so calls from several threads do not disturb each other.
 *
 * WHAT A CALLER OWES. Every pointer is not null, also where its length is 0, is aligned for its type and points at as many
 * values as the length says; what is passed as const is not written meanwhile, and what a call writes overlaps nothing else
 * that the call was handed. A bool holds 0 or 1. Nothing tests this. Everything else is tested, and any numbers may be
 * handed, NaN and infinities too.
 *
 * STATUS. Every call but pagebounds_empty returns
 *      0       granted;
 *      1..13   refused by the library: the number of the refusal (docs/REFUSALS.md has all thirteen). These calls refuse
 *              with 1 to 6 (bytes), 11 and 12 (pairs) only. Where the call has a fault, it is written then;
 *      below 0 misused: one of the PAGEBOUNDS_BAD_ numbers below.
 * Where a call is not granted, everything that it was handed to write is left as it was, but for the fault of a refusal by
 * the library. Where it is granted, or misused, the fault is left as it was.
 */
#ifndef PAGEBOUNDS_H
#define PAGEBOUNDS_H

#include <stdbool.h>
#include <stddef.h>
#include <stdint.h>

#ifdef __cplusplus
extern "C" {
#endif

/* A window's kind is neither PAGEBOUNDS_ORDINARY nor PAGEBOUNDS_WRAPAROUND. */
#define PAGEBOUNDS_BAD_KIND (-1)
/* A window's `asked` is above PAGEBOUNDS_ASK_Z + PAGEBOUNDS_ASK_M. */
#define PAGEBOUNDS_BAD_ASKED (-2)
/* There are not as many verdicts as pages. */
#define PAGEBOUNDS_BAD_LENGTH (-3)
/* A record that no bounder keeps: some pair is neither the empty pair (+inf, -inf) nor lo <= hi, or codes is 2^28 or more. */
#define PAGEBOUNDS_BAD_RECORD (-4)

/* Two ends. As the bounds told of x, and as a window of kind PAGEBOUNDS_WRAPAROUND, a pair with lo above hi means the
 * values from lo on and those up to hi. */
typedef struct {
    double lo;
    double hi;
} pagebounds_pair;

/* Why the library refused: docs/REFUSALS.md. Layer 1 is the bytes, 4 a window's pairs; the place counts from 0. */
typedef struct {
    uint32_t number;
    uint32_t layer;
    size_t place;
} pagebounds_fault;

/* What is kept of the shapes of a page, under a hint: x in three bounds (of the runs left of the hint's middle, across it and
 * right of it), y, z and m, and the type codes met, a bit for each. The empty pair is (+inf, -inf). Records may be stored and
 * handed in again; keep the hint that they were filled under. */
typedef struct {
    pagebounds_pair x_left;
    pagebounds_pair x_mid;
    pagebounds_pair x_right;
    pagebounds_pair y;
    pagebounds_pair z;
    pagebounds_pair m;
    uint32_t codes;
} pagebounds_record;

/* What is told of a record: the bounds of each axis, and whether it has values. One without has the empty pair. */
typedef struct {
    pagebounds_pair x;
    pagebounds_pair y;
    pagebounds_pair z;
    pagebounds_pair m;
    bool has_x;
    bool has_y;
    bool has_z;
    bool has_m;
    uint32_t codes;
} pagebounds_bounds_told;

/* The type code whose bit is 1 << place, for places 0 to 27: the kind, 1 to 7, plus 0, 1000, 2000 or 3000. */
static inline uint32_t pagebounds_code(uint32_t place) { return 1000 * (place / 7) + place % 7 + 1; }

#define PAGEBOUNDS_ORDINARY 0
#define PAGEBOUNDS_WRAPAROUND 1
#define PAGEBOUNDS_ASK_Z 1
#define PAGEBOUNDS_ASK_M 2

/* A window: the kind of its bounds of x, which of z and m are asked for beside x and y (PAGEBOUNDS_ASK_Z, PAGEBOUNDS_ASK_M,
 * their sum or 0), and its pairs. The pair of an axis that is not asked for is not looked at. */
typedef struct {
    uint32_t kind;
    uint32_t asked;
    pagebounds_pair x;
    pagebounds_pair y;
    pagebounds_pair z;
    pagebounds_pair m;
} pagebounds_window;

/* The bytes of verdicts. */
#define PAGEBOUNDS_SKIP 0      /* no run of the page's shapes meets the window */
#define PAGEBOUNDS_KEEP 1      /* on each axis asked for, what is told of the page shares a value with the window */
#define PAGEBOUNDS_REFUSED 2   /* refusal 12: the page's x pair wraps, and the window is ordinary */
#define PAGEBOUNDS_NO_RECORD 3 /* PAGEBOUNDS_BAD_RECORD */

/* Whether the bytes hold one whole shape in ISO WKB, at most 32 levels deep.
 * Refuses with 1 to 6: the first fault in reading order, and its byte. */
int32_t pagebounds_check(const uint8_t *bytes, size_t length, pagebounds_fault *fault);

/* The record of the one shape that the bytes hold, under the hint, and what is told of it.
 * The hint is any pair; (+inf, -inf) is none. Refuses as pagebounds_check does. */
int32_t pagebounds_bounds(const uint8_t *bytes, size_t length, const pagebounds_pair *hint, pagebounds_bounds_told *told,
                          pagebounds_record *record, pagebounds_fault *fault);

/* The record of no shapes. */
void pagebounds_empty(pagebounds_record *record);

/* Adds the shape that the bytes hold to the record of a page, which was filled under this hint.
 * Misused with PAGEBOUNDS_BAD_RECORD; then refuses as pagebounds_check does. */
int32_t pagebounds_add(pagebounds_record *record, const uint8_t *bytes, size_t length, const pagebounds_pair *hint,
                       pagebounds_fault *fault);

/* What is told of a record under the hint that it was filled under. Misused with PAGEBOUNDS_BAD_RECORD. */
int32_t pagebounds_tell(const pagebounds_record *record, const pagebounds_pair *hint, pagebounds_bounds_told *told);

/* PAGEBOUNDS_SKIP or PAGEBOUNDS_KEEP for one page, under the hint that it was filled under.
 * Misused with PAGEBOUNDS_BAD_KIND, then with PAGEBOUNDS_BAD_ASKED; refuses with 11 or 12 a window's pair that its kind
 * cannot take, in the order x, y, z, m; misused with PAGEBOUNDS_BAD_RECORD; refuses with 12 a page whose x pair the window's
 * kind cannot take. */
int32_t pagebounds_verdict(const pagebounds_record *record, const pagebounds_pair *hint, const pagebounds_window *window,
                           uint8_t *verdict, pagebounds_fault *fault);

/* A verdict for each page, all filled under this hint: one of the four bytes. A page that gets PAGEBOUNDS_REFUSED or
 * PAGEBOUNDS_NO_RECORD does not keep the others from theirs, and the status is 0 all the same.
 * Misused with PAGEBOUNDS_BAD_KIND, PAGEBOUNDS_BAD_ASKED, then PAGEBOUNDS_BAD_LENGTH; refuses a window's pairs as
 * pagebounds_verdict does. */
int32_t pagebounds_verdicts(const pagebounds_record *records, size_t pages, const pagebounds_pair *hint,
                            const pagebounds_window *window, uint8_t *verdicts, size_t length, pagebounds_fault *fault);

#ifdef __cplusplus
}
#endif

#endif
