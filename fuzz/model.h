/* What the library has to answer, written from docs/WKB.md, docs/BOUNDER.md, docs/WINDOWS.md and docs/FOREIGN.md, and not from
 * its code: plain recursion over the bytes, and the rules for bounds and windows on doubles. */
#ifndef MODEL_H
#define MODEL_H

#include "pagebounds.h"

/* The number and place of the refusal of these bytes, or number 0 and the record of their shape under the hint. */
typedef struct {
    uint32_t number;
    size_t place;
    uint32_t code;
    size_t points;
    pagebounds_record record;
} model_shape;

model_shape model_read(const uint8_t *bytes, size_t length, pagebounds_pair hint);

void model_empty(pagebounds_record *record);
void model_merge(pagebounds_record *into, const pagebounds_record *other);
bool model_usable(const pagebounds_record *record);
pagebounds_bounds_told model_tell(const pagebounds_record *record, pagebounds_pair hint);

/* The status of a window's kind, axes and pairs, and the place of a refusal. */
int32_t model_window(const pagebounds_window *window, size_t *place);

/* The byte of a page, for a window whose status is 0. */
uint8_t model_byte(const pagebounds_record *record, pagebounds_pair hint, const pagebounds_window *window);

#endif
