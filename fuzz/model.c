#include "model.h"

#include <math.h>
#include <string.h>

static const pagebounds_pair NONE = {INFINITY, -INFINITY};

/* ---- pairs */

static void widen(pagebounds_pair *p, pagebounds_pair q) {
    if (q.lo < p->lo)
        p->lo = q.lo;
    if (q.hi > p->hi)
        p->hi = q.hi;
}

static bool empty(pagebounds_pair p) { return p.hi - p.lo == -INFINITY; }

void model_empty(pagebounds_record *r) {
    r->x_left = r->x_mid = r->x_right = r->y = r->z = r->m = NONE;
    r->codes = 0;
}

void model_merge(pagebounds_record *r, const pagebounds_record *o) {
    widen(&r->x_left, o->x_left);
    widen(&r->x_mid, o->x_mid);
    widen(&r->x_right, o->x_right);
    widen(&r->y, o->y);
    widen(&r->z, o->z);
    widen(&r->m, o->m);
    r->codes |= o->codes;
}

/* ---- bytes */

typedef struct {
    const uint8_t *bytes;
    size_t length, at;
    pagebounds_pair hint;
    model_shape *shape;
} reader;

static bool refuse(reader *r, uint32_t number, size_t place) {
    r->shape->number = number;
    r->shape->place = place;
    return false;
}

static uint64_t number_at(const uint8_t *b, int n, bool little) {
    uint64_t v = 0;
    for (int i = 0; i < n; i++)
        v |= (uint64_t)b[i] << 8 * (little ? i : n - 1 - i);
    return v;
}

static bool field(reader *r, int n, bool little, uint64_t *v) {
    if (r->length - r->at < (size_t)n)
        return refuse(r, 1, r->at);
    *v = number_at(r->bytes + r->at, n, little);
    r->at += n;
    return true;
}

/* One run of points, whose hulls go to the record. */
static bool run(reader *r, uint64_t count, int dim, bool little) {
    pagebounds_pair hull[4] = {NONE, NONE, NONE, NONE};
    static const int axes[4][4] = {{0, 1, -1}, {0, 1, 2, -1}, {0, 1, 3, -1}, {0, 1, 2, 3}};
    for (uint64_t i = 0; i < count; i++) {
        for (int a = 0; a < 4 && axes[dim][a] >= 0; a++) {
            uint64_t bits;
            double v;
            if (!field(r, 8, little, &bits))
                return false;
            memcpy(&v, &bits, 8);
            if (v == v)
                widen(&hull[axes[dim][a]], (pagebounds_pair){v, v});
        }
        r->shape->points++;
    }
    double width = r->hint.hi - r->hint.lo;
    bool too_wide = isfinite(r->hint.lo) && isfinite(r->hint.hi) && width == INFINITY;
    double middle = too_wide ? INFINITY : r->hint.lo + width / 2;
    pagebounds_record *kept = &r->shape->record;
    if (hull[0].hi < middle)
        widen(&kept->x_left, hull[0]);
    else if (middle < hull[0].lo)
        widen(&kept->x_right, hull[0]);
    else
        widen(&kept->x_mid, hull[0]);
    widen(&kept->y, hull[1]);
    widen(&kept->z, hull[2]);
    widen(&kept->m, hull[3]);
    return true;
}

static bool shape(reader *r, int level, int outer_kind, int outer_dim) {
    uint64_t order, code, count, points;
    size_t start = r->at;
    if (level > 32)
        return refuse(r, 5, start);
    if (!field(r, 1, true, &order))
        return false;
    if (order > 1)
        return refuse(r, 2, start);
    bool little = order == 1;
    if (!field(r, 4, little, &code))
        return false;
    int kind = code % 1000, dim = code / 1000 > 3 ? -1 : (int)(code / 1000);
    if (kind < 1 || kind > 7 || dim < 0)
        return refuse(r, 3, start + 1);
    if (outer_kind && (dim != outer_dim || (outer_kind != 7 && outer_kind != kind + 3)))
        return refuse(r, 4, start + 1);
    if (!outer_kind)
        r->shape->code = (uint32_t)code;
    if (kind == 1)
        return run(r, 1, dim, little);
    if (!field(r, 4, little, &count))
        return false;
    if (kind == 2)
        return run(r, count, dim, little);
    for (uint64_t i = 0; i < count; i++)
        if (kind == 3 ? !(field(r, 4, little, &points) && run(r, points, dim, little)) : !shape(r, level + 1, kind, dim))
            return false;
    return true;
}

model_shape model_read(const uint8_t *bytes, size_t length, pagebounds_pair hint) {
    model_shape found = {0};
    model_empty(&found.record);
    reader r = {bytes, length, 0, hint, &found};
    if (shape(&r, 1, 0, 0) && r.at < length)
        refuse(&r, 6, r.at);
    if (found.number == 0)
        found.record.codes = 1u << (found.code / 1000 * 7 + found.code % 1000 - 1);
    return found;
}

/* ---- records */

static bool usable(pagebounds_pair p) { return p.lo <= p.hi || (p.lo == INFINITY && p.hi == -INFINITY); }

bool model_usable(const pagebounds_record *r) {
    return usable(r->x_left) && usable(r->x_mid) && usable(r->x_right) && usable(r->y) && usable(r->z) && usable(r->m) &&
           r->codes < 1u << 28;
}

pagebounds_bounds_told model_tell(const pagebounds_record *r, pagebounds_pair hint) {
    pagebounds_pair all = r->x_left;
    widen(&all, r->x_mid);
    widen(&all, r->x_right);
    double outer = (r->x_left.hi - hint.lo) + (hint.hi - r->x_right.lo);
    bool ordinary = !empty(r->x_mid) || !(hint.lo <= all.lo && all.hi <= hint.hi) || empty(r->x_left) != empty(r->x_right) ||
                    all.hi - all.lo < outer;
    pagebounds_pair x = ordinary ? all : (pagebounds_pair){r->x_right.lo, r->x_left.hi};
    pagebounds_bounds_told told;
    memset(&told, 0, sizeof told);
    told.has_x = !empty(all);
    told.has_y = !empty(r->y);
    told.has_z = !empty(r->z);
    told.has_m = !empty(r->m);
    told.x = told.has_x ? x : NONE;
    told.y = told.has_y ? r->y : NONE;
    told.z = told.has_z ? r->z : NONE;
    told.m = told.has_m ? r->m : NONE;
    told.codes = r->codes;
    return told;
}

/* ---- windows */

static int32_t taken(pagebounds_pair p, bool wraps, size_t *place) {
    *place = !isnan(p.lo) && isnan(p.hi);
    if (isnan(p.lo) || isnan(p.hi))
        return 11;
    return p.hi < p.lo && (!wraps || empty(p)) ? 12 : 0;
}

int32_t model_window(const pagebounds_window *w, size_t *place) {
    int32_t status;
    if (w->kind > 1)
        return PAGEBOUNDS_BAD_KIND;
    if (w->asked > 3)
        return PAGEBOUNDS_BAD_ASKED;
    if ((status = taken(w->x, w->kind == 1, place)) || (status = taken(w->y, false, place)))
        return status;
    if (w->asked & 1 && (status = taken(w->z, false, place)))
        return status;
    return w->asked & 2 ? taken(w->m, false, place) : 0;
}

/* Whether two stored pairs share a value: one that goes down has two sides. */
static bool share(pagebounds_pair p, pagebounds_pair q) {
    if (p.lo > p.hi)
        return share((pagebounds_pair){-INFINITY, p.hi}, q) || share((pagebounds_pair){p.lo, INFINITY}, q);
    if (q.lo > q.hi)
        return share(q, p);
    return p.lo <= q.hi && q.lo <= p.hi;
}

uint8_t model_byte(const pagebounds_record *r, pagebounds_pair hint, const pagebounds_window *w) {
    size_t place;
    if (!model_usable(r))
        return PAGEBOUNDS_NO_RECORD;
    pagebounds_bounds_told told = model_tell(r, hint);
    if (!told.has_x)
        return PAGEBOUNDS_SKIP;
    if (taken(told.x, w->kind == 1, &place))
        return PAGEBOUNDS_REFUSED;
    bool met = share(told.x, w->x) && told.has_y && share(told.y, w->y) && (!(w->asked & 1) || (told.has_z && share(told.z, w->z))) &&
               (!(w->asked & 2) || (told.has_m && share(told.m, w->m)));
    return met ? PAGEBOUNDS_KEEP : PAGEBOUNDS_SKIP;
}
