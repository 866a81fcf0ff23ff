/* fuzz SECONDS SEED FILE...: hands random inputs to the exported functions and compares every answer with model.c.
 * FILEs have a shape on each line, in hexadecimal digits up to a tab. Bytes, records and verdicts lie against a page that cannot
 * be touched, at their end or at their start, so that reading or writing past them stops the program. */
#include "model.h"

#include <math.h>
#include <stdio.h>
#include <stdlib.h>
#include <string.h>
#include <sys/mman.h>
#include <time.h>

/* ---- random numbers */

static uint64_t state;

static uint64_t draw(void) {
    state ^= state << 13, state ^= state >> 7, state ^= state << 17;
    return state * 2685821657736338717u;
}

static size_t below(size_t n) { return (draw() >> 16) % n; }

static double number(void) {
    static const double edges[] = {0, -0.0, 1, -1, 180, -180, 179, -179, 90, -90, 10, 1e308, -1e308, 5e-324, -5e-324, INFINITY, -INFINITY, NAN, 1.7976931348623157e308, 2.2250738585072014e-308};
    switch (below(4)) {
    case 0:
        return edges[below(sizeof edges / sizeof *edges)];
    case 1: {
        uint64_t bits = draw();
        double v;
        memcpy(&v, &bits, 8);
        return v;
    }
    case 2:
        return (double)below(361) - 180;
    default:
        return ((double)draw() / 18446744073709551616.0 - 0.5) * 400;
    }
}

static pagebounds_pair pair(void) {
    pagebounds_pair p = {number(), number()};
    if (below(4) && p.lo > p.hi)
        p = (pagebounds_pair){p.hi, p.lo};
    return p;
}

static pagebounds_pair hint(void) {
    if (below(3) == 0)
        return pair();
    return below(2) ? (pagebounds_pair){-180, 180} : (pagebounds_pair){INFINITY, -INFINITY};
}

/* ---- memory against a page that cannot be touched */

#define ROOM (1 << 20)
#define PAGE 4096

static uint8_t *fence(void) {
    uint8_t *at = mmap(NULL, ROOM + 2 * PAGE, PROT_NONE, MAP_PRIVATE | MAP_ANONYMOUS, -1, 0);
    if (at == MAP_FAILED || mprotect(at + PAGE, ROOM, PROT_READ | PROT_WRITE))
        exit(2);
    return at + PAGE;
}

static uint8_t *fenced(uint8_t *area, size_t length) { return below(4) ? area + ROOM - length : area; }

/* ---- counts and failures */

static uint64_t inputs, granted, refusals[14], points, records, bad_records, windows, window_refusals, verdicts[4], failures;

static void fail(const char *what, const uint8_t *bytes, size_t length) {
    printf("FAILED: %s\n ", what);
    for (size_t i = 0; i < length && i < 400; i++)
        printf("%02x", bytes[i]);
    printf("\n");
    if (++failures > 20)
        exit(1);
}

#define CHECK(test)                             \
    do {                                        \
        if (!(test))                            \
            fail(#test, subject, subject_size); \
    } while (0)

static const uint8_t *subject;
static size_t subject_size;

static bool same(pagebounds_pair p, pagebounds_pair q) { return p.lo == q.lo && p.hi == q.hi; }

static bool same_record(const pagebounds_record *a, const pagebounds_record *b) {
    return same(a->x_left, b->x_left) && same(a->x_mid, b->x_mid) && same(a->x_right, b->x_right) && same(a->y, b->y) &&
           same(a->z, b->z) && same(a->m, b->m) && a->codes == b->codes;
}

static bool same_told(const pagebounds_bounds_told *a, const pagebounds_bounds_told *b) {
    return same(a->x, b->x) && same(a->y, b->y) && same(a->z, b->z) && same(a->m, b->m) && a->has_x == b->has_x &&
           a->has_y == b->has_y && a->has_z == b->has_z && a->has_m == b->has_m && a->codes == b->codes;
}

/* ---- shapes */

typedef struct {
    uint8_t bytes[ROOM];
    size_t length;
} text;

static void put(text *t, uint64_t v, int n, bool little) {
    if (t->length + n > ROOM)
        return;
    for (int i = 0; i < n; i++)
        t->bytes[t->length++] = (uint8_t)(v >> 8 * (little ? i : n - 1 - i));
}

static uint32_t count(void) {
    static const uint32_t huge[] = {0xffffffff, 0x80000000, 0x7fffffff, 0x10000000, 65536};
    return below(60) ? (uint32_t)below(below(20) ? 5 : 60) : huge[below(5)];
}

static void ordinates(text *t, uint32_t n, int dim, bool little) {
    static const int widths[4] = {2, 3, 3, 4};
    for (uint32_t i = 0; i < n && i < 60; i++)
        for (int a = 0; a < widths[dim]; a++) {
            double v = number();
            uint64_t bits;
            memcpy(&bits, &v, 8);
            put(t, bits, 8, little);
        }
}

/* A shape of that kind, or of any where it is 0. It is right in most cases. */
static void draw_shape(text *t, int level, int kind, int dim) {
    bool little = below(2);
    if (kind == 0)
        kind = level > 4 ? 1 + below(3) : 1 + below(7);
    put(t, below(200) ? little : below(256), 1, little);
    put(t, (below(200) ? (size_t)dim : below(5)) * 1000 + (below(200) ? (size_t)kind : below(9)), 4, little);
    if (kind == 1) {
        ordinates(t, 1, dim, little);
        return;
    }
    uint32_t n = count();
    put(t, n, 4, little);
    if (kind == 2)
        ordinates(t, n, dim, little);
    for (uint32_t i = 0; kind > 2 && i < n && i < 60; i++)
        if (kind == 3) {
            uint32_t ring = count();
            put(t, ring, 4, little);
            ordinates(t, ring, dim, little);
        } else {
            draw_shape(t, level + 1, kind == 7 ? 0 : kind - 3, dim);
        }
}

/* 29 to 34 collections in one another, and something in the last. */
static void draw_chain(text *t) {
    int levels = 29 + below(6), dim = below(4);
    for (int i = 0; i < levels; i++) {
        bool little = below(2);
        put(t, little, 1, little);
        put(t, dim * 1000 + 7, 4, little);
        put(t, i + 1 < levels || below(2) ? 1 : below(3), 4, little);
    }
    if (below(4))
        draw_shape(t, 5, 0, dim);
}

static char (*lines)[4096];
static size_t line_count;

static void read_lines(const char *path) {
    FILE *f = fopen(path, "r");
    static char buffer[1 << 20];
    while (f && fgets(buffer, sizeof buffer, f)) {
        size_t digits = strspn(buffer, "0123456789abcdefABCDEF");
        if (digits == 0 || digits >= sizeof *lines)
            continue;
        lines = realloc(lines, (line_count + 1) * sizeof *lines);
        memcpy(lines[line_count], buffer, digits);
        lines[line_count++][digits] = 0;
    }
    if (f)
        fclose(f);
}

static void from_line(text *t, const char *digits) {
    for (; digits[0] && digits[1]; digits += 2) {
        unsigned v;
        sscanf(digits, "%2x", &v);
        t->bytes[t->length++] = (uint8_t)v;
    }
}

static void damage(text *t) {
    for (size_t times = below(3); times > 0 && t->length > 0; times--) {
        size_t at = below(t->length);
        switch (below(6)) {
        case 0:
            t->bytes[at] ^= 1 << below(8);
            break;
        case 1:
            t->bytes[at] = (uint8_t)draw();
            break;
        case 2:
            t->length = at;
            break;
        case 3:
            for (size_t n = 1 + below(9); n > 0 && t->length < ROOM; n--)
                t->bytes[t->length++] = (uint8_t)draw();
            break;
        case 4:
            memmove(t->bytes + at, t->bytes + at + 1, t->length - at - 1);
            t->length--;
            break;
        default:
            if (at + 4 <= t->length) {
                uint32_t n = count();
                memcpy(t->bytes + at, &n, 4);
            }
        }
    }
}

static void draw_text(text *t) {
    t->length = 0;
    switch (below(8)) {
    case 0:
        for (size_t n = below(200); n > 0; n--)
            t->bytes[t->length++] = (uint8_t)draw();
        if (t->length > 5 && below(4))
            memcpy(t->bytes, (uint8_t[]){1, (uint8_t)(1 + below(7)), 0, 0, 0}, 5);
        return;
    case 1:
        draw_chain(t);
        break;
    case 2:
    case 3:
        if (line_count > 0)
            from_line(t, lines[below(line_count)]);
        break;
    default:
        draw_shape(t, 1, 0, below(4));
    }
    if (below(2))
        damage(t);
}

/* ---- what is asked of bytes */

static pagebounds_record page;
static pagebounds_pair page_hint;

static void ask_bytes(const uint8_t *bytes, size_t length) {
    subject = bytes, subject_size = length;
    pagebounds_pair h = below(2) ? page_hint : hint();
    model_shape want = model_read(bytes, length, h);
    pagebounds_fault fault = {77, 77, 77};
    pagebounds_bounds_told told, told_before;
    pagebounds_record record, before;
    memset(&record, 0x5a, sizeof record), before = record;
    memset(&told, 1, sizeof told), told_before = told;
    int32_t status = pagebounds_check(bytes, length, &fault);
    CHECK(status == (int32_t)want.number);
    CHECK(status ? fault.number == want.number && fault.layer == 1 && fault.place == want.place : fault.number == 77);
    CHECK(pagebounds_bounds(bytes, length, &h, &told, &record, &fault) == status);
    if (status) {
        CHECK(fault.place == want.place && fault.number == want.number);
        CHECK(!memcmp(&record, &before, sizeof record) && !memcmp(&told, &told_before, sizeof told));
    } else {
        pagebounds_bounds_told expected = model_tell(&want.record, h);
        CHECK(same_record(&record, &want.record) && same_told(&told, &expected) && fault.number == 77);
        pagebounds_bounds_told again;
        CHECK(pagebounds_tell(&record, &h, &again) == 0 && same_told(&again, &expected));
    }
    before = page;
    pagebounds_record sum = page;
    model_shape on_page = model_read(bytes, length, page_hint);
    model_merge(&sum, &on_page.record);
    CHECK(pagebounds_add(&page, bytes, length, &page_hint, &fault) == status);
    CHECK(status ? !memcmp(&page, &before, sizeof page) : same_record(&page, &sum));
    inputs++, refusals[status]++, granted += status == 0, points += want.points;
    if (below(50) == 0)
        pagebounds_empty(&page), page_hint = hint();
}

/* ---- what is asked of records */

static pagebounds_pair kept_pair(void) {
    if (below(3) == 0)
        return (pagebounds_pair){INFINITY, -INFINITY};
    return pair();
}

static pagebounds_record draw_record(pagebounds_pair h) {
    pagebounds_record r;
    if (below(3) == 0)
        return page;
    pagebounds_empty(&r);
    r.codes = below(20) ? (uint32_t)below(1 << 28) : (uint32_t)draw();
    if (below(2)) {
        double middle = h.lo + (h.hi - h.lo) / 2;
        pagebounds_pair x = pair();
        (x.hi < middle ? (r.x_left = x) : middle < x.lo ? (r.x_right = x) : (r.x_mid = x));
        if (below(2))
            r.x_left = (pagebounds_pair){-179, -170}, r.x_right = (pagebounds_pair){175, 178}, r.x_mid = (pagebounds_pair){INFINITY, -INFINITY};
    } else {
        r.x_left = kept_pair(), r.x_mid = kept_pair(), r.x_right = kept_pair();
    }
    r.y = kept_pair(), r.z = kept_pair(), r.m = kept_pair();
    return r;
}

static pagebounds_window draw_window(void) {
    pagebounds_window w = {below(50) ? below(2) : (uint32_t)draw(), below(50) ? below(4) : (uint32_t)draw(), pair(), pair(), pair(), pair()};
    if (below(2))
        w.y = (pagebounds_pair){-INFINITY, INFINITY};
    if (below(3) == 0)
        w.x = (pagebounds_pair){170, -170};
    return w;
}

static void ask_records(uint8_t *area, uint8_t *bytes_area) {
    pagebounds_pair h = below(2) ? page_hint : hint();
    size_t n = below(40), k = below(50) ? n : below(40), place = 0;
    pagebounds_record *rs = (pagebounds_record *)fenced(area, n * sizeof *rs);
    uint8_t *bytes = fenced(bytes_area, k), before[40];
    subject = (uint8_t *)rs, subject_size = n * sizeof *rs;
    for (size_t i = 0; i < n; i++)
        rs[i] = draw_record(h);
    memset(bytes, 0x77, k), memcpy(before, bytes, k);
    pagebounds_window w = draw_window();
    pagebounds_fault fault = {77, 77, 77};
    int32_t want = model_window(&w, &place);
    bool misused = want == PAGEBOUNDS_BAD_KIND || want == PAGEBOUNDS_BAD_ASKED;
    int32_t status = pagebounds_verdicts(rs, n, &h, &w, bytes, k, &fault);
    CHECK(status == (misused || n == k ? want : PAGEBOUNDS_BAD_LENGTH));
    CHECK(status > 0 ? fault.number == (uint32_t)status && fault.layer == 4 && fault.place == place : fault.number == 77);
    CHECK(status == 0 || !memcmp(bytes, before, k));
    windows++, window_refusals += status != 0;
    for (size_t i = 0; i < n; i++) {
        uint8_t byte = 0x77, right = want ? 0 : model_byte(&rs[i], h, &w);
        int32_t one = pagebounds_verdict(&rs[i], &h, &w, &byte, &fault);
        records++, bad_records += !model_usable(&rs[i]);
        if (want) {
            CHECK(one == want && byte == 0x77);
            continue;
        }
        CHECK(one == (right == 3 ? PAGEBOUNDS_BAD_RECORD : right == 2 ? 12 : 0) && byte == (right < 2 ? right : 0x77));
        if (status == 0) {
            CHECK(bytes[i] == right);
            verdicts[right]++;
        }
    }
}

/* A page of one point that lies in the window is kept. */
static void ask_point(void) {
    uint8_t bytes[21] = {1, 1, 0, 0, 0}, verdict = 9;
    double x = number(), y = number();
    pagebounds_pair h = hint();
    pagebounds_window w = draw_window();
    pagebounds_record record;
    pagebounds_bounds_told told;
    pagebounds_fault fault;
    size_t place;
    memcpy(bytes + 5, &x, 8), memcpy(bytes + 13, &y, 8);
    subject = bytes, subject_size = 21;
    w.asked = 0;
    bool in_x = w.x.lo <= w.x.hi ? w.x.lo <= x && x <= w.x.hi : w.x.lo <= x || x <= w.x.hi;
    if (model_window(&w, &place) || !in_x || !(w.y.lo <= y && y <= w.y.hi))
        return;
    CHECK(pagebounds_bounds(bytes, 21, &h, &told, &record, &fault) == 0);
    CHECK(pagebounds_verdict(&record, &h, &w, &verdict, &fault) == 0 && verdict == PAGEBOUNDS_KEEP);
}

int main(int argc, char **argv) {
    double seconds = argc > 1 ? atof(argv[1]) : 10;
    uint64_t seed = argc > 2 ? strtoull(argv[2], NULL, 10) : 1;
    for (int i = 3; i < argc; i++)
        read_lines(argv[i]);
    state = seed * 0x9e3779b97f4a7c15u + 1;
    uint8_t *area = fence(), *bytes_area = fence();
    static text t;
    page_hint = (pagebounds_pair){-180, 180};
    pagebounds_empty(&page);
    struct timespec start, now;
    clock_gettime(CLOCK_MONOTONIC, &start);
    do {
        for (int i = 0; i < 200; i++) {
            draw_text(&t);
            uint8_t *bytes = fenced(area, t.length);
            memmove(bytes, t.bytes, t.length);
            ask_bytes(bytes, t.length);
            if (t.length > 0 && refusals[0] % 4 == 0) {
                size_t cut = below(t.length);
                bytes = fenced(area, cut);
                memmove(bytes, t.bytes, cut);
                ask_bytes(bytes, cut);
            }
            if (i % 4 == 0)
                ask_records(area, bytes_area);
            ask_point();
        }
        clock_gettime(CLOCK_MONOTONIC, &now);
    } while (now.tv_sec - start.tv_sec < seconds);
    printf("seed %llu, %zu shapes to start from, %.0f s\n", (unsigned long long)seed, line_count, seconds);
    printf("inputs %llu: %llu read with %llu points; refused by number", (unsigned long long)inputs, (unsigned long long)granted, (unsigned long long)points);
    for (int i = 1; i <= 6; i++)
        printf(" %d: %llu%s", i, (unsigned long long)refusals[i], i < 6 ? "," : "\n");
    printf("windows %llu, of which %llu refused; records %llu, of which %llu none that a bounder keeps\n", (unsigned long long)windows, (unsigned long long)window_refusals, (unsigned long long)records, (unsigned long long)bad_records);
    printf("verdicts in lists: skip %llu, keep %llu, refused %llu, no record %llu\n", (unsigned long long)verdicts[0], (unsigned long long)verdicts[1], (unsigned long long)verdicts[2], (unsigned long long)verdicts[3]);
    printf("failures %llu\n", (unsigned long long)failures);
    return failures != 0;
}
