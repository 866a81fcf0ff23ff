/* Runs the library from C on worked cases, refusals and misuses. Prints a line for each failure, and the count. */
#include "pagebounds.h"

#include <math.h>
#include <stdio.h>
#include <string.h>

static int checks, failures;

#define CHECK(test)                                                        \
    do {                                                                   \
        checks++;                                                          \
        if (!(test)) {                                                     \
            failures++;                                                    \
            printf("%s:%d: %s\n", __FILE__, __LINE__, #test);              \
        }                                                                  \
    } while (0)

static const pagebounds_pair MAP = {-180, 180};

/* A little-endian xy point. */
static size_t point(uint8_t *out, double x, double y) {
    out[0] = 1;
    memcpy(out + 1, (uint8_t[]){1, 0, 0, 0}, 4);
    memcpy(out + 5, &x, 8);
    memcpy(out + 13, &y, 8);
    return 21;
}

static bool same_pair(pagebounds_pair p, double lo, double hi) { return p.lo == lo && p.hi == hi; }

static pagebounds_record page(const double *xs, size_t n) {
    pagebounds_record record;
    pagebounds_fault fault = {0};
    uint8_t bytes[21];
    pagebounds_empty(&record);
    for (size_t i = 0; i < n; i++)
        CHECK(pagebounds_add(&record, bytes, point(bytes, xs[i], 1), &MAP, &fault) == 0);
    return record;
}

static bool told_x(const double *xs, size_t n, double lo, double hi) {
    pagebounds_record record = page(xs, n);
    pagebounds_bounds_told told;
    CHECK(pagebounds_tell(&record, &MAP, &told) == 0);
    return told.has_x && same_pair(told.x, lo, hi) && told.codes == 1;
}

static void bytes_cases(void) {
    uint8_t bytes[400] = {0};
    pagebounds_fault fault = {77, 77, 77};
    point(bytes, 10, 20);
    CHECK(pagebounds_check(bytes, 21, &fault) == 0 && fault.number == 77 && fault.place == 77);
    CHECK(pagebounds_check(bytes, 0, &fault) == 1 && fault.number == 1 && fault.layer == 1 && fault.place == 0);
    CHECK(pagebounds_check(bytes, 20, &fault) == 1 && fault.place == 13);
    CHECK(pagebounds_check(bytes, 22, &fault) == 6 && fault.number == 6 && fault.place == 21);
    bytes[0] = 2;
    CHECK(pagebounds_check(bytes, 21, &fault) == 2 && fault.place == 0);
    bytes[0] = 1, bytes[1] = 8;
    CHECK(pagebounds_check(bytes, 21, &fault) == 3 && fault.place == 1);
    for (int level = 0; level < 33; level++)
        memcpy(bytes + 9 * level, (uint8_t[]){1, 7, 0, 0, 0, 1, 0, 0, 0}, 9);
    bytes[9 * 31 + 5] = 0;
    CHECK(pagebounds_check(bytes, 288, &fault) == 0);
    bytes[9 * 31 + 5] = 1;
    CHECK(pagebounds_check(bytes, 297, &fault) == 5 && fault.place == 288);
    bytes[5] = 1, bytes[1] = 4, bytes[10] = 2;
    CHECK(pagebounds_check(bytes, 30, &fault) == 4 && fault.place == 10);
}

static void bounds_cases(void) {
    uint8_t bytes[21];
    pagebounds_fault fault = {0};
    pagebounds_bounds_told told, told_before;
    pagebounds_record record, before;
    point(bytes, 10, 20);
    CHECK(pagebounds_bounds(bytes, 21, &MAP, &told, &record, &fault) == 0);
    CHECK(same_pair(told.x, 10, 10) && same_pair(told.y, 20, 20) && told.has_x && told.has_y);
    CHECK(!told.has_z && !told.has_m && same_pair(told.z, INFINITY, -INFINITY) && same_pair(told.m, INFINITY, -INFINITY));
    CHECK(told.codes == 1 && pagebounds_code(0) == 1 && pagebounds_code(27) == 3007 && pagebounds_code(8) == 1002);
    CHECK(same_pair(record.x_right, 10, 10) && same_pair(record.x_left, INFINITY, -INFINITY) && record.codes == 1);
    before = record, told_before = told;
    CHECK(pagebounds_bounds(bytes, 20, &MAP, &told, &record, &fault) == 1 && fault.place == 13);
    CHECK(memcmp(&before, &record, sizeof record) == 0 && memcmp(&told_before, &told, sizeof told) == 0);
    CHECK(pagebounds_add(&record, bytes, 20, &MAP, &fault) == 1 && memcmp(&before, &record, sizeof record) == 0);
    CHECK(told_x((double[]){10}, 1, 10, 10));
    CHECK(told_x((double[]){-179, 179}, 2, 179, -179));
    CHECK(told_x((double[]){-179, 179, 0}, 3, -179, 179));
    CHECK(told_x((double[]){-90, 90}, 2, 90, -90));
    CHECK(told_x((double[]){-89, 89}, 2, -89, 89));
}

static void window_cases(void) {
    pagebounds_record pages[4] = {page((double[]){179, -179}, 2), page((double[]){5}, 1), page(NULL, 0), page((double[]){50}, 1)};
    pagebounds_window window = {PAGEBOUNDS_WRAPAROUND, 0, {0, 10}, {0, 2}, {NAN, 0}, {NAN, 0}};
    pagebounds_fault fault = {0};
    uint8_t verdict = 9, verdicts[5] = {9, 9, 9, 9, 9};
    CHECK(pagebounds_verdict(&pages[0], &MAP, &window, &verdict, &fault) == 0 && verdict == PAGEBOUNDS_SKIP);
    CHECK(pagebounds_verdict(&pages[1], &MAP, &window, &verdict, &fault) == 0 && verdict == PAGEBOUNDS_KEEP);
    CHECK(pagebounds_verdicts(pages, 4, &MAP, &window, verdicts, 4, &fault) == 0 && fault.number == 0);
    CHECK(memcmp(verdicts, (uint8_t[]){0, 1, 0, 0, 9}, 5) == 0);
    window.kind = PAGEBOUNDS_ORDINARY;
    verdict = 9;
    CHECK(pagebounds_verdict(&pages[0], &MAP, &window, &verdict, &fault) == 12 && verdict == 9);
    CHECK(fault.number == 12 && fault.layer == 4 && fault.place == 0);
    pages[3].y.lo = NAN;
    CHECK(pagebounds_verdicts(pages, 4, &MAP, &window, verdicts, 4, &fault) == 0);
    CHECK(memcmp(verdicts, (uint8_t[]){2, 1, 0, 3, 9}, 5) == 0);
    CHECK(pagebounds_verdict(&pages[3], &MAP, &window, &verdict, &fault) == PAGEBOUNDS_BAD_RECORD);
    window.kind = PAGEBOUNDS_WRAPAROUND;
    window.x = (pagebounds_pair){170, -170};
    CHECK(pagebounds_verdicts(pages, 3, &MAP, &window, verdicts, 3, &fault) == 0);
    CHECK(memcmp(verdicts, (uint8_t[]){1, 0, 0, 3, 9}, 5) == 0);
    window.x = (pagebounds_pair){-180, 180}, window.asked = PAGEBOUNDS_ASK_Z, window.z = (pagebounds_pair){0, 1};
    CHECK(pagebounds_verdict(&pages[1], &MAP, &window, &verdict, &fault) == 0 && verdict == PAGEBOUNDS_SKIP);
}

static void refused_windows(void) {
    pagebounds_record one = page((double[]){5}, 1);
    pagebounds_window window = {0, 0, {0, 10}, {0, 2}, {NAN, 0}, {0, NAN}}, w;
    pagebounds_fault fault = {0};
    uint8_t verdict = 9;
    CHECK(pagebounds_verdict(&one, &MAP, &window, &verdict, &fault) == 0 && verdict == PAGEBOUNDS_KEEP);
    verdict = 9;
    w = window, w.kind = 2;
    CHECK(pagebounds_verdicts(&one, 1, &MAP, &w, &verdict, 1, &fault) == PAGEBOUNDS_BAD_KIND);
    w = window, w.asked = 4;
    CHECK(pagebounds_verdicts(&one, 1, &MAP, &w, &verdict, 1, &fault) == PAGEBOUNDS_BAD_ASKED);
    CHECK(pagebounds_verdicts(&one, 1, &MAP, &window, &verdict, 0, &fault) == PAGEBOUNDS_BAD_LENGTH);
    CHECK(fault.number == 0);
    w = window, w.asked = PAGEBOUNDS_ASK_Z;
    CHECK(pagebounds_verdicts(&one, 1, &MAP, &w, &verdict, 1, &fault) == 11 && fault.layer == 4 && fault.place == 0);
    w = window, w.asked = PAGEBOUNDS_ASK_M;
    CHECK(pagebounds_verdicts(&one, 1, &MAP, &w, &verdict, 1, &fault) == 11 && fault.place == 1);
    w = window, w.y = (pagebounds_pair){2, 0};
    CHECK(pagebounds_verdict(&one, &MAP, &w, &verdict, &fault) == 12 && fault.place == 0);
    w = window, w.x = (pagebounds_pair){10, 0};
    CHECK(pagebounds_verdict(&one, &MAP, &w, &verdict, &fault) == 12);
    CHECK(verdict == 9);
    w.kind = PAGEBOUNDS_WRAPAROUND;
    CHECK(pagebounds_verdict(&one, &MAP, &w, &verdict, &fault) == 0 && verdict == PAGEBOUNDS_SKIP);
}

static void refused_records(void) {
    pagebounds_record good = page((double[]){5}, 1), record;
    pagebounds_bounds_told told;
    pagebounds_fault fault = {0};
    uint8_t bytes[21];
    point(bytes, 1, 1);
    pagebounds_pair *bounds[6] = {&record.x_left, &record.x_mid, &record.x_right, &record.y, &record.z, &record.m};
    static const pagebounds_pair bad[5] = {{1, 0}, {NAN, 0}, {0, NAN}, {INFINITY, 0}, {0, -INFINITY}};
    static const pagebounds_pair fine[4] = {{0, 1}, {INFINITY, -INFINITY}, {INFINITY, INFINITY}, {-0.0, 0.0}};
    for (int i = 0; i < 6; i++) {
        for (int k = 0; k < 5; k++) {
            record = good, *bounds[i] = bad[k];
            CHECK(pagebounds_tell(&record, &MAP, &told) == PAGEBOUNDS_BAD_RECORD);
            CHECK(pagebounds_add(&record, bytes, 21, &MAP, &fault) == PAGEBOUNDS_BAD_RECORD && fault.number == 0);
        }
        for (int k = 0; k < 4; k++) {
            record = good, *bounds[i] = fine[k];
            CHECK(pagebounds_tell(&record, &MAP, &told) == 0);
        }
    }
    record = good, record.codes = 1u << 28;
    CHECK(pagebounds_tell(&record, &MAP, &told) == PAGEBOUNDS_BAD_RECORD);
    record.codes = (1u << 28) - 1;
    CHECK(pagebounds_tell(&record, &MAP, &told) == 0 && told.codes == record.codes);
}

int main(void) {
    bytes_cases();
    bounds_cases();
    window_cases();
    refused_windows();
    refused_records();
    printf("C: %d checks, %d failed\n", checks, failures);
    return failures != 0;
}
