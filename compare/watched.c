/*
 * Stands between a C program and the library, by the linker's --wrap, and watches every call; for valgrind. Each list
 * that is lent goes to the library as a copy between guard cells that nobody may read or write, and a buffer that is to
 * be written counts there as never written, as does the padding of a record that is given. So valgrind reports every
 * step beyond a list and every decision on what the caller did not give. After each call it is seen that the number is
 * one that the function has, that the guard cells and all that was lent to be read are as they were, that a refused call
 * changed no cell, and that a served call wrote every cell that it is to write and no other. The record that comes back
 * has every field written: a build's or a preview's says what was built or is all zero, a sheet's is one that a build hands over, a
 * check is good only where it is not refused, and a place lies in the sheet, at its end where it is served. A number in pieces
 * goes on from where it began, and says a value within 2^40, or 0 beside a refusal.
 *
 * At the end a row for each function that was called goes to the file that the environment names as ROWS: what was
 * called, against what, calls, cells looked at, and how much was wrong, what valgrind reported included. PROGRAM is the
 * program's name.
 */
#include <stdio.h>
#include <stdlib.h>
#include <string.h>
#include <valgrind/memcheck.h>

#include "tezvorup.h"

/* ---- what was seen */

typedef struct {
    const char *name;
    unsigned long long served, refused, cells, wrong;
} Seen;

static Seen builds = {"builds", 0, 0, 0, 0}, previews = {"previews", 0, 0, 0, 0}, queries = {"queries", 0, 0, 0, 0};
static Seen checks = {"master checks", 0, 0, 0, 0}, steps = {"fused multiply-adds", 0, 0, 0, 0};
static Seen readings = {"sheets read", 0, 0, 0, 0}, sheets = {"sheets built", 0, 0, 0, 0};
static Seen numbers = {"numbers begun, continued and finished", 0, 0, 0, 0};

static void see(Seen *seen, int right, const char *what) {
    if (!right) {
        seen->wrong++;
        fprintf(stderr, "wrong, %s: %s\n", seen->name, what);
    }
}

/* Whether a call was served, which SPLINE_OK says, the first of the function's numbers. */
static int served(Seen *seen, uint32_t answer, const uint32_t *numbers, size_t count) {
    size_t at = 0;
    while (at < count && numbers[at] != answer)
        at++;
    see(seen, at < count, "a number that the function does not have");
    if (at == 0)
        seen->served++;
    else
        seen->refused++;
    return at == 0;
}

__attribute__((destructor)) static void print(void) {
    const Seen *all[] = {&builds, &previews, &queries, &checks, &steps, &readings, &sheets, &numbers};
    const char *name = getenv("ROWS");
    FILE *rows = name ? fopen(name, "a") : NULL;
    if (!rows)
        abort();
    for (size_t i = 0; i < sizeof all / sizeof *all; i++) {
        unsigned long long calls = all[i]->served + all[i]->refused;
        if (calls > 0)
            fprintf(rows, PROGRAM ": %s (%llu served, %llu refused)\tvalgrind, guard cells and what was lent\t%llu\t%llu\t%llu\n",
                    all[i]->name, all[i]->served, all[i]->refused, calls, all[i]->cells, all[i]->wrong);
    }
    fclose(rows);
}

/* ---- lists between guard cells. A guard cell is 64 bits; an element is so too, a double or an int64_t, or it is a byte. */

enum { GUARD = 8, CELL = sizeof(uint64_t), GUARDS = GUARD * CELL };

static const uint64_t GUARD_CELL = 0x4badcafe4badcafe;

typedef struct {
    void *given;
    /* of elements, and the bytes of one */
    size_t count, size;
    /* the copy that the library gets, with its guard cells, and a second one to compare with */
    unsigned char *block, *before;
} List;

static unsigned char *elements(const List *l) {
    return l->block + GUARDS;
}

/* The guard cells after the elements; those before them are where the block starts. */
static unsigned char *after(const List *l) {
    return elements(l) + l->count * l->size;
}

static List lend_elements(const void *given, size_t count, size_t size, int written) {
    List l = {(void *)given, count, size, malloc(count * size + 2 * GUARDS), malloc(count * size + 1)};
    if (!l.block || !l.before)
        abort();
    for (size_t i = 0; i < GUARD; i++) {
        memcpy(l.block + i * CELL, &GUARD_CELL, CELL);
        memcpy(after(&l) + i * CELL, &GUARD_CELL, CELL);
    }
    if (count > 0) {
        memcpy(elements(&l), given, count * size);
        memcpy(l.before, given, count * size);
        VALGRIND_MAKE_MEM_DEFINED(l.before, count * size);
    }
    VALGRIND_MAKE_MEM_NOACCESS(l.block, GUARDS);
    VALGRIND_MAKE_MEM_NOACCESS(after(&l), GUARDS);
    if (written)
        VALGRIND_MAKE_MEM_UNDEFINED(elements(&l), count * size);
    return l;
}

static List lend(const void *given, size_t count, int written) {
    return lend_elements(given, count, CELL, written);
}

static List lend_text(const uint8_t *given, size_t count) {
    return lend_elements(given, count, 1, 0);
}

/* What the library gets. No list at all stays none. */
static void *lent(const List *l) {
    return l->given ? elements(l) : NULL;
}

/* After the call, where the library was to write so many elements, the first ones, and none of the others. */
static void take_back(Seen *seen, List *l, size_t count) {
    size_t written = count * l->size, all = l->count * l->size;
    see(seen, VALGRIND_CHECK_MEM_IS_DEFINED(elements(l), written) == 0, "a cell was not written");
    VALGRIND_MAKE_MEM_DEFINED(l->block, all + 2 * GUARDS);
    for (size_t i = 0; i < GUARDS; i += CELL)
        see(seen, memcmp(l->block + i, &GUARD_CELL, CELL) == 0 && memcmp(after(l) + i, &GUARD_CELL, CELL) == 0,
            "a guard cell was written to");
    see(seen, memcmp(elements(l) + written, l->before + written, all - written) == 0, "a cell was changed");
    if (written > 0)
        memcpy(l->given, elements(l), written);
    seen->cells += l->count + 2 * GUARD;
    free(l->block);
    free(l->before);
}

/* ---- records */

/* What lies between two fields counts as never written. */
static void forget(void *from, void *until) {
    VALGRIND_MAKE_MEM_UNDEFINED(from, (size_t)((char *)until - (char *)from));
}

static void forget_state(spline_state *state) {
    forget(&state->kind + 1, &state->rows);
}

static void forget_config(spline_config *config) {
    forget(&config->mode + 1, &config->start);
    forget_state(&config->start);
    forget_state(&config->end);
}

static void forget_path(spline_path *path) {
    forget(&path->mode + 1, path + 1);
}

/* A field of a record that came back. It is read as it is from then on. */
static void look(Seen *seen, const void *field, size_t size) {
    see(seen, VALGRIND_CHECK_MEM_IS_DEFINED(field, size) == 0, "a field was not written");
    VALGRIND_MAKE_MEM_DEFINED(field, size);
}

static void look_at_path(Seen *seen, const spline_path *path) {
    look(seen, &path->order, sizeof path->order);
    look(seen, &path->segments, sizeof path->segments);
    look(seen, &path->axes, sizeof path->axes);
    look(seen, &path->s_min, sizeof path->s_min);
    look(seen, &path->s_max, sizeof path->s_max);
    look(seen, &path->inv_ds, sizeof path->inv_ds);
    look(seen, &path->mode, sizeof path->mode);
    seen->cells += 7;
}

/* Alike to the last bit: the two zeros are not. */
static int same(double x, double y) {
    return memcmp(&x, &y, sizeof x) == 0;
}

static int same_path(const spline_path *x, const spline_path *y) {
    return x->order == y->order && x->segments == y->segments && x->axes == y->axes && x->mode == y->mode
           && same(x->s_min, y->s_min) && same(x->s_max, y->s_max) && same(x->inv_ds, y->inv_ds);
}

/* What a build hands over that is served. */
static spline_path built(const spline_config *config, size_t points, size_t axes) {
    spline_path path = {.order = config->order, .segments = points - 1, .axes = axes, .s_min = config->s_min, .s_max = config->s_max};
    path.inv_ds = (double)path.segments / (path.s_max - path.s_min);
    path.mode = config->mode == SPLINE_MODE_CLAMP ? SPLINE_MODE_CLAMP : SPLINE_MODE_ERROR;
    return path;
}

/* How many coefficients a sheet's curve has; 0 where the record is none that a build of a sheet hands over. */
static size_t sheet_table(const spline_path *path) {
    spline_config config = {.order = path->order, .s_min = path->s_min, .s_max = path->s_max, .mode = SPLINE_MODE_ERROR};
    spline_path expected = built(&config, path->segments + 1, path->axes);
    if (!same_path(path, &expected) || !(path->s_min < path->s_max))
        return 0;
    return spline_coefficients(path->order, path->segments + 1, path->axes);
}

/* Where a sheet is served or refused. */
static void look_at_place(Seen *seen, int yes, size_t at, size_t text_count) {
    see(seen, yes ? at == text_count : at <= text_count, "a place outside the sheet, or not at its end");
    seen->cells += 2;
}

/* ---- the calls. __real_NAME is the library's function, and a call of NAME comes to __wrap_NAME. */

double __real_spline_mul_add(double a, double b, double c);

double __wrap_spline_mul_add(double a, double b, double c) {
    unsigned long long errors = VALGRIND_COUNT_ERRORS;
    double r = __real_spline_mul_add(a, b, c);
    steps.served++;
    steps.wrong += VALGRIND_COUNT_ERRORS - errors;
    return r;
}

/* What a build answers, and a preview: the function's number, and the record of what was built or all zero. Whether it was
   served. */
static int look_at_answer(Seen *seen, const spline_answer *answer, const spline_config *config, size_t points, size_t axes) {
    static const uint32_t numbers[] = {0, 2, 3, 4, 300, 301, 302, 303, 304};
    static const spline_path none;
    look(seen, &answer->number, sizeof answer->number);
    look_at_path(seen, &answer->path);
    int yes = served(seen, answer->number, numbers, sizeof numbers / sizeof *numbers);
    spline_path expected = yes ? built(config, points, axes) : none;
    see(seen, same_path(&answer->path, &expected), "a record that is not what was built, or not all zero");
    return yes;
}

spline_answer __real_spline_build(spline_config config, size_t points, size_t axes, const double *waypoints, size_t waypoint_count,
                                  const double *start, size_t start_count, const double *end, size_t end_count,
                                  double *coefficients, size_t coefficient_count);

spline_answer __wrap_spline_build(spline_config config, size_t points, size_t axes, const double *waypoints, size_t waypoint_count,
                                  const double *start, size_t start_count, const double *end, size_t end_count,
                                  double *coefficients, size_t coefficient_count) {
    unsigned long long errors = VALGRIND_COUNT_ERRORS;
    List w = lend(waypoints, waypoint_count, 0), s = lend(start, start_count, 0), e = lend(end, end_count, 0);
    List c = lend(coefficients, coefficient_count, 1);
    forget_config(&config);
    spline_answer answer = __real_spline_build(config, points, axes, lent(&w), waypoint_count, lent(&s), start_count,
                                               lent(&e), end_count, lent(&c), coefficient_count);
    int yes = look_at_answer(&builds, &answer, &config, points, axes);
    take_back(&builds, &w, 0);
    take_back(&builds, &s, 0);
    take_back(&builds, &e, 0);
    take_back(&builds, &c, yes ? coefficient_count : 0);
    builds.wrong += VALGRIND_COUNT_ERRORS - errors;
    return answer;
}

spline_answer __real_spline_preview(spline_config config, size_t points, size_t axes, const double *waypoints, size_t waypoint_count,
                                    const double *start, size_t start_count, const double *end, size_t end_count,
                                    size_t coefficient_count);

spline_answer __wrap_spline_preview(spline_config config, size_t points, size_t axes, const double *waypoints, size_t waypoint_count,
                                    const double *start, size_t start_count, const double *end, size_t end_count,
                                    size_t coefficient_count) {
    unsigned long long errors = VALGRIND_COUNT_ERRORS;
    List w = lend(waypoints, waypoint_count, 0), s = lend(start, start_count, 0), e = lend(end, end_count, 0);
    forget_config(&config);
    spline_answer answer = __real_spline_preview(config, points, axes, lent(&w), waypoint_count, lent(&s), start_count,
                                                 lent(&e), end_count, coefficient_count);
    look_at_answer(&previews, &answer, &config, points, axes);
    take_back(&previews, &w, 0);
    take_back(&previews, &s, 0);
    take_back(&previews, &e, 0);
    previews.wrong += VALGRIND_COUNT_ERRORS - errors;
    return answer;
}

uint32_t __real_spline_query(spline_path path, const double *coefficients, size_t coefficient_count, double s, uint8_t level,
                             double *q, size_t q_count, double *dq, size_t dq_count,
                             double *ddq, size_t ddq_count, double *dddq, size_t dddq_count);

uint32_t __wrap_spline_query(spline_path path, const double *coefficients, size_t coefficient_count, double s, uint8_t level,
                             double *q, size_t q_count, double *dq, size_t dq_count,
                             double *ddq, size_t ddq_count, double *dddq, size_t dddq_count) {
    static const uint32_t numbers[] = {0, 2, 300, 301, 302, 303, 304, 305, 308};
    unsigned long long errors = VALGRIND_COUNT_ERRORS;
    List c = lend(coefficients, coefficient_count, 0);
    List out[] = {lend(q, q_count, 1), lend(dq, dq_count, 1), lend(ddq, ddq_count, 1), lend(dddq, dddq_count, 1)};
    forget_path(&path);
    uint32_t answer = __real_spline_query(path, lent(&c), coefficient_count, s, level, lent(&out[0]), q_count,
                                          lent(&out[1]), dq_count, lent(&out[2]), ddq_count, lent(&out[3]), dddq_count);
    int yes = served(&queries, answer, numbers, sizeof numbers / sizeof *numbers);
    take_back(&queries, &c, 0);
    for (int k = 0; k < 4; k++)
        take_back(&queries, &out[k], yes && k <= level ? out[k].count : 0);
    queries.wrong += VALGRIND_COUNT_ERRORS - errors;
    return answer;
}

spline_check __real_spline_check_master(size_t order, const int64_t *waypoints, size_t waypoint_count,
                                        const int64_t *start, size_t start_count, const int64_t *end, size_t end_count,
                                        const int64_t *table, size_t table_count);

spline_check __wrap_spline_check_master(size_t order, const int64_t *waypoints, size_t waypoint_count,
                                        const int64_t *start, size_t start_count, const int64_t *end, size_t end_count,
                                        const int64_t *table, size_t table_count) {
    static const uint32_t numbers[] = {0, 2, 4, 302, 303, 304};
    unsigned long long errors = VALGRIND_COUNT_ERRORS;
    List w = lend(waypoints, waypoint_count, 0), s = lend(start, start_count, 0);
    List e = lend(end, end_count, 0), t = lend(table, table_count, 0);
    spline_check answer =
        __real_spline_check_master(order, lent(&w), waypoint_count, lent(&s), start_count, lent(&e), end_count, lent(&t), table_count);
    look(&checks, &answer.number, sizeof answer.number);
    look(&checks, &answer.good, sizeof answer.good);
    checks.cells++;
    int yes = served(&checks, answer.number, numbers, sizeof numbers / sizeof *numbers);
    see(&checks, answer.good <= (yes ? 1 : 0), "good is neither 0 nor 1, or beside a refusal");
    take_back(&checks, &w, 0);
    take_back(&checks, &s, 0);
    take_back(&checks, &e, 0);
    take_back(&checks, &t, 0);
    checks.wrong += VALGRIND_COUNT_ERRORS - errors;
    return answer;
}

/* The refusal numbers of both functions of sheets. */
static const uint32_t sheet_numbers[] = {0, 2, 3, 4, 301, 302, 303, 304, 600, 601};

spline_place __real_spline_read_sheet(const uint8_t *text, size_t text_count);

spline_place __wrap_spline_read_sheet(const uint8_t *text, size_t text_count) {
    unsigned long long errors = VALGRIND_COUNT_ERRORS;
    List t = lend_text(text, text_count);
    spline_place answer = __real_spline_read_sheet(lent(&t), text_count);
    look(&readings, &answer.number, sizeof answer.number);
    look(&readings, &answer.at, sizeof answer.at);
    int yes = served(&readings, answer.number, sheet_numbers, sizeof sheet_numbers / sizeof *sheet_numbers);
    look_at_place(&readings, yes, answer.at, text_count);
    take_back(&readings, &t, 0);
    readings.wrong += VALGRIND_COUNT_ERRORS - errors;
    return answer;
}

spline_sheet __real_spline_build_sheet(const uint8_t *text, size_t text_count, double *coefficients, size_t coefficient_count);

spline_sheet __wrap_spline_build_sheet(const uint8_t *text, size_t text_count, double *coefficients, size_t coefficient_count) {
    static const spline_path none;
    unsigned long long errors = VALGRIND_COUNT_ERRORS;
    List t = lend_text(text, text_count), c = lend(coefficients, coefficient_count, 1);
    spline_sheet answer = __real_spline_build_sheet(lent(&t), text_count, lent(&c), coefficient_count);
    look(&sheets, &answer.number, sizeof answer.number);
    look(&sheets, &answer.at, sizeof answer.at);
    look_at_path(&sheets, &answer.path);
    int yes = served(&sheets, answer.number, sheet_numbers, sizeof sheet_numbers / sizeof *sheet_numbers);
    look_at_place(&sheets, yes, answer.at, text_count);
    size_t table = yes ? sheet_table(&answer.path) : 0;
    int proper = yes ? table > 0 && table <= coefficient_count : same_path(&answer.path, &none);
    see(&sheets, proper, "a record that no sheet has or that the cells are too few for, or not all zero");
    take_back(&sheets, &t, 0);
    take_back(&sheets, &c, proper ? table : 0);
    sheets.wrong += VALGRIND_COUNT_ERRORS - errors;
    return answer;
}

/* ---- numbers in pieces */

static void look_at_number(const spline_number *number) {
    look(&numbers, &number->start, sizeof number->start);
    look(&numbers, &number->next, sizeof number->next);
    look(&numbers, &number->size, sizeof number->size);
    look(&numbers, &number->stage, sizeof number->stage);
    look(&numbers, &number->minus, sizeof number->minus);
    numbers.cells += 5;
}

spline_number __real_spline_begin_number(size_t at);

spline_number __wrap_spline_begin_number(size_t at) {
    unsigned long long errors = VALGRIND_COUNT_ERRORS;
    spline_number number = __real_spline_begin_number(at);
    look_at_number(&number);
    see(&numbers, number.start == at && number.next == at, "a number that begins elsewhere");
    numbers.served++;
    numbers.wrong += VALGRIND_COUNT_ERRORS - errors;
    return number;
}

spline_number __real_spline_continue_number(spline_number number, const uint8_t *bytes, size_t byte_count);

spline_number __wrap_spline_continue_number(spline_number number, const uint8_t *bytes, size_t byte_count) {
    unsigned long long errors = VALGRIND_COUNT_ERRORS;
    List b = lend_text(bytes, byte_count);
    forget(&number.minus + 1, &number + 1);
    spline_number after = __real_spline_continue_number(number, lent(&b), byte_count);
    look_at_number(&after);
    see(&numbers, after.start == number.start && after.next - number.next <= byte_count, "a place outside the bytes");
    take_back(&numbers, &b, 0);
    numbers.served++;
    numbers.wrong += VALGRIND_COUNT_ERRORS - errors;
    return after;
}

spline_whole __real_spline_finish_number(spline_number number);

spline_whole __wrap_spline_finish_number(spline_number number) {
    static const uint32_t all[] = {0, 4, 600};
    unsigned long long errors = VALGRIND_COUNT_ERRORS;
    forget(&number.minus + 1, &number + 1);
    spline_whole whole = __real_spline_finish_number(number);
    look(&numbers, &whole.number, sizeof whole.number);
    look(&numbers, &whole.at, sizeof whole.at);
    look(&numbers, &whole.value, sizeof whole.value);
    numbers.cells += 3;
    int yes = served(&numbers, whole.number, all, sizeof all / sizeof *all);
    int64_t most = yes ? (int64_t)1 << 40 : 0;
    see(&numbers, -most <= whole.value && whole.value <= most, "a value beyond 2^40, or beside a refusal");
    see(&numbers, whole.at == (whole.number == 4 ? number.start : number.next), "another place");
    numbers.wrong += VALGRIND_COUNT_ERRORS - errors;
    return whole;
}
