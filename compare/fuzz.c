/*
 * Calls every function of the library from C with generated input, for watched.c and valgrind to watch.
 *
 *   fuzz COUNT   COUNT calls of each function, of spline_mul_add, spline_preview and spline_finish_number two for one and of
 *                spline_continue_number three, COUNT / 5 curves and COUNT / 5 sheets that must be served, and first some
 *                sheets and numbers whose answers are known
 */
#include <stdarg.h>
#include <stdint.h>
#include <stdio.h>
#include <stdlib.h>
#include <string.h>

#include "tezvorup.h"

/* ---- random numbers: xorshift64*, as in random.rs */

static uint64_t state = 0x243f6a8885a308d3;

static uint64_t bits(void) {
    state ^= state >> 12;
    state ^= state << 25;
    state ^= state >> 27;
    return state * 0x2545f4914f6cdd1d;
}

static size_t below(size_t n) {
    return (size_t)((bits() >> 11) % n);
}

static int one_in(size_t n) {
    return below(n) == 0;
}

static uint8_t byte(void) {
    return (uint8_t)(bits() >> 56);
}

static double pattern(void) {
    uint64_t all = bits();
    double x;
    memcpy(&x, &all, sizeof x);
    return x;
}

/* A small whole number; or, one in eight where those are asked for, any pattern, NaN and infinities among them. */
static double number(int any) {
    return any && one_in(8) ? pattern() : (double)below(41) - 20.0;
}

/* ---- lists. An empty one is NULL at times. */

static void *list(size_t count) {
    if (count == 0 && one_in(2))
        return NULL;
    void *cells = malloc((count + 1) * sizeof(uint64_t));
    if (!cells)
        abort();
    return cells;
}

static double *floats(size_t count, int any) {
    double *cells = list(count);
    for (size_t i = 0; i < count; i++)
        cells[i] = number(any);
    return cells;
}

static int64_t *wholes(size_t count, int any) {
    int64_t *cells = list(count);
    for (size_t i = 0; i < count; i++)
        cells[i] = any && one_in(8) ? (int64_t)bits() : (int64_t)below(41) - 20;
    return cells;
}

/* ---- counts */

/* As it should be, or beside that, or small. */
static size_t near(size_t count) {
    switch (below(24)) {
    case 0:
        return count + 1 + below(3);
    case 1:
        return count > 3 ? count - 1 - below(3) : 0;
    case 2:
        return below(12);
    default:
        return count;
    }
}

/* A count that comes with no list may also be one that no list has. */
static size_t told(size_t count) {
    return one_in(64) ? SIZE_MAX >> below(48) : near(count);
}

static size_t some_order(void) {
    return 3 + 2 * below(3);
}

static size_t some_points(void) {
    return one_in(16) ? 2 + below(256) : 2 + below(8);
}

static void range(double *s_min, double *s_max) {
    *s_min = one_in(8) ? number(1) : 0.0;
    *s_max = one_in(8) ? number(1) : 1.0 + (double)below(9);
}

/* A kind of state, or a mode: one of the first three, and any byte at times. */
static uint8_t some_kind(void) {
    return one_in(16) ? byte() : (uint8_t)below(3);
}

static spline_state some_state(size_t axes, size_t m) {
    spline_state shape = {.kind = some_kind(), .rows = told(axes), .columns = told(m)};
    return shape;
}

/* ---- the calls */

/* What is so, or the program ends. */
static void must(int right) {
    if (!right)
        abort();
}

static int same_answer(const spline_answer *x, const spline_answer *y) {
    return x->number == y->number && x->path.order == y->path.order && x->path.segments == y->path.segments
           && x->path.axes == y->path.axes && x->path.mode == y->path.mode && x->path.s_min == y->path.s_min
           && x->path.s_max == y->path.s_max && x->path.inv_ds == y->path.inv_ds;
}

static void build(void) {
    size_t order = some_order(), points = some_points(), axes = 1 + below(8), m = order / 2;
    int any = one_in(4);
    size_t waypoint_count = near(axes * points), start_count = near(axes * m), end_count = near(axes * m);
    size_t coefficient_count = near(SPLINE_COEFFICIENTS(order, points, axes));
    double *waypoints = floats(waypoint_count, any), *start = floats(start_count, any), *end = floats(end_count, any);
    double *coefficients = floats(coefficient_count, 1);
    spline_config config = {.order = told(order), .mode = some_kind(), .start = some_state(axes, m), .end = some_state(axes, m)};
    range(&config.s_min, &config.s_max);
    points = told(points);
    axes = told(axes);
    /* told the count, a preview answers what the build then does, and it may be told any count */
    spline_answer expected = spline_preview(config, points, axes, waypoints, waypoint_count, start, start_count, end, end_count,
                                            coefficient_count);
    spline_preview(config, points, axes, waypoints, waypoint_count, start, start_count, end, end_count, told(coefficient_count));
    spline_answer answer = spline_build(config, points, axes, waypoints, waypoint_count, start, start_count, end, end_count,
                                        coefficients, coefficient_count);
    must(same_answer(&expected, &answer));
    uint32_t number = answer.number;
    /* the header's count is 0 where the library refuses the counts, and else what it asks for */
    size_t count = spline_coefficients(config.order, points, axes);
    int refused = number == SPLINE_INVALID_ORDER || number == SPLINE_NOT_ENOUGH_WAYPOINTS || number == SPLINE_INVALID_DIMENSION
                  || (number == SPLINE_INVALID_LENGTH && points > 257);
    must((count == 0) == refused);
    must(number != SPLINE_OK || count == coefficient_count);
    free(waypoints);
    free(start);
    free(end);
    free(coefficients);
}

static void query(void) {
    static const uint8_t levels[] = {0, 2, 3};
    size_t order = some_order(), segments = some_points() - 1, axes = 1 + below(8);
    uint8_t level = one_in(16) ? byte() : levels[below(3)];
    size_t coefficient_count = near(axes * segments * (order + 1)), count[4];
    double *coefficients = floats(coefficient_count, one_in(4)), *out[4];
    for (int k = 0; k < 4; k++) {
        count[k] = k <= level ? near(axes) : below(12);
        out[k] = floats(count[k], 1);
    }
    spline_path path = {.order = told(order), .segments = told(segments), .axes = told(axes), .mode = some_kind()};
    range(&path.s_min, &path.s_max);
    double length = path.s_max - path.s_min;
    path.inv_ds = one_in(16) ? number(1) : (double)segments / length;
    double s = one_in(4) ? number(1) : path.s_min + length * ((double)below(1025) / 1024.0);
    spline_query(path, coefficients, coefficient_count, s, level,
                 out[0], count[0], out[1], count[1], out[2], count[2], out[3], count[3]);
    free(coefficients);
    for (int k = 0; k < 4; k++)
        free(out[k]);
}

static int close_to(double x, double y) {
    return x - y < 1e-6 && y - x < 1e-6;
}

/* A state's number as a curve has it: per segment, and that is so many units of s long. */
static double held(spline_state state, const double *numbers, size_t axis, size_t column, double unit) {
    if (state.kind == SPLINE_STATE_NONE)
        return 0.0;
    double x = numbers[column * state.rows + axis];
    for (size_t r = 0; state.kind == SPLINE_STATE_PER_UNIT_OF_S && r <= column; r++)
        x *= unit;
    return x;
}

/* A state of any kind, with its numbers. */
static spline_state proper_state(size_t axes, size_t m, double **numbers, size_t *count) {
    spline_state state = {.kind = (uint8_t)below(3)};
    if (state.kind != SPLINE_STATE_NONE) {
        state.rows = axes;
        state.columns = m;
    }
    *count = state.rows * state.columns;
    *numbers = floats(*count, 0);
    return state;
}

/* A curve that must be served, with what was handed over found where it belongs. A segment is a power of 2 long, so nothing
   is rounded at a left waypoint: position and derivatives are the coefficients, times 1, 1, 2 and 6. */
static void curve(void) {
    size_t order = some_order(), points = some_points(), axes = 1 + below(8), m = order / 2, segments = points - 1;
    size_t coefficient_count = spline_coefficients(order, points, axes), k = below(segments), start_count, end_count;
    double unit = 0.5 * (double)(1 << below(3)), *start, *end;
    double *waypoints = floats(axes * points, 0), *coefficients = floats(coefficient_count, 1);
    spline_config config = {.order = order, .s_min = number(0), .mode = (uint8_t)below(2)};
    config.s_max = config.s_min + unit * (double)segments;
    config.start = proper_state(axes, m, &start, &start_count);
    config.end = proper_state(axes, m, &end, &end_count);
    spline_answer built = spline_build(config, points, axes, waypoints, axes * points, start, start_count, end, end_count,
                                       coefficients, coefficient_count);
    must(built.number == SPLINE_OK);

    double q[8], dq[8], ddq[8], dddq[8];
    must(spline_query(built.path, coefficients, coefficient_count, config.s_min + unit * (double)k, 3,
                      q, axes, dq, axes, ddq, axes, dddq, axes) == SPLINE_OK);
    for (size_t axis = 0; axis < axes; axis++) {
        const double *first = coefficients + axis * segments * (order + 1), *c = first + k * (order + 1);
        must(q[axis] == waypoints[k * axes + axis] && q[axis] == c[0] && dq[axis] * unit == c[1]);
        must(ddq[axis] * unit * unit == 2.0 * c[2] && dddq[axis] * unit * unit * unit == 6.0 * c[3]);
        for (size_t r = 0; r < m; r++)
            must(first[1 + r] == held(config.start, start, axis, r, unit));
    }

    /* the far end is rounded, and so is what lies beyond it in mode Clamp */
    double s = config.s_max + (double)below(2);
    uint32_t number = spline_query(built.path, coefficients, coefficient_count, s, 2, q, axes, dq, axes, ddq, axes, NULL, 0);
    must(number == (s == config.s_max || config.mode == SPLINE_MODE_CLAMP ? SPLINE_OK : SPLINE_OUT_OF_RANGE_S));
    for (size_t axis = 0; number == SPLINE_OK && axis < axes; axis++) {
        must(close_to(q[axis], waypoints[segments * axes + axis]));
        must(close_to(dq[axis] * unit, held(config.end, end, axis, 0, unit)));
    }
    free(waypoints);
    free(coefficients);
    free(start);
    free(end);
}

/* Half of the sets are a straight line, which is good at every order; the others are of any numbers. */
static void check(void) {
    size_t order = some_order(), points = some_points(), m = order / 2, cells = order + 1;
    int line = one_in(2), any = one_in(8);
    size_t waypoint_count = line ? points : near(points), start_count = line ? m : near(m), end_count = line ? m : near(m);
    size_t table_count = line ? (points - 1) * cells : near((points - 1) * cells);
    int64_t *waypoints = wholes(waypoint_count, any), *start = wholes(start_count, any), *end = wholes(end_count, any);
    int64_t *table = wholes(table_count, any);
    if (line) {
        for (size_t i = 0; i < points; i++)
            waypoints[i] = (int64_t)i;
        for (size_t r = 0; r < m; r++)
            start[r] = end[r] = r == 0;
        for (size_t i = 0; i < table_count; i++)
            table[i] = i % cells == 0 ? (int64_t)(i / cells) : i % cells == 1;
    }
    spline_check answer = spline_check_master(line ? order : told(order), waypoints, waypoint_count, start, start_count,
                                              end, end_count, table, table_count);
    must(!line || (answer.number == SPLINE_OK && answer.good));
    free(waypoints);
    free(start);
    free(end);
    free(table);
}

static void step(void) {
    double whole = (double)below(1 << 20);
    must(spline_mul_add(whole, whole, -whole) == whole * whole - whole);
    spline_mul_add(pattern(), pattern(), pattern());
}

/* ---- sheets: their texts */

#define HEAD "(order 3)\n(range 0 2)\n"
/* Document 02's. */
#define SHEET HEAD "(axis (points 0 4 8) (start 0) (end 0))\n"

typedef struct {
    size_t count;
    uint8_t bytes[40000];
} Text;

static void put(Text *t, const char *format, ...) {
    size_t room = sizeof t->bytes - t->count;
    va_list values;
    va_start(values, format);
    int count = vsnprintf((char *)t->bytes + t->count, room, format, values);
    va_end(values);
    must(count >= 0 && (size_t)count < room);
    t->count += (size_t)count;
}

/* A small whole number, and at times any within 2^40 and -2^40. */
static double sheet_number(void) {
    const int64_t greatest = (int64_t)1 << 40;
    return one_in(16) ? (double)((int64_t)below((size_t)(2 * greatest + 1)) - greatest) : number(0);
}

/* Items that stand for so many numbers, with at most so many again inside one another. The numbers go to cells too. */
static void put_items(Text *t, double *cells, size_t count, int depth) {
    for (size_t i = 0; i < count;) {
        size_t left = count - i, times = 1 + below(left < 64 ? left : 64);
        put(t, i > 0 ? " " : "");
        if (depth > 0 && one_in(4)) {
            size_t inner = 1 + below(left / times), all = times * inner;
            put(t, "(again %zu ", times);
            put_items(t, cells + i, inner, depth - 1);
            put(t, ")");
            for (size_t k = inner; k < all; k++)
                cells[i + k] = cells[i + k - inner];
            i += all;
        } else {
            cells[i] = sheet_number();
            put(t, "%.0f", cells[i++]);
        }
    }
}

/* A list of one axis. Its numbers go to where spline_build has them, those of the other axes between them. */
static void put_list(Text *t, const char *head, double *numbers, size_t count, size_t axis, size_t axes) {
    double cells[257];
    put(t, "(%s ", head);
    put_items(t, cells, count, (int)below(5));
    put(t, ")");
    for (size_t i = 0; i < count; i++)
        numbers[i * axes + axis] = cells[i];
}

/* A sheet that can be built, and what spline_build is to be given for the same curve. */
typedef struct {
    spline_config config;
    size_t points, axes, m;
    double *waypoints, *start, *end;
    Text text;
} Sheet;

/* There is one at a time: it is large for a stack. */
static Sheet *some_sheet(void) {
    static Sheet s;
    size_t order = some_order();
    s.points = some_points();
    s.axes = 1 + below(8);
    s.m = order / 2;
    spline_state given = {.kind = SPLINE_STATE_GIVEN, .rows = s.axes, .columns = s.m};
    s.config = (spline_config){.order = order, .s_min = number(0), .mode = SPLINE_MODE_ERROR, .start = given, .end = given};
    s.config.s_max = s.config.s_min + 1.0 + (double)below(9);
    s.waypoints = list(s.axes * s.points);
    s.start = list(s.axes * s.m);
    s.end = list(s.axes * s.m);
    s.text.count = 0;
    put(&s.text, "(order %zu)\n(range %.0f %.0f)\n", order, s.config.s_min, s.config.s_max);
    for (size_t axis = 0; axis < s.axes; axis++) {
        put(&s.text, "(axis ");
        put_list(&s.text, "points", s.waypoints, s.points, axis, s.axes);
        put(&s.text, " ");
        put_list(&s.text, "start", s.start, s.m, axis, s.axes);
        put(&s.text, " ");
        put_list(&s.text, "end", s.end, s.m, axis, s.axes);
        put(&s.text, ")\n");
    }
    return &s;
}

static void free_sheet(Sheet *s) {
    free(s->waypoints);
    free(s->start);
    free(s->end);
}

/* A byte that stands in sheets, and at times any other. */
static uint8_t sheet_byte(void) {
    static const char alphabet[] = "(order )\n(range -)(axis (points 0123456789) (start (again ) (end ))";
    return one_in(16) ? byte() : (uint8_t)alphabet[below(sizeof alphabet - 1)];
}

/* The bytes from one place on go to another one: further on, with random bytes in the gap, or back over others. */
static void move(Text *t, size_t from, size_t to) {
    size_t count = t->count - from;
    must(to + count <= sizeof t->bytes);
    memmove(t->bytes + to, t->bytes + from, count);
    t->count = to + count;
    for (size_t i = from; i < to; i++)
        t->bytes[i] = sheet_byte();
}

static void damage(Text *t) {
    size_t at = below(t->count + 1), few = below(12), left = t->count - at;
    switch (below(5)) {
    case 0:
        t->count = at;
        break;
    case 1:
        move(t, at, at + few);
        break;
    case 2:
        move(t, at + (few < left ? few : left), at);
        break;
    case 3:
        for (size_t i = at; i < t->count; i++)
            t->bytes[i] = sheet_byte();
        break;
    default:
        if (left > 0)
            t->bytes[at] = sheet_byte();
    }
}

/* The greatest table and, with so many bytes to spare, a longer text: again stands round numbers, and then one has more
   digits. */
static void put_greatest(Text *t, size_t spare) {
    static const char *const open[] = {"", "(again 1 ", "(again 1 (again 1 ", "(again 1 (again 1 (again 1 ",
                                       "(again 1 (again 1 (again 1 (again 1 "};
    static const char *const shut[] = {"", ")", "))", ")))", "))))"};
    t->count = 0;
    put(t, "(order 7)\n(range -2 2)\n");
    for (int axis = 0; axis < 8; axis++) {
        put(t, "(axis (points");
        for (int point = 0; point < 257; point++) {
            size_t around = spare / 10 < 4 ? spare / 10 : 4;
            spare -= 10 * around;
            size_t zeros = spare < 10 ? spare : 0;
            spare -= zeros;
            put(t, " %s1%.*s%s", open[around], (int)zeros, "000000000", shut[around]);
        }
        put(t, ") (start (again 3 0)) (end 0 0 0))\n");
    }
}

/* ---- sheets: the calls */

/* All in mode Error, or all zero. */
static int is_path(spline_path path, size_t order, size_t segments, size_t axes, double s_min, double s_max, double inv_ds) {
    return path.order == order && path.segments == segments && path.axes == axes && path.s_min == s_min && path.s_max == s_max
           && path.inv_ds == inv_ds && path.mode == SPLINE_MODE_ERROR;
}

static int same_cells(const double *x, const double *y, size_t count) {
    return count == 0 || memcmp(x, y, count * sizeof *x) == 0;
}

/* A text that must be refused where it is built into so many cells: number, place, the record and every cell. */
static void refused_build(const uint8_t *text, size_t text_count, size_t count, uint32_t number, size_t at) {
    double *cells = floats(count, 1), *before = list(count);
    if (count > 0)
        memcpy(before, cells, count * sizeof *cells);
    spline_sheet built = spline_build_sheet(text, text_count, cells, count);
    must(built.number == number && built.at == at && is_path(built.path, 0, 0, 0, 0.0, 0.0, 0.0));
    must(same_cells(cells, before, count));
    free(cells);
    free(before);
}

/* A text that must be refused, read or built, with more cells than its table would have. */
static void refused_text(const uint8_t *text, size_t text_count, uint32_t number, size_t at) {
    spline_place place = spline_read_sheet(text, text_count);
    must(place.number == number && place.at == at);
    refused_build(text, text_count, 24, number, at);
}

static void refused(const char *text, uint32_t number, size_t at) {
    refused_text((const uint8_t *)text, strlen(text), number, at);
}

/* One that only the build's questions refuse. */
static void refused_at_end(const char *text, uint32_t number) {
    refused(text, number, strlen(text));
}

/* A text that must be served, with this table and this record: into just as many cells, and into more, which keep what they
   held; and not into fewer. */
static void served_text(const uint8_t *text, size_t text_count, spline_path path, const double *table, size_t count) {
    must(count == SPLINE_COEFFICIENTS(path.order, path.segments + 1, path.axes));
    spline_place place = spline_read_sheet(text, text_count);
    must(place.number == SPLINE_OK && place.at == text_count);
    for (size_t more = 0; more <= 3; more += 3) {
        const double kept[3] = {pattern(), -0.0, 1.5};
        double *cells = list(count + more);
        memcpy(cells + count, kept, more * sizeof *kept);
        spline_sheet built = spline_build_sheet(text, text_count, cells, count + more);
        must(built.number == SPLINE_OK && built.at == text_count);
        must(is_path(built.path, path.order, path.segments, path.axes, path.s_min, path.s_max, path.inv_ds));
        must(same_cells(cells, table, count) && same_cells(cells + count, kept, more));
        free(cells);
    }
    refused_build(text, text_count, count - 1, SPLINE_INVALID_LENGTH, text_count);
}

/* The curves here have records in which no two numbers of a kind are equal. */
static void known_curves(void) {
    static const char two[] = "(order 5)\n(range -1 1)\n(axis (points 0 1) (start 1 0) (end (again 2 0)))\n"
                              "(axis (points (again 1 1 0)) (start 0 0) (end 0 0))\n";
    static const double table[] = {0, 0, 6, -2, 4, 6, 0, -2}, both[] = {0, 1, 0, 4, -7, 3, 1, 0, 0, -10, 15, -6};
    spline_path path = {.order = 3, .segments = 2, .axes = 1, .s_max = 2.0, .inv_ds = 1.0};
    must(sizeof SHEET - 1 == 62);
    served_text((const uint8_t *)SHEET, 62, path, table, 8);
    path = (spline_path){.order = 5, .segments = 1, .axes = 2, .s_min = -1.0, .s_max = 1.0, .inv_ds = 0.5};
    served_text((const uint8_t *)two, sizeof two - 1, path, both, 12);
    refused_build((const uint8_t *)SHEET, 62, 0, SPLINE_INVALID_LENGTH, 62);
}

static void known_refusals(void) {
    static const char backward[] = "(order 3)\n(range 2 0)\n(axis (points 0 4 8) (start 0) (end 0))\n";
    refused_text(NULL, 0, SPLINE_INVALID_SHEET, 0);
    refused("", SPLINE_INVALID_SHEET, 0);
    refused("(order 03)", SPLINE_INVALID_SHEET, 8);
    refused(SHEET "x", SPLINE_INVALID_SHEET, 62);
    refused(HEAD, SPLINE_INVALID_SHEET, 22);
    refused(HEAD "(axis (points (again 1 (again 1 (again 1 (again 1 (again 1 0", SPLINE_SHEET_TOO_DEEP, 72);
    refused(HEAD "(axis (points 1099511627776x", SPLINE_INVALID_SHEET, 49);
    refused(HEAD "(axis (points 1099511627777x", SPLINE_INVALID_ARGUMENT, 36);
    refused(HEAD "(axis (points 0 -1099511627777) (start 0) (end 0))\n", SPLINE_INVALID_ARGUMENT, 38);
    refused(HEAD "(axis (points 0 (again 5 (again 60 1 2))) (start 0) (end 0))\n", SPLINE_INVALID_LENGTH, 38);
    refused(HEAD "(axis (points 0 1) (start 0 0 0 0) (end 0))\n", SPLINE_INVALID_LENGTH, 54);
    refused(SHEET "(axis (points 0 4) (start 0) (end 0))\n", SPLINE_INVALID_SHAPE, 79);
    refused_at_end(backward, SPLINE_INVALID_RANGE);
    /* question 7 of document 01 comes before question 8 */
    refused_build((const uint8_t *)backward, 62, 7, SPLINE_INVALID_LENGTH, 62);
    refused_at_end("(order 4)\n(range 0 2)\n(axis (points 0 4 8) (start 0) (end 0))\n", SPLINE_INVALID_ORDER);
    refused_at_end(HEAD "(axis (points 0 4 8) (start 0) (end 0 0))\n", SPLINE_DIMENSION_MISMATCH);
    refused_at_end(HEAD "(axis (points 0) (start 0) (end 0))\n", SPLINE_NOT_ENOUGH_WAYPOINTS);
}

/* The header's two greatest counts are what the library has: a sheet of just so many bytes and coefficients is built, and it
   is refused with one byte more or one cell less. */
static void known_limits(void) {
    static Text t;
    static double cells[SPLINE_SHEET_COEFFICIENTS];
    put_greatest(&t, 0);
    size_t shortest = t.count;
    put_greatest(&t, SPLINE_SHEET_BYTES - shortest);
    must(t.count == SPLINE_SHEET_BYTES);
    spline_place place = spline_read_sheet(t.bytes, t.count);
    must(place.number == SPLINE_OK && place.at == t.count);
    spline_sheet built = spline_build_sheet(t.bytes, t.count, cells, SPLINE_SHEET_COEFFICIENTS);
    must(built.number == SPLINE_OK && built.at == t.count && is_path(built.path, 7, 256, 8, -2.0, 2.0, 64.0));
    refused_build(t.bytes, t.count, SPLINE_SHEET_COEFFICIENTS - 1, SPLINE_INVALID_LENGTH, t.count);
    put_greatest(&t, SPLINE_SHEET_BYTES + 1 - shortest);
    must(t.count == SPLINE_SHEET_BYTES + 1);
    refused_text(t.bytes, t.count, SPLINE_INVALID_SHEET, SPLINE_SHEET_BYTES);
}

/* A sheet that must be served: record and table are those that spline_build has from the sheet's numbers. */
static void sheet(void) {
    Sheet *s = some_sheet();
    size_t count = spline_coefficients(s->config.order, s->points, s->axes), states = s->axes * s->m;
    double *table = list(count);
    spline_answer built = spline_build(s->config, s->points, s->axes, s->waypoints, s->axes * s->points, s->start, states,
                                       s->end, states, table, count);
    must(built.number == SPLINE_OK);
    served_text(s->text.bytes, s->text.count, built.path, table, count);
    free(table);
    free_sheet(s);
}

/* Where so many cells are too few for a sheet: into the greatest buffer it is built, or its range is refused. */
static void needs_more(const Text *t, spline_place place, size_t count) {
    double *cells = list(SPLINE_SHEET_COEFFICIENTS);
    spline_sheet built = spline_build_sheet(t->bytes, t->count, cells, SPLINE_SHEET_COEFFICIENTS);
    must(built.number == place.number && built.at == place.at);
    must(built.number == SPLINE_INVALID_RANGE
         || (built.number == SPLINE_OK
             && count < SPLINE_COEFFICIENTS(built.path.order, built.path.segments + 1, built.path.axes)));
    free(cells);
}

/* Any text: a sheet, damaged or not, or bytes at random. Reading and building have the same answer, unless the cells are
   too few. */
static void any_text(void) {
    Sheet *s = some_sheet();
    Text *t = &s->text;
    size_t count = near(spline_coefficients(s->config.order, s->points, s->axes));
    if (one_in(8)) {
        t->count = 0;
        move(t, 0, below(100));
    }
    for (size_t damages = below(4); damages > 0; damages--)
        damage(t);
    double *cells = floats(count, 1);
    const uint8_t *text = t->count > 0 ? t->bytes : NULL;
    spline_place place = spline_read_sheet(text, t->count);
    spline_sheet built = spline_build_sheet(text, t->count, cells, count);
    if (built.number == SPLINE_INVALID_LENGTH && place.number != SPLINE_INVALID_LENGTH) {
        must(built.at == t->count);
        needs_more(t, place, count);
    } else {
        must(built.number == place.number && built.at == place.at);
    }
    free(cells);
    free_sheet(s);
}

/* ---- numbers in pieces */

static int says(spline_whole whole, uint32_t number, size_t at, int64_t value) {
    return whole.number == number && whole.at == at && whole.value == value;
}

static spline_whole number_of(size_t at, const char *bytes) {
    return spline_finish_number(spline_continue_number(spline_begin_number(at), (const uint8_t *)bytes, strlen(bytes)));
}

/* Document 03's words, and fields of a record that a header with other fields would mix up. */
static void known_numbers(void) {
    must(says(number_of(7, "0"), SPLINE_OK, 8, 0));
    must(says(number_of(7, "-45)"), SPLINE_OK, 10, -45));
    must(says(number_of(36, "1099511627776x"), SPLINE_OK, 49, (int64_t)1 << 40));
    must(says(number_of(36, "1099511627777x"), SPLINE_INVALID_ARGUMENT, 36, 0));
    must(says(number_of(36, "-0"), SPLINE_INVALID_SHEET, 37, 0));
    must(says(number_of(36, ""), SPLINE_INVALID_SHEET, 36, 0));
    spline_number n = spline_continue_number(spline_begin_number(5), (const uint8_t *)"-12", 3);
    must(n.start == 5 && n.next == 8 && n.size == 12 && n.stage == 3 && n.minus == 1);
    spline_number zero = {.start = 0}, begun = spline_begin_number(0);
    must(begun.start == zero.start && begun.next == zero.next && begun.size == zero.size && begun.stage == zero.stage
         && begun.minus == zero.minus);
}

/* Any bytes in any pieces, and at times a record that no reading makes: the pieces say what the whole says. */
static void any_number(void) {
    uint8_t bytes[24];
    size_t count = below(sizeof bytes + 1), cut = below(count + 1);
    for (size_t i = 0; i < count; i++)
        bytes[i] = one_in(12) ? byte() : (uint8_t)"0123456789-"[below(i == 0 ? 11 : 10)];
    spline_number begun = spline_begin_number(one_in(9) ? (size_t)-1 - below(30) : below(40000));
    if (one_in(4)) {
        begun.size = one_in(2) ? below(1000) : ((uint64_t)1 << 40) + below(3) - 1;
        begun.stage = below(9);
        begun.minus = below(3);
    }
    spline_number part = spline_continue_number(begun, cut > 0 ? bytes : NULL, cut);
    spline_whole pieces = spline_finish_number(spline_continue_number(part, bytes + cut, count - cut));
    spline_whole whole = spline_finish_number(spline_continue_number(begun, bytes, count));
    must(says(pieces, whole.number, whole.at, whole.value));
}

int main(int argc, char **argv) {
    long calls = argc > 1 ? atol(argv[1]) : 0;
    known_curves();
    known_refusals();
    known_limits();
    known_numbers();
    for (long i = 0; i < calls; i++) {
        build();
        query();
        check();
        step();
        any_text();
        any_number();
        if (i % 5 == 0) {
            curve();
            sheet();
        }
    }
    return 0;
}
