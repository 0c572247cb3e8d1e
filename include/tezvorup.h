/*
 * Interpolating splines of order 3, 5 and 7 for C and C++, from the static library libtezvorup.a (x86-64 Linux).
 * Proved: for every number and every length that a caller gives, what each function answers and what each cell of each
 * buffer holds afterwards. The promises stand in the library's text, in crates/ with these functions.
 *
 * A call that cannot be served gets one refusal number, and every buffer keeps its contents. No function allocates,
 * keeps anything between calls or ends the program. Of the stack spline_build takes some 30 KB, and spline_read_sheet and
 * spline_build_sheet some 60 KB. Calls from several threads are fine while no two share a buffer that is
 * written.
 *
 * What the caller owes, since no proof can see it:
 * - a list is a pointer and a count of elements; the pointer is aligned for its type, and that many elements
 *   behind it can be read (and written, where it is not const). With a count of 0 it is not followed, and may be NULL;
 * - what is written overlaps nothing else that is passed in the same call;
 * - records are initialised by field name, as in {.order = 5, .s_max = 2.0}: later versions add fields, and 0 is what
 *   each field had before it was there;
 * - the processor rounds to nearest and keeps subnormal numbers, as every program starts out that is not linked
 *   with -ffast-math.
 *
 * What is left open: where a result is NaN, which NaN it is (its sign and the bits of its fraction), and the padding
 * bytes of a record. Everything else is settled to the last bit, a zero's sign included.
 */
#ifndef TEZVORUP_H
#define TEZVORUP_H

#include <stddef.h>
#include <stdint.h>

#ifdef __cplusplus
extern "C" {
#endif

/* The refusal numbers. Which of them each function can answer stands at the function, and that there are no others is
   proved (NumbersAreListed, crates/theorem_records/specs/Exports.antt). spline_message has a sentence for each. */
enum {
    /* Served. */
    SPLINE_OK = 0,
    /* More than 257 points or 256 segments; or a list of another length: the coefficients of a build, a buffer
       that the level of a query writes, the table of a master. On a sheet, a 258th point or a state's 4th number; or
       coefficients that are fewer than the sheet's table has. */
    SPLINE_INVALID_LENGTH = 2,
    /* The waypoint list is not axes * points long. On a sheet, an axis has another count of points than the first. */
    SPLINE_INVALID_SHAPE = 3,
    /* A waypoint or a state's number is NaN or infinite; in a master check and on a sheet, a number is beyond 2^40 or
       -2^40. */
    SPLINE_INVALID_ARGUMENT = 4,
    /* No axis, or more than 8. */
    SPLINE_INVALID_DIMENSION = 300,
    /* An end of the range is NaN or infinite, or s_min < s_max does not hold, or segments / (s_max - s_min) is not
       finite and above 0; in a query also an inv_ds other than that quotient. */
    SPLINE_INVALID_RANGE = 301,
    /* An order other than 3, 5 and 7. */
    SPLINE_INVALID_ORDER = 302,
    /* A state that is not axes by (order - 1) / 2 with that many numbers, or has an unknown kind; in a query,
       coefficients that are not axes * segments * (order + 1). */
    SPLINE_DIMENSION_MISMATCH = 303,
    /* Fewer than 2 points; in a query, no segment. */
    SPLINE_NOT_ENOUGH_WAYPOINTS = 304,
    /* s is NaN, or outside the range in mode Error. */
    SPLINE_OUT_OF_RANGE_S = 305,
    /* A level other than 0, 2 and 3. */
    SPLINE_UNSUPPORTED_DERIVATIVE_ORDER = 308,
    /* A byte that no sheet has there; or the text ends early, or is longer than SPLINE_SHEET_BYTES. */
    SPLINE_INVALID_SHEET = 600,
    /* A bracket that opens an item inside four again. */
    SPLINE_SHEET_TOO_DEEP = 601
};

/* The kinds of a state, the numbers at an end of the curve. Other kinds are reserved, and refused with 303. */
enum {
    /* All derivatives zero: the curve starts or stops at rest. It is no natural end. Rows, columns and list are not
       looked at. */
    SPLINE_STATE_NONE = 0,
    /* Taylor coefficients in segment units: column r holds derivative r + 1, per segment, divided by (r + 1)!. */
    SPLINE_STATE_GIVEN = 1,
    /* Per unit of s: column r is divided by inv_ds r + 1 times, and is then taken as above. */
    SPLINE_STATE_PER_UNIT_OF_S = 2
};

/* What a query does with an s outside the range: refuse it, or take the nearest end. Other modes are reserved, and read
   as Error. */
enum { SPLINE_MODE_ERROR = 0, SPLINE_MODE_CLAMP = 1 };

/* The shape of a state; its numbers are a list beside it. All zero is no state. */
typedef struct {
    uint8_t kind;
    size_t rows, columns;
} spline_state;

/* What to build: the order (3, 5 or 7), the range, the mode of later queries, and the states at both ends. */
typedef struct {
    size_t order;
    double s_min, s_max;
    uint8_t mode;
    spline_state start, end;
} spline_config;

/* What a query needs to know of a curve beside its coefficients. spline_build hands it over, and spline_preview beforehand. */
typedef struct {
    size_t order, segments, axes;
    double s_min, s_max, inv_ds;
    uint8_t mode;
} spline_path;

/* What a build answers, and a preview: SPLINE_OK and the curve's record, or a refusal number and the record all zero. */
typedef struct {
    uint32_t number;
    spline_path path;
} spline_answer;

/* What a master check answers. good is 1 exactly where it says yes, which is never beside a refusal; number is the
   refusal's or 0. So number 0 alone is no yes: where good is 0 beside it, the check says no. */
typedef struct {
    uint32_t number;
    uint8_t good;
} spline_check;

/* What reading a job sheet answers: SPLINE_OK and the sheet's length, or a refusal number and its place, a byte counted
   from 0. The place is the sheet's length where no byte is at fault, but the curve cannot be built. */
typedef struct {
    uint32_t number;
    size_t at;
} spline_place;

/* What building the curve of a job sheet answers: the same, and the curve's record, which is all zero at a refusal. */
typedef struct {
    uint32_t number;
    size_t at;
    spline_path path;
} spline_sheet;

/* What is kept of a number on a sheet whose bytes come in pieces: where it began, the next place, the size of its digits,
   how far it is, and 1 for a minus. All zero is a number that begins at place 0. The library alone sets the fields. */
typedef struct {
    size_t start, next;
    uint64_t size;
    uint8_t stage, minus;
} spline_number;

/* What such a number says: SPLINE_OK, the place after it and its value; or a refusal number, its place and a value of 0. */
typedef struct {
    uint32_t number;
    size_t at;
    int64_t value;
} spline_whole;

/* How many coefficients a curve has, (order + 1) for each segment of each axis: for array lengths. */
#define SPLINE_COEFFICIENTS(order, points, axes) ((axes) * ((points) - 1) * ((order) + 1))

/* The longest sheet has so many bytes, and the curve of any sheet at most so many coefficients. */
#define SPLINE_SHEET_BYTES 32768
#define SPLINE_SHEET_COEFFICIENTS 16384

/* a * b + c with one rounding, IEEE 754's fused multiply-add, for all a, b and c. */
double spline_mul_add(double a, double b, double c);

/*
 * Builds the curve through points (2 to 257) of so many axes (1 to 8), spread evenly over the range s_min to s_max.
 *
 * waypoints     point after point, axis by axis in each: axes * points numbers
 * start, end    the states' numbers, unless the kind is SPLINE_STATE_NONE: axes rows and (order - 1) / 2 columns, column
 *               by column
 * coefficients  filled with SPLINE_COEFFICIENTS(order, points, axes) numbers, by axis, then segment, then power. The
 *               first of each segment is its left waypoint
 *
 * Answers SPLINE_OK, or a refusal number, one of 2, 3, 4 and 300 to 304; then coefficients hold what they held.
 */
spline_answer spline_build(spline_config config, size_t points, size_t axes,
                           const double *waypoints, size_t waypoint_count,
                           const double *start, size_t start_count,
                           const double *end, size_t end_count,
                           double *coefficients, size_t coefficient_count);

/*
 * Asks before the build: answers the number and the record that spline_build would, given the same and a table of this
 * count. So while a customer waits, it tells whether the points will be taken, and the loaded table stays as it is: it is
 * not lent. The count is any number, also one that no list has.
 *
 * That it answers what spline_build then does, refusals included, is proved for all that can be given
 * (PreviewIsTheBuild, crates/theorem_builds/specs/Previews.antt). It costs the questions alone, and no solving.
 */
spline_answer spline_preview(spline_config config, size_t points, size_t axes,
                             const double *waypoints, size_t waypoint_count,
                             const double *start, size_t start_count,
                             const double *end, size_t end_count,
                             size_t coefficient_count);

/*
 * Position and derivatives at s of a curve that spline_build built.
 *
 * path, coefficients     what the build handed over and wrote, all of it
 * q, dq, ddq, dddq       one number an axis into each buffer that the level writes. Level 0 writes q (position); 2 also
 *                        dq and ddq (first and second derivative by s); 3 also dddq (the third). A buffer above the
 *                        level may have any length and is left alone
 *
 * Answers SPLINE_OK, or a refusal number, one of 2, 300 to 305 and 308; then all four buffers hold what they held.
 */
uint32_t spline_query(spline_path path, const double *coefficients, size_t coefficient_count, double s, uint8_t level,
                      double *q, size_t q_count,
                      double *dq, size_t dq_count,
                      double *ddq, size_t ddq_count,
                      double *dddq, size_t dddq_count);

/*
 * Checks a master, one axis kept in whole numbers within 2^40 and -2^40: whether its table goes through its
 * waypoints, starts and ends in its states, and is smooth to derivative order - 1 at every joint. Of two sets of one
 * order that are good, the tables are equal exactly when waypoints, start and end are.
 *
 * start, end    (order - 1) / 2 numbers each, Taylor coefficients in segment units
 * table         order + 1 numbers for each segment, by segment, then power
 *
 * The number is SPLINE_OK, or a refusal number, one of 2, 4 and 302 to 304. Nothing is written.
 */
spline_check spline_check_master(size_t order,
                                 const int64_t *waypoints, size_t waypoint_count,
                                 const int64_t *start, size_t start_count,
                                 const int64_t *end, size_t end_count,
                                 const int64_t *table, size_t table_count);

/*
 * Reads a job sheet, and says whether its curve would be built. A sheet is a text in whole numbers, one form a line:
 *
 *     (order 3)
 *     (range 0 2)
 *     (axis (points 0 4 8) (start 0) (end 0))
 *
 * The range is s_min and s_max. There are 1 to 8 lines of axes, each list has one item or more, and start and end have
 * (order - 1) / 2 numbers on each axis, Taylor coefficients in segment units. An item is a number or stands for several:
 * (again 3 0 100) is 0 100 0 100 0 100. Its count is 1 to 64, its items may be again forms, and at most four of them
 * stand inside one another. There is one space between items and a newline after each line, the last one too. A number
 * below 0 has a minus, none has leading zeros, and there is no -0.
 *
 * text          the bytes of the sheet, without an end mark. Only the first SPLINE_SHEET_BYTES are looked at
 *
 * Answers SPLINE_OK, or a refusal number, one of 2, 3, 4, 301 to 304, 600 and 601. Nothing is written. That the sheets
 * taken are exactly these, and the place of each fault, is proved (crates/theorem_sheets/specs).
 */
spline_place spline_read_sheet(const uint8_t *text, size_t text_count);

/*
 * Builds the curve of a job sheet, in mode Error, as spline_build does from the sheet's numbers with states given.
 *
 * text          as above
 * coefficients  their first cells are filled, by axis, then segment, then power; those past the curve's table keep their
 *               contents. How many are filled is SPLINE_COEFFICIENTS of the record's order, segments + 1 and axes.
 *               SPLINE_SHEET_COEFFICIENTS cells suffice for every sheet
 *
 * Answers as spline_read_sheet does, or 2 and the sheet's length where the cells are fewer than the table has, which is
 * asked before the range (301). At a refusal coefficients hold what they held.
 */
spline_sheet spline_build_sheet(const uint8_t *text, size_t text_count, double *coefficients, size_t coefficient_count);

/*
 * Reads a number of a sheet whose bytes come in pieces. Begin at the number's place in the whole text, continue with the
 * bytes from there on as they come, and finish. A number is 0, or a digit 1 to 9 and any digits after it, with a minus
 * before them where it is below 0. The first byte that is not part of it ends it, and later ones are not looked at.
 *
 * at       the place of the number's first byte; places are counted in the whole text, modulo 2^64
 * bytes    the next bytes, any number of them, none included; those before them are not needed any more
 *
 * Finishing says what the number is if nothing more comes. It can be asked after any piece, and the record goes on as before.
 * Answers SPLINE_OK; or 600 at the byte that no number has there, or where the bytes end early; or 4 at the number's first
 * byte where it is beyond 2^40 or -2^40. Wherever the bytes are cut, it is the answer for all of them at once: that is
 * proved for places below 2^64 (PiecesSayTheWhole, crates/theorem_numbers/specs/Pieces.antt). A record that the library
 * did not make is answered too: with a stage above 6, a minus above 1 or a size beyond 2^40 it says 600 at its next place
 * and stays as it is.
 */
spline_number spline_begin_number(size_t at);
spline_number spline_continue_number(spline_number number, const uint8_t *bytes, size_t byte_count);
spline_whole spline_finish_number(spline_number number);

/* ---- two conveniences, not proved */

/* How many coefficients a curve has, or 0 where a build refuses the order or a count. */
static inline size_t spline_coefficients(size_t order, size_t points, size_t axes) {
    if ((order != 3 && order != 5 && order != 7) || points < 2 || points > 257 || axes < 1 || axes > 8)
        return 0;
    return SPLINE_COEFFICIENTS(order, points, axes);
}

/* A sentence for each number. */
static inline const char *spline_message(uint32_t number) {
    switch (number) {
    case SPLINE_OK:
        return "served";
    case SPLINE_INVALID_LENGTH:
        return "there are more than 257 points, a state on a sheet has more than 3 numbers, or a list that is to be "
               "filled or checked has another length";
    case SPLINE_INVALID_SHAPE:
        return "the waypoint list is not as long as axes times points, or a sheet's axes differ in their points";
    case SPLINE_INVALID_ARGUMENT:
        return "a number is not finite, or in a master check or on a sheet beyond 2^40";
    case SPLINE_INVALID_DIMENSION:
        return "the axes are not 1 to 8";
    case SPLINE_INVALID_RANGE:
        return "the range of s is not finite and rising, or inv_ds is not that of the range";
    case SPLINE_INVALID_ORDER:
        return "the order is not 3, 5 or 7";
    case SPLINE_DIMENSION_MISMATCH:
        return "a state has another shape or an unknown kind, or the coefficients are not those of the path";
    case SPLINE_NOT_ENOUGH_WAYPOINTS:
        return "there are fewer than 2 points";
    case SPLINE_OUT_OF_RANGE_S:
        return "s is not a number, or outside the range";
    case SPLINE_UNSUPPORTED_DERIVATIVE_ORDER:
        return "the level is not 0, 2 or 3";
    case SPLINE_INVALID_SHEET:
        return "no sheet has this byte here, or the sheet ends early or is longer than 32768 bytes";
    case SPLINE_SHEET_TOO_DEEP:
        return "a bracket opens inside four again";
    default:
        return "no number of this library";
    }
}

#ifdef __cplusplus
}
#endif

#endif
