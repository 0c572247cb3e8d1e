/* An arch through three points, from C: asked about, built, printed, walked along, refused and checked. `examples/c` builds and
   runs it; examples/curve.rs is the same in Rust and prints the same. */
#include <math.h>
#include <stdio.h>
#include <string.h>

#include <tezvorup.h>

enum { ORDER = 5, POINTS = 3, AXES = 2, SEGMENTS = POINTS - 1, CELLS = ORDER + 1, STATE = (ORDER - 1) / 2 };

/* The mode is SPLINE_MODE_ERROR, and both states are SPLINE_STATE_NONE, which is at rest. */
static const spline_config config = {.order = ORDER, .s_min = 0.0, .s_max = 2.0};

/* What the build will answer. No table is needed. */
static spline_answer preview(const double *waypoints) {
    return spline_preview(config, POINTS, AXES, waypoints, AXES * POINTS, NULL, 0, NULL, 0,
                          SPLINE_COEFFICIENTS(ORDER, POINTS, AXES));
}

/* Builds into a table that may be in use: it changes only where the answer's number is SPLINE_OK. */
static spline_answer build(const double *waypoints, double *table) {
    return spline_build(config, POINTS, AXES, waypoints, AXES * POINTS, NULL, 0, NULL, 0,
                        table, SPLINE_COEFFICIENTS(ORDER, POINTS, AXES));
}

/* Position and two derivatives at s. */
static uint32_t query(spline_path path, const double *table, double s, double *q, double *dq, double *ddq) {
    return spline_query(path, table, spline_coefficients(path.order, path.segments + 1, path.axes), s, 2,
                        q, path.axes, dq, path.axes, ddq, path.axes, NULL, 0);
}

/* Whether a table is the master through x's points that starts and ends at rest. */
static const char *check(const int64_t *table) {
    const int64_t points[POINTS] = {0, 8, 16}, rest[STATE] = {0, 0};
    spline_check c = spline_check_master(ORDER, points, POINTS, rest, STATE, rest, STATE, table, SEGMENTS * CELLS);
    return c.good ? "yes" : c.number == SPLINE_OK ? "no" : spline_message(c.number);
}

int main(void) {
    /* x and y of one point after the other */
    const double waypoints[AXES * POINTS] = {0, 0, 8, 3, 16, 0};
    double table[SPLINE_COEFFICIENTS(ORDER, POINTS, AXES)];

    spline_answer told = preview(waypoints);
    printf("preview: %u, segments %zu\n", (unsigned)told.number, told.path.segments);
    spline_answer built = build(waypoints, table);
    printf("build: %u\n", (unsigned)built.number);
    if (built.number != SPLINE_OK)
        return 1;
    for (int axis = 0; axis < AXES; axis++)
        for (int segment = 0; segment < SEGMENTS; segment++) {
            printf("%c, segment %d:", "xy"[axis], segment);
            for (int power = 0; power < CELLS; power++)
                printf(" %.1f", table[(axis * SEGMENTS + segment) * CELLS + power]);
            printf("\n");
        }

    for (int step = 0; step <= 8; step++) {
        double s = step / 4.0, q[AXES], dq[AXES], ddq[AXES];
        if (query(built.path, table, s, q, dq, ddq) != SPLINE_OK)
            return 1;
        double curvature = (dq[0] * ddq[1] - dq[1] * ddq[0]) / pow(dq[0] * dq[0] + dq[1] * dq[1], 1.5);
        printf("s %.2f: x %.6f, y %.6f", s, q[0], q[1]);
        /* the path starts and ends at rest, where it has no direction */
        if (isfinite(curvature))
            printf(", curvature %.6f", curvature);
        printf("\n");
    }

    /* Points that are not accepted leave the loaded table as it was. */
    double loaded[SPLINE_COEFFICIENTS(ORDER, POINTS, AXES)];
    memcpy(loaded, table, sizeof table);
    const double damaged[AXES * POINTS] = {0, 0, NAN, 3, 16, 0};
    spline_answer refused = build(damaged, table);
    printf("a waypoint that is no number: told %u, refused with %u, the table is %s\n",
           (unsigned)preview(damaged).number, (unsigned)refused.number,
           memcmp(loaded, table, sizeof table) == 0 ? "as it was" : "changed");

    double q[AXES], dq[AXES], ddq[AXES];
    printf("s 2.5: refused with %u\n", (unsigned)query(built.path, table, 2.5, q, dq, ddq));

    /* The x axis is whole numbers, so it can be kept as a master. */
    int64_t master[SEGMENTS * CELLS];
    for (int i = 0; i < SEGMENTS * CELLS; i++)
        master[i] = (int64_t)table[i];
    printf("x as a master: %s", check(master));
    master[SEGMENTS * CELLS - 1] += 1;
    printf("; with its last number changed: %s\n", check(master));
    return 0;
}
