/* Calls every function of havgrunel.h at least once and checks what comes back, what is written and what stays as it was. */
#include "havgrunel.h"

#include <math.h>
#include <stdio.h>
#include <stdlib.h>
#include <string.h>
#include <time.h>

static int checks;
static int failures;

#define CHECK(holds)                                                             \
    do {                                                                         \
        checks++;                                                                \
        if (!(holds)) {                                                          \
            failures++;                                                          \
            fprintf(stderr, "c/test.c:%d: does not hold: %s\n", __LINE__, #holds); \
        }                                                                        \
    } while (0)

/* A number by its bits: -0.0 is not 0.0. */
static uint64_t bits(double x)
{
    uint64_t b;
    memcpy(&b, &x, sizeof b);
    return b;
}

static bool same(double a, double b)
{
    return bits(a) == bits(b) || (isnan(a) && isnan(b));
}

/* Buffers for curves of up to 8 points, one entry longer than they need to be. */
enum { POINTS = 8, NODES = POINTS + 1, TAGS = POINTS, SLOTS = HAVGRUNEL_SLOTS * (POINTS - 1) + 1 };

/* The numbers of a section itself, room for a record and one entry more, and the slots of the two sections of three points. */
enum { FIELDS = HAVGRUNEL_FIELDS, ROOM = HAVGRUNEL_SLOTS + 1, TWO = 2 * HAVGRUNEL_SLOTS };

struct curve {
    double nodes[NODES];
    uint16_t tags[TAGS];
    double slots[SLOTS];
    size_t sections[2];
    double tail[4];
};

/* What no call writes by itself. */
static void fill(struct curve *c)
{
    memset(c, 0x5a, sizeof *c);
}

static bool untouched(const struct curve *c)
{
    struct curve fresh;
    fill(&fresh);
    return memcmp(c, &fresh, sizeof fresh) == 0;
}

/* The entries behind the first n points' are as they were. */
static bool rest_untouched(const struct curve *c, size_t n)
{
    struct curve fresh;
    fill(&fresh);
    const size_t slots = HAVGRUNEL_SLOTS * (n - 1);
    return memcmp(c->nodes + n, fresh.nodes + n, sizeof fresh.nodes - n * sizeof *fresh.nodes) == 0
        && memcmp(c->tags + n - 1, fresh.tags + n - 1, sizeof fresh.tags - (n - 1) * sizeof *fresh.tags) == 0
        && memcmp(c->slots + slots, fresh.slots + slots, sizeof fresh.slots - slots * sizeof *fresh.slots) == 0
        && memcmp(c->sections + 1, fresh.sections + 1, sizeof *fresh.sections) == 0
        && memcmp(c->tail + 3, fresh.tail + 3, sizeof *fresh.tail) == 0;
}

struct table {
    const double *knots;
    size_t knots_count;
    const double *averages;
    size_t averages_count;
    double quadraticity;
    double monotonicity;
    bool positive;
    uint8_t split;
};

static uint8_t build_in(const struct table *t, bool hold, bool seamed, size_t count, double node, size_t nodes, size_t tags, size_t slots,
    size_t sections, size_t tail, struct curve *c)
{
    return havgrunel_build(t->knots, t->knots_count, t->averages, t->averages_count, t->quadraticity, t->monotonicity, t->positive, t->split, hold,
        seamed, count, node, c->nodes, nodes, c->tags, tags, c->slots, slots, c->sections, sections, c->tail, tail);
}

static uint8_t build(const struct table *t, bool hold, struct curve *c)
{
    fill(c);
    return build_in(t, hold, false, 0, 0.0, NODES, TAGS, SLOTS, 2, 4, c);
}

typedef uint8_t query(const double *, size_t, const uint16_t *, size_t, const double *, size_t, double, double, double, bool, double, double *,
    size_t);

static uint8_t ask(query *q, const struct table *t, const struct curve *c, bool extrapolate, double x, double *answer)
{
    return q(t->knots, t->knots_count, c->tags, TAGS, c->slots, SLOTS, c->tail[0], c->tail[1], c->tail[2], extrapolate, x, answer, 1);
}

/* The price and the total at x, where both are to be there. */
static bool answers(const struct table *t, const struct curve *c, bool extrapolate, double x, double value, double primitive)
{
    double v = -1.0;
    double p = -1.0;
    return ask(havgrunel_value, t, c, extrapolate, x, &v) == 0 && ask(havgrunel_primitive, t, c, extrapolate, x, &p) == 0 && same(v, value)
        && same(p, primitive);
}

typedef struct havgrunel_many queries(const double *, size_t, const uint16_t *, size_t, const double *, size_t, double, double, double, bool,
    const double *, size_t, double *, size_t);

static struct havgrunel_many ask_many(queries *q, const struct table *t, const struct curve *c, bool extrapolate, const double *xs, size_t n, double *to,
    size_t room)
{
    return q(t->knots, t->knots_count, c->tags, TAGS, c->slots, SLOTS, c->tail[0], c->tail[1], c->tail[2], extrapolate, xs, n, to, room);
}

/* What a call for many came back with: this refusal, or 0, and the first that it was for, or the count of all where none was. */
static bool told(struct havgrunel_many many, uint8_t refusal, size_t query)
{
    return many.refusal == refusal && many.query == query;
}

/* Both queries are refused with this number, and write nothing. */
static bool refuses(const struct table *t, const struct curve *c, bool extrapolate, double x, uint8_t refusal)
{
    double v = -1.0;
    double p = -1.0;
    return ask(havgrunel_value, t, c, extrapolate, x, &v) == refusal && ask(havgrunel_primitive, t, c, extrapolate, x, &p) == refusal
        && same(v, -1.0) && same(p, -1.0);
}

/* The order that is worked in the requirements: two points are one constant section. */
static void two_points(void)
{
    const double knots[] = {0.0, 2.0};
    const double averages[] = {9.0, 2.0};
    const struct table t = {knots, 2, averages, 2, 0.0, 0.0, false, HAVGRUNEL_SPLIT_ORIGINAL};
    struct curve c;
    CHECK(build(&t, false, &c) == 0);
    CHECK(c.sections[0] == 1);
    CHECK(c.tags[0] == 0x0100);
    CHECK(same(c.nodes[0], 0.0) && same(c.nodes[1], 0.0));
    CHECK(same(c.tail[0], 2.0) && same(c.tail[1], 0.0) && same(c.tail[2], 0.0));
    CHECK(rest_untouched(&c, 2));
    CHECK(answers(&t, &c, false, 1.0, 2.0, 2.0));
    CHECK(answers(&t, &c, false, 2.0, 2.0, 4.0));
}

static const double three_knots[] = {0.0, 1.0, 2.0};
static const double three_averages[] = {0.0, 1.0, 3.0};
static const struct table three = {three_knots, 3, three_averages, 3, 0.0, 1.0, false, HAVGRUNEL_SPLIT_ORIGINAL};

static void three_points(void)
{
    struct curve c;
    CHECK(build(&three, false, &c) == 0);
    CHECK(c.sections[0] == 2);
    CHECK(same(c.nodes[0], 0.5) && same(c.nodes[1], 2.0) && same(c.nodes[2], 3.5));
    CHECK(c.tags[0] == 0x2000 && c.tags[1] == 0x2000);
    CHECK(same(c.tail[0], 3.5) && same(c.tail[1], 4.0) && same(c.tail[2], 2.0));
    CHECK(rest_untouched(&c, 3));
    double v = -1.0;
    CHECK(ask(havgrunel_value, &three, &c, false, 0.5, &v) == 0 && same(v, 0.875));
    CHECK(ask(havgrunel_value, &three, &c, false, 1.5, &v) == 0 && same(v, 3.125));
    CHECK(ask(havgrunel_value, &three, &c, false, 1.0, &v) == 0 && same(v, 2.0));
    CHECK(ask(havgrunel_primitive, &three, &c, false, 1.0, &v) == 0 && same(v, 1.0));
    CHECK(answers(&three, &c, false, 2.0, 3.5, 4.0));
    CHECK(refuses(&three, &c, false, -1.0, HAVGRUNEL_QUERY_OUTSIDE));
    CHECK(refuses(&three, &c, false, 2.5, HAVGRUNEL_QUERY_OUTSIDE));
    CHECK(ask(havgrunel_value, &three, &c, true, -1.0, &v) == 0 && same(v, 2.0));
    CHECK(answers(&three, &c, true, 3.0, 3.5, 7.5));
    CHECK(refuses(&three, &c, true, NAN, HAVGRUNEL_QUERY_NOT_A_NUMBER));

    /* many at once are told what each is told, in any order; one entry more stays as it was */
    const double xs[] = {1.5, 0.5, 1.0, 0.0, 2.0, 0.25};
    double many[7] = {-1.0, -1.0, -1.0, -1.0, -1.0, -1.0, -1.0};
    CHECK(told(ask_many(havgrunel_values, &three, &c, false, xs, 6, many, 7), 0, 6));
    CHECK(same(many[0], 3.125) && same(many[1], 0.875) && same(many[2], 2.0) && same(many[4], 3.5) && same(many[6], -1.0));
    for (size_t i = 0; i < 6; i++) {
        CHECK(ask(havgrunel_value, &three, &c, false, xs[i], &v) == 0 && same(many[i], v));
    }
    CHECK(told(ask_many(havgrunel_primitives, &three, &c, false, xs, 6, many, 6), 0, 6));
    CHECK(same(many[2], 1.0) && same(many[4], 4.0));
    for (size_t i = 0; i < 6; i++) {
        CHECK(ask(havgrunel_primitive, &three, &c, false, xs[i], &v) == 0 && same(many[i], v));
    }
    CHECK(told(ask_many(havgrunel_values, &three, &c, false, NULL, 0, NULL, 0), 0, 0));

    /* the first that is refused refuses all, its number is told, and nothing is written */
    const double bad[] = {0.5, 2.5, NAN, 1.0};
    double kept[4] = {-1.0, -1.0, -1.0, -1.0};
    CHECK(told(ask_many(havgrunel_values, &three, &c, false, bad, 4, kept, 4), HAVGRUNEL_QUERY_OUTSIDE, 1));
    CHECK(told(ask_many(havgrunel_primitives, &three, &c, true, bad, 4, kept, 4), HAVGRUNEL_QUERY_NOT_A_NUMBER, 2));
    CHECK(told(ask_many(havgrunel_values, &three, &c, true, bad, 4, kept, 3), HAVGRUNEL_BUFFER_TOO_SHORT, 4));
    CHECK(same(kept[0], -1.0) && same(kept[1], -1.0) && same(kept[2], -1.0) && same(kept[3], -1.0));

    CHECK(havgrunel_derivative(1.0) == HAVGRUNEL_DERIVATIVE_ASKED);
    CHECK(havgrunel_derivative(NAN) == HAVGRUNEL_DERIVATIVE_ASKED);

    /* a held last period is constant, from the last but one knot on */
    CHECK(build(&three, true, &c) == 0);
    CHECK(c.tags[0] == 0x2000 && c.tags[1] == 0x0100);
    CHECK(same(c.tail[0], 3.0) && same(c.tail[1], 1.0) && same(c.tail[2], 1.0));
    CHECK(answers(&three, &c, false, 1.5, 3.0, 2.5));
}

static void refused_tables(void)
{
    struct curve c;
    struct table t = three;
    t.averages_count = 2;
    CHECK(build(&t, false, &c) == HAVGRUNEL_LENGTHS_DIFFER && untouched(&c));
    t = three;
    t.monotonicity = NAN;
    t.quadraticity = 2.0;
    CHECK(build(&t, false, &c) == HAVGRUNEL_MONOTONICITY_OUTSIDE && untouched(&c));
    t.monotonicity = 1.0;
    CHECK(build(&t, false, &c) == HAVGRUNEL_QUADRATICITY_OUTSIDE && untouched(&c));
    t = three;
    t.knots_count = t.averages_count = 1;
    CHECK(build(&t, false, &c) == HAVGRUNEL_TOO_FEW_POINTS && untouched(&c));
    t.knots = t.averages = NULL;
    t.knots_count = t.averages_count = 0;
    CHECK(build(&t, false, &c) == HAVGRUNEL_TOO_FEW_POINTS && untouched(&c));

    const double infinite[] = {0.0, INFINITY, 2.0};
    const double missing[] = {NAN, 1.0, 3.0};
    const double level[] = {0.0, 1.0, 1.0};
    t = three;
    t.knots = infinite;
    t.averages = missing;
    CHECK(build(&t, false, &c) == HAVGRUNEL_KNOT_NOT_FINITE && untouched(&c));
    t.knots = level;
    CHECK(build(&t, false, &c) == HAVGRUNEL_AVERAGE_NOT_FINITE && untouched(&c));
    t.averages = three_averages;
    CHECK(build(&t, false, &c) == HAVGRUNEL_KNOTS_NOT_RISING && untouched(&c));

    fill(&c);
    CHECK(build_in(&three, false, true, 2, 1.0, NODES, TAGS, SLOTS, 2, 4, &c) == HAVGRUNEL_SEAM_TOO_LONG && untouched(&c));
    CHECK(build_in(&three, false, true, SIZE_MAX, 1.0, NODES, TAGS, SLOTS, 2, 4, &c) == HAVGRUNEL_SEAM_TOO_LONG && untouched(&c));
    CHECK(build_in(&three, false, true, 1, 1.0, NODES, TAGS, SLOTS, 2, 4, &c) == 0 && same(c.nodes[1], 1.0));

    /* each buffer one entry too short; a table's own refusal comes before them */
    fill(&c);
    CHECK(build_in(&three, false, false, 0, 0.0, 2, 2, TWO, 1, 3, &c) == HAVGRUNEL_BUFFER_TOO_SHORT && untouched(&c));
    CHECK(build_in(&three, false, false, 0, 0.0, 3, 1, TWO, 1, 3, &c) == HAVGRUNEL_BUFFER_TOO_SHORT && untouched(&c));
    CHECK(build_in(&three, false, false, 0, 0.0, 3, 2, TWO - 1, 1, 3, &c) == HAVGRUNEL_BUFFER_TOO_SHORT && untouched(&c));
    CHECK(build_in(&three, false, false, 0, 0.0, 3, 2, TWO, 0, 3, &c) == HAVGRUNEL_BUFFER_TOO_SHORT && untouched(&c));
    CHECK(build_in(&three, false, false, 0, 0.0, 3, 2, TWO, 1, 2, &c) == HAVGRUNEL_BUFFER_TOO_SHORT && untouched(&c));
    t = three;
    t.knots = level;
    CHECK(build_in(&t, false, false, 0, 0.0, 3, 2, TWO, 0, 0, &c) == HAVGRUNEL_KNOTS_NOT_RISING && untouched(&c));
    CHECK(build_in(&three, false, false, 0, 0.0, 3, 2, TWO, 1, 3, &c) == 0 && rest_untouched(&c, 3));

    const size_t many = HAVGRUNEL_MOST_POINTS + 1;
    double *days = malloc(many * sizeof *days);
    if (days == NULL) {
        CHECK(days != NULL);
        return;
    }
    for (size_t i = 0; i < many; i++)
        days[i] = (double)i;
    t = (struct table){days, many, days, many, 0.3, 0.7, true, HAVGRUNEL_SPLIT_ORIGINAL};
    CHECK(build(&t, false, &c) == HAVGRUNEL_TOO_MANY_POINTS && untouched(&c));
    free(days);
}

static void refused_queries(void)
{
    struct curve c;
    CHECK(build(&three, false, &c) == 0);
    const double level[] = {0.0, 1.0, 1.0};
    const double infinite[] = {0.0, 1.0, INFINITY};
    const uint16_t no_kinds[] = {0, 0};
    struct table t = three;
    t.knots_count = 1;
    CHECK(refuses(&t, &c, false, NAN, HAVGRUNEL_TOO_FEW_POINTS));
    t = three;
    t.knots = infinite;
    CHECK(refuses(&t, &c, false, NAN, HAVGRUNEL_KNOT_NOT_FINITE));
    t.knots = level;
    CHECK(refuses(&t, &c, false, NAN, HAVGRUNEL_KNOTS_NOT_RISING));

    double v = -1.0;
    CHECK(havgrunel_value(three_knots, 3, c.tags, 1, c.slots, TWO, 0.0, 0.0, 0.0, false, 0.5, &v, 1) == HAVGRUNEL_BUFFER_TOO_SHORT);
    CHECK(havgrunel_value(three_knots, 3, c.tags, 2, c.slots, TWO - 1, 0.0, 0.0, 0.0, false, 0.5, &v, 1) == HAVGRUNEL_BUFFER_TOO_SHORT);
    CHECK(havgrunel_primitive(three_knots, 3, c.tags, 2, c.slots, TWO, 0.0, 0.0, 0.0, false, 0.5, NULL, 0) == HAVGRUNEL_BUFFER_TOO_SHORT);
    /* A short answer is an 11 and stands where 11 stands: after 4, 5, 7 and 10, before 12, 13 and 15. */
    CHECK(havgrunel_primitive(three_knots, 1, c.tags, 2, c.slots, TWO, 0.0, 0.0, 0.0, false, NAN, NULL, 0) == HAVGRUNEL_TOO_FEW_POINTS);
    CHECK(havgrunel_value(infinite, 3, c.tags, 2, c.slots, TWO, 0.0, 0.0, 0.0, false, NAN, NULL, 0) == HAVGRUNEL_KNOT_NOT_FINITE);
    CHECK(havgrunel_primitive(level, 3, c.tags, 2, c.slots, TWO, 0.0, 0.0, 0.0, false, NAN, NULL, 0) == HAVGRUNEL_KNOTS_NOT_RISING);
    CHECK(havgrunel_value(three_knots, 3, c.tags, 2, c.slots, TWO, 0.0, 0.0, 0.0, false, NAN, NULL, 0) == HAVGRUNEL_BUFFER_TOO_SHORT);
    CHECK(havgrunel_primitive(three_knots, 3, c.tags, 2, c.slots, TWO, 0.0, 0.0, 0.0, false, 9.5, NULL, 0) == HAVGRUNEL_BUFFER_TOO_SHORT);
    CHECK(havgrunel_value(three_knots, 3, no_kinds, 2, c.slots, TWO, 0.0, 0.0, 0.0, false, 0.5, NULL, 0) == HAVGRUNEL_BUFFER_TOO_SHORT);
    CHECK(havgrunel_value(three_knots, 3, no_kinds, 2, c.slots, TWO, 0.0, 0.0, 0.0, false, 0.5, &v, 1) == HAVGRUNEL_RECORD_NOT_LEGAL);
    CHECK(same(v, -1.0));

    /* a record that is not legal is read only where a query needs it */
    c.tags[0] = 0xffff;
    CHECK(refuses(&three, &c, false, 0.5, HAVGRUNEL_RECORD_NOT_LEGAL));
    CHECK(ask(havgrunel_value, &three, &c, false, 1.5, &v) == 0 && same(v, 3.125));
}

/* What one record answers by itself into three numbers. Both of its marks are what their numbers say, and nothing is written behind them. */
static uint8_t section(uint16_t tag, const double *slots, double x, double *a)
{
    bool finite[4] = {true, true, true, false};
    const uint8_t refusal = havgrunel_section(tag, slots, FIELDS, x, a, 3, finite, 2);
    CHECK(refusal != 0 || (finite[0] == (isfinite(a[0]) != 0) && finite[1] == (isfinite(a[1]) != 0)));
    CHECK(finite[2] && !finite[3]);
    return refusal;
}

static bool section_is(uint16_t tag, const double *slots, double x, double value, double primitive, double f_next)
{
    double a[4] = {-1.0, -1.0, -1.0, -1.0};
    return section(tag, slots, x, a) == 0 && same(a[0], value) && same(a[1], primitive) && same(a[2], f_next) && same(a[3], -1.0);
}

static double value_of(uint16_t tag, const double *slots, double x)
{
    double a[3] = {-1.0, -1.0, -1.0};
    CHECK(section(tag, slots, x, a) == 0);
    return a[0];
}

static void records(void)
{
    struct curve c;
    CHECK(build(&three, false, &c) == 0);
    double into[ROOM];
    memset(into, 0x5a, sizeof into);
    const double old = into[HAVGRUNEL_SLOTS];
    CHECK(havgrunel_record(3, c.slots, SLOTS, 1, into, ROOM) == 0);
    CHECK(memcmp(into, c.slots + HAVGRUNEL_SLOTS, HAVGRUNEL_SLOTS * sizeof *into) == 0 && same(into[HAVGRUNEL_SLOTS], old));
    /* the weight of a quadratic part alone, where it starts, its length; and nothing in the other part */
    CHECK(same(into[0], 1.0) && same(into[1], 1.0) && same(into[2], 1.0) && same(into[13], 0.0) && same(into[FIELDS - 1], 0.0));
    CHECK(section_is(c.tags[1], into, 2.0, 3.5, 4.0, 3.5));

    CHECK(havgrunel_record(1, c.slots, SLOTS, 0, into, ROOM) == HAVGRUNEL_TOO_FEW_POINTS);
    CHECK(havgrunel_record(4097, c.slots, SLOTS, 0, into, ROOM) == HAVGRUNEL_TOO_MANY_POINTS);
    CHECK(havgrunel_record(3, c.slots, TWO - 1, 0, into, ROOM) == HAVGRUNEL_BUFFER_TOO_SHORT);
    CHECK(havgrunel_record(3, c.slots, TWO, 2, into, ROOM) == HAVGRUNEL_RECORD_NOT_LEGAL);
    CHECK(havgrunel_record(3, c.slots, TWO, 2, into, 0) == HAVGRUNEL_BUFFER_TOO_SHORT);
    CHECK(havgrunel_record(1, c.slots, SLOTS, 2, into, 0) == HAVGRUNEL_TOO_FEW_POINTS);
    CHECK(havgrunel_record(4097, c.slots, SLOTS, 2, into, 0) == HAVGRUNEL_TOO_MANY_POINTS);
    CHECK(havgrunel_record(3, c.slots, TWO, 0, into, HAVGRUNEL_SLOTS - 1) == HAVGRUNEL_BUFFER_TOO_SHORT);
    CHECK(memcmp(into, c.slots + HAVGRUNEL_SLOTS, HAVGRUNEL_SLOTS * sizeof *into) == 0);

    double a[3] = {-1.0, -1.0, -1.0};
    bool finite[2] = {false, false};
    CHECK(havgrunel_section(0x0000, c.slots, FIELDS, 0.5, a, 3, finite, 2) == HAVGRUNEL_RECORD_NOT_LEGAL);
    CHECK(havgrunel_section(0x2000, c.slots, FIELDS - 1, 0.5, a, 3, finite, 2) == HAVGRUNEL_RECORD_NOT_LEGAL);
    CHECK(havgrunel_section(0x0000, c.slots, FIELDS, 0.5, a, 0, finite, 2) == HAVGRUNEL_BUFFER_TOO_SHORT);
    CHECK(havgrunel_section(0x2000, c.slots, FIELDS, 0.5, a, 2, finite, 2) == HAVGRUNEL_BUFFER_TOO_SHORT);
    CHECK(havgrunel_section(0x2000, c.slots, FIELDS, 0.5, a, 3, finite, 1) == HAVGRUNEL_BUFFER_TOO_SHORT);
    CHECK(havgrunel_section(0x0000, c.slots, FIELDS - 1, 0.5, a, 3, NULL, 0) == HAVGRUNEL_BUFFER_TOO_SHORT);
    CHECK(same(a[0], -1.0) && same(a[1], -1.0) && same(a[2], -1.0) && !finite[0] && !finite[1]);
    CHECK(havgrunel_section(0x2000, c.slots, FIELDS, 0.5, a, 3, finite, 2) == 0 && finite[0] && finite[1]);
}

/* What the record of a section says behind its fields: these prices at its two knots, which are its own, and this total after its period. */
static bool told_at_knots(const struct table *t, const struct curve *c, size_t number, double left, double right, double total)
{
    double s[HAVGRUNEL_SLOTS];
    const uint16_t tag = c->tags[number];
    return havgrunel_record(t->knots_count, c->slots, SLOTS, number, s, HAVGRUNEL_SLOTS) == 0 && same(s[HAVGRUNEL_LEFT_PRICE], left)
        && same(s[HAVGRUNEL_RIGHT_PRICE], right) && same(s[HAVGRUNEL_TOTAL_AFTER], total) && same(value_of(tag, s, t->knots[number]), left)
        && same(value_of(tag, s, t->knots[number + 1]), right);
}

/* Writes over what the records of a curve say behind their fields. */
static void spoil_knots(struct curve *c)
{
    for (size_t number = 0; number < c->sections[0]; number++) {
        for (size_t slot = FIELDS; slot < HAVGRUNEL_SLOTS; slot++)
            c->slots[HAVGRUNEL_SLOTS * number + slot] = NAN;
    }
}

static void knot_prices(void)
{
    struct curve c;
    CHECK(build(&three, false, &c) == 0);
    CHECK(told_at_knots(&three, &c, 0, 0.5, 2.0, 1.0) && told_at_knots(&three, &c, 1, 2.0, 3.5, 4.0));

    /* a held last period, whose price is not that of the period before it at the knot between them */
    CHECK(build(&three, true, &c) == 0);
    CHECK(told_at_knots(&three, &c, 0, 0.5, 2.0, 1.0) && told_at_knots(&three, &c, 1, 3.0, 3.0, 4.0));

    /* two points: the total at the last knot, where the curve's tail starts at the first */
    const struct table two = {three_knots + 1, 2, three_averages + 1, 2, 0.0, 1.0, false, HAVGRUNEL_SPLIT_ORIGINAL};
    for (int hold = 0; hold < 2; hold++) {
        CHECK(build(&two, hold == 1, &c) == 0 && same(c.tail[1], 0.0));
        CHECK(told_at_knots(&two, &c, 0, 3.0, 3.0, 3.0));
    }

    /* what the formulas give, whatever it is: no number at the left knot of a period that traded at 0, and an infinite total */
    const double knots[] = {0.0, 1.0, 2.0, 3.0};
    const double averages[] = {0.0, 2.0, 0.0, 2.0};
    const struct table zero = {knots, 4, averages, 4, 0.0, 0.7, true, HAVGRUNEL_SPLIT_ORIGINAL};
    CHECK(build(&zero, false, &c) == 0);
    CHECK(told_at_knots(&zero, &c, 1, NAN, c.slots[HAVGRUNEL_SLOTS + HAVGRUNEL_RIGHT_PRICE], 2.0));
    const double far[] = {0.0, 0x1p1000, 0x1p1001};
    const double high[] = {0.0, 0x1p1000, 0x1p1000};
    const struct table large = {far, 3, high, 3, 0.0, 0.7, false, HAVGRUNEL_SPLIT_ORIGINAL};
    CHECK(build(&large, false, &c) == 0);
    CHECK(told_at_knots(&large, &c, 0, 0x1p1000, 0x1p1000, INFINITY) && told_at_knots(&large, &c, 1, 0x1p1000, 0x1p1000, INFINITY));

    /* a query reads none of the three */
    CHECK(build(&three, false, &c) == 0);
    spoil_knots(&c);
    CHECK(answers(&three, &c, false, 1.0, 2.0, 1.0) && answers(&three, &c, false, 2.0, 3.5, 4.0));
}

/* One slot too few for each section is an 11, though every section's own numbers would find room. */
static void a_slot_short_of_each(void)
{
    const size_t few = TWO - 2;
    struct curve c;
    fill(&c);
    CHECK(build_in(&three, false, false, 0, 0.0, NODES, TAGS, few, 2, 4, &c) == HAVGRUNEL_BUFFER_TOO_SHORT && untouched(&c));
    CHECK(build(&three, false, &c) == 0);
    double v = -1.0;
    CHECK(havgrunel_value(three_knots, 3, c.tags, 2, c.slots, few, 0.0, 0.0, 0.0, false, 0.5, &v, 1) == HAVGRUNEL_BUFFER_TOO_SHORT);
    CHECK(havgrunel_primitive(three_knots, 3, c.tags, 2, c.slots, few, 0.0, 0.0, 0.0, false, 0.5, &v, 1) == HAVGRUNEL_BUFFER_TOO_SHORT);
    const double x = 0.5;
    CHECK(told(havgrunel_values(three_knots, 3, c.tags, 2, c.slots, few, 0.0, 0.0, 0.0, false, &x, 1, &v, 1), HAVGRUNEL_BUFFER_TOO_SHORT, 1));
    CHECK(told(havgrunel_primitives(three_knots, 3, c.tags, 2, c.slots, few, 0.0, 0.0, 0.0, false, &x, 1, &v, 1), HAVGRUNEL_BUFFER_TOO_SHORT, 1));
    CHECK(same(v, -1.0));
    double into[HAVGRUNEL_SLOTS];
    double old[HAVGRUNEL_SLOTS];
    memset(into, 0x5a, sizeof into);
    memset(old, 0x5a, sizeof old);
    CHECK(havgrunel_record(3, c.slots, few, 0, into, HAVGRUNEL_SLOTS) == HAVGRUNEL_BUFFER_TOO_SHORT);
    CHECK(havgrunel_record(3, c.slots, TWO, 0, into, HAVGRUNEL_SLOTS - 1) == HAVGRUNEL_BUFFER_TOO_SHORT);
    CHECK(memcmp(into, old, sizeof old) == 0);
}

typedef uint8_t of_six(double, double, double, double, double, double, uint16_t *, size_t, double *, size_t);
typedef uint8_t of_seven(double, double, double, double, double, double, double, uint16_t *, size_t, double *, size_t);

static of_six *const quadratic_kinds[] = {havgrunel_quadratic, havgrunel_quadratic_min, havgrunel_quadratic_min_careful, havgrunel_quadratic_min_safe};
static of_seven *const convex_kinds[] = {havgrunel_convex_monotone2, havgrunel_convex_monotone3, havgrunel_convex_monotone4,
    havgrunel_convex_monotone4_min, havgrunel_convex_monotone4_min_safe};

enum { QUADRATICS = sizeof quadratic_kinds / sizeof *quadratic_kinds, CONVEXES = sizeof convex_kinds / sizeof *convex_kinds };

/* A section of any kind, by its place among all. */
static uint8_t kind(size_t place, uint16_t *tag, double *slots, size_t room)
{
    if (place < QUADRATICS)
        return quadratic_kinds[place](0.0, 1.0, 4.0, 1.0, 0.5, 0.0, tag, 1, slots, room);
    if (place < QUADRATICS + CONVEXES)
        return convex_kinds[place - QUADRATICS](0.0, 1.0, 1.0, 1.0, 0.25, 0.5, 0.0, tag, 1, slots, room);
    if (place == QUADRATICS + CONVEXES)
        return havgrunel_constant_grad(1.0, 0.0, 0.0, 2.0, 3.0, tag, 1, slots, room);
    return havgrunel_everywhere_constant(2.0, 3.0, 1.0, tag, 1, slots, room);
}

/* A single section has its fields alone: they are all the room that it takes, and nothing is written behind them, whatever room is there. */
static void fields_alone(void)
{
    double old[ROOM];
    memset(old, 0x5a, sizeof old);
    for (size_t place = 0; place < QUADRATICS + CONVEXES + 2; place++) {
        for (size_t room = FIELDS - 1; room <= ROOM; room++) {
            const size_t written = room < FIELDS ? 0 : FIELDS;
            double s[ROOM];
            uint16_t tag = 0;
            memcpy(s, old, sizeof s);
            CHECK(kind(place, &tag, s, room) == (written == 0 ? HAVGRUNEL_BUFFER_TOO_SHORT : 0) && (tag == 0) == (written == 0));
            size_t first_old = 0;
            while (first_old < written && bits(s[first_old]) != bits(old[first_old]))
                first_old++;
            CHECK(first_old == written && memcmp(s + written, old + written, (ROOM - written) * sizeof *s) == 0);
        }
    }
}

static void kinds(void)
{
    uint16_t tag = 0;
    double s[FIELDS];

    CHECK(havgrunel_everywhere_constant(2.0, 3.0, 1.0, &tag, 1, s, FIELDS) == 0 && tag == 0x0100);
    CHECK(section_is(tag, s, 3.0, 2.0, 7.0, 2.0));

    CHECK(havgrunel_constant_grad(1.0, 0.0, 0.0, 2.0, 3.0, &tag, 1, s, FIELDS) == 0 && tag == 0x0200);
    CHECK(section_is(tag, s, 1.0, 2.0, 1.5, 3.0));

    CHECK(havgrunel_convex_monotone2(0.0, 1.0, -1.0, 5.0, 2.0, 0.5, 0.0, &tag, 1, s, FIELDS) == 0 && tag == 0x0300);
    CHECK(section_is(tag, s, 0.25, 1.0, 0.25, 7.0) && same(value_of(tag, s, 0.75), 2.5));

    CHECK(havgrunel_convex_monotone3(0.0, 1.0, 2.0, -1.0, 2.0, 0.5, 0.0, &tag, 1, s, FIELDS) == 0 && tag == 0x0400);
    CHECK(same(value_of(tag, s, 0.25), 1.75) && same(value_of(tag, s, 0.75), 1.0));

    CHECK(havgrunel_convex_monotone4(0.0, 1.0, 1.0, 1.0, 2.0, 0.5, 0.0, &tag, 1, s, FIELDS) == 0 && tag == 0x0500);
    CHECK(same(value_of(tag, s, 0.0), 3.0) && same(value_of(tag, s, 0.5), 1.5));
    /* the joint at the left knot: nothing is left to divide by */
    CHECK(havgrunel_convex_monotone4(0.0, 1.0, 1.0, 0.0, 1.0, 0.0, 0.0, &tag, 1, s, FIELDS) == 0 && isnan(value_of(tag, s, 0.0)));

    CHECK(havgrunel_convex_monotone4_min(0.0, 1.0, 1.0, 1.0, 2.0, 0.5, 0.0, &tag, 1, s, FIELDS) == 0 && tag == 0x0600);
    CHECK(same(value_of(tag, s, 0.0), 3.0) && same(value_of(tag, s, 0.5), 1.5));
    CHECK(havgrunel_convex_monotone4_min(0.0, 1.0, 1.0, 1.0, 0.25, 0.5, 0.0, &tag, 1, s, FIELDS) == 0 && tag == 0x0680);
    CHECK(same(value_of(tag, s, 0.5), 0.0));

    CHECK(havgrunel_quadratic(0.0, 1.0, 0.5, 2.0, 1.0, 0.0, &tag, 1, s, FIELDS) == 0 && tag == 0x2000);
    CHECK(section_is(tag, s, 1.0, 2.0, 1.0, 2.0) && same(value_of(tag, s, 0.5), 0.875));

    CHECK(havgrunel_quadratic_min(0.0, 1.0, 4.0, 1.0, 0.5, 0.0, &tag, 1, s, FIELDS) == 0 && tag == 0x5000);
    CHECK(same(value_of(tag, s, 0.25), 0.25) && same(value_of(tag, s, 0.5), 0.0) && same(value_of(tag, s, 1.0), 1.0));
    CHECK(havgrunel_quadratic_min(0.0, 1.0, 4.0, 1.0, 3.0, 0.0, &tag, 1, s, FIELDS) == 0 && same(s[12], 3.0) && same(value_of(tag, s, 0.75), 1.5625));

    /* the same three by the careful rule: split at a ratio of 0.5, and left whole at 3, where the average is then kept, and at 0 */
    uint16_t min_tag = 0;
    double min[FIELDS];
    CHECK(havgrunel_quadratic_min(0.0, 1.0, 4.0, 1.0, 0.5, 0.0, &min_tag, 1, min, FIELDS) == 0);
    CHECK(havgrunel_quadratic_min_careful(0.0, 1.0, 4.0, 1.0, 0.5, 0.0, &tag, 1, s, FIELDS) == 0 && tag == min_tag && memcmp(s, min, sizeof s) == 0);
    CHECK(havgrunel_quadratic_min_careful(0.0, 1.0, 4.0, 1.0, 3.0, 0.0, &tag, 1, s, FIELDS) == 0 && tag == 0x4000 && same(s[12], 1.0));
    CHECK(same(value_of(tag, s, 0.75), 2.3125) && section_is(tag, s, 1.0, 1.0, 3.0, 1.0));
    CHECK(havgrunel_quadratic_min(0.0, 1.0, 4.0, 1.0, 0.0, 0.0, &min_tag, 1, min, FIELDS) == 0 && min_tag == 0x5000 && same(min[12], 0.0));
    CHECK(havgrunel_quadratic_min_careful(0.0, 1.0, 4.0, 1.0, 0.0, 0.0, &tag, 1, s, FIELDS) == 0 && tag == 0x4000 && same(s[12], 1.0));
    CHECK(havgrunel_quadratic_min_careful(0.0, 1.0, 4.0, 1.0, 3.0, 0.0, &tag, 1, s, FIELDS - 1) == HAVGRUNEL_BUFFER_TOO_SHORT && tag == 0x4000);

    /* by the safe rule: the same at 0.5 and at 3; flat at its average where the ratio is next to nothing; and an end at 0 is no matter of rounding */
    CHECK(havgrunel_quadratic_min(0.0, 1.0, 4.0, 1.0, 0.5, 0.0, &min_tag, 1, min, FIELDS) == 0);
    CHECK(havgrunel_quadratic_min_safe(0.0, 1.0, 4.0, 1.0, 0.5, 0.0, &tag, 1, s, FIELDS) == 0 && tag == min_tag && memcmp(s, min, sizeof s) == 0);
    CHECK(havgrunel_quadratic_min_careful(0.0, 1.0, 4.0, 1.0, 3.0, 0.0, &min_tag, 1, min, FIELDS) == 0);
    CHECK(havgrunel_quadratic_min_safe(0.0, 1.0, 4.0, 1.0, 3.0, 0.0, &tag, 1, s, FIELDS) == 0 && tag == min_tag && memcmp(s, min, sizeof s) == 0);
    CHECK(havgrunel_quadratic_min_safe(0.0, 1.0, 4.0, 1.0, 1e-12, 0.0, &tag, 1, s, FIELDS) == 0 && tag == 0x4000);
    CHECK(section_is(tag, s, 0.0, 1e-12, 0.0, 1e-12) && section_is(tag, s, 1.0, 1e-12, 1e-12, 1e-12));
    CHECK(havgrunel_quadratic_min_safe(0.0, 1.0, 4.0, 1.0, 2e-12, 0.0, &tag, 1, s, FIELDS) == 0 && tag == 0x5000 && same(value_of(tag, s, 0.5), 0.0));
    CHECK(havgrunel_quadratic_min_safe(0.0, 1.0, 4.0, 1.0, -1.0, 0.0, &tag, 1, s, FIELDS) == 0 && tag == 0x4000 && section_is(tag, s, 0.0, -1.0, 0.0, -1.0));
    CHECK(havgrunel_quadratic_min_safe(0.0, 1.0, 4.0, -1.0, 0.5, 0.0, &tag, 1, s, FIELDS) == 0 && tag == 0x4000 && same(value_of(tag, s, 0.0), 4.0));
    CHECK(havgrunel_quadratic_min_safe(0.0, 1.0, 4.0, 1.0, 0.5, 0.0, &tag, 1, s, FIELDS - 1) == HAVGRUNEL_BUFFER_TOO_SHORT && tag == 0x4000);
    const double beside = 29.825;
    CHECK(havgrunel_quadratic_min_careful(0.0, 28.0, 0.0, beside, 0.62, 0.0, &tag, 1, s, FIELDS) == 0 && tag == 0x4000 && value_of(tag, s, 9.0) < -9.0);
    CHECK(havgrunel_quadratic_min_safe(0.0, 28.0, 0.0, beside, 0.62, 0.0, &tag, 1, s, FIELDS) == 0 && tag == 0x5000 && same(value_of(tag, s, 9.0), 0.0));

    CHECK(havgrunel_convex_monotone4_min(0.0, 1.0, 1.0, 1.0, 0.25, 0.5, 0.0, &min_tag, 1, min, FIELDS) == 0);
    CHECK(havgrunel_convex_monotone4_min_safe(0.0, 1.0, 1.0, 1.0, 0.25, 0.5, 0.0, &tag, 1, s, FIELDS) == 0 && tag == min_tag && memcmp(s, min, sizeof s) == 0);
    CHECK(havgrunel_convex_monotone4_min(0.0, 1.0, 1.0, 1.0, 0.0, 0.5, 0.0, &tag, 1, s, FIELDS) == 0 && tag == 0x0680 && isnan(value_of(tag, s, 0.0)));
    CHECK(havgrunel_convex_monotone4_min_safe(0.0, 1.0, 1.0, 1.0, 0.0, 0.5, 0.0, &tag, 1, s, FIELDS) == 0 && tag == 0x0600);
    CHECK(section_is(tag, s, 0.0, 0.0, 0.0, 0.0) && section_is(tag, s, 1.0, 0.0, 0.0, 0.0));
    CHECK(havgrunel_convex_monotone4_min_safe(0.0, 1.0, 1.0, 1.0, 0.0, 0.5, 0.0, NULL, 0, s, FIELDS) == HAVGRUNEL_BUFFER_TOO_SHORT);

    /* a combination from two records: a quarter of the one and the rest of the other */
    uint16_t other_tag = 0;
    double other[FIELDS];
    CHECK(havgrunel_quadratic(0.0, 1.0, 0.5, 2.0, 1.0, 0.0, &tag, 1, s, FIELDS) == 0);
    CHECK(havgrunel_convex_monotone2(0.0, 1.0, -1.0, 5.0, 2.0, 0.5, 0.0, &other_tag, 1, other, FIELDS) == 0);
    const double first = value_of(tag, s, 0.75);
    const double second = value_of(other_tag, other, 0.75);
    s[0] = 0.25;
    memcpy(s + 13, other + 13, 11 * sizeof *s);
    CHECK(same(value_of((uint16_t)(tag + other_tag), s, 0.75), 0.25 * first + 0.75 * second));

    /* no room: nothing is written */
    const uint16_t tag_before = tag;
    double before[FIELDS];
    memcpy(before, s, sizeof s);
    CHECK(havgrunel_quadratic(9.0, 9.0, 9.0, 9.0, 9.0, 9.0, &tag, 1, s, FIELDS - 1) == HAVGRUNEL_BUFFER_TOO_SHORT);
    CHECK(havgrunel_quadratic(9.0, 9.0, 9.0, 9.0, 9.0, 9.0, NULL, 0, s, FIELDS) == HAVGRUNEL_BUFFER_TOO_SHORT);
    CHECK(tag == tag_before && memcmp(before, s, sizeof s) == 0);
}

static uint8_t grow(const struct table *t, size_t localisation, size_t final_size, bool grown, size_t sections, bool held, const struct curve *from,
    struct curve *c)
{
    fill(c);
    return havgrunel_grow(t->knots, t->knots_count, t->averages, t->averages_count, t->quadraticity, t->monotonicity, t->positive, t->split,
        localisation, final_size, grown, sections, held, from->tags, TAGS, from->slots, SLOTS, c->nodes, NODES, c->tags, TAGS, c->slots, SLOTS,
        c->sections, 2, c->tail, 4);
}

static void growth(void)
{
    const double knots[] = {0.0, 1.0, 2.5, 3.0, 5.0};
    const double averages[] = {0.0, 1.0, 3.0, 2.0, 2.5};
    struct table t = {knots, 3, averages, 3, havgrunel_gas_quadraticity(), havgrunel_gas_monotonicity(), havgrunel_gas_positivity(), 0};
    struct curve first;
    struct curve second;
    struct curve whole;

    /* the first window stands alone, and is held */
    fill(&whole);
    CHECK(grow(&t, 2, 5, false, 0, false, &whole, &first) == 0 && rest_untouched(&first, 3));
    CHECK(build(&t, true, &whole) == 0 && memcmp(&first, &whole, sizeof whole) == 0);

    /* the next goes on where the last section that was not held ended */
    t.knots_count = t.averages_count = 4;
    CHECK(grow(&t, 2, 5, true, first.sections[0], true, &first, &second) == 0 && rest_untouched(&second, 4));
    double end[3];
    CHECK(section(first.tags[0], first.slots, 0.0, end) == 0);
    fill(&whole);
    CHECK(build_in(&t, true, true, 1, end[2], NODES, TAGS, SLOTS, 2, 4, &whole) == 0);
    CHECK(memcmp(&second, &whole, sizeof whole) == 0);
    CHECK(memcmp(second.slots, first.slots, HAVGRUNEL_SLOTS * sizeof *first.slots) == 0);
    /* prices at knots and totals are not among what is taken over */
    spoil_knots(&first);
    CHECK(grow(&t, 2, 5, true, first.sections[0], true, &first, &second) == 0 && memcmp(&second, &whole, sizeof whole) == 0);

    /* the last point: nothing is held any more */
    t.knots_count = t.averages_count = 5;
    CHECK(grow(&t, 2, 5, true, second.sections[0], true, &second, &first) == 0);
    CHECK(section(second.tags[1], second.slots + HAVGRUNEL_SLOTS, 0.0, end) == 0);
    fill(&whole);
    CHECK(build_in(&t, false, true, 2, end[2], NODES, TAGS, SLOTS, 2, 4, &whole) == 0);
    CHECK(memcmp(&first, &whole, sizeof whole) == 0);

    /* from nothing, and from records that are not there or not legal */
    CHECK(grow(&t, 2, 5, false, 4, true, &second, &first) == HAVGRUNEL_NO_PREVIOUS_CURVE && untouched(&first));
    CHECK(grow(&t, 2, 5, true, 0, true, &second, &first) == HAVGRUNEL_NO_PREVIOUS_CURVE && untouched(&first));
    CHECK(grow(&t, 2, 5, true, 4096, true, &second, &first) == HAVGRUNEL_RECORD_NOT_LEGAL && untouched(&first));
    fill(&first);
    CHECK(havgrunel_grow(knots, 5, averages, 5, 0.3, 0.7, true, HAVGRUNEL_SPLIT_ORIGINAL, 2, 5, true, 3, true, second.tags, TAGS, second.slots,
              3 * (HAVGRUNEL_SLOTS - 1), first.nodes, NODES, first.tags, TAGS, first.slots, SLOTS, first.sections, 2, first.tail, 4)
            == HAVGRUNEL_RECORD_NOT_LEGAL
        && untouched(&first));
    second.tags[1] = 0x0001;
    CHECK(grow(&t, 2, 5, true, 3, true, &second, &first) == HAVGRUNEL_RECORD_NOT_LEGAL && untouched(&first));
    /* a seam that leaves no period, and a table of its own fault */
    CHECK(grow(&t, 2, 5, true, 3, false, &second, &first) == 0);
    t.knots_count = t.averages_count = 4;
    CHECK(grow(&t, 2, 5, true, 3, false, &second, &first) == HAVGRUNEL_SEAM_TOO_LONG && untouched(&first));
    t.averages_count = 3;
    CHECK(grow(&t, 2, 5, true, 3, false, &second, &first) == HAVGRUNEL_LENGTHS_DIFFER && untouched(&first));
    CHECK(grow(&t, SIZE_MAX, 5, true, 3, false, &second, &first) == HAVGRUNEL_LENGTHS_DIFFER && untouched(&first));
    /* answers without room come last */
    t.averages_count = 4;
    fill(&first);
    CHECK(havgrunel_grow(knots, 4, averages, 4, 0.3, 0.7, true, HAVGRUNEL_SPLIT_ORIGINAL, 2, 5, true, 1, false, second.tags, TAGS, second.slots, SLOTS,
              first.nodes, NODES, first.tags, TAGS, first.slots, SLOTS, first.sections, 0, first.tail, 4)
        == HAVGRUNEL_BUFFER_TOO_SHORT);
    CHECK(havgrunel_grow(knots, 4, averages, 4, 0.3, 0.7, true, HAVGRUNEL_SPLIT_CAREFUL, 2, 5, false, 1, false, second.tags, TAGS, second.slots, SLOTS,
              first.nodes, NODES, first.tags, TAGS, first.slots, SLOTS, first.sections, 1, first.tail, 2)
        == HAVGRUNEL_NO_PREVIOUS_CURVE);
    CHECK(untouched(&first));
}

/* What a sheet is handed. */
struct handed {
    bool left_given;
    double left;
    bool right_given;
    double right;
    double start;
    size_t place;
};

static uint8_t sheet_in(const struct table *t, size_t from, size_t points, struct handed h, size_t nodes, size_t tags, size_t slots, size_t entries,
    struct curve *c, double *answer)
{
    return havgrunel_sheet(t->knots + from, points, t->averages + from, points, t->quadraticity, t->monotonicity, t->positive, t->split,
        h.left_given, h.left, h.right_given, h.right, h.start, h.place, c->nodes, nodes, c->tags, tags, c->slots, slots, answer, entries);
}

static uint8_t sheet(const struct table *t, size_t from, size_t points, struct handed h, struct curve *c, double *answer)
{
    return sheet_in(t, from, points, h, NODES, TAGS, SLOTS, 4, c, answer);
}

static uint8_t build_cut(const struct table *t, const size_t *cuts, size_t count, size_t sections, size_t tail, struct curve *c)
{
    fill(c);
    return havgrunel_build_in_sheets(t->knots, t->knots_count, t->averages, t->averages_count, t->quadraticity, t->monotonicity, t->positive, t->split,
        cuts, count, c->nodes, NODES, c->tags, TAGS, c->slots, SLOTS, c->sections, sections, c->tail, tail);
}

/* The nodes, tags and slots of two curves, to the last entry that was lent. */
static bool same_buffers(const struct curve *a, const struct curve *b)
{
    return memcmp(a->nodes, b->nodes, sizeof a->nodes) == 0 && memcmp(a->tags, b->tags, sizeof a->tags) == 0
        && memcmp(a->slots, b->slots, sizeof a->slots) == 0;
}

static bool answer_is(const double *answer, double total, double value, double at, double from)
{
    return same(answer[0], total) && same(answer[1], value) && same(answer[2], at) && same(answer[3], from) && same(answer[4], -1.0);
}

static void sheets(void)
{
    struct curve whole;
    struct curve c;
    double answer[5] = {-1.0, -1.0, -1.0, -1.0, -1.0};
    CHECK(build(&three, false, &whole) == 0);
    const double node = havgrunel_inner_node(0.0, 1.0, 2.0, 1.0, 3.0);
    CHECK(same(node, 2.0));

    /* the order that is worked in the requirements: three points, cut at the middle one */
    const struct handed first = {false, NAN, true, node, 0.0, 0};
    const struct handed second = {true, node, false, NAN, 1.0, 1};
    fill(&c);
    CHECK(sheet(&three, 0, 2, first, &c, answer) == 0 && answer_is(answer, 1.0, 0.0, 0.0, 0.0));
    CHECK(rest_untouched(&c, 2));
    CHECK(sheet(&three, 1, 2, second, &c, answer) == 0 && answer_is(answer, 4.0, 3.5, 4.0, 2.0));
    CHECK(same_buffers(&c, &whole) && rest_untouched(&c, 3));
    /* the other order, and one of them twice */
    fill(&c);
    CHECK(sheet(&three, 1, 2, second, &c, answer) == 0 && sheet(&three, 0, 2, first, &c, answer) == 0);
    CHECK(same_buffers(&c, &whole));
    CHECK(sheet(&three, 1, 2, second, &c, answer) == 0 && same_buffers(&c, &whole));

    /* a whole table is no sheet, and that comes before its own faults */
    const struct handed none = {false, node, false, node, 0.0, 0};
    struct table t = three;
    t.monotonicity = 2.0;
    fill(&c);
    for (size_t i = 0; i < 4; i++)
        answer[i] = -1.0;
    CHECK(sheet(&t, 0, 3, none, &c, answer) == HAVGRUNEL_NO_GIVEN_NODE);
    CHECK(sheet_in(&t, 0, 3, none, 0, 0, 0, 0, &c, answer) == HAVGRUNEL_NO_GIVEN_NODE);
    CHECK(sheet(&t, 0, 2, first, &c, answer) == HAVGRUNEL_MONOTONICITY_OUTSIDE);
    CHECK(sheet(&three, 0, 1, first, &c, answer) == HAVGRUNEL_TOO_FEW_POINTS);
    /* room is what the buffers have from the place on, and an answer without room comes last */
    CHECK(sheet_in(&three, 1, 2, second, 2, 2, TWO, 4, &c, answer) == HAVGRUNEL_BUFFER_TOO_SHORT);
    CHECK(sheet_in(&three, 1, 2, second, 3, 1, TWO, 4, &c, answer) == HAVGRUNEL_BUFFER_TOO_SHORT);
    CHECK(sheet_in(&three, 1, 2, second, 3, 2, TWO - 1, 4, &c, answer) == HAVGRUNEL_BUFFER_TOO_SHORT);
    CHECK(sheet_in(&three, 1, 2, second, 3, 2, TWO, 3, &c, answer) == HAVGRUNEL_BUFFER_TOO_SHORT);
    CHECK(sheet_in(&t, 1, 2, second, 3, 2, TWO, 3, &c, answer) == HAVGRUNEL_MONOTONICITY_OUTSIDE);
    struct handed far = second;
    far.place = SIZE_MAX;
    CHECK(sheet(&three, 1, 2, far, &c, answer) == HAVGRUNEL_BUFFER_TOO_SHORT);
    far.place = SIZE_MAX / 8;
    CHECK(sheet(&three, 1, 2, far, &c, answer) == HAVGRUNEL_BUFFER_TOO_SHORT);
    CHECK(sheet_in(&three, 1, 2, far, NODES, TAGS, SLOTS, 0, &c, answer) == HAVGRUNEL_BUFFER_TOO_SHORT);
    CHECK(untouched(&c) && answer_is(answer, -1.0, -1.0, -1.0, -1.0));

    /* a whole table in sheets: the build's own answer */
    const size_t cuts[] = {1, 1, 2, 0};
    CHECK(build_cut(&three, cuts, 1, 2, 4, &c) == 0 && memcmp(&c, &whole, sizeof c) == 0);
    CHECK(build_cut(&three, NULL, 0, 2, 4, &c) == 0 && memcmp(&c, &whole, sizeof c) == 0);
    CHECK(build_cut(&three, cuts, 2, 2, 4, &c) == HAVGRUNEL_CUTS_NOT_INNER && untouched(&c));
    CHECK(build_cut(&three, cuts + 2, 1, 2, 4, &c) == HAVGRUNEL_CUTS_NOT_INNER && untouched(&c));
    CHECK(build_cut(&three, cuts + 3, 1, 2, 4, &c) == HAVGRUNEL_CUTS_NOT_INNER && untouched(&c));
    /* cuts come first, and answers without room last */
    CHECK(build_cut(&t, cuts + 2, 1, 2, 4, &c) == HAVGRUNEL_CUTS_NOT_INNER && untouched(&c));
    CHECK(build_cut(&t, cuts + 2, 1, 0, 4, &c) == HAVGRUNEL_CUTS_NOT_INNER && untouched(&c));
    CHECK(build_cut(&t, cuts, 1, 2, 4, &c) == HAVGRUNEL_MONOTONICITY_OUTSIDE && untouched(&c));
    CHECK(build_cut(&t, cuts, 1, 2, 2, &c) == HAVGRUNEL_MONOTONICITY_OUTSIDE && untouched(&c));
    CHECK(build_cut(&three, cuts, 1, 0, 4, &c) == HAVGRUNEL_BUFFER_TOO_SHORT && untouched(&c));
    CHECK(build_cut(&three, cuts, 1, 1, 2, &c) == HAVGRUNEL_BUFFER_TOO_SHORT && untouched(&c));
}

/* What section `number` of a curve over these unit months holds of its month. */
static double held(const struct curve *c, size_t number)
{
    const double *const slots = c->slots + HAVGRUNEL_SLOTS * number;
    double a[3] = {-1.0, -1.0, -1.0};
    double b[3] = {-1.0, -1.0, -1.0};
    CHECK(section(c->tags[number], slots, (double)number, a) == 0);
    CHECK(section(c->tags[number], slots, (double)number + 1.0, b) == 0);
    return b[1] - a[1];
}

/* Falling months at quadraticity 0 with positivity: by the original's rule two are split and lose their averages, by the careful one none. */
static void falling_months(void)
{
    const double knots[] = {0.0, 1.0, 2.0, 3.0};
    const double averages[] = {0.0, 5.0, 3.0, 1.0};
    struct table t = {knots, 4, averages, 4, 0.0, 0.7, true, HAVGRUNEL_SPLIT_ORIGINAL};
    struct curve original;
    struct curve careful;
    struct curve c;
    CHECK(build(&t, false, &original) == 0 && rest_untouched(&original, 4));
    t.split = HAVGRUNEL_SPLIT_CAREFUL;
    CHECK(build(&t, false, &careful) == 0 && rest_untouched(&careful, 4));
    CHECK(original.tags[0] == 0x5000 && original.tags[1] == 0x5000 && original.tags[2] == 0x4000);
    CHECK(careful.tags[0] == 0x4000 && careful.tags[1] == 0x4000 && careful.tags[2] == 0x4000);
    CHECK(held(&original, 0) < 4.0 && held(&original, 1) < 2.5 && same(held(&original, 2), 1.0));
    CHECK(same(held(&careful, 0), 5.0) && same(held(&careful, 1), 3.0) && same(held(&careful, 2), 1.0));
    CHECK(answers(&t, &careful, false, 1.5, 3.0, 6.75));

    /* the mode moves no node and no tail here, and what neither splits is the same record */
    CHECK(memcmp(original.nodes, careful.nodes, sizeof careful.nodes) == 0 && memcmp(original.tail, careful.tail, sizeof careful.tail) == 0);
    CHECK(memcmp(original.slots + 2 * HAVGRUNEL_SLOTS, careful.slots + 2 * HAVGRUNEL_SLOTS, HAVGRUNEL_SLOTS * sizeof *careful.slots) == 0);

    /* without positivity it says nothing */
    t.positive = false;
    CHECK(build(&t, false, &original) == 0);
    t.split = HAVGRUNEL_SPLIT_ORIGINAL;
    CHECK(build(&t, false, &c) == 0 && memcmp(&c, &original, sizeof c) == 0);
    t.positive = true;
    t.split = HAVGRUNEL_SPLIT_CAREFUL;

    /* sheets of the careful mode are its whole, at once and one by one */
    const size_t cuts[] = {1, 2};
    CHECK(build_cut(&t, cuts, 2, 2, 4, &c) == 0 && memcmp(&c, &careful, sizeof c) == 0);
    const struct handed right = {true, careful.nodes[1], false, NAN, 5.0, 1};
    const struct handed left = {false, NAN, true, careful.nodes[1], 0.0, 0};
    double answer[5] = {-1.0, -1.0, -1.0, -1.0, -1.0};
    fill(&c);
    CHECK(sheet(&t, 1, 3, right, &c, answer) == 0 && answer_is(answer, 9.0, careful.tail[0], 9.0, 3.0));
    CHECK(sheet(&t, 0, 2, left, &c, answer) == 0 && same_buffers(&c, &careful));

    /* growth goes on in the mode that it is asked for, from a curve of either */
    struct curve first;
    t.knots_count = t.averages_count = 3;
    for (int mode = 0; mode < 2; mode++) {
        t.split = (uint8_t)mode;
        CHECK(grow(&t, 2, 4, false, 0, false, &c, &first) == 0 && first.tags[0] == (mode == 1 ? 0x4000 : 0x5000));
        t.knots_count = t.averages_count = 4;
        t.split = HAVGRUNEL_SPLIT_CAREFUL;
        CHECK(grow(&t, 2, 4, true, first.sections[0], true, &first, &c) == 0 && memcmp(&c, &careful, sizeof c) == 0);
        t.knots_count = t.averages_count = 3;
    }
}

/* The lowest price of a curve at whole numbers from its first knot up to its last. */
static double lowest(const struct table *t, const struct curve *c)
{
    double found = INFINITY;
    for (double x = t->knots[0]; x <= t->knots[t->knots_count - 1]; x += 1.0) {
        double v = NAN;
        CHECK(ask(havgrunel_value, t, c, false, x, &v) == 0);
        found = v < found ? v : found;
    }
    return found;
}

/* A cheap first month falls below 0 in the first two modes, and in the safe one it does not and keeps its average. */
static void cheap_first_month(void)
{
    const double knots[] = {0.0, 28.0, 56.0, 85.0};
    const double averages[] = {0.0, 0.62, 59.03, 47.69};
    struct table t = {knots, 4, averages, 4, 0.3, 0.7, true, HAVGRUNEL_SPLIT_ORIGINAL};
    struct curve original;
    struct curve safe;
    struct curve c;
    CHECK(build(&t, false, &original) == 0 && lowest(&t, &original) < -2.7);
    t.split = HAVGRUNEL_SPLIT_CAREFUL;
    CHECK(build(&t, false, &c) == 0 && memcmp(&c, &original, sizeof c) == 0);
    t.split = HAVGRUNEL_SPLIT_SAFE;
    CHECK(build(&t, false, &safe) == 0 && rest_untouched(&safe, 4) && same(lowest(&t, &safe), 0.0));
    CHECK(memcmp(safe.nodes, original.nodes, sizeof safe.nodes) == 0 && memcmp(safe.tail, original.tail, sizeof safe.tail) == 0);
    for (size_t i = 0; i < 3; i++) {
        double a[3];
        double b[3];
        CHECK(section(safe.tags[i], safe.slots + HAVGRUNEL_SLOTS * i, knots[i], a) == 0);
        CHECK(section(safe.tags[i], safe.slots + HAVGRUNEL_SLOTS * i, knots[i + 1], b) == 0);
        CHECK(fabs((b[1] - a[1]) / (knots[i + 1] - knots[i]) - averages[i + 1]) < 1e-11 * 59.03);
    }

    /* without positivity it says nothing, and sheets make its whole */
    const size_t cuts[] = {1, 2};
    CHECK(build_cut(&t, cuts, 2, 2, 4, &c) == 0 && memcmp(&c, &safe, sizeof c) == 0);
    t.positive = false;
    CHECK(build(&t, false, &safe) == 0);
    t.split = HAVGRUNEL_SPLIT_ORIGINAL;
    CHECK(build(&t, false, &c) == 0 && memcmp(&c, &safe, sizeof c) == 0);
}

/* A period that traded at 0 in the middle, and one at either end. */
static void zero_periods(void)
{
    const double knots[] = {0.0, 1.0, 2.0, 3.0, 4.0, 5.0};
    double averages[] = {-7.0, 0.0, 2.0, -0.0, 2.0, 0.0};
    struct table t = {knots, 6, averages, 6, 0.3, 0.7, true, HAVGRUNEL_SPLIT_ORIGINAL};
    struct curve c;
    double v = -1.0;
    CHECK(build(&t, false, &c) == 0 && ask(havgrunel_value, &t, &c, false, 2.0, &v) == HAVGRUNEL_NOT_FINITE && same(v, -1.0));
    t.split = HAVGRUNEL_SPLIT_SAFE;
    for (int k = 0; k < 3; k++) {
        t.quadraticity = k == 0 ? 0.0 : k == 1 ? 0.3 : 1.0;
        CHECK(build(&t, false, &c) == 0 && rest_untouched(&c, 6));
        CHECK(c.tags[0] == 0x0100 && c.tags[2] == 0x0100 && c.tags[4] == 0x0100 && c.tags[1] != 0x0100);
        for (double x = 0.0; x < 1.0; x += 0.125)
            CHECK(answers(&t, &c, false, x, 0.0, 0.0) && answers(&t, &c, false, 2.0 + x, 0.0, 2.0) && answers(&t, &c, false, 4.0 + x, 0.0, 4.0));
        CHECK(answers(&t, &c, false, 5.0, c.tail[0], 4.0) && fabs(held(&c, 1) - 2.0) < 1e-12 && fabs(held(&c, 3) - 2.0) < 1e-12);
    }
    /* a held last period is what it is in every mode */
    CHECK(build(&t, true, &c) == 0 && c.tags[4] == 0x0100 && same(c.tail[0], 0.0) && same(c.tail[2], 4.0));

    /* an average below 0 is refused behind all faults of the table but for too many points and short buffers; the first one is not read */
    averages[4] = -0x1p-1074;
    CHECK(build(&t, false, &c) == HAVGRUNEL_AVERAGE_BELOW_ZERO && untouched(&c));
    fill(&c);
    CHECK(build_in(&t, false, true, 5, 1.0, NODES, TAGS, SLOTS, 2, 4, &c) == HAVGRUNEL_SEAM_TOO_LONG && untouched(&c));
    CHECK(build_in(&t, false, false, 0, 0.0, 0, 0, 0, 0, 0, &c) == HAVGRUNEL_AVERAGE_BELOW_ZERO && untouched(&c));
    CHECK(grow(&t, 5, 6, false, 0, false, &c, &c) == HAVGRUNEL_AVERAGE_BELOW_ZERO);
    CHECK(grow(&t, 2, 6, false, 0, false, &c, &c) == HAVGRUNEL_NO_PREVIOUS_CURVE);
    const size_t cuts[] = {2, 5};
    CHECK(build_cut(&t, cuts, 1, 2, 4, &c) == HAVGRUNEL_AVERAGE_BELOW_ZERO && untouched(&c));
    CHECK(build_cut(&t, cuts, 2, 2, 4, &c) == HAVGRUNEL_CUTS_NOT_INNER && untouched(&c));
    /* a sheet reads its own averages, but for its first */
    double answer[5] = {-1.0, -1.0, -1.0, -1.0, -1.0};
    const struct handed both = {true, 1.0, true, 1.0, 0.0, 0};
    fill(&c);
    CHECK(sheet(&t, 3, 2, both, &c, answer) == HAVGRUNEL_AVERAGE_BELOW_ZERO);
    CHECK(sheet_in(&t, 3, 2, both, 0, 0, 0, 0, &c, answer) == HAVGRUNEL_AVERAGE_BELOW_ZERO);
    CHECK(untouched(&c) && answer_is(answer, -1.0, -1.0, -1.0, -1.0));
    CHECK(sheet(&t, 4, 2, both, &c, answer) == 0 && c.tags[0] == 0x0100);
    t.split = HAVGRUNEL_SPLIT_CAREFUL;
    CHECK(build(&t, false, &c) == 0);
    t.split = HAVGRUNEL_SPLIT_ORIGINAL;
    CHECK(build(&t, false, &c) == 0);
    t.split = HAVGRUNEL_SPLIT_SAFE;
    t.positive = false;
    CHECK(build(&t, false, &c) == 0);
}

/* A split that there is not is refused before everything else, and nothing is written. */
static void unknown_splits(void)
{
    struct curve c;
    struct curve from;
    double answer[5] = {-1.0, -1.0, -1.0, -1.0, -1.0};
    const struct handed none = {false, NAN, false, NAN, 0.0, 0};
    const struct handed right = {true, 2.0, false, NAN, 1.0, 1};
    const size_t outer[] = {0};
    const uint8_t unknown[] = {3, 255};
    fill(&from);
    for (size_t k = 0; k < 2; k++) {
        struct table t = three;
        t.split = unknown[k];
        for (int faults = 0; faults < 2; faults++) {
            CHECK(build(&t, false, &c) == HAVGRUNEL_SPLIT_UNKNOWN && untouched(&c));
            CHECK(build_in(&t, false, true, 9, 0.0, 0, 0, 0, 0, 0, &c) == HAVGRUNEL_SPLIT_UNKNOWN && untouched(&c));
            CHECK(grow(&t, 2, 5, false, 0, false, &from, &c) == HAVGRUNEL_SPLIT_UNKNOWN && untouched(&c));
            CHECK(grow(&t, 1, 5, false, 0, false, &from, &c) == HAVGRUNEL_SPLIT_UNKNOWN && untouched(&c));
            CHECK(build_cut(&t, NULL, 0, 2, 4, &c) == HAVGRUNEL_SPLIT_UNKNOWN && untouched(&c));
            CHECK(build_cut(&t, outer, 1, 0, 0, &c) == HAVGRUNEL_SPLIT_UNKNOWN && untouched(&c));
            CHECK(sheet(&t, 1, 2, right, &c, answer) == HAVGRUNEL_SPLIT_UNKNOWN);
            CHECK(sheet_in(&t, 1, 2, none, 0, 0, 0, 0, &c, answer) == HAVGRUNEL_SPLIT_UNKNOWN);
            CHECK(untouched(&c) && answer_is(answer, -1.0, -1.0, -1.0, -1.0));
            /* the second time, of a table that has faults of its own */
            t.averages_count = 2;
            t.monotonicity = NAN;
        }
    }
}

/* A curve with its column. */
struct columned {
    struct curve curve;
    double column[NODES];
};

static bool columned_untouched(const struct columned *c)
{
    struct columned fresh;
    memset(&fresh, 0x5a, sizeof fresh);
    return memcmp(c, &fresh, sizeof fresh) == 0;
}

struct seam {
    bool given;
    size_t count;
    double node;
};

static uint8_t build_column_in(const struct table *t, bool hold, struct seam s, size_t nodes, size_t sections, size_t tail, size_t room,
    struct columned *c)
{
    memset(c, 0x5a, sizeof *c);
    return havgrunel_build_with_column(t->knots, t->knots_count, t->averages, t->averages_count, t->quadraticity, t->monotonicity, t->positive,
        t->split, hold, s.given, s.count, s.node, c->curve.nodes, nodes, c->curve.tags, TAGS, c->curve.slots, SLOTS, c->curve.sections, sections,
        c->curve.tail, tail, c->column, room);
}

static const struct seam no_seam = {false, 0, 0.0};

static uint8_t build_column(const struct table *t, bool hold, struct seam s, struct columned *c)
{
    return build_column_in(t, hold, s, NODES, 2, 4, NODES, c);
}

static uint8_t grow_column_in(const struct table *t, size_t localisation, bool grown, size_t sections, const struct curve *from, size_t tail, size_t room,
    struct columned *c)
{
    memset(c, 0x5a, sizeof *c);
    return havgrunel_grow_with_column(t->knots, t->knots_count, t->averages, t->averages_count, t->quadraticity, t->monotonicity, t->positive,
        t->split, localisation, 5, grown, sections, true, from->tags, TAGS, from->slots, SLOTS, c->curve.nodes, NODES, c->curve.tags, TAGS,
        c->curve.slots, SLOTS, c->curve.sections, 2, c->curve.tail, tail, c->column, room);
}

static uint8_t strip(const struct table *t, const struct curve *c, bool extrapolate, double a, double b, double *answer, size_t room)
{
    return havgrunel_strip(t->knots, t->knots_count, c->tags, TAGS, c->slots, SLOTS, c->tail[0], c->tail[1], c->tail[2], extrapolate, a, b, answer, room);
}

static struct havgrunel_many strips(const struct table *t, const struct curve *c, bool extrapolate, const double *starts, size_t starts_count,
    const double *ends, size_t ends_count, double *to, size_t room)
{
    return havgrunel_strips(t->knots, t->knots_count, c->tags, TAGS, c->slots, SLOTS, c->tail[0], c->tail[1], c->tail[2], extrapolate, starts,
        starts_count, ends, ends_count, to, room);
}

static bool strip_refused(const struct table *t, const struct curve *c, bool extrapolate, double a, double b, uint8_t refusal)
{
    double v = -1.0;
    return strip(t, c, extrapolate, a, b, &v, 1) == refusal && same(v, -1.0);
}

/* The strip from a to b is what two totals and the length make of it. */
static bool strip_by_totals(const struct table *t, const struct curve *c, bool extrapolate, double a, double b)
{
    double from = -1.0;
    double to = -1.0;
    double v[2] = {-1.0, -1.0};
    if (ask(havgrunel_primitive, t, c, extrapolate, a, &from) != 0 || ask(havgrunel_primitive, t, c, extrapolate, b, &to) != 0)
        return false;
    const double total = to - from;
    const double length = b - a;
    return strip(t, c, extrapolate, a, b, v, 2) == 0 && same(v[0], total / length) && same(v[1], -1.0);
}

/* The column is the total up to each knot, the curve beside it is the one that is built without it, and strips between places are those between knots. */
static void check_column(const struct table *t, const struct columned *c, const struct curve *without)
{
    const size_t n = t->knots_count;
    struct columned fresh;
    memset(&fresh, 0x5a, sizeof fresh);
    CHECK(memcmp(&c->curve, without, sizeof *without) == 0);
    CHECK(memcmp(c->column + n, fresh.column + n, (NODES - n) * sizeof *c->column) == 0);
    for (size_t i = 0; i < n; i++) {
        double total = -1.0;
        CHECK(ask(havgrunel_primitive, t, without, false, t->knots[i], &total) == 0 && same(c->column[i], total));
        double entry[2] = {-1.0, -1.0};
        CHECK(havgrunel_column_entry(c->column, n, i, entry, 2) == 0 && same(entry[0], total) && same(entry[1], -1.0));
        for (size_t j = 0; j <= n; j++) {
            double v[2] = {-1.0, -1.0};
            const uint8_t refusal = havgrunel_strip_between(t->knots, n, c->column, n, i, j, v, 2);
            if (i < j && j < n) {
                double by_knots = -1.0;
                CHECK(refusal == 0 && same(v[1], -1.0));
                for (int extrapolate = 0; extrapolate < 2; extrapolate++)
                    CHECK(strip(t, without, extrapolate == 1, t->knots[i], t->knots[j], &by_knots, 1) == 0 && same(v[0], by_knots));
            } else {
                CHECK(refusal == HAVGRUNEL_STRIP_ENDS_NOT_RISING && same(v[0], -1.0));
            }
        }
    }
}

static void columns(void)
{
    const double knots[] = {0.0, 1.0, 2.5, 3.0, 5.0};
    const double averages[] = {0.0, 5.0, 3.0, 1.0, 2.5};
    struct columned c;
    struct curve without;

    /* every split, all numbers of points from 2 on, held or not, and with a seam */
    struct table t = {knots, 5, averages, 5, 0.0, 0.7, true, HAVGRUNEL_SPLIT_ORIGINAL};
    for (uint8_t split = 0; split < 3; split++) {
        t.split = split;
        for (size_t n = 2; n <= 5; n++) {
            t.knots_count = t.averages_count = n;
            for (int hold = 0; hold < 2; hold++) {
                CHECK(build_column(&t, hold == 1, no_seam, &c) == 0 && build(&t, hold == 1, &without) == 0);
                check_column(&t, &c, &without);
                if (n > 2) {
                    const struct seam seam = {true, 1, 4.5};
                    fill(&without);
                    CHECK(build_column(&t, hold == 1, seam, &c) == 0);
                    CHECK(build_in(&t, hold == 1, true, 1, 4.5, NODES, TAGS, SLOTS, 2, 4, &without) == 0);
                    check_column(&t, &c, &without);
                }
            }
        }
    }

    /* at the last knot the tail answers, and not the last section, whose own formula rounds otherwise here */
    const double tenths[] = {0.0, 0.1, 0.2, 0.3};
    const double prices[] = {0.0, 1.0, 1.0, 3.0};
    t = (struct table){tenths, 4, prices, 4, 0.3, 0.7, false, HAVGRUNEL_SPLIT_ORIGINAL};
    double last[3];
    CHECK(build_column(&t, false, no_seam, &c) == 0 && same(c.column[3], c.curve.tail[1]));
    CHECK(section(c.curve.tags[2], c.curve.slots + TWO, 0.3, last) == 0 && !same(c.column[3], last[1]));
    CHECK(build_column(&t, true, no_seam, &c) == 0 && same(c.curve.tail[2], 0.2));
    CHECK(same(c.column[3], c.curve.tail[1] + c.curve.tail[0] * (0.3 - 0.2)));

    /* a column that is a knot too short is told last, and nothing is written */
    CHECK(build_column_in(&three, false, no_seam, NODES, 2, 4, 2, &c) == HAVGRUNEL_BUFFER_TOO_SHORT && columned_untouched(&c));
    CHECK(build_column_in(&three, false, no_seam, NODES, 2, 4, 0, &c) == HAVGRUNEL_BUFFER_TOO_SHORT && columned_untouched(&c));
    CHECK(build_column_in(&three, false, no_seam, 2, 2, 4, 3, &c) == HAVGRUNEL_BUFFER_TOO_SHORT && columned_untouched(&c));
    CHECK(build_column_in(&three, false, no_seam, NODES, 0, 4, 3, &c) == HAVGRUNEL_BUFFER_TOO_SHORT && columned_untouched(&c));
    CHECK(build_column_in(&three, false, no_seam, NODES, 2, 2, 3, &c) == HAVGRUNEL_BUFFER_TOO_SHORT && columned_untouched(&c));
    CHECK(build_column_in(&three, false, no_seam, NODES, 1, 3, 3, &c) == 0);
    const struct seam long_seam = {true, 2, 1.0};
    CHECK(build_column_in(&three, false, long_seam, NODES, 2, 4, 0, &c) == HAVGRUNEL_SEAM_TOO_LONG && columned_untouched(&c));
    t = three;
    t.monotonicity = 2.0;
    CHECK(build_column_in(&t, false, no_seam, NODES, 2, 4, 0, &c) == HAVGRUNEL_MONOTONICITY_OUTSIDE && columned_untouched(&c));
    CHECK(build_column_in(&t, false, no_seam, NODES, 0, 0, 0, &c) == HAVGRUNEL_MONOTONICITY_OUTSIDE && columned_untouched(&c));
    t.averages_count = 2;
    CHECK(build_column_in(&t, false, no_seam, NODES, 2, 4, 0, &c) == HAVGRUNEL_LENGTHS_DIFFER && columned_untouched(&c));
    t.split = 3;
    CHECK(build_column_in(&t, false, no_seam, NODES, 2, 4, 0, &c) == HAVGRUNEL_SPLIT_UNKNOWN && columned_untouched(&c));
    CHECK(build_column_in(&t, false, no_seam, NODES, 0, 0, 0, &c) == HAVGRUNEL_SPLIT_UNKNOWN && columned_untouched(&c));

    /* a growing table: the first window, then one that goes on from it, then the last, which is not held */
    struct columned first;
    struct columned second;
    t = (struct table){knots, 3, averages, 3, 0.3, 0.7, true, HAVGRUNEL_SPLIT_ORIGINAL};
    fill(&without);
    CHECK(grow_column_in(&t, 2, false, 0, &without, 4, NODES, &first) == 0);
    CHECK(grow(&t, 2, 5, false, 0, false, &first.curve, &without) == 0);
    check_column(&t, &first, &without);
    t.knots_count = t.averages_count = 4;
    CHECK(grow_column_in(&t, 2, true, 2, &first.curve, 4, NODES, &second) == 0);
    CHECK(grow(&t, 2, 5, true, 2, true, &first.curve, &without) == 0);
    check_column(&t, &second, &without);
    t.knots_count = t.averages_count = 5;
    CHECK(grow_column_in(&t, 2, true, 3, &second.curve, 4, NODES, &first) == 0);
    CHECK(grow(&t, 2, 5, true, 3, true, &second.curve, &without) == 0);
    check_column(&t, &first, &without);

    CHECK(grow_column_in(&t, 2, true, 3, &second.curve, 4, 4, &c) == HAVGRUNEL_BUFFER_TOO_SHORT && columned_untouched(&c));
    CHECK(grow_column_in(&t, 2, true, 3, &second.curve, 2, 5, &c) == HAVGRUNEL_BUFFER_TOO_SHORT && columned_untouched(&c));
    CHECK(grow_column_in(&t, 2, false, 3, &second.curve, 4, 0, &c) == HAVGRUNEL_NO_PREVIOUS_CURVE && columned_untouched(&c));
    CHECK(grow_column_in(&t, 2, false, 3, &second.curve, 0, 0, &c) == HAVGRUNEL_NO_PREVIOUS_CURVE && columned_untouched(&c));
    t.averages_count = 4;
    CHECK(grow_column_in(&t, 2, true, 3, &second.curve, 4, 0, &c) == HAVGRUNEL_LENGTHS_DIFFER && columned_untouched(&c));
    second.curve.tags[1] = 0x0001;
    CHECK(grow_column_in(&t, 2, true, 3, &second.curve, 4, 0, &c) == HAVGRUNEL_RECORD_NOT_LEGAL && columned_untouched(&c));
    t.split = 3;
    CHECK(grow_column_in(&t, 2, true, 3, &second.curve, 4, 0, &c) == HAVGRUNEL_SPLIT_UNKNOWN && columned_untouched(&c));
}

/* One strip, and strips between places, refused. */
static void refused_strips(void)
{
    struct columned c;
    CHECK(build_column(&three, false, no_seam, &c) == 0);
    struct curve *const curve = &c.curve;

    /* all of a's refusals, then all of b's, then the ends' */
    CHECK(strip_refused(&three, curve, false, NAN, NAN, HAVGRUNEL_QUERY_NOT_A_NUMBER));
    CHECK(strip_refused(&three, curve, false, -1.0, NAN, HAVGRUNEL_QUERY_OUTSIDE));
    CHECK(strip_refused(&three, curve, false, NAN, 2.5, HAVGRUNEL_QUERY_NOT_A_NUMBER));
    CHECK(strip_refused(&three, curve, true, 2.5, NAN, HAVGRUNEL_QUERY_NOT_A_NUMBER));
    CHECK(strip_refused(&three, curve, false, 1.0, 2.5, HAVGRUNEL_QUERY_OUTSIDE));
    CHECK(strip_refused(&three, curve, false, 2.5, 1.0, HAVGRUNEL_QUERY_OUTSIDE));
    CHECK(strip_refused(&three, curve, false, 1.0, -1.0, HAVGRUNEL_QUERY_OUTSIDE));
    CHECK(strip_refused(&three, curve, false, 1.0, 1.0, HAVGRUNEL_STRIP_ENDS_NOT_RISING));
    CHECK(strip_refused(&three, curve, false, 1.5, 0.5, HAVGRUNEL_STRIP_ENDS_NOT_RISING));
    CHECK(strip_refused(&three, curve, true, 3.0, -1.0, HAVGRUNEL_STRIP_ENDS_NOT_RISING));
    CHECK(strip_refused(&three, curve, true, 0.0, -0.0, HAVGRUNEL_STRIP_ENDS_NOT_RISING));
    curve->tags[1] = 0;
    CHECK(strip_refused(&three, curve, false, 1.5, NAN, HAVGRUNEL_RECORD_NOT_LEGAL));
    CHECK(strip_refused(&three, curve, false, 0.5, 1.5, HAVGRUNEL_RECORD_NOT_LEGAL));
    CHECK(strip_refused(&three, curve, false, 1.5, 0.5, HAVGRUNEL_RECORD_NOT_LEGAL));
    CHECK(strip_refused(&three, curve, false, 2.0, 1.5, HAVGRUNEL_RECORD_NOT_LEGAL));
    CHECK(strip_refused(&three, curve, false, 0.75, 0.5, HAVGRUNEL_STRIP_ENDS_NOT_RISING));
    CHECK(strip_by_totals(&three, curve, false, 0.5, 2.0));

    /* the curve's own refusals come first, by ends and by places */
    const double level[] = {0.0, 1.0, 1.0};
    const double infinite[] = {0.0, 1.0, INFINITY};
    double *const days = calloc(HAVGRUNEL_MOST_POINTS + 1, sizeof *days);
    if (days == NULL) {
        CHECK(days != NULL);
        return;
    }
    for (size_t i = 0; i <= HAVGRUNEL_MOST_POINTS; i++)
        days[i] = (double)i;
    const struct {
        const double *knots;
        size_t count;
        uint8_t refusal;
    } faults[] = {
        {three_knots, 1, HAVGRUNEL_TOO_FEW_POINTS},
        {NULL, 0, HAVGRUNEL_TOO_FEW_POINTS},
        {infinite, 3, HAVGRUNEL_KNOT_NOT_FINITE},
        {level, 3, HAVGRUNEL_KNOTS_NOT_RISING},
        {days, HAVGRUNEL_MOST_POINTS + 1, HAVGRUNEL_TOO_MANY_POINTS},
    };
    double v = -1.0;
    for (size_t k = 0; k < sizeof faults / sizeof *faults; k++) {
        struct table t = three;
        t.knots = faults[k].knots;
        t.knots_count = faults[k].count;
        for (size_t room = 0; room < 2; room++) {
            CHECK(strip(&t, curve, false, NAN, NAN, &v, room) == faults[k].refusal);
            CHECK(told(strips(&t, curve, false, level, 1, level + 1, 1, &v, room), faults[k].refusal, 1));
            CHECK(told(strips(&t, curve, false, level, 2, level + 1, 1, &v, room), HAVGRUNEL_LENGTHS_DIFFER, 2));
            CHECK(told(ask_many(havgrunel_strip_run, &t, curve, false, level, 2, &v, room), faults[k].refusal, 1));
            CHECK(havgrunel_strip_between(t.knots, t.knots_count, c.column, 0, 9, 9, &v, room) == faults[k].refusal);
        }
        CHECK(told(ask_many(havgrunel_strip_run, &t, curve, false, NULL, 0, NULL, 0), faults[k].refusal, 0));
    }
    free(days);

    /* what is short is an 11, before the ends are looked at */
    CHECK(strip(&three, curve, false, NAN, NAN, NULL, 0) == HAVGRUNEL_BUFFER_TOO_SHORT);
    CHECK(havgrunel_strip(three_knots, 3, curve->tags, 1, curve->slots, TWO, 0.0, 0.0, 0.0, false, NAN, 0.5, &v, 1) == HAVGRUNEL_BUFFER_TOO_SHORT);
    CHECK(havgrunel_strip(three_knots, 3, curve->tags, 2, curve->slots, TWO - 1, 0.0, 0.0, 0.0, false, 0.5, 0.5, &v, 1) == HAVGRUNEL_BUFFER_TOO_SHORT);
    CHECK(havgrunel_strip_between(three_knots, 3, c.column, 2, 0, 1, &v, 1) == HAVGRUNEL_BUFFER_TOO_SHORT);
    CHECK(havgrunel_strip_between(three_knots, 3, c.column, 2, 1, 1, &v, 1) == HAVGRUNEL_BUFFER_TOO_SHORT);
    CHECK(havgrunel_strip_between(three_knots, 3, c.column, 3, 1, 1, NULL, 0) == HAVGRUNEL_BUFFER_TOO_SHORT);
    CHECK(havgrunel_strip_between(three_knots, 3, c.column, 3, SIZE_MAX, 0, &v, 1) == HAVGRUNEL_STRIP_ENDS_NOT_RISING);
    CHECK(havgrunel_strip_between(three_knots, 3, c.column, 3, 0, SIZE_MAX, &v, 1) == HAVGRUNEL_STRIP_ENDS_NOT_RISING);
    CHECK(havgrunel_column_entry(c.column, 3, 3, &v, 1) == HAVGRUNEL_BUFFER_TOO_SHORT);
    CHECK(havgrunel_column_entry(c.column, 3, SIZE_MAX, &v, 1) == HAVGRUNEL_BUFFER_TOO_SHORT);
    CHECK(havgrunel_column_entry(NULL, 0, 0, &v, 1) == HAVGRUNEL_BUFFER_TOO_SHORT);
    CHECK(havgrunel_column_entry(c.column, 3, 2, NULL, 0) == HAVGRUNEL_BUFFER_TOO_SHORT);
    CHECK(same(v, -1.0));
    /* no record is looked at between places: its second is not legal here */
    CHECK(havgrunel_strip_between(three_knots, 3, c.column, 3, 1, 2, &v, 1) == 0 && same(v, 3.0));
}

static void many_strips(void)
{
    struct curve c;
    CHECK(build(&three, false, &c) == 0);
    double v = -1.0;
    CHECK(strip(&three, &c, false, 0.0, 1.0, &v, 1) == 0 && same(v, 1.0));
    CHECK(strip(&three, &c, false, 1.0, 2.0, &v, 1) == 0 && same(v, 3.0));
    CHECK(strip(&three, &c, false, 0.0, 2.0, &v, 1) == 0 && same(v, 2.0));
    CHECK(strip(&three, &c, true, 2.0, 4.0, &v, 1) == 0 && same(v, 3.5));

    /* one by one, at once and as a run: in the knots and outside them, within a period and across several */
    const double edges[] = {-2.0, -0.5, 0.0, 0.1, 0.7, 1.0, 1.3, 1.9, 2.0, 2.25, 7.0};
    enum { EDGES = sizeof edges / sizeof *edges };
    double starts[EDGES * EDGES];
    double ends[EDGES * EDGES];
    double many[EDGES * EDGES + 1];
    double run[EDGES];
    for (int hold = 0; hold < 2; hold++) {
        CHECK(build(&three, hold == 1, &c) == 0);
        size_t count = 0;
        for (size_t i = EDGES; i-- > 0;) {
            for (size_t j = i + 1; j < EDGES; j++) {
                CHECK(strip_by_totals(&three, &c, true, edges[i], edges[j]));
                starts[count] = edges[i];
                ends[count++] = edges[j];
            }
        }
        many[count] = -1.0;
        CHECK(told(strips(&three, &c, true, starts, count, ends, count, many, count + 1), 0, count) && same(many[count], -1.0));
        for (size_t k = 0; k < count; k++)
            CHECK(strip(&three, &c, true, starts[k], ends[k], &v, 1) == 0 && same(many[k], v));
        run[EDGES - 1] = -1.0;
        CHECK(told(ask_many(havgrunel_strip_run, &three, &c, true, edges, EDGES, run, EDGES), 0, EDGES - 1) && same(run[EDGES - 1], -1.0));
        for (size_t k = 0; k + 1 < EDGES; k++)
            CHECK(strip(&three, &c, true, edges[k], edges[k + 1], &v, 1) == 0 && same(run[k], v));
    }

    /* no strip */
    CHECK(told(strips(&three, &c, false, NULL, 0, NULL, 0, NULL, 0), 0, 0));
    CHECK(told(ask_many(havgrunel_strip_run, &three, &c, false, NULL, 0, NULL, 0), 0, 0));
    const double nothing = NAN;
    CHECK(told(ask_many(havgrunel_strip_run, &three, &c, false, &nothing, 1, NULL, 0), 0, 0));

    /* the first strip that is refused refuses all: by its start, its end, and then by both */
    const struct {
        double starts[3];
        double ends[3];
        uint8_t refusal;
        size_t first;
    } bad[] = {
        {{0.0, 0.5, NAN}, {1.0, 0.5, NAN}, HAVGRUNEL_STRIP_ENDS_NOT_RISING, 1},
        {{0.0, NAN, 1.0}, {1.0, 9.0, 0.0}, HAVGRUNEL_QUERY_NOT_A_NUMBER, 1},
        {{0.0, 9.0, 1.0}, {1.0, NAN, 0.0}, HAVGRUNEL_QUERY_OUTSIDE, 1},
        {{0.0, 1.0, NAN}, {1.0, -1.0, 0.0}, HAVGRUNEL_QUERY_OUTSIDE, 1},
        {{0.0, 1.0, 0.0}, {1.0, 2.0, NAN}, HAVGRUNEL_QUERY_NOT_A_NUMBER, 2},
    };
    double kept[3] = {-1.0, -1.0, -1.0};
    for (size_t k = 0; k < sizeof bad / sizeof *bad; k++) {
        CHECK(told(strips(&three, &c, false, bad[k].starts, 3, bad[k].ends, 3, kept, 3), bad[k].refusal, bad[k].first));
        CHECK(told(strips(&three, &c, false, bad[k].starts, 3, bad[k].ends, 3, kept, 2), HAVGRUNEL_BUFFER_TOO_SHORT, 3));
        CHECK(told(strips(&three, &c, false, bad[k].starts, 3, bad[k].ends, 2, kept, 0), HAVGRUNEL_LENGTHS_DIFFER, 3));
        CHECK(told(strips(&three, &c, false, bad[k].starts, 2, bad[k].ends, 3, kept, 0), HAVGRUNEL_LENGTHS_DIFFER, 2));
    }
    const struct {
        double edges[4];
        uint8_t refusal;
        size_t first;
    } turned[] = {
        {{0.0, 1.0, 0.5, NAN}, HAVGRUNEL_STRIP_ENDS_NOT_RISING, 1},
        {{0.0, 1.0, 1.0, 9.0}, HAVGRUNEL_STRIP_ENDS_NOT_RISING, 1},
        {{NAN, 9.0, 1.0, 0.0}, HAVGRUNEL_QUERY_NOT_A_NUMBER, 0},
        {{9.0, NAN, 1.0, 0.0}, HAVGRUNEL_QUERY_OUTSIDE, 0},
        {{1.0, NAN, 0.0, 0.0}, HAVGRUNEL_QUERY_NOT_A_NUMBER, 0},
        {{0.0, 1.0, 2.0, 9.0}, HAVGRUNEL_QUERY_OUTSIDE, 2},
        {{0.0, 1.0, 2.0, 1.0}, HAVGRUNEL_STRIP_ENDS_NOT_RISING, 2},
    };
    for (size_t k = 0; k < sizeof turned / sizeof *turned; k++) {
        CHECK(told(ask_many(havgrunel_strip_run, &three, &c, false, turned[k].edges, 4, kept, 3), turned[k].refusal, turned[k].first));
        CHECK(told(ask_many(havgrunel_strip_run, &three, &c, false, turned[k].edges, 4, kept, 2), HAVGRUNEL_BUFFER_TOO_SHORT, 3));
    }
    c.tags[0] = 0xffff;
    CHECK(told(strips(&three, &c, false, bad[4].starts, 3, bad[4].ends, 3, kept, 3), HAVGRUNEL_RECORD_NOT_LEGAL, 0));
    CHECK(told(strips(&three, &c, false, bad[4].starts + 1, 2, bad[4].ends + 1, 2, kept, 3), HAVGRUNEL_RECORD_NOT_LEGAL, 1));
    CHECK(told(ask_many(havgrunel_strip_run, &three, &c, false, turned[6].edges, 4, kept, 3), HAVGRUNEL_RECORD_NOT_LEGAL, 0));
    CHECK(same(kept[0], -1.0) && same(kept[1], -1.0) && same(kept[2], -1.0));
    CHECK(told(ask_many(havgrunel_strip_run, &three, &c, false, turned[6].edges + 1, 2, kept, 1), 0, 1) && same(kept[0], 3.0));
}

/* Three hours, of which the second traded at exactly 0: with positivity there is no price and no total where it starts, and there are all around it. */
static void no_price_at_a_knot(void)
{
    const double knots[] = {0.0, 1.0, 2.0, 3.0};
    const double averages[] = {0.0, 2.0, 0.0, 2.0};
    const struct table t = {knots, 4, averages, 4, 0.3, 0.7, true, HAVGRUNEL_SPLIT_ORIGINAL};
    struct columned c;
    CHECK(build_column(&t, false, no_seam, &c) == 0);
    struct curve *const curve = &c.curve;
    CHECK(refuses(&t, curve, false, 1.0, HAVGRUNEL_NOT_FINITE));
    CHECK(refuses(&t, curve, true, 1.0, HAVGRUNEL_NOT_FINITE));

    /* the builds' own numbers are what the formulas gave, and the section has a mark to each */
    CHECK(isnan(c.column[1]) && same(c.column[3], 4.0) && isnan(curve->slots[HAVGRUNEL_SLOTS + HAVGRUNEL_LEFT_PRICE]));
    CHECK(same(curve->slots[HAVGRUNEL_SLOTS + HAVGRUNEL_TOTAL_AFTER], 2.0));
    double a[3] = {-1.0, -1.0, -1.0};
    bool finite[2] = {true, true};
    CHECK(havgrunel_section(curve->tags[1], curve->slots + HAVGRUNEL_SLOTS, FIELDS, 1.0, a, 3, finite, 2) == 0);
    CHECK(!finite[0] && !finite[1] && isnan(a[0]) && isnan(a[1]) && same(a[2], curve->nodes[2]));

    /* many: the first that is refused, be it for this or for another reason */
    const struct {
        double xs[4];
        uint8_t refusal;
        size_t first;
    } points[] = {
        {{0.5, 1.5, 1.0, 2.5}, HAVGRUNEL_NOT_FINITE, 2},
        {{1.0, NAN, 9.0, 1.0}, HAVGRUNEL_NOT_FINITE, 0},
        {{0.5, NAN, 1.0, 1.0}, HAVGRUNEL_QUERY_NOT_A_NUMBER, 1},
        {{0.5, 2.5, 9.0, 1.0}, HAVGRUNEL_QUERY_OUTSIDE, 2},
        {{0.5, 2.5, 3.0, 1.5}, 0, 4},
    };
    for (size_t k = 0; k < sizeof points / sizeof *points; k++) {
        double values[4] = {-1.0, -1.0, -1.0, -1.0};
        double totals[4] = {-1.0, -1.0, -1.0, -1.0};
        CHECK(told(ask_many(havgrunel_values, &t, curve, false, points[k].xs, 4, values, 4), points[k].refusal, points[k].first));
        CHECK(told(ask_many(havgrunel_primitives, &t, curve, false, points[k].xs, 4, totals, 4), points[k].refusal, points[k].first));
        for (size_t i = 0; i < 4; i++)
            CHECK(points[k].refusal == 0 ? answers(&t, curve, false, points[k].xs[i], values[i], totals[i]) : same(values[i], -1.0) && same(totals[i], -1.0));
    }
    double v = -1.0;
    CHECK(told(ask_many(havgrunel_values, &t, curve, false, knots, 4, &v, 1), HAVGRUNEL_BUFFER_TOO_SHORT, 4));

    /* strips that start or end there, behind all their other refusals; one that goes over it is answered */
    CHECK(strip_refused(&t, curve, false, 1.0, 1.5, HAVGRUNEL_NOT_FINITE) && strip_refused(&t, curve, false, 0.5, 1.0, HAVGRUNEL_NOT_FINITE));
    CHECK(strip_refused(&t, curve, false, 1.0, 1.0, HAVGRUNEL_STRIP_ENDS_NOT_RISING));
    CHECK(strip_refused(&t, curve, false, 1.0, 0.5, HAVGRUNEL_STRIP_ENDS_NOT_RISING));
    CHECK(strip_refused(&t, curve, false, 1.0, NAN, HAVGRUNEL_QUERY_NOT_A_NUMBER));
    CHECK(strip_refused(&t, curve, false, 9.0, 1.0, HAVGRUNEL_QUERY_OUTSIDE));
    CHECK(strip_by_totals(&t, curve, false, 0.5, 1.5));
    const double starts[] = {0.0, 0.5, 1.0, 2.0};
    const double ends[] = {0.5, 1.5, 2.0, 1.0};
    const double edges[] = {0.0, 0.5, 1.0, 1.5, 1.25};
    double kept[4] = {-1.0, -1.0, -1.0, -1.0};
    CHECK(told(strips(&t, curve, false, starts, 4, ends, 4, kept, 4), HAVGRUNEL_NOT_FINITE, 2));
    CHECK(told(strips(&t, curve, false, starts + 3, 1, ends + 3, 1, kept, 4), HAVGRUNEL_STRIP_ENDS_NOT_RISING, 0));
    CHECK(told(ask_many(havgrunel_strip_run, &t, curve, false, edges, 5, kept, 4), HAVGRUNEL_NOT_FINITE, 1));
    CHECK(told(ask_many(havgrunel_strip_run, &t, curve, false, edges + 2, 3, kept, 4), HAVGRUNEL_NOT_FINITE, 0));
    CHECK(told(ask_many(havgrunel_strip_run, &t, curve, false, edges + 3, 2, kept, 4), HAVGRUNEL_STRIP_ENDS_NOT_RISING, 0));
    CHECK(havgrunel_strip_between(knots, 4, c.column, 4, 1, 2, kept, 4) == HAVGRUNEL_NOT_FINITE);
    CHECK(havgrunel_strip_between(knots, 4, c.column, 4, 0, 1, kept, 4) == HAVGRUNEL_NOT_FINITE);
    CHECK(havgrunel_strip_between(knots, 4, c.column, 4, 1, 1, kept, 4) == HAVGRUNEL_STRIP_ENDS_NOT_RISING);
    CHECK(havgrunel_column_entry(c.column, 4, 1, kept, 4) == HAVGRUNEL_NOT_FINITE);
    CHECK(havgrunel_column_entry(c.column, 1, 1, kept, 4) == HAVGRUNEL_BUFFER_TOO_SHORT);
    CHECK(havgrunel_column_entry(c.column, 4, 1, NULL, 0) == HAVGRUNEL_BUFFER_TOO_SHORT);
    CHECK(same(kept[0], -1.0) && same(kept[1], -1.0) && same(kept[2], -1.0) && same(kept[3], -1.0));
    CHECK(told(strips(&t, curve, false, starts, 2, ends, 2, kept, 4), 0, 2) && same(kept[2], -1.0));
    CHECK(havgrunel_strip_between(knots, 4, c.column, 4, 0, 3, &v, 1) == 0 && same(v, 4.0 / 3.0));
    CHECK(havgrunel_column_entry(c.column, 4, 3, &v, 1) == 0 && same(v, 4.0));

    /* a record that is not legal is told before that its numbers would not be finite */
    curve->tags[1] = 0;
    CHECK(refuses(&t, curve, false, 1.0, HAVGRUNEL_RECORD_NOT_LEGAL) && strip_refused(&t, curve, false, 1.0, 1.5, HAVGRUNEL_RECORD_NOT_LEGAL));
}

/* Numbers that are not finite one by one: the total without the price, the price and the total of a tail, and a strip of two finite totals. */
static void one_of_two_not_finite(void)
{
    const double knots[] = {0.0, 1.0, 2.0, 3.0};
    const double averages[] = {0.0, 1.0, -1.0, 1.0};
    struct table t = {knots, 4, averages, 4, 0.3, 0.7, true, HAVGRUNEL_SPLIT_ORIGINAL};
    struct curve c;
    double v = -1.0;
    bool finite[2] = {false, true};
    double a[3];
    CHECK(build(&t, false, &c) == 0);
    CHECK(ask(havgrunel_primitive, &t, &c, false, 1.5, &v) == HAVGRUNEL_NOT_FINITE && same(v, -1.0));
    CHECK(ask(havgrunel_value, &t, &c, false, 1.5, &v) == 0 && isfinite(v));
    CHECK(havgrunel_section(c.tags[1], c.slots + HAVGRUNEL_SLOTS, FIELDS, 1.5, a, 3, finite, 2) == 0 && finite[0] && !finite[1]);
    CHECK(same(a[0], v) && !isfinite(a[1]));

    /* two points, far out on either side: the totals are finite, and what lies between them is not; the price is 1e308 everywhere */
    const double high[] = {0.0, 1e308};
    t = (struct table){knots, 2, high, 2, 0.3, 0.7, false, HAVGRUNEL_SPLIT_ORIGINAL};
    CHECK(build(&t, false, &c) == 0);
    CHECK(answers(&t, &c, true, 1.0, 1e308, 1e308) && answers(&t, &c, true, -1.0, 1e308, -1e308));
    CHECK(strip_refused(&t, &c, true, -1.0, 1.0, HAVGRUNEL_NOT_FINITE));
    CHECK(strip(&t, &c, true, 0.0, 1.0, &v, 1) == 0 && same(v, 1e308));
    CHECK(ask(havgrunel_primitive, &t, &c, true, 4.0, &v) == HAVGRUNEL_NOT_FINITE && ask(havgrunel_value, &t, &c, true, 4.0, &v) == 0);
    CHECK(same(v, 1e308) && strip_refused(&t, &c, true, 4.0, 5.0, HAVGRUNEL_NOT_FINITE));
    const double lent[] = {-1e308, 1e308, INFINITY, -INFINITY, NAN};
    CHECK(havgrunel_strip_between(knots, 2, lent, 2, 0, 1, &v, 1) == HAVGRUNEL_NOT_FINITE && same(v, 1e308));
    for (size_t i = 0; i < 5; i++) {
        v = -1.0;
        CHECK(havgrunel_column_entry(lent, 5, i, &v, 1) == (i < 2 ? 0 : HAVGRUNEL_NOT_FINITE) && same(v, i < 2 ? lent[i] : -1.0));
    }
}

/* Buffers for all months of the calendar, one entry longer than they need to be. */
enum { DAYS = HAVGRUNEL_MOST_MONTH_KNOTS, SECTIONS = DAYS - 1 };

struct delivered {
    double knots[DAYS + 1];
    double nodes[DAYS + 1];
    uint16_t tags[SECTIONS + 1];
    double slots[HAVGRUNEL_SLOTS * SECTIONS + 1];
    size_t sections[2];
    double tail[4];
};

/* They are too large for a stack that is small. */
static struct delivered by_months;
static struct delivered by_knots;
static struct delivered fresh_months;

static bool months_untouched(void)
{
    return memcmp(&by_months, &fresh_months, sizeof fresh_months) == 0;
}

/* The entries that are lent. */
struct lent {
    size_t knots;
    size_t nodes;
    size_t tags;
    size_t slots;
    size_t sections;
    size_t tail;
};

static const struct lent all_lent = {DAYS + 1, DAYS + 1, SECTIONS + 1, HAVGRUNEL_SLOTS * SECTIONS + 1, 2, 4};

/* Builds by months, with the averages and settings of the table. */
static uint8_t build_months_in(int64_t first, int64_t last, uint8_t months, const struct table *t, bool hold, struct seam s, struct lent l)
{
    memset(&by_months, 0x5a, sizeof by_months);
    return havgrunel_build_months(first, last, months, t->averages, t->averages_count, t->quadraticity, t->monotonicity, t->positive, t->split, hold,
        s.given, s.count, s.node, by_months.knots, l.knots, by_months.nodes, l.nodes, by_months.tags, l.tags, by_months.slots, l.slots,
        by_months.sections, l.sections, by_months.tail, l.tail);
}

/* Whether a build by months is refused so, and leaves everything as it was. */
static bool months_refused(int64_t first, int64_t last, uint8_t months, const struct table *t, struct seam s, struct lent l, uint8_t refusal)
{
    return build_months_in(first, last, months, t, false, s, l) == refusal && months_untouched();
}

/* Whether a build by months leaves what a build over the table's own knots leaves, to the bit and with nothing written beyond it, and these knots. */
static bool same_as_by_knots(int64_t first, int64_t last, uint8_t months, const struct table *t, bool hold, struct seam s)
{
    memset(&by_knots, 0x5a, sizeof by_knots);
    memcpy(by_knots.knots, t->knots, t->knots_count * sizeof *t->knots);
    const uint8_t refusal = havgrunel_build(t->knots, t->knots_count, t->averages, t->averages_count, t->quadraticity, t->monotonicity, t->positive,
        t->split, hold, s.given, s.count, s.node, by_knots.nodes, DAYS + 1, by_knots.tags, SECTIONS + 1, by_knots.slots,
        HAVGRUNEL_SLOTS * SECTIONS + 1, by_knots.sections, 2, by_knots.tail, 4);
    return refusal == 0 && build_months_in(first, last, months, t, hold, s, all_lent) == 0 && memcmp(&by_months, &by_knots, sizeof by_knots) == 0;
}

/* The day on which each month of the calendar starts, and January 2100, by the C library, which is asked of every day. */
static bool first_days(double *days)
{
    /* 1 January 2000 */
    const time_t start = 946684800;
    int found = 0;
    for (int day = 0; day <= 36525; day++) {
        const time_t at = start + (time_t)86400 * day;
        const struct tm *date = gmtime(&at);
        if (date == NULL || date->tm_hour != 0)
            return false;
        if (date->tm_mday != 1)
            continue;
        if (found == DAYS || 12 * (date->tm_year - 100) + date->tm_mon != found)
            return false;
        days[found++] = day;
    }
    return found == DAYS;
}

/* Whether these are whole periods, which end where another could start. */
static bool whole_periods(int64_t first, int64_t last, int months)
{
    return (months == 1 || months == 3 || months == 12) && 0 <= first && first <= last && last < DAYS - 1 && first % months == 0
        && (last + 1) % months == 0;
}

/* Knots by the calendar: those of all three sizes, from and to anywhere, and what is refused. */
static void month_knots(void)
{
    static double days[DAYS];
    static double knots[DAYS + 1];
    const uint8_t sizes[] = {1, 3, 12};
    CHECK(first_days(days) && days[DAYS - 1] == 36525.0);
    for (size_t k = 0; k < 3; k++) {
        const int months = sizes[k];
        for (int first = 0; first < DAYS - 1; first += months) {
            for (int periods = 1; first + months * periods < DAYS; periods += 1 + periods / 3) {
                for (size_t i = 0; i <= DAYS; i++)
                    knots[i] = -1.0;
                size_t count[] = {77, 78};
                bool right = havgrunel_month_knots(first, first + months * periods - 1, sizes[k], knots, (size_t)periods + 1, count, 1) == 0
                    && count[0] == (size_t)periods + 1 && count[1] == 78;
                for (int i = 0; i <= DAYS; i++)
                    right = right && same(knots[i], i <= periods ? days[first + months * i] : -1.0);
                CHECK(right);
            }
        }
    }

    /* with no room all is refused: whole periods for that, and everything else before it */
    const uint8_t numbers[] = {0, 1, 2, 3, 4, 6, 11, 12, 13, 255};
    int wrong = 0;
    for (size_t k = 0; k < sizeof numbers; k++)
        for (int64_t first = -13; first < DAYS + 13; first++)
            for (int64_t last = -13; last < DAYS + 13; last++) {
                const uint8_t due = whole_periods(first, last, numbers[k]) ? HAVGRUNEL_BUFFER_TOO_SHORT : HAVGRUNEL_MONTHS_NOT_PERIODS;
                wrong += havgrunel_month_knots(first, last, numbers[k], NULL, 0, NULL, 0) != due;
            }
    CHECK(wrong == 0);
    const int64_t far[] = {INT64_MIN, INT64_MIN + 1, -12000, 12000, (int64_t)1 << 32, ((int64_t)1 << 32) + 11, INT64_MAX - 11, INT64_MAX};
    size_t count[] = {77};
    knots[0] = knots[1] = -1.0;
    for (size_t k = 0; k < sizeof numbers; k++)
        for (size_t i = 0; i < sizeof far / sizeof *far; i++)
            for (size_t j = 0; j < sizeof far / sizeof *far; j++) {
                CHECK(havgrunel_month_knots(far[i], far[j], numbers[k], knots, DAYS, count, 1) == HAVGRUNEL_MONTHS_NOT_PERIODS);
                CHECK(havgrunel_month_knots(0, far[j], numbers[k], knots, DAYS, count, 1) == HAVGRUNEL_MONTHS_NOT_PERIODS);
                CHECK(havgrunel_month_knots(far[i], 11, numbers[k], knots, DAYS, count, 1) == HAVGRUNEL_MONTHS_NOT_PERIODS);
            }
    /* one entry too short, and no count */
    CHECK(havgrunel_month_knots(0, 11, 12, knots, 1, count, 1) == HAVGRUNEL_BUFFER_TOO_SHORT);
    CHECK(havgrunel_month_knots(0, 11, 12, knots, 2, NULL, 0) == HAVGRUNEL_BUFFER_TOO_SHORT);
    CHECK(count[0] == 77 && same(knots[0], -1.0) && same(knots[1], -1.0));
    CHECK(havgrunel_month_knots(0, 11, 12, knots, 2, count, 1) == 0 && count[0] == 2 && same(knots[0], 0.0) && same(knots[1], 366.0));
}

static void built_by_months(void)
{
    static double knots[DAYS];
    static double averages[DAYS];
    memset(&fresh_months, 0x5a, sizeof fresh_months);
    for (size_t i = 0; i < DAYS; i++)
        averages[i] = 20.0 + (double)(i * 37 % 61) / 4.0;
    averages[1] = averages[5] = 0.0;
    const struct seam no = {false, 0, NAN};
    const struct seam one = {true, 1, 25.0};
    const struct seam later = {true, 2, 18.5};

    /* October 2026 to September 2027; eleven quarters; a century of years and of months */
    const struct {
        int64_t first;
        int64_t last;
        uint8_t months;
    } asked[] = {{321, 332, 1}, {321, 353, 3}, {0, 1199, 12}, {0, 1199, 1}, {1199, 1199, 1}};
    for (size_t k = 0; k < sizeof asked / sizeof *asked; k++) {
        size_t count = 0;
        const int64_t first = asked[k].first;
        const int64_t last = asked[k].last;
        const uint8_t months = asked[k].months;
        CHECK(havgrunel_month_knots(first, last, months, knots, DAYS, &count, 1) == 0);
        struct table t = {knots, count, averages, count, 0.3, 0.7, true, HAVGRUNEL_SPLIT_ORIGINAL};
        for (; t.split <= HAVGRUNEL_SPLIT_SAFE; t.split++)
            for (int hold = 0; hold < 2; hold++) {
                CHECK(same_as_by_knots(first, last, months, &t, hold, no) && by_months.sections[0] == count - 1);
                if (count > 3)
                    CHECK(same_as_by_knots(first, last, months, &t, hold, one) && same_as_by_knots(first, last, months, &t, hold, later));
            }
    }

    /* Three months from January 2000. Each refusal with the next one's fault beside it. */
    const double below[] = {0.0, 1.0, -1.0, 2.0};
    const double missing[] = {NAN, 1.0, -1.0, 2.0};
    const struct seam long_one = {true, 3, 0.0};
    const struct lent none = {0, 0, 0, 0, 0, 0};
    struct table t = {NULL, 0, missing, 3, NAN, NAN, true, 3};
    CHECK(months_refused(0, 2, 2, &t, long_one, none, HAVGRUNEL_MONTHS_NOT_PERIODS));
    CHECK(months_refused(-1, 2, 1, &t, long_one, none, HAVGRUNEL_MONTHS_NOT_PERIODS));
    CHECK(months_refused(1, 2, 3, &t, long_one, none, HAVGRUNEL_MONTHS_NOT_PERIODS));
    CHECK(months_refused(0, 1, 3, &t, long_one, none, HAVGRUNEL_MONTHS_NOT_PERIODS));
    CHECK(months_refused(0, 1200, 1, &t, long_one, none, HAVGRUNEL_MONTHS_NOT_PERIODS));
    CHECK(months_refused(2, 1, 1, &t, long_one, none, HAVGRUNEL_MONTHS_NOT_PERIODS));
    CHECK(months_refused(0, 2, 1, &t, long_one, none, HAVGRUNEL_SPLIT_UNKNOWN));
    t.split = HAVGRUNEL_SPLIT_SAFE;
    CHECK(months_refused(0, 2, 2, &t, long_one, none, HAVGRUNEL_MONTHS_NOT_PERIODS));
    CHECK(months_refused(0, 2, 1, &t, long_one, none, HAVGRUNEL_LENGTHS_DIFFER));
    t.averages_count = 4;
    CHECK(months_refused(0, 2, 1, &t, long_one, none, HAVGRUNEL_MONOTONICITY_OUTSIDE));
    t.monotonicity = 0.7;
    CHECK(months_refused(0, 2, 1, &t, long_one, none, HAVGRUNEL_QUADRATICITY_OUTSIDE));
    t.quadraticity = 0.3;
    CHECK(months_refused(0, 2, 1, &t, long_one, none, HAVGRUNEL_AVERAGE_NOT_FINITE));
    t.averages = below;
    CHECK(months_refused(0, 2, 1, &t, long_one, none, HAVGRUNEL_SEAM_TOO_LONG));
    CHECK(months_refused(0, 2, 1, &t, no, none, HAVGRUNEL_AVERAGE_BELOW_ZERO));
    t.positive = false;
    CHECK(months_refused(0, 2, 1, &t, no, none, HAVGRUNEL_BUFFER_TOO_SHORT));
    /* each buffer one entry too short, and none of them */
    const struct lent exact = {4, 4, 3, 3 * HAVGRUNEL_SLOTS, 1, 3};
    const struct lent shorter[] = {
        {3, 4, 3, 3 * HAVGRUNEL_SLOTS, 1, 3},
        {4, 3, 3, 3 * HAVGRUNEL_SLOTS, 1, 3},
        {4, 4, 2, 3 * HAVGRUNEL_SLOTS, 1, 3},
        {4, 4, 3, 3 * HAVGRUNEL_SLOTS - 1, 1, 3},
        {4, 4, 3, 3 * HAVGRUNEL_SLOTS, 0, 3},
        {4, 4, 3, 3 * HAVGRUNEL_SLOTS, 1, 2},
    };
    for (size_t k = 0; k < sizeof shorter / sizeof *shorter; k++)
        CHECK(months_refused(0, 2, 1, &t, no, shorter[k], HAVGRUNEL_BUFFER_TOO_SHORT));
    CHECK(build_months_in(0, 2, 1, &t, false, no, exact) == 0 && by_months.sections[0] == 3);
    CHECK(same(by_months.knots[0], 0.0) && same(by_months.knots[1], 31.0) && same(by_months.knots[2], 60.0) && same(by_months.knots[3], 91.0));
}

static void defaults(void)
{
    CHECK(same(havgrunel_default_quadraticity(), 0.3));
    CHECK(same(havgrunel_default_monotonicity(), 0.7));
    CHECK(!havgrunel_default_positivity());
    CHECK(same(havgrunel_gas_quadraticity(), 0.3));
    CHECK(same(havgrunel_gas_monotonicity(), 0.7));
    CHECK(havgrunel_gas_positivity());
}

static void roots(void)
{
    CHECK(same(havgrunel_sqrt(2304.0), 48.0));
    CHECK(bits(havgrunel_sqrt(2.0)) == 0x3ff6a09e667f3bcd);
    CHECK(bits(havgrunel_sqrt(0x1p-1074)) == 0x1e60000000000000);
    CHECK(same(havgrunel_sqrt(-0.0), -0.0));
    CHECK(same(havgrunel_sqrt(INFINITY), INFINITY));
    CHECK(isnan(havgrunel_sqrt(-1.0)) && isnan(havgrunel_sqrt(NAN)));
}

int main(void)
{
    roots();
    defaults();
    two_points();
    three_points();
    refused_tables();
    refused_queries();
    records();
    knot_prices();
    a_slot_short_of_each();
    fields_alone();
    kinds();
    growth();
    sheets();
    falling_months();
    cheap_first_month();
    zero_periods();
    unknown_splits();
    columns();
    refused_strips();
    many_strips();
    no_price_at_a_knot();
    one_of_two_not_finite();
    month_knots();
    built_by_months();
    if (failures != 0) {
        fprintf(stderr, "c: %d of %d checks don't hold\n", failures, checks);
        return 1;
    }
    printf("c: every function called from C, %d checks hold\n", checks);
    return 0;
}
