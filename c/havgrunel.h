/*
 * Shaped forward curves for gas and power, proved.
 *
 * Every function here takes any numbers and comes back. Most answer the number of a refusal, or 0 where the call was accepted. A refused call
 * writes nothing: every buffer that was lent holds what it held. An accepted one writes its answers from the start of the buffers, or a sheet
 * from its place on, and leaves all other entries alone.
 *
 * A slice is passed as a pointer and, right behind it, the count of its entries. Where the count is 0 the pointer is not used and may be null.
 * Otherwise it points to that many entries. Two slices of one call must not overlap unless both are const. A function keeps no pointer, allocates
 * nothing, has no state and calls no function from outside the archive, neither of the C library nor of another, so calls from several threads don't meet
 * unless they share a buffer.
 *
 * A price, a total and a strip's average that are answered are finite: one that would not be is refused by 21. What a build writes is what the formulas
 * gave, infinite or a NaN as it may be, and so is what one section answers by itself, with a mark beside it.
 *
 * A NaN is a NaN here, whatever its sign and payload: any may come back. All other numbers are the same on every machine, bit for bit.
 *
 * What each function answers, entry by entry, is a proved equation in the five crates whose names begin with export_. Two things are taken on trust: the
 * step from checked code to machine code, and that callers keep to the lines above, which no proof on this side can see.
 */
#ifndef HAVGRUNEL_H
#define HAVGRUNEL_H

#include <stdbool.h>
#include <stddef.h>
#include <stdint.h>

#ifdef __cplusplus
extern "C" {
#endif

/* The refusals. A call that could be refused for several reasons tells the first in its own order, which is said at each function. */
enum havgrunel_refusal {
    HAVGRUNEL_ACCEPTED = 0,
    HAVGRUNEL_LENGTHS_DIFFER = 1,         /* there are not as many averages as knots, or not as many ends as starts */
    HAVGRUNEL_MONOTONICITY_OUTSIDE = 2,   /* the monotonicity is not a number from 0 to 1 */
    HAVGRUNEL_QUADRATICITY_OUTSIDE = 3,   /* the quadraticity is not a number from 0 to 1 */
    HAVGRUNEL_TOO_FEW_POINTS = 4,         /* there are fewer than two knots */
    HAVGRUNEL_KNOT_NOT_FINITE = 5,        /* a knot is infinite or not a number */
    HAVGRUNEL_AVERAGE_NOT_FINITE = 6,     /* an average is infinite or not a number */
    HAVGRUNEL_KNOTS_NOT_RISING = 7,       /* a knot is not above the one before it */
    HAVGRUNEL_SEAM_TOO_LONG = 8,          /* the seam leaves no period to build */
    HAVGRUNEL_NO_PREVIOUS_CURVE = 9,      /* past the first window a curve grows from a previous one, and there is none or it has no section */
    HAVGRUNEL_TOO_MANY_POINTS = 10,       /* there are more than 4096 knots */
    HAVGRUNEL_BUFFER_TOO_SHORT = 11,      /* a buffer is too short for what is to be written or read */
    HAVGRUNEL_QUERY_NOT_A_NUMBER = 12,    /* the point that is asked for is not a number */
    HAVGRUNEL_QUERY_OUTSIDE = 13,         /* the point that is asked for lies outside the knots, and extrapolation is off */
    HAVGRUNEL_DERIVATIVE_ASKED = 14,      /* the method has no derivative */
    HAVGRUNEL_RECORD_NOT_LEGAL = 15,      /* a record's tag is not legal, or the record is not there */
    HAVGRUNEL_NO_GIVEN_NODE = 16,         /* a sheet needs a given node at one end at least, and this one has none */
    HAVGRUNEL_STRIP_ENDS_NOT_RISING = 18, /* the strip's first end is not below its second, or a place is past the last knot */
    HAVGRUNEL_MONTHS_NOT_PERIODS = 19,    /* the months are not whole periods of 1, 3 or 12 months between January 2000 and December 2099 */
    HAVGRUNEL_NOT_FINITE = 21,            /* the answer is infinite or not a number */
    HAVGRUNEL_CUTS_NOT_INNER = 28,        /* a cut is not an inner knot of the table, or not above the cut before it */
    HAVGRUNEL_AVERAGE_BELOW_ZERO = 29,    /* an average is below 0, and no curve at or above 0 can keep it, as the safe split promises */
    HAVGRUNEL_SPLIT_UNKNOWN = 30          /* the split's number is none of 0, 1 and 2 */
};

/*
 * What a call that answers many queries or strips at once comes back with: the refusal, or 0, and the number of the query or strip that was refused first,
 * counted from 0. Where none of them is to blame, since all are answered or the curve or a buffer is refused, `query` is how many there are: the count of
 * xs, of starts, or of edges less one, and 0 for no edges.
 */
struct havgrunel_many {
    uint8_t refusal;
    size_t query;
};

/* A curve of n points takes n nodes, n - 1 tags and HAVGRUNEL_SLOTS slots for each tag. */
#define HAVGRUNEL_MOST_POINTS 4096
#define HAVGRUNEL_SLOTS 27

/*
 * What the slots of a section's record in a curve hold. The first HAVGRUNEL_FIELDS are the numbers of the section itself, which its tag says how to read.
 * Behind them stand three numbers of its period: the price that the section's own formula gives at the left knot, where the period starts; the price that
 * it gives at the right knot, where the period ends; and the running total after the period, from which the next section starts: the sum from the left, of
 * each average times the length of its period. Every section of a curve has them, the only one of two points and a held last one too. They are what the
 * formulas give, which may be infinite or a NaN, and no mark stands beside them. No call that reads a curve looks at them, but for havgrunel_record.
 *
 * So the price left of an inner knot is the right price of the section that ends there, and the price right of it the left price of the next section.
 */
#define HAVGRUNEL_FIELDS 24
#define HAVGRUNEL_LEFT_PRICE 24
#define HAVGRUNEL_RIGHT_PRICE 25
#define HAVGRUNEL_TOTAL_AFTER 26

/* The splits by their numbers, as every call that builds takes them. What each does is said at havgrunel_build. */
#define HAVGRUNEL_SPLIT_ORIGINAL 0
#define HAVGRUNEL_SPLIT_CAREFUL 1
#define HAVGRUNEL_SPLIT_SAFE 2

/* The square root, correctly rounded. A zero, +infinity and a NaN are their own roots; below zero there is none, and a NaN comes back. */
double havgrunel_sqrt(double a);

/*
 * The two defaults of the method. Both have quadraticity 0.3 and monotonicity 0.7, and go with HAVGRUNEL_SPLIT_ORIGINAL.
 *
 * The default is for where nothing else is asked for. Its positivity is off, since power trades below zero and positivity would bend such a curve.
 * The gas default has positivity on, for what does not trade below zero. It is the default of the original.
 */
double havgrunel_default_quadraticity(void);
double havgrunel_default_monotonicity(void);
bool havgrunel_default_positivity(void);
double havgrunel_gas_quadraticity(void);
double havgrunel_gas_monotonicity(void);
bool havgrunel_gas_positivity(void);

/*
 * Builds the curve of a table: knots that rise, and for each knot but the first the average of the period that ends there. The first average is
 * checked for finiteness and otherwise not read.
 *
 * `quadraticity` is the share of a parabola in a section, `monotonicity` how monotone the rest is, and `positive` asks for prices that are not below
 * zero. With it a section may be split into two arms with zero between them, and `split` says by which rule. Without it all three splits are one. The
 * number means the same in every call that has it:
 *
 * HAVGRUNEL_SPLIT_ORIGINAL, 0: the original's rule, that of havgrunel_quadratic_min. A period can lose its average by it, and rounding can leave a period
 * below zero or, where it traded at 0, without a price.
 *
 * HAVGRUNEL_SPLIT_CAREFUL, 1: a parabola is split where that rule splits it and the ratio is above 0 and at most 1, so that a split section never is
 * stretched beyond its period: the rule of havgrunel_quadratic_min_careful. It changes no node, no total that a section starts from and no refusal.
 *
 * HAVGRUNEL_SPLIT_SAFE, 2: parabolas by the rule of havgrunel_quadratic_min_safe, convex monotone pieces by that of havgrunel_convex_monotone4_min_safe.
 * A period that traded at 0, of either sign, is +0.0 everywhere, unless it is a held last one, which is as it ever was. A table with an average below 0 is
 * refused by 29; the first average, which is not read, may be. Nodes, totals that a section starts from, and all other sections are the original's.
 *
 * The safe split is for curves of which no price is below 0 and no average is lost. Proved: no node is below 0, if none is given that is; and for a
 * monotonicity of at most 1 - 2^-20, averages up to 1e45 and periods from 1e-120 to 1e120 long every price between the knots is finite, where there is no
 * seam and no given node. How far rounding may still take a curve was tried on three million drawn strips at quadraticity 0, 0.3 and 1 with a monotonicity
 * of at most 0.99 and a largest average of 0.001 or more: no price was below 0 by more than 1e-12 of the largest average, no average was lost by more than
 * 1e-11 of it beyond the rounding of the running total, and every price was finite. Beyond these bounds, where the largest average is below 0.001, up to
 * 1e-14 is lost of an average, whatever its size. Above a monotonicity of 0.99 every split loses averages by cancellation, 3e-8 was seen at 0.9999, and at
 * exactly 1 there may be no price at a left knot.
 *
 * `hold` asks for a constant last period. With `seamed`, the node at `seam_count` is `seam_node`; without it the two are not read. Written are
 * the nodes, the tags and slots of the sections, the count of sections into sections[0], and into tail[0], tail[1], tail[2] the curve's tail, the three
 * numbers that answer from the last knot on: its value, the total where it starts, and where it starts.
 *
 * Refused in the order 30, 1 to 8, 29, 10, 11; a `sections` or `tail` that is too short is an 11 as well.
 */
uint8_t havgrunel_build(
    const double *knots, size_t knots_count,
    const double *averages, size_t averages_count,
    double quadraticity, double monotonicity, bool positive, uint8_t split,
    bool hold,
    bool seamed, size_t seam_count, double seam_node,
    double *nodes, size_t nodes_count,
    uint16_t *tags, size_t tags_count,
    double *slots, size_t slots_count,
    size_t *sections, size_t sections_count,
    double *tail, size_t tail_count);

/*
 * Builds the next curve of a table that grows by a point at a time, its last period held until there are `final_size` points.
 *
 * While there are localisation + 1 points the table stands alone. After that it goes on from the previous curve: `grown` says that there is one,
 * `previous_sections` is its count of sections, `previous_held` whether its last period was held (`hold` of the build, or for a grown curve whether
 * its points were not `final_size`), and its tags and slots are lent as they were written. The new curve goes into other buffers, as for
 * havgrunel_build. The previous curve may be one of any split. Of it only the node is taken over that its last section that was not held ends on, and
 * the safe split can change that one: a section that it makes flat ends on its average.
 *
 * Refused by 30, and past the first window by 9, then 15 for the previous curve; then in the order of a build.
 */
uint8_t havgrunel_grow(
    const double *knots, size_t knots_count,
    const double *averages, size_t averages_count,
    double quadraticity, double monotonicity, bool positive, uint8_t split,
    size_t localisation, size_t final_size,
    bool grown, size_t previous_sections, bool previous_held,
    const uint16_t *previous_tags, size_t previous_tags_count,
    const double *previous_slots, size_t previous_slots_count,
    double *nodes, size_t nodes_count,
    uint16_t *tags, size_t tags_count,
    double *slots, size_t slots_count,
    size_t *sections, size_t sections_count,
    double *tail, size_t tail_count);

/*
 * The same two calls for a curve that keeps a column: the total up to each knot, as havgrunel_primitive works it out there, into column[0] and on. The
 * tail answers it at the last knot. An entry that is infinite or a NaN is written as it is. havgrunel_strip_between and havgrunel_column_entry read the
 * column. Sheets write none.
 *
 * Refused in the order of the call without a column; a `column` that is shorter than the knots is an 11 as well.
 */
uint8_t havgrunel_build_with_column(
    const double *knots, size_t knots_count,
    const double *averages, size_t averages_count,
    double quadraticity, double monotonicity, bool positive, uint8_t split,
    bool hold,
    bool seamed, size_t seam_count, double seam_node,
    double *nodes, size_t nodes_count,
    uint16_t *tags, size_t tags_count,
    double *slots, size_t slots_count,
    size_t *sections, size_t sections_count,
    double *tail, size_t tail_count,
    double *column, size_t column_count);

uint8_t havgrunel_grow_with_column(
    const double *knots, size_t knots_count,
    const double *averages, size_t averages_count,
    double quadraticity, double monotonicity, bool positive, uint8_t split,
    size_t localisation, size_t final_size,
    bool grown, size_t previous_sections, bool previous_held,
    const uint16_t *previous_tags, size_t previous_tags_count,
    const double *previous_slots, size_t previous_slots_count,
    double *nodes, size_t nodes_count,
    uint16_t *tags, size_t tags_count,
    double *slots, size_t slots_count,
    size_t *sections, size_t sections_count,
    double *tail, size_t tail_count,
    double *column, size_t column_count);

/*
 * The knots of delivery periods by the calendar. A month is a whole number, January 2000 being 0, so month m of year y is 12 * (y - 2000) + m - 1, and
 * December 2099 is 1199. A period is 1, 3 or 12 `months` long: a month, a quarter or a year of the calendar. A knot is the number of a day as a float,
 * 1 January 2000 being 0: the first day of month `first`, of each later period, and of the month after `last`, which is delivered too. They go to
 * knots[0] and on, and how many there are, one more than periods, to count[0].
 *
 * Refused by 19 unless `months` is 1, 3 or 12, both months are in the calendar from 0 to 1199, `last` is not before `first`, a quarter starts in January,
 * April, July or October and a year in January, and `last` completes a period; then by 11 for a `knots` with fewer entries than knots or a `count` with
 * no entry. HAVGRUNEL_MOST_MONTH_KNOTS entries are enough for any months.
 */
#define HAVGRUNEL_MOST_MONTH_KNOTS 1201

uint8_t havgrunel_month_knots(
    int64_t first, int64_t last, uint8_t months,
    double *knots, size_t knots_count,
    size_t *count, size_t count_count);

/*
 * Builds the curve of delivery periods: writes their knots as havgrunel_month_knots does, and what havgrunel_build writes over them with these averages
 * and settings. There is an average to each knot, and the first, which ends no period, is checked for finiteness and otherwise not read.
 *
 * Refused by 19, then in the order of havgrunel_build, of which 4, 5, 7 and 10 can't come; a `knots` that is too short is an 11 as well.
 */
uint8_t havgrunel_build_months(
    int64_t first, int64_t last, uint8_t months,
    const double *averages, size_t averages_count,
    double quadraticity, double monotonicity, bool positive, uint8_t split,
    bool hold,
    bool seamed, size_t seam_count, double seam_node,
    double *knots, size_t knots_count,
    double *nodes, size_t nodes_count,
    uint16_t *tags, size_t tags_count,
    double *slots, size_t slots_count,
    size_t *sections, size_t sections_count,
    double *tail, size_t tail_count);

/*
 * The node at an inner knot, from the knots before it, at it and after it, and the averages of the two periods that meet there. It is what the
 * sheets on both sides of a cut are given.
 */
double havgrunel_inner_node(double before, double here, double after, double average, double next);

/*
 * Builds one sheet of a table: a part of its knots and averages, into its place in the buffers of the whole. The first average of the part is
 * checked for finiteness and otherwise not read.
 *
 * Where the table was cut, `left_given` or `right_given` is true and the node there is `left_node` or `right_node`, taken as it is; where it is false
 * the node is not read. `start` is the total before the sheet, and `place` the number of its first knot in the whole, counted from 0. The nodes go to
 * nodes[place] and on, the tags to tags[place] and on, the slots to slots[HAVGRUNEL_SLOTS * place] and on: two sheets that meet at a cut write the
 * same node there. answer[0] is the total after the sheet, where the next one starts; answer[1], answer[2], answer[3] are the curve's tail (value, total,
 * from), or three +0.0 where a right node is given.
 *
 * Sheets that are given the whole's nodes and totals leave the buffers that a build of the whole leaves, in whatever order they are built, if all have
 * the settings of the whole, `split` among them. A build's total before knot i is a sum from the left, from +0.0 on, of each average times the length
 * of its period.
 *
 * Refused in the order 30, 16, 1 to 7, 29, 10, 11; an `answer` of fewer than 4 entries is an 11 as well.
 */
uint8_t havgrunel_sheet(
    const double *knots, size_t knots_count,
    const double *averages, size_t averages_count,
    double quadraticity, double monotonicity, bool positive, uint8_t split,
    bool left_given, double left_node,
    bool right_given, double right_node,
    double start, size_t place,
    double *nodes, size_t nodes_count,
    uint16_t *tags, size_t tags_count,
    double *slots, size_t slots_count,
    double *answer, size_t answer_count);

/*
 * Builds the curve of a whole table in sheets that end at the cuts, which are numbers of inner knots, counted from 0, each above the one before. With
 * no cut there is one sheet, the whole. What is answered and written is what havgrunel_build answers and writes with `hold` and `seamed` off.
 *
 * Refused by 30, then by 28, then in the order of a build.
 */
uint8_t havgrunel_build_in_sheets(
    const double *knots, size_t knots_count,
    const double *averages, size_t averages_count,
    double quadraticity, double monotonicity, bool positive, uint8_t split,
    const size_t *cuts, size_t cuts_count,
    double *nodes, size_t nodes_count,
    uint16_t *tags, size_t tags_count,
    double *slots, size_t slots_count,
    size_t *sections, size_t sections_count,
    double *tail, size_t tail_count);

/*
 * The price at x, or the total of all prices up to x, into answer[0]. Knots, tags, slots and the three numbers of the tail are those of a curve
 * that was built; `extrapolate` allows an x outside the knots.
 *
 * Refused in the order 4, 5, 7, 10, 11 (also for an `answer` with no entry), 12, 13, 15; then 21 where the price or the total that is asked for is not
 * finite. At one x either may be without the other.
 */
uint8_t havgrunel_value(
    const double *knots, size_t knots_count,
    const uint16_t *tags, size_t tags_count,
    const double *slots, size_t slots_count,
    double tail_value, double tail_total, double tail_from,
    bool extrapolate, double x,
    double *answer, size_t answer_count);

uint8_t havgrunel_primitive(
    const double *knots, size_t knots_count,
    const uint16_t *tags, size_t tags_count,
    const double *slots, size_t slots_count,
    double tail_value, double tail_total, double tail_from,
    bool extrapolate, double x,
    double *answer, size_t answer_count);

/*
 * The price at each of xs, or the total up to each, into the first xs_count entries of `answers`: each is what the call above tells of it. The knots
 * are checked once for all, and xs that rise cost a step each. All or nothing: where any x is refused, nothing is written, and `query` says which was
 * the first.
 *
 * Refused in the order 4, 5, 7, 10, 11 (also for an `answers` that is shorter than xs); then by 12, 13, 15, 21 of the first x that is refused.
 */
struct havgrunel_many havgrunel_values(
    const double *knots, size_t knots_count,
    const uint16_t *tags, size_t tags_count,
    const double *slots, size_t slots_count,
    double tail_value, double tail_total, double tail_from,
    bool extrapolate,
    const double *xs, size_t xs_count,
    double *answers, size_t answers_count);

struct havgrunel_many havgrunel_primitives(
    const double *knots, size_t knots_count,
    const uint16_t *tags, size_t tags_count,
    const double *slots, size_t slots_count,
    double tail_value, double tail_total, double tail_from,
    bool extrapolate,
    const double *xs, size_t xs_count,
    double *answers, size_t answers_count);

/*
 * The average price of the strip from a to b, into answer[0]: the total up to b less the total up to a, divided by b - a, each step rounded once. The
 * knots are checked once for both ends.
 *
 * Refused in the order 4, 5, 7, 10, 11 (also for an `answer` with no entry), 12, 13, 15 for a; then 12, 13, 15 for b; then 18 unless a is below b; then
 * 21 where the average is not finite, for which the two totals count by what they make of it alone: two finite ones may make an infinite average.
 */
uint8_t havgrunel_strip(
    const double *knots, size_t knots_count,
    const uint16_t *tags, size_t tags_count,
    const double *slots, size_t slots_count,
    double tail_value, double tail_total, double tail_from,
    bool extrapolate, double a, double b,
    double *answer, size_t answer_count);

/*
 * The average prices of many strips, into the first entries of `answers`: each is what the call above tells of it. The strips of havgrunel_strips go from
 * each of starts to the number beside it in ends. Those of havgrunel_strip_run adjoin, and go from each of edges to the next: there is one fewer than
 * edges, and none where there is no edge. The knots are checked once for all, an edge that two strips share is asked once, and ends that rise cost a
 * step each. All or nothing: where any strip is refused, nothing is written, and `query` says which was the first. A run's strip k has edges k and k + 1.
 *
 * Refused in the order 1 where there are not as many ends as starts, 4, 5, 7, 10, 11 (also for an `answers` that is shorter than the strips); then by the
 * first strip that is refused: 12, 13, 15 for its start, 12, 13, 15 for its end, 18, 21.
 */
struct havgrunel_many havgrunel_strips(
    const double *knots, size_t knots_count,
    const uint16_t *tags, size_t tags_count,
    const double *slots, size_t slots_count,
    double tail_value, double tail_total, double tail_from,
    bool extrapolate,
    const double *starts, size_t starts_count,
    const double *ends, size_t ends_count,
    double *answers, size_t answers_count);

struct havgrunel_many havgrunel_strip_run(
    const double *knots, size_t knots_count,
    const uint16_t *tags, size_t tags_count,
    const double *slots, size_t slots_count,
    double tail_value, double tail_total, double tail_from,
    bool extrapolate,
    const double *edges, size_t edges_count,
    double *answers, size_t answers_count);

/*
 * The average price of the strip from knot i to knot j, both counted from 0, into answer[0]: (column[j] - column[i]) / (knots[j] - knots[i]), each step
 * rounded once. With the column that was written with the curve, it is what havgrunel_strip tells from the one knot to the other.
 *
 * Refused in the order 4, 5, 7, 10, 11 (for a `column` that is shorter than the knots, or an `answer` with no entry), 18 unless i is below j and j below
 * the count of knots, 21 where the average is not finite.
 */
uint8_t havgrunel_strip_between(
    const double *knots, size_t knots_count,
    const double *column, size_t column_count,
    size_t i, size_t j,
    double *answer, size_t answer_count);

/*
 * The total up to knot i, counted from 0, into answer[0]: entry i of a column. With the column that was written with the curve, it is what
 * havgrunel_primitive tells at that knot.
 *
 * Refused by 11 for a place past the column's end or an `answer` with no entry, then by 21 for an entry that is not finite.
 */
uint8_t havgrunel_column_entry(
    const double *column, size_t column_count,
    size_t i,
    double *answer, size_t answer_count);

/* The method has no derivative: 14 comes back, whatever x is. */
uint8_t havgrunel_derivative(double x);

/*
 * The HAVGRUNEL_SLOTS slots of section `number`, counted from 0, of a curve of `points` points, into the first entries of `into`. Its tag is tags[number].
 *
 * Refused in the order 4, 10, 11 (also for an `into` of fewer than HAVGRUNEL_SLOTS entries), 15 for a number that no section has.
 */
uint8_t havgrunel_record(
    size_t points,
    const double *slots, size_t slots_count,
    size_t number,
    double *into, size_t into_count);

/*
 * What the section of one record answers by itself, whatever x is: answer[0] is its value at x, answer[1] its primitive at x, answer[2] the node
 * that it ends on. All three are what the formulas give; finite[0] says whether the value is finite, and finite[1] whether the primitive is. The slots are
 * the record's own, and only the first HAVGRUNEL_FIELDS are looked at.
 *
 * Refused by 11 for an `answer` of fewer than 3 entries or a `finite` of fewer than 2, then by 15 for a tag that is not legal or fewer than
 * HAVGRUNEL_FIELDS slots.
 */
uint8_t havgrunel_section(
    uint16_t tag,
    const double *slots, size_t slots_count,
    double x,
    double *answer, size_t answer_count,
    bool *finite, size_t finite_count);

/*
 * A single section of each kind from its own numbers: its tag into tag[0], its fields into the first HAVGRUNEL_FIELDS entries of `slots`. It belongs to no
 * period, so there are no prices at knots and no total behind them. Any numbers are taken. Refused by 11 alone, for fewer entries than that or no tag.
 *
 * A combination's record is put together from two: slot 0 is the weight of the quadratic one, slots 1 to 12 are that one's, slots 13 to 23 the
 * other's, and its tag is the sum of the two tags.
 */
uint8_t havgrunel_everywhere_constant(
    double value, double prev_primitive, double x_prev,
    uint16_t *tag, size_t tag_count,
    double *slots, size_t slots_count);

uint8_t havgrunel_constant_grad(
    double f_prev, double prev_primitive, double x_prev, double x_next, double f_next,
    uint16_t *tag, size_t tag_count,
    double *slots, size_t slots_count);

uint8_t havgrunel_convex_monotone2(
    double x_prev, double x_next, double g_prev, double g_next, double f_average, double eta2, double prev_primitive,
    uint16_t *tag, size_t tag_count,
    double *slots, size_t slots_count);

uint8_t havgrunel_convex_monotone3(
    double x_prev, double x_next, double g_prev, double g_next, double f_average, double eta3, double prev_primitive,
    uint16_t *tag, size_t tag_count,
    double *slots, size_t slots_count);

uint8_t havgrunel_convex_monotone4(
    double x_prev, double x_next, double g_prev, double g_next, double f_average, double eta4, double prev_primitive,
    uint16_t *tag, size_t tag_count,
    double *slots, size_t slots_count);

uint8_t havgrunel_convex_monotone4_min(
    double x_prev, double x_next, double g_prev, double g_next, double f_average, double eta4, double prev_primitive,
    uint16_t *tag, size_t tag_count,
    double *slots, size_t slots_count);

/* The same, but where its two arms would be squeezed to 1e-12 of the period or less, it is flat at its average instead, and not split. */
uint8_t havgrunel_convex_monotone4_min_safe(
    double x_prev, double x_next, double g_prev, double g_next, double f_average, double eta4, double prev_primitive,
    uint16_t *tag, size_t tag_count,
    double *slots, size_t slots_count);

uint8_t havgrunel_quadratic(
    double x_prev, double x_next, double f_prev, double f_next, double f_average, double prev_primitive,
    uint16_t *tag, size_t tag_count,
    double *slots, size_t slots_count);

/*
 * The parabola that may be split. In exact numbers av_root = (f_prev + f_next - sqrt(f_prev * f_next)) / 3 is the lower of the two averages at which a
 * parabola with these ends touches zero, and the ratio is f_average / av_root. Split, the section is that touching parabola, ratio times as long as the
 * period, its two arms at the ends of the period and zero between them.
 *
 * havgrunel_quadratic_min has the original's rule: split where the parabola has two zeros, in the period or outside it, and its ends are not of opposite
 * signs. Where the ratio is above 1, the arms are longer than the period, and the section no longer holds its average. havgrunel_quadratic_min_careful
 * splits where that rule does and the ratio is above 0 and at most 1, so that a split section never is stretched beyond its period. A ratio that is
 * infinite or not a number does not split. Where both split, and where neither does, the record is the same.
 *
 * havgrunel_quadratic_min_safe works av_root out as the formula above has it, where the other two work it out of larger numbers, which rounding decides
 * where an end is 0. It splits where the parabola has two zeros, neither end is below 0, and the ratio is above 1e-12 and at most 1. Where all but the
 * ratio holds and that is 1e-12 or less, the section is flat at its average, and ends on it. Elsewhere it stays whole. Where it splits as the other two
 * do, the record can differ from theirs by the rounding of av_root.
 */
uint8_t havgrunel_quadratic_min(
    double x_prev, double x_next, double f_prev, double f_next, double f_average, double prev_primitive,
    uint16_t *tag, size_t tag_count,
    double *slots, size_t slots_count);

uint8_t havgrunel_quadratic_min_careful(
    double x_prev, double x_next, double f_prev, double f_next, double f_average, double prev_primitive,
    uint16_t *tag, size_t tag_count,
    double *slots, size_t slots_count);

uint8_t havgrunel_quadratic_min_safe(
    double x_prev, double x_next, double f_prev, double f_next, double f_average, double prev_primitive,
    uint16_t *tag, size_t tag_count,
    double *slots, size_t slots_count);

#ifdef __cplusplus
}
#endif

#endif
