// Holds the proved library, through its C archive, against QuantLib's ConvexMonotoneInterpolation, bit for bit; with --time, measures it
// beside QuantLib. README.md says how to run it and what is compared.
#include "havgrunel.h"
#include "tables.hpp"

#include <ql/math/interpolations/convexmonotoneinterpolation.hpp>

#include <cinttypes>
#include <cstdio>
#include <cstdlib>
#include <ctime>
#include <exception>
#include <functional>
#include <map>
#include <optional>
#include <stdexcept>
#include <string>

namespace judge {

using Theirs = QuantLib::ConvexMonotoneInterpolation<const double *, const double *>;

// The library's curve, in buffers of its own that are lent at each call. The table's knots must outlive it.
class Ours {
public:
    explicit Ours(const std::size_t most) : nodes_(most), tags_(most), slots_(HAVGRUNEL_SLOTS * most) {}

    std::uint8_t build(const Table &table, const std::size_t points, const Settings &settings, const bool hold)
    {
        const std::uint8_t refusal = havgrunel_build(
            table.knots.data(), points, table.averages.data(), points, settings.quadraticity, settings.monotonicity,
            settings.positive, HAVGRUNEL_SPLIT_ORIGINAL, hold, false, 0, 0.0, nodes_.data(), nodes_.size(), tags_.data(),
            tags_.size(), slots_.data(), slots_.size(), &sections_, 1, tail_.data(), tail_.size());
        return accepted(refusal, table, points, hold);
    }

    std::uint8_t grow(const Table &table, const std::size_t points, const Settings &settings, const std::size_t localisation,
                      const std::size_t final_size, const Ours &previous)
    {
        const std::uint8_t refusal = havgrunel_grow(
            table.knots.data(), points, table.averages.data(), points, settings.quadraticity, settings.monotonicity,
            settings.positive, HAVGRUNEL_SPLIT_ORIGINAL, localisation, final_size, previous.sections_ > 0, previous.sections_,
            previous.held_, previous.tags_.data(), previous.tags_.size(), previous.slots_.data(), previous.slots_.size(),
            nodes_.data(), nodes_.size(), tags_.data(), tags_.size(), slots_.data(), slots_.size(), &sections_, 1, tail_.data(),
            tail_.size());
        return accepted(refusal, table, points, points != final_size);
    }

    std::uint8_t value(const double x, const bool extrapolate, double &answer) const
    {
        return havgrunel_value(knots_, points_, tags_.data(), tags_.size(), slots_.data(), slots_.size(), tail_[0], tail_[1],
                               tail_[2], extrapolate, x, &answer, 1);
    }

    std::uint8_t primitive(const double x, const bool extrapolate, double &answer) const
    {
        return havgrunel_primitive(knots_, points_, tags_.data(), tags_.size(), slots_.data(), slots_.size(), tail_[0], tail_[1],
                                   tail_[2], extrapolate, x, &answer, 1);
    }

    // The prices at so many points from xs on, all or none.
    havgrunel_many values(const double *const xs, const std::size_t count, double *const answers) const
    {
        return havgrunel_values(knots_, points_, tags_.data(), tags_.size(), slots_.data(), slots_.size(), tail_[0], tail_[1],
                                tail_[2], true, xs, count, answers, count);
    }

    havgrunel_many primitives(const double *const xs, const std::size_t count, double *const answers) const
    {
        return havgrunel_primitives(knots_, points_, tags_.data(), tags_.size(), slots_.data(), slots_.size(), tail_[0],
                                    tail_[1], tail_[2], true, xs, count, answers, count);
    }

    // What one section answers by itself.
    struct Answer {
        std::array<double, 3> numbers{};
        std::array<bool, 2> finite{};
    };

    // The value and the primitive of one section at x, whatever x is, each with its mark, and the node that the section ends on.
    std::uint8_t section(const std::size_t number, const double x, Answer &answer) const
    {
        return havgrunel_section(tags_[number], slots_.data() + HAVGRUNEL_SLOTS * number, HAVGRUNEL_SLOTS, x,
                                 answer.numbers.data(), answer.numbers.size(), answer.finite.data(), answer.finite.size());
    }

    std::size_t sections() const { return sections_; }
    bool held() const { return held_; }

private:
    std::uint8_t accepted(const std::uint8_t refusal, const Table &table, const std::size_t points, const bool held)
    {
        if (refusal == HAVGRUNEL_ACCEPTED) {
            knots_ = table.knots.data();
            points_ = points;
            held_ = held;
        }
        return refusal;
    }

    const double *knots_ = nullptr;
    std::size_t points_ = 0;
    std::vector<double> nodes_;
    std::vector<std::uint16_t> tags_;
    std::vector<double> slots_;
    std::size_t sections_ = 0;
    std::array<double, 3> tail_{};
    bool held_ = false;
};

Theirs build_theirs(const Table &table, const std::size_t points, const Settings &settings, const bool hold)
{
    const double *const knots = table.knots.data();
    return Theirs(knots, knots + points, table.averages.data(), settings.quadraticity, settings.monotonicity, settings.positive,
                  hold);
}

// What was compared.
struct Counts {
    std::uint64_t tables = 0;
    std::uint64_t growths = 0;
    std::uint64_t sections = 0;
    std::uint64_t section_numbers = 0;
    std::uint64_t prices = 0;
    std::uint64_t totals = 0;
    std::uint64_t refusals = 0;
    std::uint64_t not_finite = 0;

    std::uint64_t numbers() const { return section_numbers + prices + totals; }
};

// Which case is at hand, for whoever has to run it again.
struct Place {
    std::uint64_t seed;
    std::uint64_t number;
};

// Compares and counts, and tells the first few differences.
class Judge {
public:
    static constexpr std::uint64_t most_told = 5;

    Counts counts;

    void begin(const Place &place, const Table &table, const Settings &settings, const std::size_t points, const bool hold)
    {
        place_ = place;
        table_ = &table;
        settings_ = settings;
        points_ = points;
        hold_ = hold;
    }

    std::uint64_t differences() const { return differences_; }

    // A number as it is, whatever it is.
    void number(const char *const what, const double x, const double ours, const double theirs)
    {
        counts.not_finite += std::isfinite(theirs) ? 0 : 1;
        if (!same(ours, theirs) && starts_difference()) {
            std::printf("  %s at %016" PRIx64 ": library %016" PRIx64 " (%.17g), QuantLib %016" PRIx64 " (%.17g)\n", what, bits_of(x),
                        bits_of(ours), ours, bits_of(theirs), theirs);
            tell_table();
        }
    }

    // A number that a query answers: by its bits where QuantLib's is finite, and else by the library's refusal.
    void answer(const char *const what, const double x, const std::uint8_t refusal, const double ours, const double theirs)
    {
        if (std::isfinite(theirs) && refusal == HAVGRUNEL_ACCEPTED) {
            return number(what, x, ours, theirs);
        }
        counts.not_finite += std::isfinite(theirs) ? 0 : 1;
        const std::uint8_t due = std::isfinite(theirs) ? HAVGRUNEL_ACCEPTED : HAVGRUNEL_NOT_FINITE;
        if (refusal != due && starts_difference()) {
            std::printf("  %s at %016" PRIx64 ": the library's refusal is %d, QuantLib %016" PRIx64 " (%.17g)\n", what, bits_of(x), refusal,
                        bits_of(theirs), theirs);
            tell_table();
        }
    }

    void refusal(const char *const what, const std::uint8_t ours, const bool theirs)
    {
        ++counts.refusals;
        if ((ours != HAVGRUNEL_ACCEPTED) != theirs && starts_difference()) {
            std::printf("  %s: the library's refusal is %d, QuantLib %s\n", what, ours, theirs ? "throws" : "answers");
            tell_table();
        }
    }

    void holds(const char *const what, const bool holds)
    {
        if (!holds && starts_difference()) {
            std::printf("  does not hold: %s\n", what);
            tell_table();
        }
    }

private:
    bool starts_difference()
    {
        ++differences_;
        if (differences_ > most_told) {
            return false;
        }
        std::printf("quantlib: a difference; again by: compare --seed %" PRIu64 " --case %" PRIu64 "\n", place_.seed, place_.number);
        return true;
    }

    void tell_table() const
    {
        constexpr std::size_t most_points = 48;
        std::printf("  quadraticity %016" PRIx64 ", monotonicity %016" PRIx64 ", positivity %s, last period %s, %zu points: knot, average\n",
                    bits_of(settings_.quadraticity), bits_of(settings_.monotonicity), settings_.positive ? "on" : "off",
                    hold_ ? "held" : "free", points_);
        for (std::size_t i = 0; i < std::min(points_, most_points); ++i) {
            std::printf("    %016" PRIx64 " %016" PRIx64 "\n", bits_of(table_->knots[i]), bits_of(table_->averages[i]));
        }
        if (points_ > most_points) {
            std::printf("    and %zu more\n", points_ - most_points);
        }
    }

    Place place_{};
    const Table *table_ = nullptr;
    Settings settings_{};
    std::size_t points_ = 0;
    bool hold_ = false;
    std::uint64_t differences_ = 0;
};

bool throws(const std::function<void()> &call)
{
    try {
        call();
        return false;
    } catch (const QuantLib::Error &) {
        return true;
    }
}

// The sections from number `from` to before `to`, each by itself, at its ends, inside and anywhere. QuantLib hands out all sections but a
// held last one.
void compare_sections(Judge &judge, Draw &draw, const Table &table, const Ours &ours, Theirs &theirs, const std::size_t from,
                      const std::size_t to)
{
    const auto sections = theirs.getExistingHelpers();
    judge.holds("as many sections as QuantLib has", sections.size() + (ours.held() ? 1 : 0) == ours.sections());
    std::size_t number = 0;
    for (const auto &[end, section] : sections) {
        if (number < from || number >= to) {
            ++number;
            continue;
        }
        const double left = table.knots[number];
        const double right = table.knots[number + 1];
        judge.number("section's end", right, right, end);
        for (const double x : {left, right, inside(draw, left, right), draw.finite()}) {
            Ours::Answer answer;
            judge.holds("a section's record is accepted", ours.section(number, x, answer) == HAVGRUNEL_ACCEPTED);
            const double price = section->value(x);
            const double total = section->primitive(x);
            judge.number("section's price", x, answer.numbers[0], price);
            judge.number("section's total", x, answer.numbers[1], total);
            judge.number("section's end node", x, answer.numbers[2], section->fNext());
            judge.holds("a section's price is marked as finite where QuantLib's is", answer.finite[0] == std::isfinite(price));
            judge.holds("a section's total is marked as finite where QuantLib's is", answer.finite[1] == std::isfinite(total));
            judge.counts.section_numbers += 3;
        }
        ++judge.counts.sections;
        ++number;
    }
}

// Many queries at once, of which some may be refused: each one's refusal, or 0 and its answer. Those before the first that is refused are asked
// again without it, and then those behind it.
template <class Ask>
std::vector<std::uint8_t> ask_all(Judge &judge, const std::vector<double> &xs, std::vector<double> &answers, const Ask ask)
{
    std::vector<std::uint8_t> refusals(xs.size(), HAVGRUNEL_ACCEPTED);
    std::size_t from = 0;
    while (from < xs.size()) {
        const std::size_t count = xs.size() - from;
        const havgrunel_many told = ask(xs.data() + from, count, answers.data() + from);
        judge.holds("the query that is refused is one of those asked, and none is where all are answered",
                    told.refusal == HAVGRUNEL_ACCEPTED ? told.query == count : told.query < count);
        if (told.query >= count) {
            return refusals;
        }
        const havgrunel_many before = ask(xs.data() + from, told.query, answers.data() + from);
        judge.holds("those before the first that is refused are answered", before.refusal == HAVGRUNEL_ACCEPTED && before.query == told.query);
        refusals[from + told.query] = told.refusal;
        from += told.query + 1;
    }
    return refusals;
}

void compare_many(Judge &judge, const std::vector<double> &xs, const Ours &ours, const QuantLib::Interpolation &theirs)
{
    std::vector<double> prices(xs.size());
    std::vector<double> totals(xs.size());
    const auto price_refusals = ask_all(judge, xs, prices, [&](auto... asked) { return ours.values(asked...); });
    const auto total_refusals = ask_all(judge, xs, totals, [&](auto... asked) { return ours.primitives(asked...); });
    for (std::size_t i = 0; i < xs.size(); ++i) {
        judge.answer("price", xs[i], price_refusals[i], prices[i], theirs(xs[i], true));
        judge.answer("total", xs[i], total_refusals[i], totals[i], theirs.primitive(xs[i], true));
    }
    judge.counts.prices += xs.size();
    judge.counts.totals += xs.size();
}

// QuantLib also answers a little outside the knots where the library refuses: docs/DIFFERENCES.md.
bool beside_an_end(const double x, const QuantLib::Interpolation &theirs)
{
    const bool outside = x < theirs.xMin() || x > theirs.xMax();
    return outside && theirs.isInRange(x);
}

// A few of the points one by one, extrapolation off: an answer or a refusal.
void compare_single(Judge &judge, Draw &draw, const std::vector<double> &xs, const Ours &ours, const QuantLib::Interpolation &theirs)
{
    for (int k = 0; k < 4; ++k) {
        const double x = draw.one_of(xs);
        if (beside_an_end(x, theirs)) {
            continue;
        }
        double price = 0.0;
        double total = 0.0;
        const std::uint8_t of_price = ours.value(x, false, price);
        const std::uint8_t of_total = ours.primitive(x, false, total);
        if (!theirs.isInRange(x)) {
            judge.refusal("price alone", of_price, true);
            judge.refusal("total alone", of_total, true);
            judge.refusal("price outside", HAVGRUNEL_QUERY_OUTSIDE, throws([&] { theirs(x); }));
            continue;
        }
        judge.answer("price alone", x, of_price, price, theirs(x));
        judge.answer("total alone", x, of_total, total, theirs.primitive(x));
        ++judge.counts.prices;
        ++judge.counts.totals;
    }
    const double x = draw.one_of(xs);
    judge.refusal("derivative", havgrunel_derivative(x), throws([&] { theirs.derivative(x, true); }));
}

std::size_t drawn_points(Draw &draw)
{
    if (draw.one_in(400)) {
        return draw.one_in(2) ? HAVGRUNEL_MOST_POINTS : HAVGRUNEL_MOST_POINTS - draw.below(16);
    }
    return 2 + (draw.one_in(10) ? draw.below(400) : draw.below(24));
}

void compare_build(Judge &judge, Draw &draw, const Place &place)
{
    const std::size_t points = drawn_points(draw);
    const Table table = drawn_table(draw, points);
    const Settings settings = drawn_settings(draw);
    const bool hold = draw.one_in(4);
    judge.begin(place, table, settings, points, hold);
    Ours ours(points);
    const std::uint8_t refusal = ours.build(table, points, settings, hold);
    judge.refusal("build", refusal, false);
    if (refusal != HAVGRUNEL_ACCEPTED) {
        return;
    }
    Theirs theirs = build_theirs(table, points, settings, hold);
    ++judge.counts.tables;
    const std::vector<double> xs = drawn_queries(draw, table.knots, points);
    compare_sections(judge, draw, table, ours, theirs, 0, ours.sections());
    compare_many(judge, xs, ours, theirs);
    compare_single(judge, draw, xs, ours, theirs);
}

// Too few points, or a setting outside 0 to 1.
void compare_refused_build(Judge &judge, Draw &draw, const Place &place)
{
    const std::size_t points = draw.one_in(2) ? draw.below(2) : 2 + draw.below(4);
    const Table table = drawn_table(draw, points);
    Settings settings = drawn_settings(draw);
    if (points >= 2) {
        (draw.one_in(2) ? settings.quadraticity : settings.monotonicity) = setting_outside(draw);
    }
    judge.begin(place, table, settings, points, false);
    Ours ours(points);
    judge.refusal("build that can't be", ours.build(table, points, settings, false),
                  throws([&] { build_theirs(table, points, settings, false); }));
}

// A section that the library wrote, handed to QuantLib as one of its own.
class Kept : public QuantLib::detail::SectionHelper {
public:
    Kept(const Ours &curve, const std::size_t number) : curve_(curve), number_(number) {}

    double value(const double x) const override { return answers(x)[0]; }
    double primitive(const double x) const override { return answers(x)[1]; }
    double fNext() const override { return answers(0.0)[2]; }

private:
    std::array<double, 3> answers(const double x) const
    {
        Ours::Answer answer;
        if (curve_.section(number_, x, answer) != HAVGRUNEL_ACCEPTED) {
            throw std::logic_error("a section's record is refused");
        }
        return answer.numbers;
    }

    const Ours &curve_;
    std::size_t number_;
};

std::size_t retained(const Ours &curve)
{
    return curve.sections() - (curve.held() && curve.sections() > 0 ? 1 : 0);
}

// What QuantLib makes of the table where it goes on from the library's sections. They must outlive it.
Theirs continue_in_quantlib(const Table &table, const std::size_t points, const Settings &settings, const bool hold, const Ours &previous)
{
    std::map<double, QuantLib::ext::shared_ptr<QuantLib::detail::SectionHelper>> kept;
    for (std::size_t i = 0; i < retained(previous); ++i) {
        kept[table.knots[i + 1]] = QuantLib::ext::make_shared<Kept>(previous, i);
    }
    const double *const knots = table.knots.data();
    return Theirs(knots, knots + points, table.averages.data(), settings.quadraticity, settings.monotonicity, settings.positive, hold,
                  kept);
}

// One step of growth. QuantLib goes on from the sections that the library had, and must make the same new ones, with the same prices and
// totals from there on. The sections before the last kept one are those of a build of the whole.
void compare_step(Judge &judge, Draw &draw, const Table &table, const std::size_t points, const Settings &settings, const Ours &previous,
                  const Ours &ours)
{
    const std::size_t kept = retained(previous);
    Theirs grown = continue_in_quantlib(table, points, settings, ours.held(), previous);
    compare_sections(judge, draw, table, ours, grown, kept, ours.sections());
    std::vector<double> xs = drawn_queries(draw, table.knots, points);
    const double seam = table.knots[kept];
    xs.erase(std::remove_if(xs.begin(), xs.end(), [&](const double x) { return kept > 0 && x < seam; }), xs.end());
    compare_many(judge, xs, ours, grown);
    if (kept > 1) {
        Theirs whole = build_theirs(table, points, settings, ours.held());
        compare_sections(judge, draw, table, ours, whole, 0, kept - 1);
    }
    ++judge.counts.growths;
}

// A table that grows to `final_size` points from its first window on, as a curve does while it is bootstrapped.
void compare_growth(Judge &judge, Draw &draw, const Place &place)
{
    const std::size_t final_size = 2 + draw.below(20);
    const std::size_t localisation = 1 + draw.below(final_size - 1);
    const Table table = drawn_table(draw, final_size);
    const Settings settings = drawn_settings(draw);
    Ours previous(final_size);
    for (std::size_t points = localisation + 1; points <= final_size; ++points) {
        judge.begin(place, table, settings, points, points != final_size);
        Ours ours(final_size);
        const std::uint8_t refusal = ours.grow(table, points, settings, localisation, final_size, previous);
        judge.refusal("growth", refusal, false);
        if (refusal != HAVGRUNEL_ACCEPTED) {
            return;
        }
        compare_step(judge, draw, table, points, settings, previous, ours);
        previous = std::move(ours);
    }
}

void compare_case(Judge &judge, const Place &place)
{
    Draw draw(Draw(place.seed).bits() ^ Draw(place.number).bits());
    switch (draw.below(8)) {
    case 0: return compare_refused_build(judge, draw, place);
    case 1: return compare_growth(judge, draw, place);
    default: return compare_build(judge, draw, place);
    }
}

struct Options {
    std::uint64_t seed = 1;
    std::uint64_t cases = 60000;
    std::optional<std::uint64_t> only;
    bool time = false;
};

int compare(const Options &options)
{
    Judge judge;
    if (options.only) {
        compare_case(judge, {options.seed, *options.only});
    } else {
        for (std::uint64_t number = 0; number < options.cases; ++number) {
            compare_case(judge, {options.seed, number});
        }
    }
    const Counts &counts = judge.counts;
    std::printf("quantlib: seed %" PRIu64 ", %" PRIu64 " cases: %" PRIu64 " tables and %" PRIu64 " steps of growth, %" PRIu64
                " numbers (%" PRIu64 " prices, %" PRIu64 " totals, %" PRIu64 " of %" PRIu64 " sections; %" PRIu64
                " of them not finite) and %" PRIu64 " refusals; %" PRIu64 " differ\n",
                options.seed, options.only ? 1 : options.cases, counts.tables, counts.growths, counts.numbers(), counts.prices,
                counts.totals, counts.section_numbers, counts.sections, counts.not_finite, counts.refusals, judge.differences());
    return judge.differences() == 0 ? 0 : 1;
}

// Medians of both sides, sample by sample in turn, in processor time.
double seconds_of(const std::function<void()> &work)
{
    const std::clock_t began = std::clock();
    work();
    return static_cast<double>(std::clock() - began) / CLOCKS_PER_SEC;
}

double median(std::vector<double> samples)
{
    std::sort(samples.begin(), samples.end());
    return samples[samples.size() / 2];
}

void measure(const std::string &row, const double units, const std::function<void()> &ours, const std::function<void()> &theirs)
{
    constexpr int rounds = 31;
    constexpr double enough = 0.004;
    const int turns = 1 + static_cast<int>(enough / std::max(1e-6, seconds_of(ours)));
    const auto repeated = [turns](const std::function<void()> &work) {
        return [turns, &work] {
            for (int i = 0; i < turns; ++i) {
                work();
            }
        };
    };
    std::vector<double> mine;
    std::vector<double> other;
    for (int round = 0; round < rounds; ++round) {
        mine.push_back(seconds_of(repeated(ours)));
        other.push_back(seconds_of(repeated(theirs)));
    }
    const double scale = 1e9 / (units * turns);
    std::printf("| %s | %.1f | %.1f | %.2f |\n", row.c_str(), median(mine) * scale, median(other) * scale, median(mine) / median(other));
    std::fflush(stdout);
}

volatile double sink;

std::vector<Table> winters(const std::size_t points)
{
    Draw draw(points);
    std::vector<Table> tables;
    for (std::size_t held = 0; held < 8192; held += points) {
        tables.push_back(winter(draw, points));
    }
    return tables;
}

void measure_build(const std::size_t points, const Settings &settings)
{
    const std::vector<Table> tables = winters(points);
    Ours ours(points);
    char row[64];
    std::snprintf(row, sizeof row, "build n=%zu q=%g %s", points, settings.quadraticity, settings.positive ? "positive" : "free");
    measure(
        row, static_cast<double>(tables.size() * (points - 1)),
        [&] {
            for (const Table &table : tables) {
                ours.build(table, points, settings, false);
            }
        },
        [&] {
            for (const Table &table : tables) {
                sink = build_theirs(table, points, settings, false).xMax();
            }
        });
}

void measure_prices(const std::size_t points, const bool rising)
{
    Draw draw(points);
    const Table table = winter(draw, points);
    const Settings settings{0.3, 0.7, true};
    Ours ours(points);
    ours.build(table, points, settings, false);
    const Theirs theirs = build_theirs(table, points, settings, false);
    std::vector<double> xs(20000);
    std::generate(xs.begin(), xs.end(), [&] { return inside(draw, table.knots.front(), table.knots.back()); });
    if (rising) {
        std::sort(xs.begin(), xs.end());
    }
    std::vector<double> answers(xs.size());
    const auto in_quantlib = [&] {
        for (std::size_t i = 0; i < xs.size(); ++i) {
            answers[i] = theirs(xs[i], true);
        }
    };
    const std::string name = "prices n=" + std::to_string(points) + (rising ? " rising" : " any order");
    measure("many " + name, static_cast<double>(xs.size()), [&] { ours.values(xs.data(), xs.size(), answers.data()); }, in_quantlib);
    const auto one_by_one = [&] {
        for (std::size_t i = 0; i < xs.size(); ++i) {
            ours.value(xs[i], true, answers[i]);
        }
    };
    measure("single " + name, static_cast<double>(xs.size()), one_by_one, in_quantlib);
}

int measure_all()
{
    std::printf("| Row | library, ns | QuantLib, ns | ratio |\n|---|---:|---:|---:|\n");
    for (const std::size_t points : {13, 100, 1000, 4096}) {
        for (const double quadraticity : {0.0, 0.3, 1.0}) {
            for (const bool positive : {true, false}) {
                measure_build(points, {quadraticity, 0.7, positive});
            }
        }
    }
    for (const std::size_t points : {13, 100, 1000, 4096}) {
        measure_prices(points, true);
        measure_prices(points, false);
    }
    return 0;
}

std::uint64_t number_in(const std::string &text)
{
    std::size_t read = 0;
    const std::uint64_t number = std::stoull(text, &read);
    if (read != text.size() || text[0] == '-') {
        throw std::invalid_argument(text);
    }
    return number;
}

Options options_of(const std::vector<std::string> &words)
{
    Options options;
    for (std::size_t i = 0; i < words.size(); ++i) {
        if (words[i] == "--time") {
            options.time = true;
        } else if (i + 1 < words.size() && words[i] == "--seed") {
            options.seed = number_in(words[++i]);
        } else if (i + 1 < words.size() && words[i] == "--cases") {
            options.cases = number_in(words[++i]);
        } else if (i + 1 < words.size() && words[i] == "--case") {
            options.only = number_in(words[++i]);
        } else {
            throw std::invalid_argument(words[i]);
        }
    }
    return options;
}

} // namespace judge

int main(const int count, const char *const *const words)
{
    judge::Options options;
    try {
        options = judge::options_of({words + 1, words + count});
    } catch (const std::logic_error &) {
        std::fprintf(stderr, "usage: compare [--seed N] [--cases N | --case N] [--time]\n");
        return 2;
    }
    try {
        return options.time ? judge::measure_all() : judge::compare(options);
    } catch (const std::exception &error) {
        std::fprintf(stderr, "quantlib: %s\n", error.what());
        return 2;
    }
}
