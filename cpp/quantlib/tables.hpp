// What both sides are asked: seeded settings, tables and queries. A seed gives the same numbers on every machine, so nothing here uses the
// distributions of <random>, which each standard library makes in its own way.
#ifndef HAVGRUNEL_CPP_QUANTLIB_TABLES_HPP
#define HAVGRUNEL_CPP_QUANTLIB_TABLES_HPP

#include <algorithm>
#include <array>
#include <cmath>
#include <cstddef>
#include <cstdint>
#include <cstring>
#include <limits>
#include <utility>
#include <vector>

namespace judge {

constexpr double infinity = std::numeric_limits<double>::infinity();

inline std::uint64_t bits_of(const double x)
{
    std::uint64_t bits;
    static_assert(sizeof bits == sizeof x);
    std::memcpy(&bits, &x, sizeof bits);
    return bits;
}

inline double of_bits(const std::uint64_t bits)
{
    double x;
    std::memcpy(&x, &bits, sizeof x);
    return x;
}

// Bit for bit, any NaN matching any NaN.
inline bool same(const double a, const double b)
{
    return bits_of(a) == bits_of(b) || (std::isnan(a) && std::isnan(b));
}

// A stream of numbers from a seed.
class Draw {
public:
    explicit Draw(const std::uint64_t seed) : state_(seed) {}

    std::uint64_t bits()
    {
        state_ += 0x9e3779b97f4a7c15;
        std::uint64_t z = state_;
        z = (z ^ (z >> 30)) * 0xbf58476d1ce4e5b9;
        z = (z ^ (z >> 27)) * 0x94d049bb133111eb;
        return z ^ (z >> 31);
    }

    std::size_t below(const std::size_t count) { return static_cast<std::size_t>(bits() % count); }

    bool one_in(const std::size_t count) { return below(count) == 0; }

    // From 0 to below 1.
    double unit() { return static_cast<double>(bits() >> 11) * 0x1p-53; }

    double between(const double low, const double high) { return low + (high - low) * unit(); }

    // Any finite number, each pattern of bits as likely as another.
    double finite()
    {
        for (;;) {
            const double x = of_bits(bits());
            if (std::isfinite(x)) {
                return x;
            }
        }
    }

    template <class T>
    const T &one_of(const std::vector<T> &all)
    {
        return all[below(all.size())];
    }

    template <class T>
    void shuffle(std::vector<T> &all)
    {
        for (std::size_t i = all.size(); i > 1; --i) {
            std::swap(all[i - 1], all[below(i)]);
        }
    }

private:
    std::uint64_t state_;
};

struct Settings {
    double quadraticity;
    double monotonicity;
    bool positive;
};

inline double drawn_setting(Draw &draw)
{
    switch (draw.below(16)) {
    case 0: return -0.0;
    case 1: return std::numeric_limits<double>::denorm_min();
    case 2: return std::nextafter(1.0, 0.0);
    case 3: return 0x1p-60;
    default: return draw.unit();
    }
}

inline Settings drawn_settings(Draw &draw)
{
    const std::size_t which = draw.below(5);
    const double quadraticity = which == 0 ? 0.0 : which == 1 ? 0.3 : which == 2 ? 1.0 : drawn_setting(draw);
    const std::size_t other = draw.below(6);
    const double monotonicity = other == 0 ? 0.7 : other == 1 ? 0.0 : other == 2 ? 1.0 : drawn_setting(draw);
    return {quadraticity, monotonicity, draw.one_in(2)};
}

// A setting that neither side takes.
inline double setting_outside(Draw &draw)
{
    const std::vector<double> outside{std::nan(""), infinity, -infinity, std::nextafter(1.0, 2.0),
                                      -std::numeric_limits<double>::denorm_min(), -0.25, 2.0};
    return draw.one_of(outside);
}

struct Table {
    std::vector<double> knots;
    std::vector<double> averages;

    std::size_t points() const { return knots.size(); }
};

// Months with dear winters and cheap summers, with spikes, with months at next to nothing, and with prices that stay for a while.
inline Table winter(Draw &draw, const std::size_t points)
{
    static constexpr std::array<double, 12> shape{1.45, 1.4, 1.2, 1.0, 0.8, 0.6, 0.5, 0.55, 0.7, 0.95, 1.2, 1.4};
    static constexpr std::array<double, 12> days{31, 28, 31, 30, 31, 30, 31, 31, 30, 31, 30, 31};
    const double level = draw.between(15.0, 45.0);
    std::size_t month = draw.below(12);
    std::size_t stays = 0;
    double day = 0.0;
    double price = level;
    Table table;
    for (std::size_t i = 0; i < points; ++i) {
        if (stays > 0) {
            --stays;
        } else {
            const std::size_t event = draw.below(24);
            const double factor = event < 4 ? draw.between(0.02, 0.2) : event < 6 ? draw.between(2.0, 3.0) : 1.0;
            price = level * shape[month] * draw.between(0.85, 1.15) * factor;
            stays = event == 6 ? 3 : 0;
        }
        table.knots.push_back(day / 365.0);
        table.averages.push_back(price);
        day += days[month];
        month = (month + 1) % 12;
    }
    return table;
}

// The next knot by one rule or another; rising() sees to it that it is above the one before.
inline double drawn_step(Draw &draw, const std::size_t rule, const double last)
{
    switch (rule) {
    case 0: return last + 1.0;
    case 1: return last + draw.between(0.01, 2.0);
    case 2: return last + std::ldexp(draw.unit(), static_cast<int>(draw.below(80)) - 40);
    case 3: return last + static_cast<double>(1 + draw.below(4)) * 0.25;
    default: return std::nextafter(last, infinity);
    }
}

inline std::vector<double> drawn_knots(Draw &draw, const std::size_t points)
{
    constexpr std::size_t rules = 5;
    std::vector<double> knots;
    const std::size_t rule = draw.below(rules + 1);
    if (rule == rules) {
        for (std::size_t i = 0; i < points; ++i) {
            knots.push_back(draw.finite());
        }
        std::sort(knots.begin(), knots.end());
    } else {
        double knot = draw.one_in(2) ? 0.0 : draw.between(-100.0, 100.0);
        for (std::size_t i = 0; i < points; ++i) {
            knots.push_back(knot);
            knot = drawn_step(draw, rule, knot);
        }
    }
    for (std::size_t i = 1; i < points; ++i) {
        if (!(knots[i] > knots[i - 1])) {
            knots[i] = std::nextafter(knots[i - 1], infinity);
        }
    }
    return knots;
}

inline double drawn_average(Draw &draw, const std::size_t rule, const double last)
{
    switch (rule) {
    case 0: return static_cast<double>(draw.below(10)) - 3.0; // nodes that are exact, on the borders of the method's regions
    case 1: return draw.between(-10.0, 50.0);
    case 2: return draw.one_in(3) ? draw.between(0.0, 0.5) : draw.between(5.0, 50.0); // cheap beside dear: splits
    case 3: return draw.one_in(4) ? draw.between(1.0, 2.0) : last + static_cast<double>(draw.below(5)) * 0x1p-47; // next to flat
    case 4: return std::ldexp(draw.between(-1.0, 1.0), static_cast<int>(draw.below(120)) - 60);
    case 5: return draw.one_in(2) ? 0.0 : -0.0;
    default: return draw.finite();
    }
}

inline std::vector<double> drawn_averages(Draw &draw, const std::size_t points)
{
    constexpr std::size_t rules = 7;
    const std::size_t rule = draw.below(rules);
    std::vector<double> averages;
    double average = 1.0;
    for (std::size_t i = 0; i < points; ++i) {
        average = drawn_average(draw, draw.one_in(32) ? draw.below(rules) : rule, average);
        averages.push_back(average);
    }
    return averages;
}

inline Table drawn_table(Draw &draw, const std::size_t points)
{
    if (draw.one_in(4)) {
        return winter(draw, points);
    }
    std::vector<double> knots = drawn_knots(draw, points);
    return {std::move(knots), drawn_averages(draw, points)};
}

// A number from the inside of a period; a sum of its two ends can't overflow.
inline double inside(Draw &draw, const double left, const double right)
{
    const double weight = draw.unit();
    return (1.0 - weight) * left + weight * right;
}

// What is asked of a curve: at each knot and right beside it, inside each period, and outside all of them.
inline std::vector<double> drawn_queries(Draw &draw, const std::vector<double> &knots, const std::size_t points)
{
    std::vector<double> xs;
    const double first = knots[0];
    const double last = knots[points - 1];
    for (std::size_t i = 0; i + 1 < points; ++i) {
        xs.push_back(std::nextafter(knots[i], -infinity));
        xs.push_back(knots[i]);
        xs.push_back(std::nextafter(knots[i], infinity));
        for (int k = 0; k < 5; ++k) {
            xs.push_back(inside(draw, knots[i], knots[i + 1]));
        }
    }
    xs.insert(xs.end(), {std::nextafter(last, -infinity), last, std::nextafter(last, infinity), last + draw.between(0.0, 10.0),
                         first - draw.between(0.0, 10.0), draw.finite(), infinity, -infinity});
    if (draw.one_in(2)) {
        draw.shuffle(xs);
    }
    return xs;
}

} // namespace judge

#endif
