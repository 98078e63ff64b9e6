/*
 * How often a call reads the knots that it refuses, counted in pages. The knots lie in memory of which two pages can be read at a time, as if they came
 * from a file: reading another page opens it, counts it, and closes the older of the two. A call that reads each knot once, from the first to the last,
 * opens each page once. Every table here is refused, so nothing but the check reads its knots.
 */
#define _GNU_SOURCE
#include "havgrunel.h"

#include <math.h>
#include <signal.h>
#include <stdio.h>
#include <stdlib.h>
#include <sys/mman.h>
#include <unistd.h>

enum { PAGES = 16, NONE = -1 };

static double *knots;
static double *averages;
static size_t points;
static size_t page_size;

/* The pages that can be read, the one opened last first, and how often one was opened. */
static volatile sig_atomic_t open_pages[2];
static volatile sig_atomic_t opened;

static void allow(void *from, size_t size, int what)
{
    if (mprotect(from, size, what) != 0) {
        perror("c: mprotect");
        _exit(1);
    }
}

static void *page(sig_atomic_t number)
{
    return (char *)knots + (size_t)number * page_size;
}

static void open_page(int signal_number, siginfo_t *told, void *context)
{
    (void)context;
    const size_t offset = (size_t)((char *)told->si_addr - (char *)knots);
    if (offset >= PAGES * page_size) {
        signal(signal_number, SIG_DFL); /* The same read then ends the program. */
        return;
    }
    if (open_pages[1] != NONE) {
        allow(page(open_pages[1]), page_size, PROT_NONE);
    }
    open_pages[1] = open_pages[0];
    open_pages[0] = (sig_atomic_t)(offset / page_size);
    opened = opened + 1;
    allow(page(open_pages[0]), page_size, PROT_READ);
}

/* More points than are taken, so that sound knots are refused too, by 10. */
static void make_table(void)
{
    page_size = (size_t)sysconf(_SC_PAGESIZE);
    points = PAGES * page_size / sizeof *knots;
    void *const pages = mmap(NULL, PAGES * page_size, PROT_READ | PROT_WRITE, MAP_PRIVATE | MAP_ANONYMOUS, -1, 0);
    averages = calloc(points, sizeof *averages);
    if (pages == MAP_FAILED || averages == NULL) {
        perror("c: no memory");
        exit(1);
    }
    knots = pages;
}

static uint8_t build_by(uint8_t split)
{
    size_t sections[1];
    double tail[3];
    return havgrunel_build(knots, points, averages, points, 0.3, 0.7, true, split, false, false, 0, 0.0, NULL, 0, NULL, 0, NULL, 0, sections, 1, tail, 3);
}

static uint8_t build(void)
{
    return build_by(HAVGRUNEL_SPLIT_ORIGINAL);
}

static uint8_t build_safely(void)
{
    return build_by(HAVGRUNEL_SPLIT_SAFE);
}

static uint8_t build_with_column(void)
{
    size_t sections[1];
    double tail[3];
    return havgrunel_build_with_column(knots, points, averages, points, 0.3, 0.7, true, HAVGRUNEL_SPLIT_ORIGINAL, false, false, 0, 0.0, NULL, 0, NULL, 0,
        NULL, 0, sections, 1, tail, 3, NULL, 0);
}

static uint8_t value(void)
{
    double answer;
    return havgrunel_value(knots, points, NULL, 0, NULL, 0, 0.0, 0.0, 0.0, true, 0.0, &answer, 1);
}

static uint8_t primitives(void)
{
    const double queries[2] = {0.0, 1.0};
    double answers[2];
    return havgrunel_primitives(knots, points, NULL, 0, NULL, 0, 0.0, 0.0, 0.0, true, queries, 2, answers, 2).refusal;
}

static uint8_t strip(void)
{
    double answer;
    return havgrunel_strip(knots, points, NULL, 0, NULL, 0, 0.0, 0.0, 0.0, true, 0.0, 1.0, &answer, 1);
}

static uint8_t strip_run(void)
{
    const double edges[3] = {0.0, 1.0, 2.0};
    double answers[2];
    return havgrunel_strip_run(knots, points, NULL, 0, NULL, 0, 0.0, 0.0, 0.0, true, edges, 3, answers, 2).refusal;
}

static uint8_t strip_between(void)
{
    double answer;
    return havgrunel_strip_between(knots, points, NULL, 0, 0, points - 1, &answer, 1);
}

static int calls;
static int failures;

static void try_call(const char *name, uint8_t (*call)(void), const char *told, uint8_t refusal)
{
    allow(knots, PAGES * page_size, PROT_NONE);
    open_pages[0] = NONE;
    open_pages[1] = NONE;
    opened = 0;
    const uint8_t number = call();
    const int count = opened;
    allow(knots, PAGES * page_size, PROT_READ | PROT_WRITE);
    calls++;
    if (number != refusal || count != PAGES) {
        failures++;
        fprintf(stderr, "c: %s of %s: refused by %d where %d is due, and %d pages were opened to read %d\n", name, told, number, refusal, count, PAGES);
    }
}

static void try_calls(const char *told, uint8_t of_build, uint8_t of_query)
{
    try_call("a build", build, told, of_build);
    try_call("a safe build", build_safely, told, of_build);
    try_call("a build with a column", build_with_column, told, of_build);
    try_call("a price", value, told, of_query);
    try_call("totals", primitives, told, of_query);
    try_call("a strip", strip, told, of_query);
    try_call("a run of strips", strip_run, told, of_query);
    try_call("a strip between places", strip_between, told, of_query);
}

int main(void)
{
    make_table();
    struct sigaction on_fault = {.sa_sigaction = open_page, .sa_flags = SA_SIGINFO};
    if (sigaction(SIGSEGV, &on_fault, NULL) != 0) {
        perror("c: sigaction");
        return 1;
    }
    for (size_t i = 0; i < points; i++) {
        knots[i] = (double)i;
    }
    try_calls("sound knots", HAVGRUNEL_TOO_MANY_POINTS, HAVGRUNEL_TOO_MANY_POINTS);
    knots[0] = -INFINITY;
    try_calls("a bad first knot", HAVGRUNEL_KNOT_NOT_FINITE, HAVGRUNEL_KNOT_NOT_FINITE);
    knots[0] = 1.0;
    try_calls("a falling first pair", HAVGRUNEL_KNOTS_NOT_RISING, HAVGRUNEL_KNOTS_NOT_RISING);
    averages[points / 2] = NAN;
    try_calls("a falling first pair and a bad average", HAVGRUNEL_AVERAGE_NOT_FINITE, HAVGRUNEL_KNOTS_NOT_RISING);
    knots[points - 1] = NAN;
    try_calls("a falling first pair and a bad last knot", HAVGRUNEL_KNOT_NOT_FINITE, HAVGRUNEL_KNOT_NOT_FINITE);
    if (failures != 0) {
        return 1;
    }
    printf("c: each of %d pages of refused knots is read once, in %d calls\n", PAGES, calls);
    return 0;
}
