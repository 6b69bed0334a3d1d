/* Measures the finder's searches beside plain implementations of the same jobs, on the same texts and sets.
 *
 * bench            all data sets and sets of patterns: CPU time, best of up to nine runs, in nanoseconds a value
 * bench call       what a call costs before its first value, warm and cold, beside a memcmp of set and automaton
 * bench parts      what a value costs where a text comes in calls of 37 values
 * bench first      what a first hit costs, at the front of a text and where there is none
 * bench count E D S N   runs engine E once over N values of data set D with set S, for a counter of instructions
 *
 * Lists, rises, attempts and candidates of all engines are compared; exit status 1 where they differ.
 */
#include <stdio.h>
#include <stdlib.h>
#include <string.h>
#include <time.h>
#include "../include/finder.h"
#include "plain.h"

enum { LONGEST = 1048576, HIT_WORDS = 1 << 27, SET_WORDS = 8192, AUTOMATON_WORDS = 16 * 4097 };

static int32_t text[LONGEST];
static uint32_t *hits;
static int32_t *rises;
static uint32_t set[SET_WORDS], automaton[AUTOMATON_WORDS];
static size_t set_used, automaton_used; /* words */
static Patterns patterns;
static uint64_t seed;
static int differences;

static uint64_t next(void)
{
    seed ^= seed << 13;
    seed ^= seed >> 7;
    return seed ^= seed << 17;
}

static double time_of(clockid_t clock)
{
    struct timespec t;
    clock_gettime(clock, &t);
    return (double)t.tv_sec + 1e-9 * (double)t.tv_nsec;
}

static double seconds(void)
{
    return time_of(CLOCK_PROCESS_CPUTIME_ID);
}

static void must(int good, const char *what)
{
    if (good)
        return;
    fprintf(stderr, "\nbench: %s\n", what);
    exit(1);
}

/* ---- texts and sets */

enum { UNIFORM, WALK, PUMP, RAMPS, EQUAL, GAPS, DATA };
static const char *const data_name[DATA] = {"uniform", "walk", "pump", "ramps", "equal", "gaps"};

static void make_text(int data, size_t n)
{
    int32_t w = 0;
    seed = 88172645463325252ull + (uint64_t)data;
    for (size_t i = 0; i < n; i++)
        switch (data) {
        case UNIFORM: text[i] = (int32_t)next(); break;
        case WALK: text[i] = w += (int32_t)(next() % 21) - 10; break;
        case PUMP: { /* inrush, quantised plateau with many ties, flats */
            size_t p = i % 4000;
            text[i] = p < 40 ? 1200 - 20 * (int32_t)p : p < 2500 ? 400 + 5 * (int32_t)(next() % 4) : p < 2600 ? 300 : 0;
            break;
        }
        case RAMPS: text[i] = (int32_t)(i % 5000); break;
        case EQUAL: text[i] = 7; break;
        default: /* a walk in which each value is a gap with probability 1/256 */
            w += (int32_t)(next() % 21) - 10;
            text[i] = next() % 256 ? w : GAP;
        }
}

/* Sets: how many patterns are cut from the text, how often each stands in the set, their length (0: 4 to 100), and the set with the
   same cuts. */
enum { OF_4_1, OF_4_8, OF_4_64, OF_16_1, OF_16_8, OF_16_64, OF_64_1, OF_64_8, OF_64_64, MIXED_8, MIXED_64, EQUAL_64, EQUAL_8_8, SETS };
static const struct {
    size_t cut, times, length;
    int as;
    const char *name;
} set_of[SETS] = {
    {1, 1, 4, OF_4_1, "1 of 4"},       {8, 1, 4, OF_4_8, "8 of 4"},       {64, 1, 4, OF_4_64, "64 of 4"},
    {1, 1, 16, OF_16_1, "1 of 16"},    {8, 1, 16, OF_16_8, "8 of 16"},    {64, 1, 16, OF_16_64, "64 of 16"},
    {1, 1, 64, OF_64_1, "1 of 64"},    {8, 1, 64, OF_64_8, "8 of 64"},    {64, 1, 64, OF_64_64, "64 of 64"},
    {8, 1, 0, MIXED_8, "8 mixed"},     {64, 1, 0, MIXED_64, "64 mixed"},
    {1, 64, 16, OF_16_1, "64 equal"},  {8, 8, 16, OF_16_8, "8 x 8"}};

static int holds_gap(const int32_t *values, size_t n)
{
    for (size_t i = 0; i < n; i++)
        if (values[i] == GAP)
            return 1;
    return 0;
}

/* Cuts pattern j from the first n values of the text. */
static void cut_pattern(size_t j, size_t length, size_t n)
{
    static const size_t mixed[] = {4, 8, 16, 32, 64, 100};
    size_t m = length ? length : mixed[next() % 6];
    const int32_t *from;
    do
        from = text + next() % (n - m);
    while (holds_gap(from, m));
    patterns.length[j] = m;
    memcpy(patterns.values[j], from, m * sizeof *from);
}

static void make_set(int s, size_t n)
{
    size_t cut = set_of[s].cut;
    seed = 1181783497276652981ull + (uint64_t)set_of[s].as;
    patterns.count = cut * set_of[s].times;
    finder_empty_set(set, SET_WORDS);
    for (size_t j = 0; j < patterns.count; j++) {
        if (j < cut)
            cut_pattern(j, set_of[s].length, n);
        patterns.length[j] = patterns.length[j % cut];
        memcpy(patterns.values[j], patterns.values[j % cut], sizeof patterns.values[j]);
        FinderCounts c = finder_add_pattern(set, SET_WORDS, patterns.values[j], patterns.length[j]);
        must(!c.refusal, "a pattern is refused");
        set_used = 3 + c.first + c.second;
    }
    FinderCounts c = finder_build_automaton(set, SET_WORDS, automaton, AUTOMATON_WORDS);
    must(!c.refusal, "the set is refused");
    automaton_used = c.second;
}

/* ---- engines */

/* The searches of the finder and the plain ones; TIGHT is the filter search with an array that just holds the list. */
enum { STREAM, AUTOMATON, TABLE, FILTER, ONE_PASS, ONE_PASS_APART, TIGHT, WINDOWS, ENGINES };
static const char *const engine_name[ENGINES] = {"stream search", "Aho-Corasick", "table", "filter search", "one-pass filter",
    "one-pass filter (apart)", "tight filter search", "windows"};

static Automaton *plain_a;
static Table *plain_t;
static Filter *plain_f;
static size_t tight; /* words that the list takes */

static void make_plain(void)
{
    plain_a = plain_automaton(&patterns);
    plain_t = plain_table(plain_a);
    plain_f = plain_filter(&patterns);
}

static void free_plain(void)
{
    plain_free_table(plain_t);
    plain_free_automaton(plain_a);
    free(plain_f);
}

/* The stream search over the first n values, in calls of at most `part` values. */
static Listed stream(size_t n, size_t part)
{
    FinderState state = finder_new_search();
    Listed l = {0, 0, 0};
    size_t at = 0;
    while (at < n) {
        size_t values = n - at < part ? n - at : part;
        FinderStreamed s = finder_stream_search(set, SET_WORDS, automaton, AUTOMATON_WORDS, state, text + at, values, hits + 2 * l.hits,
                                                HIT_WORDS - 2 * l.hits, rises + l.hits, HIT_WORDS / 2 - l.hits);
        must(!s.refusal, "a stream search is refused");
        state = s.state;
        at += s.taken;
        l.hits += s.hits;
        l.attempts += s.attempts;
    }
    return l;
}

static Listed filter(size_t n, size_t words)
{
    FinderCounts f = finder_filter_search(set, SET_WORDS, text, n, hits, words, rises, words / 2);
    must(!f.refusal, "a filter search is refused");
    return (Listed){f.first, 0, f.second};
}

/* One search over the first n values. */
static Listed run_engine(int engine, size_t n)
{
    switch (engine) {
    case STREAM: return stream(n, n);
    case AUTOMATON: return plain_stream(plain_a, text, n, hits, rises);
    case TABLE: return plain_table_stream(plain_t, text, n, hits, rises);
    case FILTER: return filter(n, HIT_WORDS);
    case ONE_PASS: return plain_filtered(plain_f, text, n, hits, rises);
    case ONE_PASS_APART: return plain_filtered_apart(plain_f, text, n, hits, rises);
    case TIGHT: return filter(n, tight);
    default: return plain_windows(plain_f, text, n, hits, rises);
    }
}

/* A sum over the list and the rises, which are then overwritten, so that the next engine must write its own. */
static uint64_t sum_of(size_t found)
{
    uint64_t sum = found;
    for (size_t i = 0; i < 2 * found; i++)
        sum = (sum ^ hits[i]) * 1099511628211ull;
    for (size_t i = 0; i < found; i++)
        sum = (sum ^ (uint32_t)rises[i]) * 1099511628211ull;
    memset(hits, 255, 2 * found * sizeof *hits);
    memset(rises, 255, found * sizeof *rises);
    return sum;
}

static void compare(const char *who, const char *what, uint64_t told, uint64_t wanted)
{
    if (told == wanted)
        return;
    differences = 1;
    fprintf(stderr, "\n*** DIFFERENT %s: the %s tells %llu, the finder %llu\n", what, who, (unsigned long long)told, (unsigned long long)wanted);
}

/* Compares what an engine listed with what the stream search listed, and, if it filters, with what the filter search counted. */
static void check(int engine, Listed l, uint64_t sum, Listed streamed, size_t candidates)
{
    const char *who = engine_name[engine];
    compare(who, "hits", l.hits, streamed.hits);
    compare(who, "list or rises (sum)", sum_of(l.hits), sum);
    if (engine == AUTOMATON || engine == TABLE)
        compare(who, "attempts", l.attempts, streamed.attempts);
    if (engine >= FILTER && engine < WINDOWS)
        compare(who, "candidates", l.candidates, candidates);
}

/* ---- the cost of a call */

enum { OTHER_VALUES = 8192, SWEPT = 1 << 20, WARM_CALLS = 10, COLD_CALLS = 301 };

static FinderState call_state;
static FinderStreamed call_streamed;
static uint32_t set_copy[SET_WORDS], automaton_copy[AUTOMATON_WORDS];
static uint32_t other_set[SET_WORDS], other_automaton[AUTOMATON_WORDS], swept[SWEPT];
static int32_t other_text[OTHER_VALUES];

static void call_stream(void)
{
    call_streamed = finder_stream_search(set, SET_WORDS, automaton, AUTOMATON_WORDS, call_state, text, 0, hits, 128, rises, 64);
    must(!call_streamed.refusal, "a call is refused");
}

static void call_filter(void)
{
    must(!finder_filter_search(set, SET_WORDS, text, 0, hits, 128, rises, 64).refusal, "a call is refused");
}

static void compare_words(void)
{
    must(!memcmp(set, set_copy, set_used * sizeof *set) && !memcmp(automaton, automaton_copy, automaton_used * sizeof *automaton), "a copy differs");
}

/* Microseconds of a call among calls of its own kind, the best of some rounds. */
static double warm_us(void (*job)(void), int rounds)
{
    double best = 1e9;
    call_state = finder_new_search();
    for (int round = 0; round < rounds; round++) {
        double t = time_of(CLOCK_MONOTONIC);
        for (int i = 0; i < WARM_CALLS; i++) {
            job();
            __asm__ volatile("" ::: "memory");
        }
        t = time_of(CLOCK_MONOTONIC) - t;
        if (t < best)
            best = t;
    }
    return best * 1e6 / WARM_CALLS;
}

/* Searches other values for another set, then reads and writes 4 MiB: the caches of first and second level hold other things. */
static void other_work(void)
{
    must(!finder_stream_search(other_set, SET_WORDS, other_automaton, AUTOMATON_WORDS, finder_new_search(), other_text, OTHER_VALUES, hits,
                               HIT_WORDS, rises, HIT_WORDS / 2).refusal, "the other search is refused");
    for (size_t i = 0; i < SWEPT; i++)
        swept[i] = swept[i] * 5 + (uint32_t)i;
    __asm__ volatile("" ::"r"(swept) : "memory");
}

static int by_size(const void *a, const void *b)
{
    double x = *(const double *)a, y = *(const double *)b;
    return x < y ? -1 : x > y;
}

static void nothing(void)
{
}

/* Microseconds of a call after other work, the median of many; the clock's own time is in it. */
static double cold_median(void (*job)(void))
{
    double us[COLD_CALLS];
    for (int i = 0; i < COLD_CALLS; i++) {
        other_work();
        double t = time_of(CLOCK_MONOTONIC);
        job();
        __asm__ volatile("" ::: "memory");
        us[i] = (time_of(CLOCK_MONOTONIC) - t) * 1e6;
    }
    qsort(us, COLD_CALLS, sizeof us[0], by_size);
    return us[COLD_CALLS / 2];
}

static void call_row(int d, int s, double clock_us)
{
    make_set(s, LONGEST);
    memcpy(set_copy, set, sizeof set);
    memcpy(automaton_copy, automaton, sizeof automaton);
    printf("| %s | %s | %zu | %zu |", data_name[d], set_of[s].name, set_of[s].cut * set_of[s].length, set_used + automaton_used);
    void (*const jobs[])(void) = {call_stream, compare_words, call_filter};
    for (int j = 0; j < 3; j++) {
        double warm = warm_us(jobs[j], 200), cold = cold_median(jobs[j]) - clock_us;
        printf(" %.2f | %.2f |", warm, cold);
    }
    printf("\n");
    fflush(stdout);
}

static void call_table(void)
{
    static const int sets[] = {OF_4_8, OF_4_64, OF_16_64, OF_64_64};
    make_text(GAPS, LONGEST);
    make_set(OF_64_64, LONGEST);
    memcpy(other_set, set, sizeof set);
    memcpy(other_automaton, automaton, sizeof automaton);
    memcpy(other_text, text, sizeof other_text);
    double clock_us = cold_median(nothing);
    printf("| data | set | D | words | warm us | cold us | memcmp warm | memcmp cold | filter warm | filter cold |\n");
    printf("|---|---|---|---|---|---|---|---|---|---|\n");
    for (int d = UNIFORM; d <= PUMP; d++) {
        make_text(d, LONGEST);
        for (int s = 0; s < 4; s++)
            call_row(d, sets[s], clock_us);
    }
}

/* ---- CPU time */

enum { ROUNDS = 9 };

/* The best time of each engine, in nanoseconds a value. The engines take turns, so that a slow moment of the machine does not fall on one
   alone; one that has had its share is left out. What each lists is checked in the first round. Tells what the stream search lists. */
static Listed best_times(double *ns)
{
    double spent[ENGINES] = {0};
    uint64_t sum = 0;
    size_t candidates = 0;
    Listed streamed = {0, 0, 0};
    for (int round = 0; round < ROUNDS; round++)
        for (int e = 0; e < ENGINES; e++) {
            if (spent[e] > (e == WINDOWS ? 0.1 : 0.4))
                continue;
            double t = seconds();
            Listed l = run_engine(e, LONGEST);
            t = seconds() - t;
            spent[e] += t;
            if (!round || t * 1e9 / LONGEST < ns[e])
                ns[e] = t * 1e9 / LONGEST;
            if (round)
                continue;
            if (e == STREAM) {
                streamed = l;
                sum = sum_of(l.hits);
                tight = 2 * l.hits;
                continue;
            }
            if (e == FILTER)
                candidates = l.candidates;
            check(e, l, sum, streamed, candidates);
        }
    return streamed;
}

static void time_row(int d, int s)
{
    double ns[ENGINES];
    Listed l = best_times(ns);
    double one_pass = ns[ONE_PASS] < ns[ONE_PASS_APART] ? ns[ONE_PASS] : ns[ONE_PASS_APART];
    printf("| %s | %s | %zu | %.1f | %.1f | %.2f | %.1f | %.2f | %.1f | %.1f | %.2f | %.1f | %.2f | %.1f | %.3f | %.1f |\n", data_name[d],
           set_of[s].name, l.hits, ns[STREAM], ns[AUTOMATON], ns[STREAM] / ns[AUTOMATON], ns[TABLE], ns[STREAM] / ns[TABLE], ns[FILTER],
           one_pass, ns[FILTER] / one_pass, ns[TIGHT], ns[TIGHT] / one_pass, ns[WINDOWS], (double)l.attempts / LONGEST,
           warm_us(call_stream, 10));
    fflush(stdout);
}

/* Sets with equal patterns are rows of three data sets. */
static int is_row(int d, int s)
{
    return s < EQUAL_64 || d <= PUMP;
}

static void time_table(void)
{
    size_t most = 0, words;
    printf("| data | set | hits | stream | Aho-Corasick | ratio | table | ratio | filter | one-pass filter | ratio | tight | ratio | windows |");
    printf(" attempts | call us |\n");
    printf("|---|---|---|---|---|---|---|---|---|---|---|---|---|---|---|---|\n");
    for (int d = 0; d < DATA; d++) {
        make_text(d, LONGEST);
        for (int s = 0; s < SETS; s++) {
            if (!is_row(d, s))
                continue;
            fprintf(stderr, "\r%-10s %-10s", data_name[d], set_of[s].name);
            make_set(s, LONGEST);
            make_plain();
            time_row(d, s);
            words = plain_table_words(plain_t);
            most = words > most ? words : most;
            free_plain();
        }
    }
    fprintf(stderr, "\n");
    printf("\nThe largest transition table has %zu words.\n", most);
}

/* ---- calls of few values */

enum { PARTED = 65536, PART = 37 };

/* The best time of the stream search in calls of at most `part` values, in nanoseconds a value. */
static double parts_cost(size_t part)
{
    double best = 1e9;
    for (int round = 0; round < ROUNDS; round++) {
        double t = seconds();
        stream(PARTED, part);
        t = (seconds() - t) * 1e9 / PARTED;
        if (t < best)
            best = t;
    }
    return best;
}

static void parts_row(int d, int s)
{
    make_set(s, PARTED);
    Listed whole = stream(PARTED, PARTED);
    uint64_t sum = sum_of(whole.hits);
    Listed parted = stream(PARTED, PART);
    compare("stream search in parts", "list or rises (sum)", sum_of(parted.hits), sum);
    compare("stream search in parts", "attempts", parted.attempts, whole.attempts);
    double one = parts_cost(PARTED), many = parts_cost(PART);
    printf("| %s | %s | %zu | %.1f | %.1f | %.2f |\n", data_name[d], set_of[s].name, whole.hits, one, many, many * PART / 1000);
    fflush(stdout);
}

static void parts_table(void)
{
    static const int sets[] = {OF_16_1, OF_16_8, OF_16_64, OF_64_64};
    printf("| data | set | hits | one call | calls of 37 | us a call |\n|---|---|---|---|---|---|\n");
    for (int d = WALK; d <= PUMP; d++) {
        make_text(d, PARTED);
        for (int s = 0; s < 4; s++)
            parts_row(d, sets[s]);
    }
}

/* ---- the first hit */

/* The best time of a call over the first n values, in nanoseconds; the call must find a hit that ends where it should, or none. */
static double first_cost(size_t n, size_t read, uint32_t found)
{
    double best = 1e18;
    size_t calls = n > 4096 && !found ? 1 : 100;
    for (int round = 0; round < ROUNDS; round++) {
        double t = seconds();
        for (size_t i = 0; i < calls; i++) {
            FinderFirstHit f = finder_first_hit(set, SET_WORDS, automaton, AUTOMATON_WORDS, text, n);
            must(!f.refusal && f.found == found && f.read == read, "the first hit is another");
        }
        t = (seconds() - t) * 1e9 / (double)calls;
        if (t < best)
            best = t;
    }
    return best;
}

/* A text without a hit: it falls, and each pattern rises somewhere. */
static void make_falling(void)
{
    for (size_t i = 0; i < LONGEST; i++)
        text[i] = -(int32_t)i;
}

/* Patterns of a walk; the text begins with the values of the first of them. */
static void first_row(int s)
{
    double ns = 1e18;
    make_text(WALK, LONGEST);
    make_set(s, LONGEST);
    memcpy(text, patterns.values[0], patterns.length[0] * sizeof *text);
    size_t read = finder_first_hit(set, SET_WORDS, automaton, AUTOMATON_WORDS, text, LONGEST).read;
    double alone = first_cost(read, read, 1), front = first_cost(LONGEST, read, 1);
    make_falling();
    double none = first_cost(LONGEST, LONGEST, 0);
    for (int round = 0; round < ROUNDS; round++) {
        double t = seconds();
        must(!stream(LONGEST, LONGEST).hits, "a falling text has a hit");
        t = (seconds() - t) * 1e9;
        if (t < ns)
            ns = t;
    }
    printf("| %s | %zu | %.2f | %.2f | %.1f | %.1f |\n", set_of[s].name, read, alone / 1000, front / 1000, none / LONGEST, ns / LONGEST);
}

static void first_table(void)
{
    printf("| set | values read | front alone us | whole text us | no hit | stream |\n|---|---|---|---|---|---|\n");
    for (int s = OF_16_1; s <= OF_64_64; s++) /* of 16 and of 64 values: long enough to rise somewhere */
        first_row(s);
}

/* ---- instructions */

/* The run whose instructions are counted. */
__attribute__((noinline)) Listed counted_run(int engine, size_t n)
{
    return run_engine(engine, n);
}

/* The list, the rises and the attempts must be those of the stream search. */
static void count(int engine, int d, int s, size_t n)
{
    make_text(d, n);
    make_set(s, n);
    make_plain();
    Listed streamed = run_engine(STREAM, n);
    uint64_t sum = sum_of(streamed.hits);
    tight = 2 * streamed.hits;
    Listed l = counted_run(engine, n);
    check(engine, l, sum, streamed, l.candidates);
    printf("%zu\n", l.hits);
}

int main(int argc, char **argv)
{
    const char *what = argc > 1 ? argv[1] : "";
    hits = malloc((size_t)HIT_WORDS * sizeof *hits);
    rises = malloc((size_t)HIT_WORDS / 2 * sizeof *rises);
    must(hits && rises, "no memory");
    if (argc == 6 && !strcmp(what, "count"))
        count(atoi(argv[2]), atoi(argv[3]), atoi(argv[4]), (size_t)atol(argv[5]));
    else if (argc == 2 && !strcmp(what, "call"))
        call_table();
    else if (argc == 2 && !strcmp(what, "parts"))
        parts_table();
    else if (argc == 2 && !strcmp(what, "first"))
        first_table();
    else {
        must(argc == 1, "no such table");
        time_table();
    }
    return differences;
}
