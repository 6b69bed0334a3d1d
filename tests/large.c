/* Sizes that no test program of the gate holds, tried through the C interface: texts of 1,048,576 values, full sets, and arrays
 * that are far longer than what is written to them. Hits of both searches, the rises over them and the first hit are compared with a
 * plain listing, window by window, and the first hit is looked for where nothing behind it can be read.
 * Prints how many checks there were and how many of them went wrong. */
#include <stdio.h>
#include <stdlib.h>
#include <string.h>
#include <sys/mman.h>
#include <unistd.h>

#include "finder.h"

#define LONGEST 1048576u
#define BEFORE 4000000007u
#define RISE_BEFORE (-1234567891)
#define GAP INT32_MIN

static unsigned checks, wrong;

static void check(int good, const char *name)
{
    checks++;
    if (!good) {
        wrong++;
        printf("WRONG: check %u, expected: %s\n", checks, name);
    }
}

/* ---- inputs, from a seed */

static uint64_t seed = 20261115;

static uint32_t any(uint32_t most)
{
    seed = seed * 6364136223846793005u + 1442695040888963407u;
    return (uint32_t)(seed >> 33) % (most + 1);
}

static void fill(uint32_t *words, size_t n)
{
    for (size_t i = 0; i < n; i++)
        words[i] = BEFORE;
}

/* The first place from one on that does not hold what the array held before. */
static size_t held(const uint32_t *words, size_t from, size_t n)
{
    while (from < n && words[from] == BEFORE)
        from++;
    return from;
}

/* ---- lists of hits */

/* A hit array of so many words, and a second array with one number for two of them. */
typedef struct {
    size_t room;
    uint32_t *hits;
    int32_t *rises;
} List;

static size_t half(size_t room)
{
    return room - room / 2;
}

static List new_list(size_t room)
{
    List l = {room, malloc((room + 1) * sizeof *l.hits), malloc((half(room) + 1) * sizeof *l.rises)};
    if (!l.hits || !l.rises)
        exit(2);
    return l;
}

static void free_list(List l)
{
    free(l.hits);
    free(l.rises);
}

static void fill_list(List l)
{
    fill(l.hits, l.room);
    for (size_t i = 0; i < half(l.room); i++)
        l.rises[i] = RISE_BEFORE;
}

/* What is behind so many hits, in both arrays, is as it was. */
static int held_behind(List l, size_t count)
{
    size_t i = count;
    while (i < half(l.room) && l.rises[i] == RISE_BEFORE)
        i++;
    return i == half(l.room) && held(l.hits, 2 * count, l.room) == l.room;
}

/* The first hits of a list are those of another from one on. */
static int same_hits(List l, List other, size_t from, size_t count)
{
    return memcmp(l.hits, other.hits + 2 * from, 2 * count * sizeof *l.hits) == 0
        && memcmp(l.rises, other.rises + from, count * sizeof *l.rises) == 0;
}

/* ---- values */

/* Values with many ties, gaps and the lowest and the highest sample among them. */
static void fill_values(int32_t *values, size_t n)
{
    for (size_t i = 0; i < n; i++) {
        uint32_t x = any(40);
        values[i] = x == 0 ? GAP : x == 1 ? INT32_MAX : x == 2 ? GAP + 1 : (int32_t)(x % 7) - 3;
    }
}

/* The lowest sample for each gap. */
static void fill_gaps(int32_t *values, size_t n)
{
    for (size_t i = 0; i < n; i++)
        if (values[i] == GAP)
            values[i] = GAP + 1;
}

/* ---- the plain listing */

static uint32_t distance(const int32_t *window, size_t i)
{
    for (size_t j = i; j-- > 0;)
        if (window[j] <= window[i])
            return (uint32_t)(i - j);
    return 0;
}

/* A window that holds a gap has none. */
static int has_distances(const int32_t *window, const uint32_t *distances, size_t n)
{
    for (size_t i = 0; i < n; i++)
        if (window[i] == GAP || distance(window, i) != distances[i])
            return 0;
    return 1;
}

/* The last value of a window minus the first, or the nearest number of 32 bits. */
static int32_t rise(const int32_t *window, size_t n)
{
    int64_t risen = (int64_t)window[n - 1] - window[0];
    return risen > INT32_MAX ? INT32_MAX : risen < INT32_MIN ? INT32_MIN : (int32_t)risen;
}

/* The hits of a good set: by place, longer pattern first, then lower number; how many they are. */
static size_t list_plainly(const uint32_t *set, const int32_t *text, size_t n, List out)
{
    uint32_t k = set[0];
    size_t count = 0;
    for (size_t i = 0; i < n; i++)
        for (uint32_t m = 256; m > 0; m--)
            for (uint32_t j = 0; j < k; j++)
                if (set[3 + j] - set[2 + j] == m && m <= i + 1 && has_distances(text + (i + 1 - m), set + 3 + k + set[2 + j], m)) {
                    out.hits[2 * count] = (uint32_t)i;
                    out.hits[2 * count + 1] = j;
                    out.rises[count] = rise(text + (i + 1 - m), m);
                    count++;
                }
    return count;
}

/* ---- runs */

/* Calls over a hit array of so many words, until the text ends; the second array has no number more than it must. */
static FinderState after(const uint32_t *set, size_t set_words, const uint32_t *automaton, size_t automaton_words, const int32_t *text,
                         size_t n, size_t room, List out, size_t *count, int *good)
{
    FinderState state = finder_new_search();
    List hits = new_list(room);
    *count = 0;
    *good = 1;
    while (*good) {
        fill_list(hits);
        FinderStreamed s = finder_stream_search(set, set_words, automaton, automaton_words, state, text + state.taken, n - state.taken,
                                                hits.hits, room, hits.rises, half(room));
        if (s.refusal != 0 || s.state.taken != state.taken + s.taken || !held_behind(hits, s.hits))
            *good = 0;
        if (!s.ended && s.taken == 0)
            *good = 0;
        memcpy(out.hits + 2 * *count, hits.hits, 2 * s.hits * sizeof *hits.hits);
        memcpy(out.rises + *count, hits.rises, s.hits * sizeof *hits.rises);
        *count += s.hits;
        state = s.state;
        if (s.ended)
            break;
    }
    if (state.taken != n)
        *good = 0;
    free_list(hits);
    return state;
}

/* States have no padding. */
static int same_state(const FinderState *a, const FinderState *b)
{
    return memcmp(a, b, sizeof *a) == 0;
}

/* A call with so many values and arrays of so many words is refused by the number, with nothing counted, the state as it was and no
 * word written. */
static int refuses(const uint32_t *set, size_t set_words, const uint32_t *automaton, size_t automaton_words, FinderState state,
                   const int32_t *values, size_t n, List out, size_t room, size_t rises, uint32_t number)
{
    fill_list(out);
    FinderStreamed s = finder_stream_search(set, set_words, automaton, automaton_words, state, values, n, out.hits, room, out.rises, rises);
    return s.refusal == number && s.ended == 0 && s.taken == 0 && s.hits == 0 && s.attempts == 0 && same_state(&s.state, &state)
        && held_behind(out, 0);
}

static int filter_refuses(const uint32_t *set, size_t set_words, const int32_t *text, size_t n, List out, size_t room, size_t rises,
                          uint32_t number)
{
    fill_list(out);
    FinderCounts f = finder_filter_search(set, set_words, text, n, out.hits, room, out.rises, rises);
    return f.refusal == number && f.first == 0 && f.second == 0 && held_behind(out, 0);
}

/* The first hit of the text is the first of the list, or none, and the values read are those up to it, or all. */
static int finds_first(const uint32_t *set, size_t set_words, const uint32_t *automaton, size_t automaton_words, const int32_t *text,
                       size_t n, const uint32_t *list, size_t listed)
{
    FinderFirstHit f = finder_first_hit(set, set_words, automaton, automaton_words, text, n);
    if (listed == 0)
        return f.refusal == 0 && f.found == 0 && f.last == 0 && f.pattern == 0 && f.read == n;
    return f.refusal == 0 && f.found == 1 && f.last == list[0] && f.pattern == list[1] && f.read == (size_t)list[0] + 1;
}

static int first_refuses(const uint32_t *set, size_t set_words, const uint32_t *automaton, size_t automaton_words, const int32_t *text,
                         size_t n, uint32_t number)
{
    FinderFirstHit f = finder_first_hit(set, set_words, automaton, automaton_words, text, n);
    return f.refusal == number && f.found == 0 && f.last == 0 && f.pattern == 0 && f.read == 0;
}

static void whole_text(void)
{
    static const int32_t patterns[3][4] = {{1, 3, 2, 2}, {2, 1, 2, 0}, {5, 5, 0, 0}};
    static const size_t lengths[3] = {4, 3, 2};
    static const uint32_t one[5] = {1, 1, 0, 1, 0};
    enum { SET = 64, AUTOMATON = 4096 };
    size_t room = 4u * LONGEST, count, listed;
    uint32_t set[SET], automaton[AUTOMATON];
    int32_t *text = malloc((LONGEST + 1) * sizeof *text);
    List plain = new_list(room), run = new_list(room), out = new_list(room), few = new_list(64);
    int good;

    fill(set, SET);
    fill(automaton, AUTOMATON);
    fill_values(text, LONGEST + 1);
    finder_empty_set(set, SET);
    for (size_t j = 0; j < 3; j++)
        finder_add_pattern(set, SET, patterns[j], lengths[j]);
    check(held(set, 3 + 3 + 9, SET) == SET, "words behind a set keep their values");
    FinderCounts built = finder_build_automaton(set, SET, automaton, AUTOMATON);
    check(built.refusal == 0 && held(automaton, built.second, AUTOMATON) == AUTOMATON, "words behind an automaton keep their values");

    listed = list_plainly(set, text, LONGEST, plain);
    check(listed > 100000 && 2 * listed + 8 <= room, "the plain listing has many hits, and room");
    FinderState last = after(set, SET, automaton, AUTOMATON, text, LONGEST, 6, run, &count, &good);
    check(good, "1,048,576 values in calls over a hit array of 2 words a pattern");
    check(count == listed && same_hits(run, plain, 0, listed), "their hits and rises are the plain listing");
    check(last.taken == LONGEST && last.first < 256, "all values are taken");
    good = 1;
    for (size_t p = LONGEST - 256; p < LONGEST; p++)
        good = good && last.recent[p % 256] == text[p];
    check(good, "the last 256 values are kept, by place");

    fill_list(out);
    FinderCounts f = finder_filter_search(set, SET, text, LONGEST, out.hits, room, out.rises, half(room));
    check(f.refusal == 0 && f.first == listed && f.second >= listed, "a filter search answers 1,048,576 values");
    check(same_hits(out, plain, 0, listed), "its hits and rises are the plain listing");
    check(held_behind(out, listed), "words behind its hits and rises keep their values");
    fill_list(out);
    f = finder_filter_search(set, SET, text, LONGEST, out.hits, 2 * listed, out.rises, listed);
    check(f.refusal == 0 && same_hits(out, plain, 0, listed), "it answers in arrays of exactly its hits");
    check(held_behind(out, listed), "and writes nothing behind them");
    check(filter_refuses(set, SET, text, LONGEST, out, 2 * listed - 1, listed, 11), "a hit array one word too short is 11");
    check(filter_refuses(set, SET, text, LONGEST, out, 2 * listed, listed - 1, 10), "a second array one number too short is 10");
    check(filter_refuses(set, SET, text, LONGEST, out, 2 * listed - 1, listed - 1, 10), "and 10 before 11, where both are");
    check(filter_refuses(set, SET, text, LONGEST, out, 2 * listed - 2, listed - 1, 11), "and 11, where the second array has half of the hit array");
    check(filter_refuses(set, SET, text, LONGEST, out, 1, 0, 10), "a hit array of one word with no rise is 10");
    check(filter_refuses(set, SET, text, LONGEST, out, 0, 0, 11), "arrays of no words are 11");
    check(filter_refuses(set, SET, text, LONGEST + 1, out, room, half(room), 9), "1,048,577 values are 9");
    check(filter_refuses(set, SET, text, LONGEST + 1, out, 0, 0, 9), "and 9 before 11");
    check(filter_refuses(set, SET, text, LONGEST + 1, out, room, half(room) - 1, 9), "and 9 before 10");
    check(filter_refuses(one, 5, text, LONGEST + 1, out, 1, 0, 15), "a set that holds a pattern of one value is 15, before 9");

    check(finds_first(set, SET, automaton, AUTOMATON, text, LONGEST, plain.hits, listed), "the first hit of 1,048,576 values is the plain listing's");
    check(first_refuses(set, SET, automaton, AUTOMATON, text, LONGEST + 1, 9), "1,048,577 values are 9, though a hit is at the front");
    check(first_refuses(set, SET, automaton, AUTOMATON - 1, text, LONGEST + 1, 9), "an automaton array may be longer than the automaton");
    check(first_refuses(set, SET, automaton, built.second - 1, text, LONGEST + 1, 7), "and 7 before 9");
    check(first_refuses(one, 5, automaton, 0, text, LONGEST + 1, 15), "and 15 before 7");
    check(first_refuses(one, 4, automaton, 0, text, LONGEST + 1, 5), "and 5 before 15, where a word of it is missing");
    check(first_refuses(set, 4, automaton, 0, text, LONGEST + 1, 5), "and 5 before 7");

    check(refuses(set, SET, automaton, AUTOMATON, finder_new_search(), text, LONGEST + 1, few, 64, 32, 9), "1,048,577 values in a first call are 9");
    check(refuses(one, 5, automaton, 0, finder_new_search(), text, LONGEST + 1, few, 0, 0, 15), "and 15 over a set that holds a pattern of one value");
    FinderState part = after(set, SET, automaton, AUTOMATON, text, 1000000, 4096, run, &count, &good);
    check(good && same_hits(run, plain, 0, count), "1,000,000 values in calls over a longer hit array");
    check(refuses(set, SET, automaton, AUTOMATON, part, text, LONGEST - 1000000 + 1, few, 64, 32, 9), "9 counts from the values taken");
    check(refuses(set, SET, automaton, AUTOMATON, part, text, LONGEST, few, 64, 32, 9), "9 counts all values handed over");
    fill_list(out);
    FinderStreamed s = finder_stream_search(set, SET, automaton, AUTOMATON, part, text + 1000000, LONGEST - 1000000, out.hits, room, out.rises,
                                            half(room));
    check(s.refusal == 0 && s.ended == 1 && s.taken == LONGEST - 1000000 && count + s.hits == listed, "as many values as are left are taken");
    check(same_hits(out, plain, count, s.hits) && held_behind(out, s.hits), "their hits and rises are the plain listing's rest");
    check(same_state(&s.state, &last), "and the state is that after other calls, to the last byte");

    fill_list(few);
    s = finder_stream_search(set, SET, automaton, AUTOMATON, last, text, 0, few.hits, 6, few.rises, 3);
    check(s.refusal == 0 && s.ended == 1 && s.taken == 0 && s.hits == 0 && s.attempts == 0 && same_state(&s.state, &last) && held_behind(few, 0),
          "with 1,048,576 values taken a call with none ends");
    check(refuses(set, SET, automaton, AUTOMATON, last, text, 1, few, 6, 3, 9), "and one value more is 9");
    check(refuses(set, SET, automaton, AUTOMATON, last, text, 1, few, 6, 2, 9), "and 9 before 10");
    check(refuses(set, SET, automaton, AUTOMATON, last, text, 0, few, 5, 3, 10), "a hit array one word too short is 10");
    check(refuses(set, SET, automaton, AUTOMATON, last, text, 0, few, 6, 2, 10), "a second array one number too short is 10");
    check(refuses(set, SET, automaton, AUTOMATON, last, text, 0, few, 7, 3, 10), "and so it is for a hit array of one word more");
    FinderState over = last;
    over.taken = LONGEST + 1;
    check(refuses(set, SET, automaton, AUTOMATON, over, text, 0, few, 6, 3, 8), "a state with 1,048,577 values taken is 8");
    check(refuses(set, SET, automaton, AUTOMATON, over, text, 0, few, 6, 2, 8), "and 8 before 10");

    /* values that only fall have no hit of the three patterns */
    for (size_t i = 0; i < LONGEST; i++)
        text[i] = -(int32_t)i;
    check(list_plainly(set, text, 2000, out) == 0, "falling values have no hit");
    check(finds_first(set, SET, automaton, AUTOMATON, text, LONGEST, plain.hits, 0), "of 1,048,576 values without a hit all are read");
    text[LONGEST - 1] = text[LONGEST - 2];
    plain.hits[0] = LONGEST - 1;
    plain.hits[1] = 1; /* pattern 2 ends there, too, and is shorter */
    check(finds_first(set, SET, automaton, AUTOMATON, text, LONGEST, plain.hits, 1), "a hit at the last of 1,048,576 places is found");
    check(finds_first(set, SET, automaton, AUTOMATON, text, LONGEST - 1, plain.hits, 0), "and is not one of the values before");
    free(text);
    free_list(plain);
    free_list(run);
    free_list(out);
    free_list(few);
}

/* Whether the automaton of a set, built again over its own words, and over them with every 1000th changed, has the same words. */
static int builds_over(const uint32_t *set, size_t words, uint32_t *automaton, size_t room, FinderCounts told)
{
    uint32_t *copy = malloc(room * sizeof *copy);
    int same = copy != NULL;
    if (same)
        memcpy(copy, automaton, room * sizeof *copy);
    for (int changed = 0; same && changed < 2; changed++) {
        for (size_t i = 0; changed && i < told.second; i += 1000)
            automaton[i]++;
        FinderCounts c = finder_build_automaton(set, words, automaton, room);
        same = c.refusal == 0 && c.first == told.first && c.second == told.second && memcmp(copy, automaton, room * sizeof *copy) == 0;
    }
    free(copy);
    return same;
}

/* Leaves out the hits of pattern j and lowers the numbers above it; tells how many are left. */
static size_t leave_out(List list, size_t listed, uint32_t j)
{
    size_t left = 0;
    for (size_t i = 0; i < listed; i++) {
        uint32_t number = list.hits[2 * i + 1];
        if (number == j)
            continue;
        list.hits[2 * left] = list.hits[2 * i];
        list.hits[2 * left + 1] = number - (number > j);
        list.rises[left++] = list.rises[i];
    }
    return left;
}

static int zeros(const uint32_t *words, size_t from, size_t to)
{
    while (from < to && words[from] == 0)
        from++;
    return from == to;
}

static void full_set(void)
{
    enum { USED = 3 + 64 + 4096, SET = 3 * USED, AUTOMATON = 8 * 16 * 4097, TEXT = 20000, ROOM = 8 * 64 * TEXT };
    uint32_t *set = malloc(SET * sizeof *set), *automaton = malloc(AUTOMATON * sizeof *automaton);
    List plain = new_list(ROOM), run = new_list(ROOM), out = new_list(ROOM), few = new_list(130);
    int32_t *text = malloc(TEXT * sizeof *text), values[64];
    size_t count, listed;
    int good, added = 1;

    fill(set, SET);
    fill(automaton, AUTOMATON);
    fill_values(text, TEXT);
    finder_empty_set(set, SET);
    for (size_t j = 0; j < 64; j++) {
        /* windows of the text, which hold no gap, and rising values, so that there are hits */
        fill_gaps(text + j * 256, 64);
        for (size_t i = 0; i < 64; i++)
            values[i] = j % 8 == 7 ? (int32_t)(i / (j + 1)) : text[j * 256 + i];
        FinderCounts a = finder_add_pattern(set, SET, values, 64);
        added = added && a.refusal == 0 && a.first == j + 1 && a.second == 64 * (j + 1);
    }
    for (size_t i = 0; i < 600; i++)
        text[TEXT - 600 + i] = (int32_t)(i / 30);
    check(added, "64 patterns of 64 values are added");
    check(held(set, USED, SET) == SET, "words behind the full set keep their values");
    FinderCounts c = finder_check_set(set, SET);
    check(c.refusal == 0 && c.first == 64 && c.second == 4096, "the full set has 64 patterns and 4,096 distances");
    memcpy(run.hits, set, SET * sizeof *set);
    c = finder_add_pattern(set, SET, values, 1);
    check(c.refusal == 6 && c.first == 0 && c.second == 0 && memcmp(run.hits, set, SET * sizeof *set) == 0,
          "one of one value more is 6, and the set as it was");
    c = finder_add_pattern(set, SET, values, 64);
    check(c.refusal == 6 && c.first == 0 && c.second == 0 && memcmp(run.hits, set, SET * sizeof *set) == 0,
          "one pattern more is 6, and the set as it was");

    c = finder_build_automaton(set, USED, automaton, 16 * 4097 - 1);
    check(c.refusal == 10 && c.first == 0 && c.second == 0 && held(automaton, 0, AUTOMATON) == AUTOMATON, "an automaton array one word too short is 10");
    c = finder_build_automaton(set, USED, automaton, AUTOMATON);
    check(c.refusal == 0 && c.first > 64 && c.first <= 4097 && c.second == 2 * 64 + 16 * c.first - 7, "the automaton of the full set is built");
    check(held(automaton, c.second, AUTOMATON) == AUTOMATON, "words behind it keep their values");
    check(builds_over(set, USED, automaton, AUTOMATON, c), "it is built over its own words, and over them with some changed, to the same words");

    listed = list_plainly(set, text, TEXT, plain);
    check(listed >= 56 && 2 * listed <= ROOM, "the plain listing has hits of the windows");
    after(set, USED, automaton, c.second, text, TEXT, 128, run, &count, &good);
    check(good && count == listed && same_hits(run, plain, 0, listed), "a stream search over the full set gives the plain listing");
    fill_list(out);
    FinderCounts f = finder_filter_search(set, SET, text, TEXT, out.hits, ROOM, out.rises, half(ROOM));
    check(f.refusal == 0 && f.first == listed && same_hits(out, plain, 0, listed), "and so does a filter search");
    check(held_behind(out, listed), "words behind its hits and rises keep their values");
    check(filter_refuses(set, USED, text, TEXT, out, 2 * listed - 1, listed, 11), "one word less is 11");
    check(filter_refuses(set, USED, text, TEXT, out, 2 * listed - 1, listed - 1, 10), "and one rise less 10");
    check(finds_first(set, USED, automaton, c.second, text, TEXT, plain.hits, listed), "the first hit over the full set is the plain listing's");
    check(refuses(set, USED, automaton, c.second, finder_new_search(), text, TEXT, few, 127, 65, 10), "a hit array of 127 words is 10");
    check(refuses(set, USED, automaton, c.second, finder_new_search(), text, TEXT, few, 128, 63, 10), "63 rises for one of 128 words are 10");
    check(refuses(set, USED, automaton, c.second, finder_new_search(), text, TEXT, few, 129, 64, 10), "64 rises for one of 129 words are 10");
    check(refuses(set, USED, automaton, c.second - 1, finder_new_search(), text, TEXT, few, 128, 64, 7), "an automaton without its last word is 7");
    check(refuses(set, USED, automaton, c.second - 1, finder_new_search(), text, TEXT, few, 128, 0, 7), "and 7 before 10");

    size_t left = leave_out(plain, listed, 31);
    FinderCounts w = finder_withdraw_pattern(set, SET, 31);
    check(w.refusal == 0 && w.first == 63 && w.second == 4032, "a pattern of the full set is withdrawn");
    check(zeros(set, USED - 65, USED) && held(set, USED, SET) == SET, "the words no longer used are 0, those behind keep their values");
    check(left < listed && list_plainly(set, text, TEXT, run) == left && same_hits(run, plain, 0, left),
          "the plain listing is the one before without its hits");
    check(refuses(set, SET, automaton, c.second, finder_new_search(), text, TEXT, few, 128, 64, 7), "the automaton of the larger set is 7");
    c = finder_build_automaton(set, SET, automaton, AUTOMATON);
    after(set, SET, automaton, c.second, text, TEXT, 126, run, &count, &good);
    check(good && count == left && same_hits(run, plain, 0, left), "a stream search gives that list");
    f = finder_filter_search(set, SET, text, TEXT, out.hits, 2 * left, out.rises, left);
    check(f.refusal == 0 && f.first == left && same_hits(out, plain, 0, left), "and so does a filter search");
    free(set);
    free(automaton);
    free_list(plain);
    free_list(run);
    free_list(out);
    free_list(few);
    free(text);
}

/* 1,048,576 gaps: all are taken, and there is no hit, no attempt and no candidate. */
static void only_gaps(void)
{
    static const int32_t two[2] = {5, 5};
    uint32_t set[6], automaton[48];
    int32_t *text = malloc(LONGEST * sizeof *text);
    List hits = new_list(2);

    for (size_t i = 0; i < LONGEST; i++)
        text[i] = GAP;
    finder_empty_set(set, 6);
    FinderCounts c = finder_add_pattern(set, 6, text, 1);
    check(c.refusal == 13 && c.first == 0 && c.second == 0 && set[0] == 0, "a pattern that is a gap is 13");
    c = finder_add_pattern(set, 6, two, 1);
    check(c.refusal == 15 && c.first == 0 && c.second == 0 && set[0] == 0, "a pattern of one value is 15");
    finder_add_pattern(set, 6, two, 2);
    finder_build_automaton(set, 6, automaton, 48);
    fill_list(hits);
    FinderStreamed s = finder_stream_search(set, 6, automaton, 48, finder_new_search(), text, LONGEST, hits.hits, 2, hits.rises, 1);
    check(s.refusal == 0 && s.ended == 1 && s.taken == LONGEST && s.hits == 0 && s.attempts == 0 && held_behind(hits, 0),
          "1,048,576 gaps are taken, without hits and attempts");
    FinderState cleared = finder_new_search();
    cleared.taken = LONGEST;
    for (size_t i = 0; i < 256; i++)
        cleared.recent[i] = GAP;
    check(same_state(&s.state, &cleared), "the state is a new one, with the values taken and 256 gaps kept");
    check(refuses(set, 6, automaton, 48, s.state, text, 1, hits, 2, 1, 9), "and one gap more is 9");
    c = finder_filter_search(set, 6, text, LONGEST, hits.hits, 0, hits.rises, 0);
    check(c.refusal == 0 && c.first == 0 && c.second == 0, "a filter search has no hit and no candidate");
    check(finds_first(set, 6, automaton, 48, text, LONGEST, hits.hits, 0), "and there is no first hit");
    free(text);
    free_list(hits);
}

/* Ramps, the first of so many values, and a set with equal patterns among others. While the first ramp rises every candidate is a hit;
 * behind it windows that hold a drop are candidates and no hits. The array has just the words of the list, or a word less. */
static void ramps(size_t first, const char *name)
{
    enum { VALUES = 4096, RAMP = 300, LONG = 40, SETS = 1024, MOST = 2 * 32 * VALUES };
    int32_t text[VALUES], rising[LONG], falling[LONG];
    uint32_t set[SETS];
    List plain = new_list(MOST), out = new_list(MOST);

    for (size_t i = 0; i < VALUES; i++)
        text[i] = (int32_t)(i < first ? i : (i - first) % RAMP);
    for (size_t i = 0; i < LONG; i++) {
        rising[i] = (int32_t)i;
        falling[i] = -(int32_t)i;
    }
    finder_empty_set(set, SETS);
    for (size_t j = 0; j < 12; j++) {
        finder_add_pattern(set, SETS, rising, LONG);
        finder_add_pattern(set, SETS, falling, j % 2 ? LONG - 1 : 3);
    }
    finder_add_pattern(set, SETS, rising, 3);
    size_t listed = list_plainly(set, text, VALUES, plain);
    fill_list(out);
    FinderCounts f = finder_filter_search(set, SETS, text, VALUES, out.hits, 2 * listed, out.rises, listed);
    check(listed > 12 * VALUES / 2 && f.refusal == 0 && f.first == listed && f.second > listed && same_hits(out, plain, 0, listed), name);
    check(held_behind(out, listed), "nothing is written behind the list");
    check(filter_refuses(set, SETS, text, VALUES, out, 2 * listed - 1, listed, 11), "one word less is 11");
    f = finder_filter_search(set, SETS, text, VALUES, out.hits, MOST, out.rises, half(MOST));
    check(f.refusal == 0 && f.first == listed && same_hits(out, plain, 0, listed), "an array for every pattern at every place takes the same list");
    free_list(plain);
    free_list(out);
}

/* The first hit ends with the last value of a page, and the pages behind it cannot be read: a search that reads on ends this
 * program. */
static void front_only(void)
{
    static const int32_t peak[3] = {1, 3, 2};
    uint32_t set[16], automaton[64];
    size_t page = (size_t)sysconf(_SC_PAGESIZE), front = page / sizeof(int32_t), bytes = LONGEST * sizeof(int32_t);
    uint32_t list[2] = {(uint32_t)front - 1, 0};
    int32_t *text = mmap(NULL, bytes, PROT_READ | PROT_WRITE, MAP_PRIVATE | MAP_ANONYMOUS, -1, 0);

    if (text == MAP_FAILED) {
        check(0, "there is memory for a text");
        return;
    }
    for (size_t i = 0; i < front; i++)
        text[i] = -(int32_t)i;
    memcpy(text + front - 2, peak + 1, 2 * sizeof *text);
    check(mprotect(text + front, bytes - page, PROT_NONE) == 0, "the pages behind the first can be shut");
    finder_empty_set(set, 16);
    finder_add_pattern(set, 16, peak, 3);
    finder_build_automaton(set, 16, automaton, 64);
    check(finds_first(set, 16, automaton, 64, text, LONGEST, list, 1), "nothing behind the first hit is read");
    munmap(text, bytes);
}

int main(void)
{
    whole_text();
    full_set();
    only_gaps();
    ramps(300, "the hits of ramps, of which the first candidates are hits, are listed");
    ramps(10, "the hits of ramps, of which some of the first candidates are none, are listed");
    front_only();
    printf("%u checks, %u wrong\n", checks, wrong);
    return wrong != 0;
}
