/* The rises over hits and the state of a search, through the C interface, against a plain model. What is expected comes from the text
 * alone, window by window: the hits and the rises over them, the values kept, the open minima, and the longest head of a pattern that
 * ends at a place, which must go with one node. Every word of both arrays is compared, also those behind the lengths that are lent, and
 * every byte of the state. Lengths are tried about the rule that the second array has at least half as many numbers as the hit array
 * has words. Between two calls of a run the state lies stored as bytes, and a call that is made twice must answer the same bytes.
 * States are changed, and must be refused or accepted as the rules of a state say. Prints how many calls there were and how many of
 * them went wrong. */
#include <stdio.h>
#include <stdlib.h>
#include <string.h>

#include "finder.h"

#define LONGEST 1048576u
#define MOST 6
#define TEXT 1200
#define SET_WORDS (3 + MOST + MOST * 256)
#define WORDS (2 * MOST * TEXT + 16)
#define BEFORE 4000000007u
#define RISE_BEFORE (-1234567891)
#define LOW (INT32_MIN + 1)

/* ---- the set, the distances of its patterns, and the text */

static size_t count, length[MOST];
static uint32_t distances[MOST][256];
static uint32_t set[SET_WORDS], automaton[16 * (1 + MOST * 256)];
static size_t automaton_words;
static int32_t text[TEXT];

/* ---- what is expected of the text: its hits, how many of them end before each place, and at each place the longest head */

static uint32_t listed[WORDS];
static int32_t risen[WORDS];
static size_t before[TEXT + 1];
static size_t head_of[TEXT], head_length[TEXT];

/* The node that goes with the head of a pattern, and the head that goes with a node; 0 where it is not known. */
static size_t node_of[MOST][257], head_at[1 + MOST * 256];

static unsigned long calls, wrong;

/* Of the first ten faults it is printed what they are. */
static void went_wrong(const char *what)
{
    if (wrong++ < 10)
        printf("WRONG: call %lu: %s\n", calls, what);
}

static void compare_refusals(uint32_t told, uint32_t expected, size_t n, size_t room, size_t rises_room)
{
    char what[160];
    snprintf(what, sizeof what, "refusal %u, expected %u; %zu values, %zu hit words, %zu rises", told, expected, n, room, rises_room);
    if (told != expected)
        went_wrong(what);
}

/* ---- random numbers, from a seed */

static uint64_t seed = 20261117;

static uint32_t any(void)
{
    seed ^= seed << 13;
    seed ^= seed >> 7;
    seed ^= seed << 17;
    return (uint32_t)(seed >> 16);
}

static size_t pick(size_t below)
{
    return any() % below;
}

/* ---- the plain model of a text */

static uint32_t distance(const int32_t *window, size_t i)
{
    for (size_t j = i; j-- > 0;)
        if (window[j] <= window[i])
            return (uint32_t)(i - j);
    return 0;
}

/* For each pattern and n, whether the n values up to a place have the tree of the first n of the pattern: those before the place have
 * the tree of one less, the value is no gap, and its distance is that of the pattern. */
static unsigned char has_tree[MOST][257];

static void move_windows(size_t i)
{
    for (size_t j = 0; j < count; j++)
        for (size_t n = length[j]; n > 0; n--) {
            int fits = text[i] != FINDER_GAP && n <= i + 1 && (n == 1 || has_tree[j][n - 1]);
            has_tree[j][n] = fits && distance(text + (i + 1 - n), n - 1) == distances[j][n - 1];
        }
}

static int32_t difference(int32_t last, int32_t first)
{
    int64_t d = (int64_t)last - first;
    return d > INT32_MAX ? INT32_MAX : d < INT32_MIN ? INT32_MIN : (int32_t)d;
}

/* The longest head of a pattern that ends at a place, and the lowest number of a pattern that has it. */
static void find_head(size_t i)
{
    head_of[i] = head_length[i] = 0;
    for (size_t j = 0; j < count; j++)
        for (size_t n = head_length[i] + 1; n <= length[j]; n++)
            if (has_tree[j][n]) {
                head_of[i] = j;
                head_length[i] = n;
            }
}

static void list_hits(void)
{
    size_t found = 0;
    memset(has_tree, 0, sizeof has_tree);
    for (size_t i = 0; i < TEXT; i++) {
        before[i] = found;
        move_windows(i);
        find_head(i);
        for (size_t n = head_length[i]; n > 0; n--)
            for (size_t j = 0; j < count; j++)
                if (length[j] == n && has_tree[j][n]) {
                    listed[2 * found] = (uint32_t)i;
                    listed[2 * found + 1] = (uint32_t)j;
                    risen[found++] = difference(text[i], text[i + 1 - n]);
                }
    }
    before[TEXT] = found;
}

/* ---- texts and sets */

enum { MIXED, EXTREMES, RISING, FALLING, EQUAL, KINDS };

static int32_t value(int kind, size_t i)
{
    static const int32_t extremes[] = {LOW, INT32_MAX, 0, LOW + 1, INT32_MAX - 1, -1, 1};
    switch (kind) {
    case MIXED: return pick(30) == 0 ? FINDER_GAP : pick(40) == 0 ? extremes[pick(7)] : (int32_t)pick(7) - 3;
    case EXTREMES: return pick(60) == 0 ? FINDER_GAP : extremes[pick(7)];
    case RISING: return (int32_t)(LOW + (int64_t)(i % 420) * 10000000);
    case FALLING: return (int32_t)(INT32_MAX - (int64_t)(i % 420) * 10000000);
    default: return i % 500 == 499 ? FINDER_GAP : 7;
    }
}

static int holds_gap(const int32_t *values, size_t n)
{
    for (size_t i = 0; i < n; i++)
        if (values[i] == FINDER_GAP)
            return 1;
    return 0;
}

/* Patterns are windows of the text without a gap, some of them twice; of texts that rise, fall or stay also of 255 and 256 values. */
static void make(int kind)
{
    static const size_t lengths[] = {2, 3, 100, 255, 256};
    for (size_t i = 0; i < TEXT; i++)
        text[i] = value(kind, i);
    memset(node_of, 0, sizeof node_of);
    memset(head_at, 0, sizeof head_at);
    memset(set, 0, sizeof set);
    count = 1 + pick(MOST);
    finder_empty_set(set, SET_WORDS);
    for (size_t j = 0; j < count; j++) {
        length[j] = kind < RISING ? 2 + pick(5) : lengths[pick(5)];
        const int32_t *from;
        do
            from = text + pick(TEXT - length[j]);
        while (holds_gap(from, length[j]));
        for (size_t i = 0; i < length[j]; i++)
            distances[j][i] = distance(from, i);
        if (finder_add_pattern(set, SET_WORDS, from, length[j]).refusal)
            went_wrong("a pattern is not added");
    }
    FinderCounts built = finder_build_automaton(set, SET_WORDS, automaton, sizeof automaton / sizeof *automaton);
    if (built.refusal)
        went_wrong("the automaton is not built");
    automaton_words = built.second;
    list_hits();
}

/* ---- arrays */

typedef struct {
    uint32_t hits[WORDS];
    int32_t rises[WORDS];
} Arrays;

static Arrays lent, again, expected;

/* How many words of both arrays a call could write, and some behind them. */
static size_t width(size_t room, size_t rises_room)
{
    size_t most = (room > rises_room ? room : rises_room) + 16;
    return most < WORDS ? most : WORDS;
}

static void fill(Arrays *a, size_t words)
{
    for (size_t i = 0; i < words; i++) {
        a->hits[i] = BEFORE;
        a->rises[i] = RISE_BEFORE;
    }
}

static int same(const Arrays *a, const Arrays *b, size_t words)
{
    return memcmp(a->hits, b->hits, words * sizeof *a->hits) == 0 && memcmp(a->rises, b->rises, words * sizeof *a->rises) == 0;
}

static size_t half(size_t room)
{
    return room - room / 2;
}

/* A length about a number. */
static size_t about(size_t number)
{
    size_t more = pick(5);
    return number + more < 2 ? 0 : number + more - 2;
}

/* ---- states */

static FinderState stored_and_loaded(const FinderState *state)
{
    static unsigned char bytes[sizeof(FinderState) + 3];
    FinderState loaded;
    size_t at = pick(4);
    memcpy(bytes + at, state, sizeof *state);
    memset(&loaded, 0x5a, sizeof loaded);
    memcpy(&loaded, bytes + at, sizeof loaded);
    return loaded;
}

/* Whether a search may go on from a state whose node is one of a run: the rules of refusal 8 (docs/API.md), one by one. */
static int is_good(const FinderState *s)
{
    if (s->taken > LONGEST || s->minima > 256 || (s->minima == 0 && s->node != 0))
        return 0;
    for (uint32_t i = 0; i < s->minima; i++) {
        uint32_t at = (s->first % 256 + i) % 256, next = (at + 1) % 256;
        if (s->taken > 256 && s->places[at] < s->taken - 256)
            return 0;
        if (i + 1 < s->minima ? s->places[at] >= s->places[next] || s->values[at] > s->values[next] : (uint64_t)s->places[at] + 1 != s->taken)
            return 0;
        if (s->values[at] != s->recent[s->places[at] % 256])
            return 0;
    }
    for (uint32_t i = s->taken; i < 256; i++)
        if (s->recent[i] != 0)
            return 0;
    return 1;
}

/* The state with one value more; its node is set apart. */
static void take_value(FinderState *s, int32_t x)
{
    s->recent[s->taken % 256] = x;
    if (x == FINDER_GAP)
        s->minima = 0;
    else {
        if (s->minima > 0 && s->places[s->first] + 256 <= s->taken) {
            s->first = (s->first + 1) % 256;
            s->minima--;
        }
        while (s->minima > 0 && s->values[(s->first + s->minima - 1) % 256] > x)
            s->minima--;
        s->places[(s->first + s->minima) % 256] = s->taken;
        s->values[(s->first + s->minima) % 256] = x;
        s->minima++;
    }
    s->taken++;
}

/* Whether the open minima of a state are those of the text: each of the last 256 values without a gap or a smaller value after it. */
static int has_open_minima(const FinderState *s)
{
    uint32_t found = 0;
    for (uint32_t p = s->taken < 256 ? 0 : s->taken - 256; p < s->taken; p++) {
        int open = text[p] != FINDER_GAP;
        for (uint32_t q = p + 1; q < s->taken; q++)
            open = open && text[q] != FINDER_GAP && text[q] >= text[p];
        if (!open)
            continue;
        uint32_t at = (s->first + found++) % 256;
        if (found > s->minima || s->places[at] != p || s->values[at] != text[p])
            return 0;
    }
    return found == s->minima;
}

/* Whether the node goes with the longest head that ends at the last value taken, and the head with the node. */
static int has_node(const FinderState *s)
{
    size_t i = s->taken - 1, n = s->taken == 0 ? 0 : head_length[i], j = n == 0 ? 0 : head_of[i];
    if (n == 0 || s->node == 0 || s->node > MOST * 256)
        return n == 0 && s->node == 0;
    if (node_of[j][n] == 0 && head_at[s->node] == 0) {
        node_of[j][n] = s->node;
        head_at[s->node] = 1 + j * 257 + n;
    }
    return node_of[j][n] == s->node && head_at[s->node] == 1 + j * 257 + n;
}

/* ---- one call of the stream search over the next n values of the text, compared with what the text says. The state is one of a run,
 * or differs from it in values kept, in multiples of 256 in `first`, or in slots that hold no open minimum. Tells the state that comes
 * back. */
static FinderState call(FinderState given, size_t n, size_t room, size_t rises_room)
{
    uint32_t refusal = !is_good(&given) ? 8 : room < 2 * count || 2 * rises_room < room ? 10 : 0;
    size_t at = given.taken, taken = 0, hits = 0, samples = 0, words = width(room, rises_room);
    FinderState next = given;

    fill(&expected, words);
    if (refusal == 0) {
        next.first %= 256;
        while (taken < n && room - 2 * hits >= 2 * count) {
            for (size_t i = before[at + taken]; i < before[at + taken + 1]; i++) {
                size_t first = at + taken + 1 - length[listed[2 * i + 1]];
                memcpy(expected.hits + 2 * hits, listed + 2 * i, 2 * sizeof *listed);
                expected.rises[hits++] = first < at ? difference(text[at + taken], given.recent[first % 256]) : risen[i];
            }
            samples += text[at + taken] != FINDER_GAP;
            take_value(&next, text[at + taken++]);
        }
    }

    calls++;
    fill(&lent, words);
    fill(&again, words);
    FinderStreamed s = finder_stream_search(set, SET_WORDS, automaton, automaton_words, given, text + at, n, lent.hits, room, lent.rises,
                                            rises_room);
    FinderStreamed t = finder_stream_search(set, SET_WORDS, automaton, automaton_words, given, text + at, n, again.hits, room, again.rises,
                                            rises_room);
    if (memcmp(&s, &t, sizeof s) || !same(&lent, &again, words))
        went_wrong("the same call answers something else, or other bytes");
    compare_refusals(s.refusal, refusal, n, room, rises_room);
    if (s.taken != taken || s.hits != hits || s.ended != (refusal == 0 && taken == n))
        went_wrong("other counts");
    if (s.attempts < samples || s.attempts > 2 * taken + given.taken)
        went_wrong("too few or too many attempts");
    if (!same(&lent, &expected, words))
        went_wrong("other hits or rises, or words behind them");
    if (refusal == 0 && taken > 0) {
        if (!has_node(&s.state))
            went_wrong("another node");
        next.node = s.state.node;
    }
    if (memcmp(&s.state, &next, sizeof next))
        went_wrong("another state");
    return s.state;
}

/* A run over the text in random pieces and arrays, some of them too short; at some places the states that come up are kept. */
enum { KEPT = 24 };
static FinderState kept[KEPT];
static size_t kept_count;

static void run(void)
{
    FinderState state = finder_new_search();
    size_t most = pick(3) == 0 ? 2 : pick(2) ? 20 : 400;
    kept_count = 0;
    for (size_t turn = 0; state.taken < TEXT; turn++) {
        if (turn > 100 * TEXT) {
            went_wrong("a run does not come to its end");
            return;
        }
        size_t left = TEXT - state.taken, piece = pick(most + 1), room = about(2 * count + pick(2) * pick(30));
        FinderState after = call(state, piece < left ? piece : left, room, about(half(room)));
        if (after.taken < state.taken) {
            went_wrong("fewer values are taken than before");
            return;
        }
        if (after.taken > state.taken) {
            if (!has_open_minima(&after))
                went_wrong("other open minima");
            if (kept_count < KEPT && pick(2 * TEXT / KEPT) < after.taken - state.taken)
                kept[kept_count++] = after;
        }
        state = stored_and_loaded(&after);
    }
}

/* ---- changed states */

/* A call with no values, of a state that is changed in any way but its node. */
static void check_only(FinderState given)
{
    FinderState next = given;
    uint32_t refusal = is_good(&given) ? 0 : 8;
    if (refusal == 0)
        next.first %= 256;
    calls++;
    fill(&lent, width(2 * count, count));
    fill(&expected, width(2 * count, count));
    FinderStreamed s = finder_stream_search(set, SET_WORDS, automaton, automaton_words, given, text, 0, lent.hits, 2 * count, lent.rises, count);
    compare_refusals(s.refusal, refusal, 0, 2 * count, count);
    if (s.ended != (refusal == 0) || s.taken || s.hits || s.attempts || !same(&lent, &expected, width(2 * count, count)))
        went_wrong("a call with no values counts or writes");
    if (memcmp(&s.state, &next, sizeof next))
        went_wrong("a call with no values changes the state");
}

static int32_t other(int32_t x)
{
    switch (pick(4)) {
    case 0: return x == INT32_MAX ? LOW : x + 1;
    case 1: return x == FINDER_GAP ? 0 : x - 1;
    case 2: return (int32_t)pick(3) - 1;
    default: return (int32_t)any();
    }
}

/* Values kept, multiples of 256 in `first` and slots without an open minimum may change: the hits stay, and the rises follow the values
 * kept. A slot not yet filled that is not 0, and the value of an open minimum, are refused. */
static void change_kept(FinderState state)
{
    for (int i = 0; i < 12; i++) {
        FinderState changed = state;
        size_t left = TEXT - state.taken, room = 2 * count + pick(300);
        if (pick(2))
            changed.first += 256u * (any() >> 8);
        for (size_t j = pick(3); j > 0; j--) {
            size_t slot = pick(2) ? pick(256) : (state.taken + 255 - pick(8)) % 256;
            changed.recent[slot] = other(changed.recent[slot]);
        }
        if (pick(2) && state.minima < 256) {
            size_t slot = (state.first + state.minima + pick(256 - state.minima)) % 256;
            changed.places[slot] = any();
            changed.values[slot] = (int32_t)any();
        }
        call(changed, left < 300 ? left : pick(300), room, half(room) + pick(3));
    }
    /* every value kept in turn, so that the window of each hit to come has another first value */
    for (size_t slot = 0; slot < 256; slot++) {
        FinderState changed = state;
        changed.recent[slot] = other(changed.recent[slot]);
        if (slot % 16 == 0)
            call(changed, TEXT - state.taken < 260 ? TEXT - state.taken : 260, 600, 300);
        else
            check_only(changed);
    }
}

/* One or two changes of any kind, but for the node. */
static void change_any(FinderState state)
{
    for (int i = 0; i < 300; i++) {
        FinderState changed = state;
        size_t slot = state.minima > 0 && pick(4) ? (state.first + pick(state.minima)) % 256 : pick(256);
        int32_t x = other(changed.values[slot]);
        switch (pick(7)) {
        case 0: changed.taken = pick(2) ? any() : (uint32_t)about(state.taken); break;
        case 1: changed.minima = pick(4) == 0 ? any() : (uint32_t)about(pick(2) ? state.minima : 0); break;
        case 2: changed.first = any(); break;
        case 3: changed.places[slot] = pick(2) ? any() : changed.places[slot] + (uint32_t)pick(3) - 1; break;
        case 4: changed.values[slot] = x; break;
        case 5: /* an open minimum and the value kept for it change alike */
            changed.values[slot] = changed.recent[state.places[slot] % 256] = x;
            break;
        default: changed.recent[slot] = other(changed.recent[slot]); break;
        }
        check_only(changed);
    }
}

/* Any bytes are a state: a refused call hands them back. Those of a new search are all 0. */
static void any_bytes(void)
{
    FinderState state, fresh = finder_new_search();
    unsigned char *bytes = (unsigned char *)&state;
    memset(&state, 0, sizeof state);
    if (memcmp(&state, &fresh, sizeof state))
        went_wrong("a new search has a byte that is not 0");
    for (int i = 0; i < 40; i++) {
        for (size_t at = 0; at < sizeof state; at++)
            bytes[at] = i == 0 ? 0xff : (unsigned char)any();
        if (i % 2)
            state.node = state.minima = 0; /* good, where not too many values are taken */
        else if (i > 0)
            state.taken = LONGEST + 1 + (uint32_t)pick(1000);
        if (i % 4 == 1)
            state.taken %= LONGEST + 1;
        check_only(state);
        calls++;
        fill(&lent, 16);
        fill(&expected, 16);
        FinderStreamed s = finder_stream_search(set, SET_WORDS, automaton, automaton_words - 1, state, text, TEXT, lent.hits, 16, lent.rises, 0);
        if (s.refusal != 7 || s.ended || s.taken || s.hits || s.attempts || memcmp(&s.state, &state, sizeof state) || !same(&lent, &expected, 16))
            went_wrong("7 does not hand any state back");
    }
}

/* ---- filter searches */

static void filter(const uint32_t *words, size_t set_words, size_t n, size_t room, size_t rises_room, uint32_t refusal)
{
    size_t hits = before[n], wide = width(room, rises_room);
    if (refusal == 0)
        refusal = 2 * rises_room < room ? 10 : room < 2 * hits ? 11 : 0;
    fill(&lent, wide);
    fill(&expected, wide);
    if (refusal == 0) {
        memcpy(expected.hits, listed, 2 * hits * sizeof *listed);
        memcpy(expected.rises, risen, hits * sizeof *risen);
    }
    calls++;
    FinderCounts f = finder_filter_search(words, set_words, text, n, lent.hits, room, lent.rises, rises_room);
    compare_refusals(f.refusal, refusal, n, room, rises_room);
    if (f.first != (refusal ? 0 : hits) || (refusal ? f.second != 0 : f.second < hits))
        went_wrong("a filter search has other counts");
    if (!same(&lent, &expected, wide))
        went_wrong("a filter search has other hits or rises, or words behind them");
}

static void filters(void)
{
    static const uint32_t none[3] = {0, 0, 0}, one[5] = {1, 1, 0, 1, 0};
    for (size_t room = 0; room < 8; room++)
        for (size_t rises_room = 0; rises_room < 6; rises_room++) {
            filter(set, SET_WORDS, 0, room, rises_room, 0);
            filter(set, SET_WORDS, pick(30), room, rises_room, 0);
            filter(none, 3, TEXT, room, rises_room, 1);
            filter(one, 4, TEXT, room, rises_room, 5);
            filter(one, 5, TEXT, room, rises_room, 15);
        }
    for (int i = 0; i < 40; i++) {
        size_t n = i == 0 ? TEXT : pick(TEXT + 1), room = about(2 * before[n]);
        filter(set, SET_WORDS, n, room, about(half(room)), 0);
    }
    filter(set, SET_WORDS, TEXT, WORDS, WORDS / 2, 0);
    filter(set, SET_WORDS, TEXT, WORDS, WORDS / 2 - 1, 0);
}

int main(void)
{
    for (int round = 0; round < 30; round++) {
        make(round % KINDS);
        run();
        for (size_t i = 0; i < kept_count && i < 4; i++) {
            change_kept(kept[i]);
            change_any(kept[i]);
        }
        change_kept(finder_new_search());
        change_any(finder_new_search());
        any_bytes();
        filters();
    }
    printf("%lu calls of the searches, %lu wrong\n", calls, wrong);
    return wrong != 0;
}
