/* Adding and withdrawing patterns in random order through the C interface, against a plain model: a table with one row for each
 * pattern. After each call every word of the array, the counts and the refusal are compared with what the table says. The set is
 * filled to 64 patterns, to 4,096 distances and to both, and emptied again; so are stored sets that hold patterns of one value, which
 * cannot be added. Whether a set may be searched is compared, too. Prints how many calls there were and how many of them went
 * wrong. */
#include <stdio.h>
#include <string.h>

#include "finder.h"

#define MOST 64
#define LONGEST 256
#define ALL 4096
#define WORDS (3 + MOST + ALL + 5)

typedef struct {
    size_t count;
    size_t length[MOST];
    uint32_t row[MOST][LONGEST];
} Model;

static Model model;
static uint32_t set[WORDS], expected[WORDS];
static unsigned long calls, wrong;
static uint64_t seed = 88172645463325252u;

static size_t pick(size_t below)
{
    seed ^= seed << 13;
    seed ^= seed >> 7;
    seed ^= seed << 17;
    return (size_t)(seed % below);
}

static size_t total(void)
{
    size_t n = 0;
    for (size_t j = 0; j < model.count; j++)
        n += model.length[j];
    return n;
}

/* Writes the words of the model's set to the front of the array that is expected; tells how many they are. */
static size_t write_expected(void)
{
    size_t at = 3 + model.count, sum = 0;
    expected[0] = (uint32_t)model.count;
    expected[1] = (uint32_t)total();
    expected[2] = 0;
    for (size_t j = 0; j < model.count; j++) {
        memcpy(expected + at, model.row[j], model.length[j] * sizeof *expected);
        at += model.length[j];
        sum += model.length[j];
        expected[3 + j] = (uint32_t)sum;
    }
    return at;
}

static void compare(const char *what, FinderCounts told, uint32_t refusal)
{
    calls++;
    if (told.refusal == refusal && told.first == (refusal ? 0 : model.count) && told.second == (refusal ? 0 : total()) &&
        memcmp(set, expected, sizeof set) == 0)
        return;
    if (wrong++ < 5)
        printf("%s goes wrong at call %lu: refusal %u, %zu patterns, %zu distances\n", what, calls, told.refusal, told.first, told.second);
}

/* The distance of place i, by its definition. */
static uint32_t distance(const int32_t *values, size_t i)
{
    for (size_t j = i; j-- > 0;)
        if (values[j] <= values[i])
            return (uint32_t)(i - j);
    return 0;
}

/* The refusal of building in an array of no words: 1 for the empty set, 15 for one that holds a pattern of one value, else 10. */
static uint32_t not_built(void)
{
    if (model.count == 0)
        return 1;
    for (size_t j = 0; j < model.count; j++)
        if (model.length[j] == 1)
            return 15;
    return 10;
}

/* Building an automaton in no words tells whether the set may be searched. */
static void build(void)
{
    uint32_t none[1];
    FinderCounts told = finder_build_automaton(set, WORDS, none, 0);
    calls++;
    if ((told.refusal != not_built() || told.first != 0 || told.second != 0) && wrong++ < 5)
        printf("building goes wrong at call %lu: refusal %u, expected %u\n", calls, told.refusal, not_built());
}

/* Adds a pattern of n values, now and then one that is there already; one of one value is refused. */
static void add(size_t n)
{
    int32_t values[LONGEST];
    size_t kind = 1 + pick(8), before = total();
    for (size_t i = 0; i < n; i++)
        values[i] = kind < 3 ? (int32_t)(i * kind % 3) : (int32_t)pick(kind) - 2;
    uint32_t refusal = model.count == MOST || before + n > ALL ? 6 : n == 1 ? 15 : 0;
    if (refusal == 0) {
        for (size_t i = 0; i < n; i++)
            model.row[model.count][i] = distance(values, i);
        model.length[model.count++] = n;
        write_expected();
    }
    compare("adding", finder_add_pattern(set, WORDS, values, n), refusal);
}

static void withdraw(size_t j)
{
    uint32_t refusal = j >= model.count ? 14 : 0;
    if (refusal == 0) {
        size_t used = 3 + model.count + total();
        for (size_t i = j + 1; i < model.count; i++) {
            model.length[i - 1] = model.length[i];
            memcpy(model.row[i - 1], model.row[i], sizeof model.row[i]);
        }
        model.count--;
        for (size_t at = write_expected(); at < used; at++)
            expected[at] = 0;
    }
    compare("withdrawing", finder_withdraw_pattern(set, WORDS, j), refusal);
}

/* Puts a pattern of one value behind the others, or one of two equal values, without a call, as it may lie in a stored set. */
static void store(size_t n)
{
    model.row[model.count][0] = 0;
    model.row[model.count][1] = 1;
    model.length[model.count++] = n;
    write_expected();
    memcpy(set, expected, sizeof set);
}

/* Begins with so many stored patterns, fills the set with patterns of 1 to `most` values, a call out of `mixed` being a withdrawal,
 * tries numbers that no pattern has, and empties it: the first, the last or any pattern at a time. */
static void fill_and_empty(size_t stored, size_t most, size_t mixed, size_t order)
{
    for (size_t i = 0; i < stored; i++)
        store(1 + pick(2));
    build();
    for (size_t i = 0; i < 3 * MOST; i++) {
        add(most == 64 || most == LONGEST ? most : 1 + pick(most));
        if (mixed && pick(mixed) == 0)
            withdraw(pick(model.count + 1));
    }
    withdraw(model.count);
    withdraw(model.count + 1 + pick(1000));
    withdraw((size_t)-1);
    while (model.count > 0) {
        withdraw(order == 0 ? 0 : order == 1 ? model.count - 1 : pick(model.count));
        build();
    }
    withdraw(0);
}

/* The pattern just added is withdrawn: every word that the set used before is as it was. */
static void add_and_withdraw(void)
{
    uint32_t before[WORDS];
    for (size_t i = 0; i < 300; i++) {
        size_t used = 3 + model.count + total();
        memcpy(before, set, sizeof set);
        add(2 + pick(9));
        withdraw(model.count - 1);
        if (memcmp(before, set, used * sizeof *set) != 0)
            wrong++;
        if (i % 10 == 0)
            add(2 + pick(20));
    }
}

int main(void)
{
    static const size_t mosts[] = {2, 3, 20, 64, LONGEST};
    for (size_t i = 0; i < WORDS; i++)
        set[i] = expected[i] = 4000000007u;
    finder_empty_set(set, WORDS);
    write_expected();
    for (size_t round = 0; round < 40; round++)
        for (size_t i = 0; i < sizeof mosts / sizeof *mosts; i++)
            for (size_t order = 0; order < 3; order++)
                fill_and_empty(round % 3 * 12, mosts[i], round % 4, order);
    add_and_withdraw();
    printf("%lu calls that add or withdraw a pattern or build, %lu wrong\n", calls, wrong);
    return wrong != 0;
}
