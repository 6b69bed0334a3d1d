/* The entry next_list through the C interface, over every list of 1 to 7 numbers that are at most the length, realizable or not, with
 * every room from none to one word more than is needed. What is expected comes from values alone: a list is realizable if it is
 * among the distances of all values below the length, and the next list is the next one among these. Every word lent is compared.
 * Prints how many calls there were and how many of them went wrong. */
#include <stdio.h>
#include <stdlib.h>

#include "finder.h"

#define LONGEST 7
#define ROOM (LONGEST + 2)
#define BEFORE 4000000007u

static size_t power(size_t base, size_t n)
{
    return n == 0 ? 1 : base * power(base, n - 1);
}

/* The list of n numbers below a base that a number stands for: lists come in the order of their numbers. */
static void list_of(size_t number, size_t base, size_t n, uint32_t *list)
{
    for (size_t i = n; i-- > 0; number /= base)
        list[i] = (uint32_t)(number % base);
}

/* The number of the distances of values, among the lists of n numbers that are at most n. */
static size_t distances_of(const uint32_t *values, size_t n)
{
    size_t number = 0;
    for (size_t i = 0; i < n; i++) {
        size_t j = i;
        while (j > 0 && values[j - 1] > values[i])
            j--;
        number = number * (n + 1) + (j > 0 ? i - (j - 1) : 0);
    }
    return number;
}

/* For every list, whether some values have it. */
static unsigned char *realizable(size_t n)
{
    unsigned char *have = calloc(power(n + 1, n), 1);
    uint32_t values[LONGEST];
    for (size_t v = 0; have && v < power(n, n); v++) {
        list_of(v, n, n, values);
        have[distances_of(values, n)] = 1;
    }
    return have;
}

/* A call over a list: the refusal expected, and the next list, or null where it is the last one. */
static int is_right(const uint32_t *list, size_t n, size_t room, uint32_t refusal, const uint32_t *next)
{
    uint32_t out[ROOM];
    for (size_t i = 0; i < ROOM; i++)
        out[i] = BEFORE;
    FinderNextList told = finder_next_list(list, n, out, room);
    size_t words = refusal || !next ? 0 : n;
    if (told.refusal != refusal || told.last != (!refusal && !next) || told.words != words)
        return 0;
    for (size_t i = 0; i < ROOM; i++)
        if (out[i] != (i < words ? next[i] : BEFORE))
            return 0;
    return 1;
}

int main(void)
{
    unsigned long calls = 0, wrong = 0;
    for (size_t n = 1; n <= LONGEST; n++) {
        unsigned char *have = realizable(n);
        if (!have)
            return printf("no memory\n"), 2;
        uint32_t list[LONGEST], next[LONGEST];
        int more = 0; /* whether a realizable list comes behind */
        for (size_t number = power(n + 1, n); number-- > 0;) {
            list_of(number, n + 1, n, list);
            for (size_t room = 0; room <= n + 1; room++) {
                uint32_t refusal = !have[number] ? 4 : more && room < n ? 10 : 0;
                calls++;
                if (!is_right(list, n, room, refusal, more ? next : NULL) && wrong++ < 5)
                    printf("WRONG: list %zu of length %zu with room %zu, expected refusal %u\n", number, n, room, refusal);
            }
            if (have[number]) {
                list_of(number, n + 1, n, next);
                more = 1;
            }
        }
        free(have);
    }
    printf("%lu calls, %lu wrong\n", calls, wrong);
    return wrong != 0;
}
