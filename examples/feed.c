/* Builds a set of three patterns and its automaton, feeds a recording in pieces of four values, and prints each hit with the rise over
 * it. Between two pieces the search lies stored as bytes. */
#include <stdio.h>
#include <string.h>
#include "finder.h"

static int refused(const char *what, uint32_t number)
{
    fprintf(stderr, "%s: refused %u\n", what, number);
    return 1;
}

int main(void)
{
    static const int32_t patterns[3][3] = {{1, 2}, {2, 1}, {2, 1, 2}};
    static const size_t lengths[3] = {2, 2, 3};
    static const int32_t recording[] = {5, 3, 4, 4, 1, 7, 7, 2, 9};
    const size_t n = sizeof recording / sizeof recording[0];
    uint32_t set[64], automaton[256], hits[16];
    int32_t rises[8]; /* half as many as the hit array has words */
    unsigned char stored[sizeof(FinderState)];

    finder_empty_set(set, 64);
    for (int i = 0; i < 3; i++) {
        FinderCounts added = finder_add_pattern(set, 64, patterns[i], lengths[i]);
        if (added.refusal)
            return refused("add", added.refusal);
    }
    FinderCounts built = finder_build_automaton(set, 64, automaton, 256);
    if (built.refusal)
        return refused("build", built.refusal);
    printf("%zu nodes in %zu words\n", built.first, built.second);

    FinderState state = finder_new_search();
    memcpy(stored, &state, sizeof state);
    for (size_t at = 0; at < n;) {
        size_t piece = n - at < 4 ? n - at : 4;
        memcpy(&state, stored, sizeof state);
        FinderStreamed s = finder_stream_search(set, 64, automaton, 256, state, recording + at, piece, hits, 16, rises, 8);
        if (s.refusal)
            return refused("search", s.refusal);
        for (size_t i = 0; i < s.hits; i++)
            printf("pattern %u ends at %u, rise %d\n", hits[2 * i + 1], hits[2 * i], rises[i]);
        memcpy(stored, &s.state, sizeof stored);
        at += s.taken;
    }
    return 0;
}
