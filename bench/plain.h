/* Plain, unproved implementations of the finder's two searches, to measure against. Each writes the hits of a text, two words a
 * hit, in the order of the finder, and their rises to arrays that are large enough, and tells how many there are. */
#ifndef PLAIN_H
#define PLAIN_H
#include <stddef.h>
#include <stdint.h>

#define GAP INT32_MIN /* no sample: a window that holds one is no hit */

typedef struct {
    size_t count;            /* patterns, at most 64 */
    size_t length[64];
    int32_t values[64][256];
} Patterns;

/* What a search tells beside its list, as the finder counts: attempts by those over an automaton, candidates by the filter. */
typedef struct {
    size_t hits, attempts, candidates;
} Listed;

/* An Aho-Corasick automaton over parent distances: a node knows its children by label, and its failure link. */
typedef struct Automaton Automaton;
Automaton *plain_automaton(const Patterns *p);
void plain_free_automaton(Automaton *a);
Listed plain_stream(const Automaton *a, const int32_t *text, size_t n, uint32_t *hits, int32_t *rises);

/* The full transition table of the automaton: for each node and each distance the next node and the attempts. */
typedef struct Table Table;
Table *plain_table(const Automaton *a);
void plain_free_table(Table *t);
size_t plain_table_words(const Table *t);
Listed plain_table_stream(const Table *t, const int32_t *text, size_t n, uint32_t *hits, int32_t *rises);

/* A filter by keys of the last values of windows, with the check by global parents. Equal patterns are checked once, and without
 * the comparisons that the key decides. The comparisons stand by place, or those with the parent to the left before the others
 * (apart): which is faster depends on the data. */
typedef struct Filter Filter;
Filter *plain_filter(const Patterns *p);
Listed plain_filtered(const Filter *f, const int32_t *text, size_t n, uint32_t *hits, int32_t *rises);
Listed plain_filtered_apart(const Filter *f, const int32_t *text, size_t n, uint32_t *hits, int32_t *rises);

/* Each window of each pattern compared by global parents. */
Listed plain_windows(const Filter *f, const int32_t *text, size_t n, uint32_t *hits, int32_t *rises);
#endif
