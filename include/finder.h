/* The finder for C: Cartesian tree matching over lent arrays.
 *
 * Two stretches of values have one shape when their Cartesian trees are equal: the leftmost lowest value is the root, with the
 * tree of what is before it on its left and of what is after it on its right.
 *
 * A text value of -2,147,483,648 (FINDER_GAP) is a gap: the recorder had no sample there. A window that holds a gap has no tree, so
 * it is no hit of any pattern; a pattern holds none.
 *
 * The rise over a hit is the last value of its window minus the first, clamped to the signed 32-bit range.
 *
 * No function asks anything of its caller but that a pointer and its length name an array that may be read (const) or written:
 * each answers, or refuses by number and then changes no word and counts nothing. An array of length 0 may be passed with any
 * pointer that is not null and aligned. Arrays that one call is lent must not overlap. Nothing is allocated, nothing is kept
 * between calls, and a call ends for every input. The static library is libfinder_c.a.
 *
 * Refusals:
 *    0  none
 *    1  a pattern or distance list holds nothing, a code comes with length 0, or the set holds no pattern
 *    2  a pattern or distance list is longer than 256
 *    3  a code is involved and the length is above 20
 *    4  no values have the distance list, or no such list of that length has the code
 *    5  the set array does not begin with the words of a good set
 *    6  the set has 64 patterns, or the new one would take it past 4,096 distances
 *    7  the automaton array does not begin with the words that finder_build_automaton writes for the set
 *    8  the state is none that a search may go on from
 *    9  the values bring the text past 1,048,576
 *   10  a lent array is too short (each function says for what)
 *   11  the list of a filter search does not fit its array
 *   12  a catalogue is involved and the distance list is longer than 10
 *   13  a pattern given as values holds a gap
 *   14  no pattern of the set has the number
 *   15  a pattern of one value is added, or the set that is to be searched holds one
 */
#ifndef FINDER_H
#define FINDER_H

#include <stddef.h>
#include <stdint.h>

#ifdef __cplusplus
extern "C" {
#endif

/* The value of a text where there is no sample. */
#define FINDER_GAP INT32_MIN

/* Refusal, and how many words or values at the front of the array are the result. */
typedef struct {
    uint32_t refusal;
    size_t words;
} FinderWritten;

/* Refusal; 1 where the list is the last of its catalogue and 0 where it is not; how many words at the front of the array are the
 * next list. */
typedef struct {
    uint32_t refusal;
    uint32_t last;
    size_t words;
} FinderNextList;

/* Refusal and code. */
typedef struct {
    uint32_t refusal;
    uint64_t code;
} FinderCode;

/* Refusal and two counts. */
typedef struct {
    uint32_t refusal;
    size_t first;
    size_t second;
} FinderCounts;

/* A search between two calls.
 *
 * taken     the values taken
 * node      the automaton's node
 * minima    how many open minima there are: places among the last 256 values that have no gap and no smaller value after them
 * first     modulo 256, the slot of the oldest of them; an accepted call hands it back below 256
 * places    from that slot on, and on from slot 0 behind slot 255, the places of the open minima, oldest first
 * values    in the same slots their values
 * recent    the last 256 values taken, that of place p in slot p % 256, a gap as it is; 0 where no value is kept yet
 *
 * Make one with finder_new_search and hand on what each call returns. A state has 3,088 bytes and alignment 4, and every byte
 * belongs to a field: there is no padding. So it may be copied, stored and loaded as bytes where numbers have the same byte order,
 * and two states are equal exactly if memcmp finds their bytes equal. Any 3,088 bytes are some state; refusal 8 finds those that no
 * search may go on from, among them those in which a slot of `recent` that is not yet filled is not 0, or in which an open minimum
 * has another value than the one kept for its place. */
typedef struct {
    uint32_t taken;
    uint32_t node;
    uint32_t minima;
    uint32_t first;
    uint32_t places[256];
    int32_t values[256];
    int32_t recent[256];
} FinderState;

/* The state after the call, or, where it is refused, the state given; refusal; 1 where the values ended and 0 where the call is
 * full; values taken, hits written and attempts made by this call. There is no padding. */
typedef struct {
    FinderState state;
    uint32_t refusal;
    uint32_t ended;
    size_t taken;
    size_t hits;
    size_t attempts;
} FinderStreamed;

/* The layout of the two, as the library has it. */
#ifdef __cplusplus
#define FINDER_SIZE(type, size, alignment) static_assert(sizeof(type) == (size) && alignof(type) == (alignment), "size of " #type)
#define FINDER_FIELD(type, field, offset) static_assert(offsetof(type, field) == (offset), "place of " #type "." #field)
#else
#define FINDER_SIZE(type, size, alignment) _Static_assert(sizeof(type) == (size) && _Alignof(type) == (alignment), "size of " #type)
#define FINDER_FIELD(type, field, offset) _Static_assert(offsetof(type, field) == (offset), "place of " #type "." #field)
#endif
FINDER_SIZE(FinderState, 3088, 4);
FINDER_FIELD(FinderState, taken, 0);
FINDER_FIELD(FinderState, node, 4);
FINDER_FIELD(FinderState, minima, 8);
FINDER_FIELD(FinderState, first, 12);
FINDER_FIELD(FinderState, places, 16);
FINDER_FIELD(FinderState, values, 1040);
FINDER_FIELD(FinderState, recent, 2064);
FINDER_SIZE(FinderStreamed, 3120, 8);
FINDER_FIELD(FinderStreamed, state, 0);
FINDER_FIELD(FinderStreamed, refusal, 3088);
FINDER_FIELD(FinderStreamed, ended, 3092);
FINDER_FIELD(FinderStreamed, taken, 3096);
FINDER_FIELD(FinderStreamed, hits, 3104);
FINDER_FIELD(FinderStreamed, attempts, 3112);
#undef FINDER_SIZE
#undef FINDER_FIELD

/* Refusal; 1 where there is a hit and 0 where there is none; the hit's last place and pattern number; the values read. No rise is
 * told. */
typedef struct {
    uint32_t refusal;
    uint32_t found;
    size_t last;
    size_t pattern;
    size_t read;
} FinderFirstHit;

/* ---- one pattern */

/* Writes the parent distances of n values: at place i it is i - j for the greatest j below i whose value is not above that at i,
 * and 0 if there is none. Refuses 1, 2, 13, 10 (room < n). Words behind the first n are as they were. */
FinderWritten finder_distances(const int32_t *values, size_t n, uint32_t *out, size_t room);

/* Writes the least values, none negative, that have the n distances. Refuses 1, 2, 4, 10 (room < n). */
FinderWritten finder_least_realization(const uint32_t *distances, size_t n, int32_t *out, size_t room);

/* Writes the global parent of each place: samples have the tree exactly if each is above that at its global parent, or equal to
 * it with the parent not to its right. Refuses 1, 2, 4, 10 (room < n). */
FinderWritten finder_global_parents(const uint32_t *distances, size_t n, uint32_t *out, size_t room);

/* Writes for each head the length of its longest proper tail with the tree of the head of that length. Refuses 1, 2, 4, 10. */
FinderWritten finder_failure_lengths(const uint32_t *distances, size_t n, uint32_t *out, size_t room);

/* Tells the rank of at most 20 distances in the factorial number system. Refuses 1, 2, 3, 4. */
FinderCode finder_encode(const uint32_t *distances, size_t n);

/* Writes the n distances whose rank is the code. Refuses 1, 3, 4, 10 (room < n). */
FinderWritten finder_decode(size_t n, uint64_t code, uint32_t *out, size_t room);

/* Writes the next list in the catalogue of the n distances: of the lists of that length that some values have, in the order of
 * the first distance that differs, smaller first, the one behind it. After the last one, 0, 1, .., n - 1, tells `last` and writes
 * nothing, whatever the room. From n zeros on, each list of the catalogue is met once. Refuses 1, 2, 12, 4, 10 (there is a next
 * list and room < n). Words behind the list are as they were. */
FinderNextList finder_next_list(const uint32_t *distances, size_t n, uint32_t *out, size_t room);

/* ---- sets of patterns, in an array of words */

/* Writes the empty set, three words. Refuses 10 (room < 3). */
FinderWritten finder_empty_set(uint32_t *set, size_t room);

/* Tells the patterns (first) and the distances (second) of a set. Refuses 5. */
FinderCounts finder_check_set(const uint32_t *set, size_t words);

/* Adds a pattern, given as n values, as the last one; tells the patterns and the distances then. The set uses 3 words and one for
 * each pattern and each distance. Refuses 1, 2, 13, 5, 6, 15 (n is 1), 10 (too few words for the larger set). */
FinderCounts finder_add_pattern(uint32_t *set, size_t words, const int32_t *values, size_t n);

/* Withdraws the pattern of a number, counted from 0: higher numbers move down by one; tells the patterns and the distances that are
 * left. The words that the set no longer uses, one and one for each distance of the pattern, become 0; those behind are as they
 * were. An automaton of the set before is none of the smaller one: build it anew, and begin a new search. Refuses 5, 14. */
FinderCounts finder_withdraw_pattern(uint32_t *set, size_t words, size_t number);

/* ---- automaton and searches, over a set that may be searched: it holds a pattern, and none of one value (15). A stored set that
 * holds one can be checked, added to and withdrawn from, and be searched once that is withdrawn. */

/* Writes the automaton of a set with D distances into an array of at least 16 * (1 + D) words; tells its nodes (first) and the
 * words used (second). Words behind them are as they were. Refuses 1, 5, 15, 10. */
FinderCounts finder_build_automaton(const uint32_t *set, size_t set_words, uint32_t *out, size_t room);

/* The state of a new search. */
FinderState finder_new_search(void);

/* Takes values until they end, or until fewer than two words a pattern are free in the hit array and values are left (full: call
 * again with the rest and the state returned). Writes the hits that end at the values taken to the front of the hit array: two
 * words each, the last place in the whole text and the pattern number; by place, longer pattern first, then lower number. Writes
 * the rises over them to the front of the second array: rises[i] beside hits[2 * i] and hits[2 * i + 1]. What is behind them in
 * either array is as it was. A gap is taken as a value and makes no attempt; after it the search begins anew. The first value of a
 * window that was taken by an earlier call is the one that the state keeps for its place. Refuses 1, 5, 15, 7, 8, 9, 10 (hits_room
 * < 2 * patterns, or rises_room below half of hits_room: to 5 hit words belong 3 rises). */
FinderStreamed finder_stream_search(const uint32_t *set, size_t set_words, const uint32_t *automaton, size_t automaton_words,
                                    FinderState state, const int32_t *values, size_t n, uint32_t *hits, size_t hits_room,
                                    int32_t *rises, size_t rises_room);

/* Tells the first hit of a whole text, the first of the list that the searches write: by last place, longer pattern first, then
 * lower number. Reads up to and with its last place, and nothing behind it; where there is no hit, all. Writes nothing. Refuses 1,
 * 5, 15, 7, 9. */
FinderFirstHit finder_first_hit(const uint32_t *set, size_t set_words, const uint32_t *automaton, size_t automaton_words,
                                const int32_t *text, size_t n);

/* Writes all hits of a whole text, the same list, and the rises over them, as the stream search does; tells the hits (first) and
 * the candidates (second). A candidate is a pair of a pattern and a window within the text, without a gap, whose last b values fall
 * at the same places (they have one fingerprint), where b is the length of the shortest pattern, 17 at most. Every hit is a
 * candidate, and not every candidate need be checked. What is behind the hits and the rises is as it was. Refuses 1, 5, 15, 9, 10
 * (rises_room below half of hits_room; no rises belong to no hit words), 11, and has then written nothing. */
FinderCounts finder_filter_search(const uint32_t *set, size_t set_words, const int32_t *text, size_t n, uint32_t *hits,
                                  size_t hits_room, int32_t *rises, size_t rises_room);

#ifdef __cplusplus
}
#endif

#endif
