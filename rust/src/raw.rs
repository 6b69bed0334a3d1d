//! The library's functions as C declares them, over slices: each answers, or refuses by number and changes nothing.

use std::mem::{align_of, offset_of, size_of};

/// Refusal, 0 for none, and the words or values at the front of the array that are the result.
#[derive(Clone, Copy, Debug)]
#[repr(C)]
pub struct Written {
    /// Refusal.
    pub refusal: u32,
    /// Words or values written.
    pub words: usize,
}

/// Refusal, whether the list is the last of its catalogue, and the words at the front of the array that are the next list.
#[derive(Clone, Copy, Debug)]
#[repr(C)]
pub struct NextList {
    /// Refusal.
    pub refusal: u32,
    /// 1 where there is no next list and 0 where there is.
    pub last: u32,
    /// Words written.
    pub words: usize,
}

/// Refusal and code.
#[derive(Clone, Copy, Debug)]
#[repr(C)]
pub struct Code {
    /// Refusal.
    pub refusal: u32,
    /// Code.
    pub code: u64,
}

/// Refusal and two counts.
#[derive(Clone, Copy, Debug)]
#[repr(C)]
pub struct Counts {
    /// Refusal.
    pub refusal: u32,
    /// Patterns, nodes or hits.
    pub first: usize,
    /// Distances, words or candidates.
    pub second: usize,
}

/// A search between two calls. Every byte belongs to a field: there is no padding.
#[derive(Clone, Copy, Debug, PartialEq, Eq)]
#[repr(C)]
pub struct State {
    /// Values taken.
    pub taken: u32,
    /// The automaton's node.
    pub node: u32,
    /// How many open minima there are.
    pub minima: u32,
    /// Modulo 256, the slot of the oldest; below 256 where an accepted call hands it back.
    pub first: u32,
    /// Their places.
    pub places: [u32; 256],
    /// Their values.
    pub values: [i32; 256],
    /// The last 256 values taken, that of place p in slot p % 256; 0 where no value is kept yet.
    pub recent: [i32; 256],
}

/// What a call of the stream search returns.
#[derive(Clone, Copy, Debug)]
#[repr(C)]
pub struct Streamed {
    /// The state after the call, or, where it is refused, the state given.
    pub state: State,
    /// Refusal.
    pub refusal: u32,
    /// 1 where the values ended and 0 where the call is full.
    pub ended: u32,
    /// Values taken.
    pub taken: usize,
    /// Hits written.
    pub hits: usize,
    /// Attempts made.
    pub attempts: usize,
}

// The layout of the two, as the library has it.
const _: () = {
    assert!(size_of::<State>() == 3088 && align_of::<State>() == 4);
    assert!(offset_of!(State, taken) == 0 && offset_of!(State, node) == 4);
    assert!(offset_of!(State, minima) == 8 && offset_of!(State, first) == 12);
    assert!(offset_of!(State, places) == 16 && offset_of!(State, values) == 1040 && offset_of!(State, recent) == 2064);
    assert!(size_of::<Streamed>() == 3120 && align_of::<Streamed>() == 8);
    assert!(offset_of!(Streamed, state) == 0 && offset_of!(Streamed, refusal) == 3088 && offset_of!(Streamed, ended) == 3092);
    assert!(offset_of!(Streamed, taken) == 3096 && offset_of!(Streamed, hits) == 3104 && offset_of!(Streamed, attempts) == 3112);
};

/// The first hit of a text.
#[derive(Clone, Copy, Debug)]
#[repr(C)]
pub struct FirstHit {
    /// Refusal.
    pub refusal: u32,
    /// 1 where there is a hit and 0 where there is none.
    pub found: u32,
    /// The hit's last place.
    pub last: usize,
    /// Its pattern's number.
    pub pattern: usize,
    /// Values read.
    pub read: usize,
}

mod c {
    use super::{Code, Counts, FirstHit, NextList, State, Streamed, Written};
    extern "C" {
        pub fn finder_distances(v: *const i32, n: usize, out: *mut u32, room: usize) -> Written;
        pub fn finder_least_realization(d: *const u32, n: usize, out: *mut i32, room: usize) -> Written;
        pub fn finder_global_parents(d: *const u32, n: usize, out: *mut u32, room: usize) -> Written;
        pub fn finder_failure_lengths(d: *const u32, n: usize, out: *mut u32, room: usize) -> Written;
        pub fn finder_encode(d: *const u32, n: usize) -> Code;
        pub fn finder_decode(n: usize, code: u64, out: *mut u32, room: usize) -> Written;
        pub fn finder_next_list(d: *const u32, n: usize, out: *mut u32, room: usize) -> NextList;
        pub fn finder_empty_set(out: *mut u32, room: usize) -> Written;
        pub fn finder_check_set(set: *const u32, n: usize) -> Counts;
        pub fn finder_add_pattern(set: *mut u32, n: usize, v: *const i32, m: usize) -> Counts;
        pub fn finder_withdraw_pattern(set: *mut u32, n: usize, number: usize) -> Counts;
        pub fn finder_build_automaton(set: *const u32, n: usize, out: *mut u32, room: usize) -> Counts;
        pub fn finder_new_search() -> State;
        pub fn finder_stream_search(
            set: *const u32, n: usize, automaton: *const u32, a: usize, state: State, v: *const i32, m: usize,
            hits: *mut u32, room: usize, rises: *mut i32, rises_room: usize,
        ) -> Streamed;
        pub fn finder_first_hit(
            set: *const u32, n: usize, automaton: *const u32, a: usize, v: *const i32, m: usize,
        ) -> FirstHit;
        pub fn finder_filter_search(
            set: *const u32, n: usize, v: *const i32, m: usize, hits: *mut u32, room: usize,
            rises: *mut i32, rises_room: usize,
        ) -> Counts;
    }
}

// Every function below hands on slices as the pointer and length that the library takes; it reads and writes nothing else and
// keeps nothing. A slice's pointer is never null and is aligned, and an exclusive slice overlaps no other.

/// Parent distances of values.
pub fn distances(values: &[i32], out: &mut [u32]) -> Written {
    unsafe { c::finder_distances(values.as_ptr(), values.len(), out.as_mut_ptr(), out.len()) }
}

/// Least values that have the distances.
pub fn least_realization(ds: &[u32], out: &mut [i32]) -> Written {
    unsafe { c::finder_least_realization(ds.as_ptr(), ds.len(), out.as_mut_ptr(), out.len()) }
}

/// Global parents.
pub fn global_parents(ds: &[u32], out: &mut [u32]) -> Written {
    unsafe { c::finder_global_parents(ds.as_ptr(), ds.len(), out.as_mut_ptr(), out.len()) }
}

/// Failure lengths.
pub fn failure_lengths(ds: &[u32], out: &mut [u32]) -> Written {
    unsafe { c::finder_failure_lengths(ds.as_ptr(), ds.len(), out.as_mut_ptr(), out.len()) }
}

/// Rank of a list of distances.
pub fn encode(ds: &[u32]) -> Code {
    unsafe { c::finder_encode(ds.as_ptr(), ds.len()) }
}

/// Distances of a length and a rank.
pub fn decode(n: usize, code: u64, out: &mut [u32]) -> Written {
    unsafe { c::finder_decode(n, code, out.as_mut_ptr(), out.len()) }
}

/// Next list of a catalogue.
pub fn next_list(ds: &[u32], out: &mut [u32]) -> NextList {
    unsafe { c::finder_next_list(ds.as_ptr(), ds.len(), out.as_mut_ptr(), out.len()) }
}

/// The empty set.
pub fn empty_set(out: &mut [u32]) -> Written {
    unsafe { c::finder_empty_set(out.as_mut_ptr(), out.len()) }
}

/// Patterns and distances of a set.
pub fn check_set(set: &[u32]) -> Counts {
    unsafe { c::finder_check_set(set.as_ptr(), set.len()) }
}

/// Adds a pattern to a set in place.
pub fn add_pattern(set: &mut [u32], values: &[i32]) -> Counts {
    unsafe { c::finder_add_pattern(set.as_mut_ptr(), set.len(), values.as_ptr(), values.len()) }
}

/// Withdraws a pattern from a set in place.
pub fn withdraw_pattern(set: &mut [u32], number: usize) -> Counts {
    unsafe { c::finder_withdraw_pattern(set.as_mut_ptr(), set.len(), number) }
}

/// The automaton of a set.
pub fn build_automaton(set: &[u32], out: &mut [u32]) -> Counts {
    unsafe { c::finder_build_automaton(set.as_ptr(), set.len(), out.as_mut_ptr(), out.len()) }
}

/// The state of a new search.
pub fn new_search() -> State {
    unsafe { c::finder_new_search() }
}

/// One call of the stream search: the hits, two words each, and one by one the rises over them.
pub fn stream_search(
    set: &[u32], automaton: &[u32], state: State, values: &[i32], hits: &mut [u32], rises: &mut [i32],
) -> Streamed {
    unsafe {
        c::finder_stream_search(
            set.as_ptr(), set.len(), automaton.as_ptr(), automaton.len(), state, values.as_ptr(), values.len(),
            hits.as_mut_ptr(), hits.len(), rises.as_mut_ptr(), rises.len(),
        )
    }
}

/// The first hit of a whole text.
pub fn first_hit(set: &[u32], automaton: &[u32], text: &[i32]) -> FirstHit {
    unsafe {
        c::finder_first_hit(
            set.as_ptr(), set.len(), automaton.as_ptr(), automaton.len(), text.as_ptr(), text.len(),
        )
    }
}

/// A filter search over a whole text: the hits, two words each, and one by one the rises over them.
pub fn filter_search(set: &[u32], text: &[i32], hits: &mut [u32], rises: &mut [i32]) -> Counts {
    unsafe {
        c::finder_filter_search(
            set.as_ptr(), set.len(), text.as_ptr(), text.len(), hits.as_mut_ptr(), hits.len(), rises.as_mut_ptr(), rises.len(),
        )
    }
}
