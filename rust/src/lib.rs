//! Finds Cartesian-tree shapes in recordings: two stretches of values match when their Cartesian trees are equal (the leftmost
//! lowest value is the root). A value of [`GAP`] in a text is no sample: a window that holds one is no hit.
//!
//! This crate is a thin, safe wrapper over a proved library; all `unsafe` code is in [`raw`].
//!
//! ```
//! use finder::{Hit, Search, Set};
//!
//! let mut set = Set::new();
//! set.add(&[1, 2])?;
//! set.add(&[2, 1])?;
//! set.add(&[2, 1, 2])?;
//!
//! // A recording that comes in pieces.
//! let mut search = Search::new(&set)?;
//! let mut hits = Vec::new();
//! for piece in [&[5, 3, 4][..], &[4, 1]] {
//!     hits.extend(search.feed(piece)?);
//! }
//! let expected = [(1, 1, -2), (2, 2, -1), (2, 0, 1), (3, 0, 0), (4, 1, -3)];
//! assert_eq!(hits, expected.map(|(last, pattern, rise)| Hit { last, pattern, rise }));
//!
//! // The same recording at once.
//! assert_eq!(set.search(&[5, 3, 4, 4, 1])?.hits, hits);
//! # Ok::<(), finder::Refusal>(())
//! ```
#![warn(missing_docs)]

pub mod raw;

use std::fmt;

/// The value of a text where the recorder had no sample. A window that holds one has no tree, so it is no hit of any pattern; a
/// pattern that holds one is refused.
///
/// ```
/// use finder::{Hit, Refusal, Set, GAP};
/// let mut set = Set::new();
/// set.add(&[1, 2])?;
/// assert_eq!(set.search(&[3, 4, GAP, 6, 8])?.hits, [(1, 1), (4, 2)].map(|(last, rise)| Hit { last, pattern: 0, rise }));
/// assert_eq!(set.add(&[1, GAP]), Err(Refusal::HoldsGap));
/// # Ok::<(), Refusal>(())
/// ```
pub const GAP: i32 = i32::MIN;

/// Why a call was refused; the numbers are those of the library. A refused call has changed nothing.
#[derive(Clone, Copy, Debug, PartialEq, Eq, Hash)]
#[repr(u32)]
pub enum Refusal {
    /// A pattern or distance list holds nothing, a code comes with length 0, or the set holds no pattern.
    Empty = 1,
    /// A pattern or distance list is longer than 256.
    TooLong = 2,
    /// A code is involved and the length is above 20.
    CodeTooLong = 3,
    /// No values have the distance list, or no such list of that length has the code.
    NotRealizable = 4,
    /// An array does not begin with the words of a good set.
    BrokenSet = 5,
    /// The set has 64 patterns, or the new one would take it past 4,096 distances.
    SetFull = 6,
    /// An array does not begin with the automaton of the set.
    OtherAutomaton = 7,
    /// The state is none that a search may go on from.
    BrokenState = 8,
    /// The values bring the text past 1,048,576.
    TextTooLong = 9,
    /// A lent array is too short.
    ArrayTooShort = 10,
    /// The list of hits does not fit its array.
    ListTooLong = 11,
    /// A catalogue is involved and the distance list is longer than 10.
    CatalogueTooLong = 12,
    /// A pattern given as values holds a gap.
    HoldsGap = 13,
    /// No pattern of the set has the number.
    NoSuchPattern = 14,
    /// A pattern of one value is added, or the set that is to be searched holds one.
    OneValue = 15,
}

impl Refusal {
    fn check(number: u32) -> Result<(), Refusal> {
        use Refusal::*;
        let all = [
            Empty, TooLong, CodeTooLong, NotRealizable, BrokenSet, SetFull, OtherAutomaton, BrokenState, TextTooLong,
            ArrayTooShort, ListTooLong, CatalogueTooLong, HoldsGap, NoSuchPattern, OneValue,
        ];
        match number {
            0 => Ok(()),
            n => Err(all[n as usize - 1]),
        }
    }
}

impl fmt::Display for Refusal {
    fn fmt(&self, f: &mut fmt::Formatter<'_>) -> fmt::Result {
        write!(f, "refused {}: {:?}", *self as u32, self)
    }
}

impl std::error::Error for Refusal {}

/// A hit: a window of the text that has a pattern's tree, and how far the text rises over it.
///
/// ```
/// use finder::{Hit, Set};
/// let mut set = Set::new();
/// set.add(&[3, 1, 2])?;
/// let dip = set.search(&[900, 100, 250])?.hits;
/// assert_eq!(dip, [Hit { last: 2, pattern: 0, rise: -650 }]);
/// let deep = set.search(&[2_000_000_000, -2_000_000_000, -1_000_000_000])?.hits;
/// assert_eq!(deep, [Hit { last: 2, pattern: 0, rise: i32::MIN }]);
/// # Ok::<(), finder::Refusal>(())
/// ```
#[derive(Clone, Copy, Debug, PartialEq, Eq, Hash, PartialOrd, Ord)]
pub struct Hit {
    /// The place of the window's last value in the whole text.
    pub last: u32,
    /// The pattern's number in its set.
    pub pattern: u32,
    /// The last value of the window minus the first, clamped to the signed 32-bit range.
    pub rise: i32,
}

/// A hit of which no rise is told.
#[derive(Clone, Copy, Debug, PartialEq, Eq, Hash, PartialOrd, Ord)]
pub struct Match {
    /// The place of the window's last value in the whole text.
    pub last: u32,
    /// The pattern's number in its set.
    pub pattern: u32,
}

impl From<Hit> for Match {
    fn from(hit: Hit) -> Match {
        Match { last: hit.last, pattern: hit.pattern }
    }
}

/// Hits from the arrays of a search: two words and a rise each.
fn hits_of(words: &[u32], rises: &[i32]) -> Vec<Hit> {
    words.chunks_exact(2).zip(rises).map(|(w, &rise)| Hit { last: w[0], pattern: w[1], rise }).collect()
}

/// What a call writes to an array as long as the list it is given.
fn written<T, U: Clone + Default>(list: &[T], call: fn(&[T], &mut [U]) -> raw::Written) -> Result<Vec<U>, Refusal> {
    let mut out = vec![U::default(); list.len()];
    Refusal::check(call(list, &mut out).refusal)?;
    Ok(out)
}

/// The parent distances of values: two lists of values have equal trees exactly if they have equal distances.
///
/// ```
/// assert_eq!(finder::distances(&[2, 7, 5, 6, 4, 3, 1])?, [0, 1, 2, 1, 4, 5, 0]);
/// # Ok::<(), finder::Refusal>(())
/// ```
pub fn distances(values: &[i32]) -> Result<Vec<u32>, Refusal> {
    written(values, raw::distances)
}

/// The least values, none negative, that have the distances.
///
/// ```
/// use finder::{least_realization, Refusal};
/// assert_eq!(least_realization(&[0, 1, 2, 3])?, [0, 2, 1, 0]);
/// assert_eq!(least_realization(&[0, 1, 2, 2]), Err(Refusal::NotRealizable));
/// # Ok::<(), Refusal>(())
/// ```
pub fn least_realization(distances: &[u32]) -> Result<Vec<i32>, Refusal> {
    written(distances, raw::least_realization)
}

/// The global parent of each place of a pattern given by its distances.
///
/// ```
/// let ds = finder::distances(&[3, 1, 6, 4, 8, 6, 7, 5, 9])?;
/// assert_eq!(finder::global_parents(&ds)?, [1, 1, 3, 1, 5, 7, 5, 3, 7]);
/// # Ok::<(), finder::Refusal>(())
/// ```
pub fn global_parents(distances: &[u32]) -> Result<Vec<u32>, Refusal> {
    written(distances, raw::global_parents)
}

/// The failure length of each head of a pattern given by its distances.
///
/// ```
/// let ds = finder::distances(&[5, 7, 4, 6, 1, 3, 2])?;
/// assert_eq!(finder::failure_lengths(&ds)?, [0, 1, 1, 2, 3, 4, 1]);
/// # Ok::<(), finder::Refusal>(())
/// ```
pub fn failure_lengths(distances: &[u32]) -> Result<Vec<u32>, Refusal> {
    written(distances, raw::failure_lengths)
}

/// The rank of at most 20 distances in the factorial number system.
///
/// ```
/// let ds = finder::distances(&[11, 14, 13, 15, 12])?;
/// assert_eq!(finder::encode(&ds)?, 107);
/// assert_eq!(finder::decode(5, 107)?, ds);
/// # Ok::<(), finder::Refusal>(())
/// ```
pub fn encode(distances: &[u32]) -> Result<u64, Refusal> {
    let answer = raw::encode(distances);
    Refusal::check(answer.refusal)?;
    Ok(answer.code)
}

/// The `n` distances whose rank is the code.
pub fn decode(n: usize, code: u64) -> Result<Vec<u32>, Refusal> {
    let mut out = vec![0; n.min(20)];
    Refusal::check(raw::decode(n, code, &mut out).refusal)?;
    Ok(out)
}

/// The next list in the catalogue of a length, 1 to 10: all lists of so many distances that some values have, by the first
/// distance that differs, smaller first. There is none after the last list. From zeros on each list is met once.
///
/// ```
/// use finder::{next_list, Refusal};
/// let mut catalogue = vec![vec![0; 3]];
/// while let Some(next) = next_list(&catalogue[catalogue.len() - 1])? {
///     catalogue.push(next);
/// }
/// assert_eq!(catalogue, [[0, 0, 0], [0, 0, 1], [0, 1, 0], [0, 1, 1], [0, 1, 2]]);
/// assert_eq!(next_list(&[0; 11]), Err(Refusal::CatalogueTooLong));
/// # Ok::<(), Refusal>(())
/// ```
pub fn next_list(distances: &[u32]) -> Result<Option<Vec<u32>>, Refusal> {
    let mut out = vec![0; distances.len().min(10)];
    let answer = raw::next_list(distances, &mut out);
    Refusal::check(answer.refusal)?;
    Ok(if answer.last == 1 { None } else { Some(out) })
}

/// A set of up to 64 patterns with up to 4,096 values in all. It may be searched if it holds a pattern, and none of one value.
#[derive(Clone, Debug, PartialEq, Eq)]
pub struct Set {
    words: Vec<u32>,
}

impl Default for Set {
    fn default() -> Self {
        Set::new()
    }
}

impl Set {
    /// The empty set.
    pub fn new() -> Set {
        Set { words: vec![0; 3] }
    }

    /// The set with whose words an array begins, as [`Set::words`] gave them. A stored set may hold patterns of one value, of which
    /// none can be added; it is searched once they are withdrawn.
    ///
    /// ```
    /// use finder::{Hit, Refusal, Set};
    /// let mut set = Set::from_words(&[2, 3, 0, 1, 3, 0, 0, 1])?;
    /// assert_eq!(set.search(&[4, 5]), Err(Refusal::OneValue));
    /// set.withdraw(0)?;
    /// assert_eq!(set.search(&[4, 5])?.hits, [Hit { last: 1, pattern: 0, rise: 1 }]);
    /// assert_eq!(Set::from_words(&[1, 2, 0, 2, 0]), Err(Refusal::BrokenSet));
    /// # Ok::<(), Refusal>(())
    /// ```
    pub fn from_words(words: &[u32]) -> Result<Set, Refusal> {
        let size = raw::check_set(words);
        Refusal::check(size.refusal)?;
        Ok(Set { words: words[..3 + size.first + size.second].to_vec() })
    }

    /// Adds a pattern, given as two values or more; it gets the next number.
    pub fn add(&mut self, values: &[i32]) -> Result<(), Refusal> {
        let used = self.words.len();
        self.words.resize(used + 1 + values.len(), 0);
        let answer = Refusal::check(raw::add_pattern(&mut self.words, values).refusal);
        if answer.is_err() {
            self.words.truncate(used);
        }
        answer
    }

    /// Withdraws the pattern of a number; higher numbers move down by one. A [`Search`] that was made before goes on with the
    /// patterns it was made for.
    ///
    /// ```
    /// use finder::{Hit, Refusal, Set};
    /// let mut set = Set::new();
    /// set.add(&[1, 2])?;
    /// set.add(&[2, 1])?;
    /// set.add(&[1, 2, 3])?;
    /// set.withdraw(0)?;
    /// assert_eq!(set.search(&[4, 5, 6])?.hits, [Hit { last: 2, pattern: 1, rise: 2 }]);
    /// assert_eq!(set.withdraw(2), Err(Refusal::NoSuchPattern));
    /// # Ok::<(), Refusal>(())
    /// ```
    pub fn withdraw(&mut self, pattern: usize) -> Result<(), Refusal> {
        let left = raw::withdraw_pattern(&mut self.words, pattern);
        Refusal::check(left.refusal)?;
        self.words.truncate(3 + left.first + left.second);
        Ok(())
    }

    /// The number of patterns.
    pub fn len(&self) -> usize {
        self.words[0] as usize
    }

    /// Whether there is no pattern.
    pub fn is_empty(&self) -> bool {
        self.len() == 0
    }

    /// The set's words, as the library lays them out.
    pub fn words(&self) -> &[u32] {
        &self.words
    }

    /// All hits of a whole text: by last place, longer pattern first, then lower number.
    pub fn search(&self, text: &[i32]) -> Result<Found, Refusal> {
        let mut room = 512;
        loop {
            let (mut words, mut rises) = (vec![0; 2 * room], vec![0; room]);
            let answer = raw::filter_search(&self.words, text, &mut words, &mut rises);
            match Refusal::check(answer.refusal) {
                Ok(()) => {
                    return Ok(Found { hits: hits_of(&words[..2 * answer.first], &rises), candidates: answer.second });
                }
                Err(Refusal::ListTooLong) => room *= 4,
                Err(refusal) => return Err(refusal),
            }
        }
    }
}

/// What a search over a whole text finds.
#[derive(Clone, Debug, PartialEq, Eq)]
pub struct Found {
    /// The hits, in their order.
    pub hits: Vec<Hit>,
    /// The candidates: pairs of a pattern and a window within the text, without a gap, whose last values fall at the same places
    /// (they have one fingerprint); compared are as many values as the shortest pattern has, 17 at most. Every hit is a candidate.
    pub candidates: usize,
}

/// A set with its automaton: what a search for the patterns of the set needs. It is built once, and any number of searches go
/// over it.
///
/// ```
/// use finder::{Automaton, FirstHit, Match, Set};
/// let mut set = Set::new();
/// set.add(&[1, 2, 3])?;
/// set.add(&[2, 1])?;
/// let automaton = Automaton::new(&set)?;
/// let first = automaton.first_hit(&[4, 5, 5, 3, 6, 7])?;
/// assert_eq!(first, FirstHit { hit: Some(Match { last: 2, pattern: 0 }), read: 3 });
/// assert_eq!(automaton.first_hit(&[4, 5])?, FirstHit { hit: None, read: 2 });
/// # Ok::<(), finder::Refusal>(())
/// ```
#[derive(Clone, Debug, PartialEq, Eq)]
pub struct Automaton {
    set: Set,
    words: Vec<u32>,
}

/// The first hit of a whole text.
#[derive(Clone, Copy, Debug, PartialEq, Eq)]
pub struct FirstHit {
    /// The first of the hits by last place, longer pattern first, then lower number, if there is one.
    pub hit: Option<Match>,
    /// The values read: up to and with the hit's last place, or all where there is none.
    pub read: usize,
}

impl Automaton {
    /// The automaton of a set.
    pub fn new(set: &Set) -> Result<Automaton, Refusal> {
        let mut words = vec![0; 16 * (1 + set.words[1] as usize)];
        let built = raw::build_automaton(&set.words, &mut words);
        Refusal::check(built.refusal)?;
        words.truncate(built.second);
        Ok(Automaton { set: set.clone(), words })
    }

    /// The first hit of a whole text, without its rise. Nothing behind its last place is read.
    pub fn first_hit(&self, text: &[i32]) -> Result<FirstHit, Refusal> {
        let answer = raw::first_hit(&self.set.words, &self.words, text);
        Refusal::check(answer.refusal)?;
        let hit = Match { last: answer.last as u32, pattern: answer.pattern as u32 };
        Ok(FirstHit { hit: (answer.found == 1).then_some(hit), read: answer.read })
    }

    /// A new search over a text that comes in pieces.
    pub fn search(&self) -> Search {
        let room = self.set.len().max(512);
        Search { automaton: self.clone(), state: raw::new_search(), buffer: vec![0; 2 * room], rises: vec![0; room], attempts: 0 }
    }
}

/// A search over a text that comes in pieces. Its memory does not grow with the text.
#[derive(Clone)]
pub struct Search {
    automaton: Automaton,
    state: raw::State,
    buffer: Vec<u32>,
    rises: Vec<i32>,
    attempts: u64,
}

impl Search {
    /// A new search for the patterns of a set, whose automaton it builds.
    pub fn new(set: &Set) -> Result<Search, Refusal> {
        Ok(Automaton::new(set)?.search())
    }

    /// Takes the next values of the text; the hits that end at them, each with its rise, also where its window begins in an earlier
    /// piece. Places count from the start of the text. A refused call has taken none of the values.
    pub fn feed(&mut self, values: &[i32]) -> Result<Vec<Hit>, Refusal> {
        let mut hits = Vec::new();
        let mut rest = values;
        let Automaton { set, words } = &self.automaton;
        loop {
            let answer = raw::stream_search(&set.words, words, self.state, rest, &mut self.buffer, &mut self.rises);
            Refusal::check(answer.refusal)?;
            hits.extend(hits_of(&self.buffer[..2 * answer.hits], &self.rises));
            self.state = answer.state;
            self.attempts += answer.attempts as u64;
            rest = &rest[answer.taken..];
            if answer.ended == 1 {
                return Ok(hits);
            }
        }
    }

    /// The values taken so far.
    pub fn taken(&self) -> usize {
        self.state.taken as usize
    }

    /// The attempts made so far: at most twice the values taken.
    pub fn attempts(&self) -> u64 {
        self.attempts
    }
}
