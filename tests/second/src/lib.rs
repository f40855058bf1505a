//! A second decoder, written from the papers alone (01-scope.md, tickets 1 to 8 of
//! 02-change-requests.md, and Collins' notes 000, 001, 002). Standard library only. Refusals are the
//! question numbers of 01 and 02.

use std::collections::HashMap;

pub mod arpa;
pub mod campaign;
pub mod cases;
pub mod edits;
pub mod gen;
pub mod imports;
pub mod plain;
pub mod plain_arpa;
pub mod plain_round;
pub mod plain_sheet;
pub mod random_cases;
pub mod round;
pub mod round_cases;
pub mod rounds;
pub mod sheet;
pub mod sheet_cases;
pub mod ways;

pub use arpa::import_arpa;
pub use plain::all_derivations;
pub use round::decode_round;
pub use sheet::round_sheet;

/// The book of 01's example, and of its marked drawers.
pub const EXAMPLE: &str = "B,2,-10,-500
P,1,1,11,101,-20
P,1,1,12,102,-30
P,2,2,11,12,102,101,-70
T,0,0,101,-40
T,0,101,102,-60
T,0,0,102,-15
T,0,102,101,-25
";

/// A step: first, last, entry; all counted from 1.
pub type Step = (u16, u16, u16);

pub const MAX_PHRASES: usize = 4096;
/// T lines, U lines and D lines: each so many.
pub const MAX_SCORES: usize = 8192;
pub const MAX_DIRECTION: usize = 32;
/// No score passes this on either side of 0.
pub const BOUND: i64 = 810_240_000;
/// Twice the bound on scores: with this width nothing is pruned.
pub const WIDEST: i64 = 2 * BOUND;

/// One P line.
#[derive(Clone, Debug, PartialEq, Eq)]
pub struct Phrase {
    source: [u16; 8],
    source_len: u8,
    target: [u16; 8],
    target_len: u8,
    /// Score g.
    pub g: i32,
    /// Where the target words begin in the loaded book.
    pub target_at: usize,
}

impl Phrase {
    /// The record of a P line that begins there in the loaded book.
    fn of(line: &[i32], at: usize) -> Phrase {
        let (a, b) = (line[1] as usize, line[2] as usize);
        let mut phrase = Phrase {
            source: [0; 8],
            source_len: a as u8,
            target: [0; 8],
            target_len: b as u8,
            g: line[3 + a + b],
            target_at: at + 3 + a,
        };
        for (to, &from) in phrase.source.iter_mut().zip(&line[3..3 + a]) {
            *to = from as u16;
        }
        for (to, &from) in phrase.target.iter_mut().zip(&line[3 + a..3 + a + b]) {
            *to = from as u16;
        }
        phrase
    }
    pub fn source(&self) -> &[u16] {
        &self.source[..self.source_len as usize]
    }
    pub fn target(&self) -> &[u16] {
        &self.target[..self.target_len as usize]
    }
    /// Where its line begins in the loaded book, and where the next one does.
    fn part(&self) -> (usize, usize) {
        let start = self.target_at - self.source().len() - 3;
        (start, self.target_at + self.target().len() + 1)
    }
}

/// One T line.
#[derive(Clone, Copy, Debug, PartialEq, Eq)]
pub struct Triple {
    pub v: u16,
    pub w: u16,
    pub y: u16,
    pub s: i32,
}

/// What a D or a U line says: a score, and a back-off weight.
#[derive(Clone, Copy, Debug, PartialEq, Eq)]
pub struct Listed {
    pub s: i32,
    pub k: i32,
}

/// One D line.
#[derive(Clone, Copy, Debug, PartialEq, Eq)]
pub struct Pair {
    pub w: u16,
    pub y: u16,
    pub listed: Listed,
}

/// One U line.
#[derive(Clone, Copy, Debug, PartialEq, Eq)]
pub struct Word {
    pub y: u16,
    pub listed: Listed,
}

/// A checked book.
#[derive(Clone, Debug, Default)]
pub struct Book {
    pub d: i32,
    pub eta: i32,
    pub u: i32,
    /// Entry k is at k - 1.
    pub phrases: Vec<Phrase>,
    pub triples: Vec<Triple>,
    pub pairs: Vec<Pair>,
    pub words: Vec<Word>,
    /// The same triples, pairs and words by their words, for the search.
    triple_scores: HashMap<(u16, u16, u16), i32>,
    listed_pairs: HashMap<(u16, u16), Listed>,
    listed_words: HashMap<u16, Listed>,
}

impl Book {
    /// "The k-th P line is entry k."
    fn entry(&self, k: usize) -> Option<&Phrase> {
        self.phrases.get(k.checked_sub(1)?)
    }

    fn triple_score(&self, v: u16, w: u16, y: u16) -> i64 {
        match self.triple_scores.get(&(v, w, y)) {
            Some(&s) => s as i64,
            None if self.pairs.is_empty() && self.words.is_empty() => self.u as i64,
            None => self.backed_off(v, w, y),
        }
    }

    /// "A triple v, w, y without a T line scores the weight of pair v, w (0 if unlisted) plus the
    /// score of pair w, y; an unlisted pair scores the weight of w (0 if unlisted) plus the score of
    /// word y, or u if unlisted."
    /// Not inlined: that keeps the search short.
    #[inline(never)]
    fn backed_off(&self, v: u16, w: u16, y: u16) -> i64 {
        let weight = self.listed_pairs.get(&(v, w)).map_or(0, |d| d.k as i64);
        if let Some(pair) = self.listed_pairs.get(&(w, y)) {
            return weight + pair.s as i64;
        }
        let weight = weight + self.listed_words.get(&w).map_or(0, |word| word.k as i64);
        weight + self.listed_words.get(&y).map_or(self.u, |word| word.s) as i64
    }
}

/// "four counts in that order, of the target words each supplied": triple, pair, word, u.
pub type Supplied = [usize; 4];

impl Book {
    /// "whether triple, pair, word or u supplied the final score" of a triple, as a place among the
    /// four. A weight that is added on the way supplies nothing.
    fn supplier(&self, v: u16, w: u16, y: u16) -> usize {
        if self.triple_scores.contains_key(&(v, w, y)) {
            0
        } else if self.listed_pairs.contains_key(&(w, y)) {
            1
        } else if self.listed_words.contains_key(&y) {
            2
        } else {
            3
        }
    }

    /// The four counts of all target words of a derivation.
    fn supplied(&self, words: &[u16]) -> Supplied {
        let mut counts = [0; 4];
        let (mut v, mut w) = (0, 0);
        for &y in words {
            counts[self.supplier(v, w, y)] += 1;
            (v, w) = (w, y);
        }
        counts
    }
}

/// What a successful scoring reports.
#[derive(Clone, Copy, Debug, PartialEq, Eq)]
pub struct Scoring {
    pub score: i64,
    pub supplied: Supplied,
}

/// The answer of a decoding.
#[derive(Clone, Debug, PartialEq, Eq)]
pub struct Answer {
    pub score: i64,
    pub states: usize,
    pub supplied: Supplied,
    pub steps: Vec<Step>,
    pub words: Vec<u16>,
}

impl Answer {
    /// The A line: score, steps, words, states, and the four counts.
    pub fn counts(&self) -> String {
        let (steps, words) = (self.steps.len(), self.words.len());
        let [triple, pair, word, u] = self.supplied;
        let (score, states) = (self.score, self.states);
        format!("A,{score},{steps},{words},{states},{triple},{pair},{word},{u}")
    }
}

// ---------------------------------------------------------------------------------------------
// Reading
// ---------------------------------------------------------------------------------------------

/// One decimal number of 1 to 7 digits, no needless leading zero, a minus only before 1 to 9.
fn number(field: &[u8]) -> Option<i32> {
    let (minus, digits) = match field.split_first() {
        Some((b'-', rest)) => (true, rest),
        _ => (false, field),
    };
    if digits.is_empty() || digits.len() > 7 || !digits.iter().all(|c| c.is_ascii_digit()) {
        return None;
    }
    if digits[0] == b'0' && (minus || digits.len() > 1) {
        return None;
    }
    let mut value = 0i32;
    for &c in digits {
        value = value * 10 + (c - b'0') as i32;
    }
    Some(if minus { -value } else { value })
}

/// Questions 1 to 6, 20 and 7 of a book's text; the numbers loaded, of which 21 need not be asked.
pub fn read_book(text: &[u8], places: usize) -> Result<Vec<i32>, u8> {
    // 1, of the whole text.
    let Some((&b'\n', body)) = text.split_last() else {
        return Err(1);
    };
    let mut lines: Vec<Vec<i32>> = Vec::new();
    for line in body.split(|&c| c == b'\n') {
        let [letter, b',', fields @ ..] = line else {
            return Err(1);
        };
        let mut numbers = vec![kind(*letter).ok_or(1)?];
        for field in fields.split(|&c| c == b',') {
            numbers.push(number(field).ok_or(1)?);
        }
        lines.push(numbers);
    }
    // 2, of every line.
    if !lines.iter().all(|line| has_fields(line)) {
        return Err(2);
    }
    // 3 to 6 and 20 (2 holds by now).
    let loaded = with_counts(lines);
    check_book(&loaded)?;
    if loaded.len() > places {
        return Err(7);
    }
    Ok(loaded)
}

/// The kind that a letter stands for in a loaded book.
fn kind(letter: u8) -> Option<i32> {
    match letter {
        b'B' => Some(1),
        b'P' => Some(2),
        b'T' => Some(3),
        b'U' => Some(4),
        b'D' => Some(5),
        _ => None,
    }
}

/// Question 2 of a text's line: has it the numbers of a loaded one, save that a B line has no counts?
fn has_fields(line: &[i32]) -> bool {
    let counts = if line[0] == 1 { 2 } else { 0 };
    size(line) == Some(line.len() + counts)
}

/// "The B record of a loaded book gains two numbers at its end, the P and then the T lines it holds":
/// the list of a text's lines.
fn with_counts(mut lines: Vec<Vec<i32>>) -> Vec<i32> {
    let count = |kind: i32| lines.iter().filter(|line| line[0] == kind).count() as i32;
    let counts = [count(2), count(3)];
    for line in lines.iter_mut().filter(|line| line[0] == 1) {
        line.extend(counts);
    }
    lines.concat()
}

/// How many numbers the line that stands first in a loaded list takes, its kind included; None for a
/// kind that is unknown, and where a or b is missing or out of range.
fn size(list: &[i32]) -> Option<usize> {
    match *list {
        [1, ..] => Some(6),
        [4, ..] => Some(4),
        [3 | 5, ..] => Some(5),
        [2, a @ 1..=8, b @ 1..=8, ..] => Some((a + b + 4) as usize),
        _ => None,
    }
}

/// Question 2 of a loaded list: its lines.
fn loaded_lines(mut list: &[i32]) -> Option<Vec<&[i32]>> {
    let mut lines = Vec::new();
    while !list.is_empty() {
        let size = size(list).filter(|&size| size <= list.len())?;
        let (line, after) = list.split_at(size);
        lines.push(line);
        list = after;
    }
    Some(lines)
}

/// Question 4 of a loaded line; it passes over a B record's counts.
fn in_range(line: &[i32]) -> bool {
    let score = |x: &i32| (-1_000_000..=1_000_000).contains(x);
    let word = |x: &i32| (1..=65_535).contains(x);
    let word_or_start = |x: &i32| (0..=65_535).contains(x);
    match line {
        [1, d, eta, u, _, _] => {
            (0..=32).contains(d) && (-10_000..=10_000).contains(eta) && score(u)
        }
        [2, _, _, words @ .., g] => words.iter().all(word) && score(g),
        [3, v, w, y, s] => word_or_start(v) && word_or_start(w) && word(y) && score(s),
        [4, y, s, k] => word_or_start(y) && score(s) && score(k),
        [5, w, y, s, k] => word_or_start(w) && word(y) && score(s) && score(k),
        _ => false,
    }
}

/// Questions 2 to 5, 21, 6 and 20 of a loaded list.
pub fn check_book(book: &[i32]) -> Result<Book, u8> {
    let lines = loaded_lines(book).ok_or(2)?;
    // 3.
    if lines.is_empty() || lines[0][0] != 1 || lines[1..].iter().any(|line| line[0] == 1) {
        return Err(3);
    }
    // 4.
    if !lines.iter().all(|line| in_range(line)) {
        return Err(4);
    }
    // 5.
    let mut counts = [0; 6];
    for line in &lines {
        counts[line[0] as usize] += 1;
    }
    if counts[2] > MAX_PHRASES || counts[3..].iter().any(|&count| count > MAX_SCORES) {
        return Err(5);
    }
    // 21: "when a stored count .. differs from the lines".
    if lines[0][4..] != [counts[2] as i32, counts[3] as i32] {
        return Err(21);
    }
    let made = records(&lines, counts);
    // 6: of two lines with the same words one is not in the map.
    if made.triple_scores.len() < made.triples.len() {
        return Err(6);
    }
    // 20, after 6 was asked of the whole book.
    if made.listed_pairs.len() < made.pairs.len() || made.listed_words.len() < made.words.len() {
        return Err(20);
    }
    Ok(made)
}

/// The records of lines of which 2 to 5 and 21 say yes; there are so many of each kind.
fn records(lines: &[&[i32]], [_, _, phrases, triples, words, pairs]: [usize; 6]) -> Book {
    let mut made = Book {
        phrases: Vec::with_capacity(phrases),
        triples: Vec::with_capacity(triples),
        pairs: Vec::with_capacity(pairs),
        words: Vec::with_capacity(words),
        triple_scores: HashMap::with_capacity(triples),
        listed_pairs: HashMap::with_capacity(pairs),
        listed_words: HashMap::with_capacity(words),
        ..Book::default()
    };
    let mut at = 0;
    for line in lines {
        match **line {
            [1, d, eta, u, _, _] => (made.d, made.eta, made.u) = (d, eta, u),
            [3, v, w, y, s] => made.add_triple(v as u16, w as u16, y as u16, s),
            [4, y, s, k] => made.add_word(y as u16, Listed { s, k }),
            [5, w, y, s, k] => made.add_pair(w as u16, y as u16, Listed { s, k }),
            _ => made.phrases.push(Phrase::of(line, at)),
        }
        at += line.len();
    }
    made
}

impl Book {
    fn add_triple(&mut self, v: u16, w: u16, y: u16, s: i32) {
        self.triples.push(Triple { v, w, y, s });
        self.triple_scores.insert((v, w, y), s);
    }
    fn add_word(&mut self, y: u16, listed: Listed) {
        self.words.push(Word { y, listed });
        self.listed_words.insert(y, listed);
    }
    fn add_pair(&mut self, w: u16, y: u16, listed: Listed) {
        self.pairs.push(Pair { w, y, listed });
        self.listed_pairs.insert((w, y), listed);
    }
}

/// Start (from 0) and size of an entry's target words in the loaded list; the empty part at the
/// list's end for a number that is no entry, or a list that 2 to 6, 20 or 21 refuse.
pub fn target_part(book: &[i32], entry: usize) -> (usize, usize) {
    if let Ok(checked) = check_book(book) {
        if let Some(phrase) = checked.entry(entry) {
            return (phrase.target_at, phrase.target().len());
        }
    }
    (book.len(), 0)
}

// ---------------------------------------------------------------------------------------------
// Adding and withdrawing phrases
// ---------------------------------------------------------------------------------------------

/// Where the B record has the number of P lines.
const PHRASE_COUNT: usize = 4;

/// "The caller names the numbers in use; more than the list holds is 7, before all else." Then the
/// questions of a loaded book.
fn book_in_use(list: &[i32], used: usize) -> Result<Book, u8> {
    check_book(list.get(..used).ok_or(7)?)
}

/// Puts a P line after the last line of a loaded book, the first `used` numbers of the lent list: 7,
/// the book's questions, and of the line 2, 4, 5 and 7. The numbers then in use.
pub fn add_entry(list: &mut [i32], used: usize, line: &[i32]) -> Result<usize, u8> {
    let book = book_in_use(list, used)?;
    if line.first() != Some(&2) || size(line) != Some(line.len()) {
        return Err(2);
    }
    if !in_range(line) {
        return Err(4);
    }
    if book.phrases.len() == MAX_PHRASES {
        return Err(5);
    }
    let place = list.get_mut(used..used + line.len()).ok_or(7)?;
    place.copy_from_slice(line);
    list[PHRASE_COUNT] += 1;
    Ok(used + line.len())
}

/// Takes an entry out of a loaded book, the first `used` numbers of the lent list: 7, the book's
/// questions, and 22. Later numbers move down, and the places that they leave are 0. The numbers then
/// in use.
pub fn remove_entry(list: &mut [i32], used: usize, entry: usize) -> Result<usize, u8> {
    let book = book_in_use(list, used)?;
    let (start, end) = book.entry(entry).ok_or(22)?.part();
    list.copy_within(end..used, start);
    let left = used - (end - start);
    list[left..used].fill(0);
    list[PHRASE_COUNT] -= 1;
    Ok(left)
}

/// Questions 8, 9, 10, 7 of a direction's text; the words.
pub fn read_direction(text: &[u8], places: usize) -> Result<Vec<u16>, u8> {
    let Some((&b'\n', line)) = text.split_last() else {
        return Err(8);
    };
    let mut numbers = Vec::new();
    for field in line.split(|&c| c == b',') {
        numbers.push(number(field).ok_or(8)?);
    }
    if numbers.len() > MAX_DIRECTION {
        return Err(9);
    }
    if numbers.iter().any(|x| !(1..=65_535).contains(x)) {
        return Err(10);
    }
    if numbers.len() > places {
        return Err(7);
    }
    Ok(numbers.iter().map(|&x| x as u16).collect())
}

/// Questions 9 and 10 of a direction as numbers.
pub fn check_direction(direction: &[u16]) -> Result<(), u8> {
    if direction.is_empty() || direction.len() > MAX_DIRECTION {
        return Err(9);
    }
    if direction.contains(&0) {
        return Err(10);
    }
    Ok(())
}

// ---------------------------------------------------------------------------------------------
// Scoring a proposed list
// ---------------------------------------------------------------------------------------------

/// A loaded book's questions, 9, 10, then 16 to 19; the score of the proposed steps, and the four counts.
pub fn score(book: &[i32], direction: &[u16], steps: &[Step]) -> Result<Scoring, u8> {
    let book = check_book(book)?;
    check_direction(direction)?;
    let n = direction.len();
    let mut covered = 0u32;
    let mut r = 0i64;
    let (mut v, mut w) = (0u16, 0u16);
    let mut total = 0i64;
    let mut supplied = [0; 4];
    for &(first, last, entry) in steps {
        let (first, last, entry) = (first as usize, last as usize, entry as usize);
        if entry < 1 || entry > book.phrases.len() || first < 1 || last < first || last > n {
            return Err(16);
        }
        let phrase = &book.phrases[entry - 1];
        if direction[first - 1..last] != *phrase.source() {
            return Err(16);
        }
        let mask = span_mask(first, last);
        if covered & mask != 0 {
            return Err(17);
        }
        let jump = (r + 1 - first as i64).abs();
        if jump > book.d as i64 {
            return Err(18);
        }
        covered |= mask;
        r = last as i64;
        total += phrase.g as i64 + book.eta as i64 * jump;
        for &y in phrase.target() {
            total += book.triple_score(v, w, y);
            supplied[book.supplier(v, w, y)] += 1;
            (v, w) = (w, y);
        }
    }
    if covered != span_mask(1, n) {
        return Err(19);
    }
    Ok(Scoring {
        score: total,
        supplied,
    })
}

/// Bits first - 1 to last - 1; 1 <= first <= last <= 32.
fn span_mask(first: usize, last: usize) -> u32 {
    (u32::MAX >> (32 - (last - first + 1))) << (first - 1)
}

// ---------------------------------------------------------------------------------------------
// Decoding
// ---------------------------------------------------------------------------------------------

/// What makes two states equal: the last two words, the covered positions, r.
type Key = (u16, u16, u32, u8);

/// A state as it stands in its set, with the way back.
#[derive(Clone, Copy)]
struct State {
    key: Key,
    score: i64,
    way: Way,
}

impl State {
    /// Does this state yield to another of its set, of that score and way?
    fn yields(&self, score: i64, way: &Way, sets: &[Set]) -> bool {
        score > self.score || (score == self.score && comes_first(sets, way, &self.way))
    }
}

/// The way back: the last step, and where the state that it was taken from stands.
#[derive(Clone, Copy)]
struct Way {
    from_set: u8,
    from_at: u32,
    step: Step,
}

impl Way {
    fn from<'a>(&self, sets: &'a [Set]) -> &'a State {
        &sets[self.from_set as usize].states[self.from_at as usize]
    }
}

/// A phrase at a place where it fits.
struct Fit<'a> {
    first: usize,
    last: usize,
    mask: u32,
    entry: u16,
    target: &'a [u16],
    /// g and the scores of the triples that lie inside the target words.
    inner: i64,
}

/// Set i of the notes: the states in the order they came, and where each key stands.
#[derive(Default)]
struct Set {
    states: Vec<State>,
    at: HashMap<Key, u32>,
}

/// "Among derivations of equal score the first in order wins": do the steps that lead along `a` come
/// before those along `b`, another way to the same set? The same steps lead to the same state, so
/// that the lists of steps part just after the last state that both ways go through.
/// Not inlined: with scores that differ it is not called.
#[inline(never)]
fn comes_first<'a>(sets: &'a [Set], mut a: &'a Way, mut b: &'a Way) -> bool {
    while (a.from_set, a.from_at) != (b.from_set, b.from_at) {
        if a.from_set < b.from_set {
            b = &b.from(sets).way;
        } else {
            a = &a.from(sets).way;
        }
    }
    a.step < b.step
}

/// A loaded book's questions, then 9 to 15. The lists are lent by their lengths alone: places for
/// steps, places for words, and 64-bit numbers in the store.
pub fn decode(
    book: &[i32],
    direction: &[u16],
    width: i64,
    steps_len: usize,
    words_len: usize,
    store_len: usize,
) -> Result<Answer, u8> {
    let book = check_book(book)?;
    check_direction(direction)?;
    if width < -1 {
        return Err(11);
    }
    if steps_len < direction.len() || words_len < 8 * direction.len() {
        return Err(12);
    }
    search(&book, direction, width, store_len / 8)
}

/// The notes' procedure by sets, for a checked book and direction (questions 13 to 15).
pub fn search(book: &Book, direction: &[u16], width: i64, room: usize) -> Result<Answer, u8> {
    let n = direction.len();
    let (d, eta) = (book.d as usize, book.eta as i64);
    let fits = fitting_phrases(book, direction);

    let mut sets: Vec<Set> = (0..=n).map(|_| Set::default()).collect();
    let start = State {
        key: (0, 0, 0, 0),
        score: 0,
        way: Way {
            from_set: 0,
            from_at: 0,
            step: (0, 0, 0),
        },
    };
    sets[0].states.push(start);
    let mut entered = 1usize;
    if entered > room {
        return Err(13);
    }

    for i in 0..n {
        // No later step adds to sets 0 to i, while the later ones grow.
        let (done, later) = sets.split_at_mut(i + 1);
        done[i].at = HashMap::new();
        let states = &done[i].states;
        let best = states.iter().map(|q| q.score).max().unwrap_or(0);
        for (from_at, q) in states.iter().enumerate() {
            // Scores differ by no more than 1,620,480,000, so this side cannot overflow.
            if width >= 0 && best - q.score > width {
                continue;
            }
            let (v, w, covered, r) = q.key;
            let next = r as usize + 1;
            let low = next.saturating_sub(d).max(1);
            let high = (next + d).min(n);
            for first in low..=high {
                if covered & (1 << (first - 1)) != 0 {
                    continue;
                }
                let jump = first.abs_diff(next) as i64;
                for fit in &fits[first - 1] {
                    if covered & fit.mask != 0 {
                        continue;
                    }
                    let mut score = q.score + fit.inner + eta * jump;
                    let (e1, e2);
                    score += book.triple_score(v, w, fit.target[0]);
                    if let [.., y1, y2] = *fit.target {
                        score += book.triple_score(w, fit.target[0], fit.target[1]);
                        (e1, e2) = (y1, y2);
                    } else {
                        (e1, e2) = (w, fit.target[0]);
                    }
                    let key = (e1, e2, covered | fit.mask, fit.last as u8);
                    let way = Way {
                        from_set: i as u8,
                        from_at: from_at as u32,
                        step: (fit.first as u16, fit.last as u16, fit.entry),
                    };
                    let state = State { key, score, way };
                    let set = &mut later[key.2.count_ones() as usize - i - 1];
                    match set.at.entry(key) {
                        std::collections::hash_map::Entry::Occupied(at) => {
                            let old = &mut set.states[*at.get() as usize];
                            if old.yields(score, &way, done) {
                                *old = state;
                            }
                        }
                        std::collections::hash_map::Entry::Vacant(at) => {
                            entered += 1;
                            if entered > room {
                                return Err(13);
                            }
                            at.insert(set.states.len() as u32);
                            set.states.push(state);
                        }
                    }
                }
            }
        }
    }

    let mut best: Option<&State> = None;
    for q in &sets[n].states {
        if best.is_none_or(|b| b.yields(q.score, &q.way, &sets)) {
            best = Some(q);
        }
    }
    let Some(mut q) = best else {
        return Err(if width == -1 { 14 } else { 15 });
    };
    let score = q.score;
    let mut steps = Vec::new();
    while q.key.2 != 0 {
        steps.push(q.way.step);
        q = q.way.from(&sets);
    }
    steps.reverse();
    let words: Vec<u16> = steps
        .iter()
        .flat_map(|&(_, _, entry)| book.phrases[entry as usize - 1].target().iter().copied())
        .collect();
    Ok(Answer {
        score,
        states: entered,
        supplied: book.supplied(&words),
        steps,
        words,
    })
}

/// For each first position (from 0), the phrases that fit there.
fn fitting_phrases<'a>(book: &'a Book, direction: &[u16]) -> Vec<Vec<Fit<'a>>> {
    let n = direction.len();
    let mut places: HashMap<u16, Vec<usize>> = HashMap::new();
    for (k, &word) in direction.iter().enumerate() {
        places.entry(word).or_default().push(k);
    }
    let mut fits: Vec<Vec<Fit>> = (0..n).map(|_| Vec::new()).collect();
    for (k, phrase) in book.phrases.iter().enumerate() {
        let source = phrase.source();
        let Some(starts) = places.get(&source[0]) else {
            continue;
        };
        let mut inner = None;
        for &start in starts {
            let end = start + source.len();
            if end > n || direction[start..end] != *source {
                continue;
            }
            let inner = *inner.get_or_insert_with(|| {
                let within: i64 = phrase
                    .target()
                    .windows(3)
                    .map(|t| book.triple_score(t[0], t[1], t[2]))
                    .sum();
                within + phrase.g as i64
            });
            fits[start].push(Fit {
                first: start + 1,
                last: end,
                mask: span_mask(start + 1, end),
                entry: k as u16 + 1,
                target: phrase.target(),
                inner,
            });
        }
    }
    fits
}

// ---------------------------------------------------------------------------------------------
// Replies as text
// ---------------------------------------------------------------------------------------------

/// The lines A, S and W, or R, each ended by byte 10.
pub fn reply(result: &Result<Answer, u8>) -> Vec<u8> {
    let mut out = String::new();
    match result {
        Err(number) => out.push_str(&format!("R,{number}\n")),
        Ok(answer) => {
            out.push_str(&format!("{}\n", answer.counts()));
            for (first, last, entry) in &answer.steps {
                out.push_str(&format!("S,{first},{last},{entry}\n"));
            }
            out.push('W');
            for word in &answer.words {
                out.push_str(&format!(",{word}"));
            }
            out.push('\n');
        }
    }
    out.into_bytes()
}

/// What the rendering program prints for these bytes of book.txt and of standard input.
pub fn render(book_text: &[u8], direction_text: &[u8]) -> Vec<u8> {
    if book_text.len() > 8192 || direction_text.len() > 512 {
        return reply(&Err(7));
    }
    let result = (|| {
        let book = read_book(book_text, usize::MAX)?;
        let direction = read_direction(direction_text, usize::MAX)?;
        decode(&book, &direction, -1, usize::MAX, usize::MAX, 8 * 512)
    })();
    reply(&result)
}
