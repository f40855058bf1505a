//! Deterministic random inputs: books as lines, as loaded lists and as text, directions, widths,
//! list lengths and proposals; good ones, and ones damaged so that a given question refuses them.

use crate::{decode, plain, Answer, Book, Step, WIDEST};
use std::collections::HashSet;

/// SplitMix64.
#[derive(Clone, Debug)]
pub struct Rng(u64);

impl Rng {
    pub fn new(seed: u64) -> Rng {
        Rng(seed)
    }
    pub fn draw(&mut self) -> u64 {
        self.0 = self.0.wrapping_add(0x9E37_79B9_7F4A_7C15);
        let mut z = self.0;
        z = (z ^ (z >> 30)).wrapping_mul(0xBF58_476D_1CE4_E5B9);
        z = (z ^ (z >> 27)).wrapping_mul(0x94D0_49BB_1331_11EB);
        z ^ (z >> 31)
    }
    /// 0 to n - 1; n at least 1.
    pub fn below(&mut self, n: usize) -> usize {
        (self.draw() % n as u64) as usize
    }
    /// low to high, both included.
    pub fn between(&mut self, low: i64, high: i64) -> i64 {
        low + (self.draw() % (high - low + 1) as u64) as i64
    }
    /// True in `part` of `whole` cases.
    pub fn chance(&mut self, part: usize, whole: usize) -> bool {
        self.below(whole) < part
    }
    pub fn pick<T: Copy>(&mut self, of: &[T]) -> T {
        of[self.below(of.len())]
    }
}

/// A book as lines: each the kind (1 to 5) and then its numbers.
pub type Lines = Vec<Vec<i64>>;

/// What kind of books and directions are made.
#[derive(Clone, Debug)]
pub struct Shape {
    /// Source words are source_base .. source_base + source_words - 1, and so for the target.
    pub source_base: i64,
    pub source_words: i64,
    pub target_base: i64,
    pub target_words: i64,
    pub max_phrases: usize,
    pub max_triples: usize,
    pub max_pairs: usize,
    pub max_words: usize,
    pub max_source: i64,
    pub max_target: i64,
    pub max_direction: usize,
    /// Scores and eta are drawn from these, entries repeated and put together: ties and pruning are
    /// frequent. None: any scores.
    pub ties: &'static [i64],
    /// Where it is not 0, and there are no ties: the end of the range at which most scores and
    /// weights are. Most entries have many target words then, whose scores sum up to millions.
    pub end: i64,
}

/// What a shape with ties draws its scores from.
const FEW: [&[i64]; 4] = [&[0], &[-1, 0], &[-1, 0, 1], &[-2, -1, 0, 1]];

impl Shape {
    /// Small enough that every derivation can be listed.
    pub fn small(rng: &mut Rng) -> Shape {
        let ties = if rng.chance(1, 2) {
            rng.pick(&FEW)
        } else {
            &[]
        };
        let source_words = rng.between(1, 4);
        let target_words = rng.between(1, if ties.is_empty() { 6 } else { 3 });
        Shape {
            source_base: rng.pick(&[1, 11, 300, 65_536 - source_words]),
            source_words,
            target_base: rng.pick(&[1, 101, 300, 65_536 - target_words]),
            target_words,
            max_phrases: 9,
            max_triples: rng.pick(&[0, 4, 12, 30]),
            max_pairs: rng.pick(&[0, 3, 8, 8, 8, 20, 20, 20]),
            max_words: rng.pick(&[0, 2, 4, 4, 4, 7, 7, 7]),
            max_source: rng.pick(&[1, 2, 3, 3, 8]),
            max_target: rng.pick(&[1, 2, 3, 3, 8]),
            max_direction: 6,
            ties,
            end: rng.pick(&[0, 0, 0, 0, 0, 0, -1_000_000, 1_000_000]),
        }
    }

    /// The same with ties and pruning frequent.
    pub fn small_ties(rng: &mut Rng) -> Shape {
        let mut shape = Shape::small(rng);
        shape.ties = rng.pick(&FEW);
        shape.target_words = shape.target_words.min(3);
        shape
    }

    /// For runs against another decoder: longer directions, more phrases, hundreds to thousands
    /// of states.
    pub fn middle(rng: &mut Rng) -> Shape {
        let mut shape = Shape::small(rng);
        shape.source_words = rng.between(3, 12);
        shape.target_words = rng.between(2, 12);
        shape.source_base = rng.pick(&[1, 11, 65_536 - shape.source_words]);
        shape.target_base = rng.pick(&[1, 101, 65_536 - shape.target_words]);
        shape.max_phrases = 40;
        shape.max_triples = 200;
        shape.max_pairs = rng.pick(&[0, 20, 100, 100]);
        shape.max_words = rng.pick(&[0, 6, 13, 13]);
        shape.max_direction = rng.pick(&[8, 10, 12, 32]);
        shape
    }

    fn source(&self, rng: &mut Rng) -> i64 {
        self.source_base + rng.below(self.source_words as usize) as i64
    }
    pub fn target(&self, rng: &mut Rng) -> i64 {
        self.target_base + rng.below(self.target_words as usize) as i64
    }
    fn at_end(&self) -> bool {
        self.ties.is_empty() && self.end != 0
    }
    /// How many target words an entry has.
    fn target_long(&self, rng: &mut Rng, most: i64) -> i64 {
        if self.at_end() && rng.chance(3, 4) {
            return rng.between(5, 8);
        }
        rng.between(1, most)
    }
    pub fn score(&self, rng: &mut Rng) -> i64 {
        if !self.ties.is_empty() {
            return rng.pick(self.ties);
        }
        match rng.below(8) {
            0 => rng.pick(&[-1_000_000, 1_000_000, 0, -999_999, 999_999]),
            1 => rng.between(-1_000_000, 1_000_000),
            _ if self.at_end() => self.end,
            2 => rng.between(-9, 9),
            _ => rng.between(-3_000, 0),
        }
    }
    /// A back-off weight: of either sign, and now and then at an end of the range.
    pub fn weight(&self, rng: &mut Rng) -> i64 {
        if !self.ties.is_empty() {
            return rng.pick(self.ties);
        }
        match rng.below(8) {
            0 => rng.pick(&[-1_000_000, 1_000_000, 0, -999_999, 999_999]),
            1 => rng.between(-1_000_000, 1_000_000),
            _ if self.at_end() => self.end,
            _ => rng.between(-1_500, 1_500),
        }
    }
    /// The start symbol now and then, else a target word.
    fn target_or_start(&self, rng: &mut Rng) -> i64 {
        if rng.chance(1, 4) {
            0
        } else {
            self.target(rng)
        }
    }
    fn eta(&self, rng: &mut Rng) -> i64 {
        if !self.ties.is_empty() {
            return rng.pick(self.ties);
        }
        match rng.below(6) {
            0 => rng.pick(&[-10_000, 10_000, 0]),
            1 => rng.between(-10_000, 10_000),
            _ => rng.between(-500, 0),
        }
    }
}

// ------------------------------------------------------------------------------------- books

/// A good book as lines.
pub fn lines(rng: &mut Rng, shape: &Shape) -> Lines {
    let d = match rng.below(8) {
        0 => 0,
        1 => 32,
        _ => rng.between(0, shape.max_direction as i64),
    };
    let mut body = word_for_word(rng, shape);
    more_phrases(rng, shape, &mut body);
    triple_lines(rng, shape, &mut body);
    pair_lines(rng, shape, &mut body);
    word_lines(rng, shape, &mut body);
    // P, T, U and D lines in any mixture.
    if rng.chance(1, 2) {
        for k in (1..body.len()).rev() {
            let j = rng.below(k + 1);
            body.swap(k, j);
        }
    }
    let mut all = vec![vec![1, d, shape.eta(rng), shape.score(rng)]];
    all.extend(body);
    all
}

/// A word-for-word entry for most source words, so that derivations are common.
fn word_for_word(rng: &mut Rng, shape: &Shape) -> Lines {
    let mut body: Lines = Vec::new();
    if rng.chance(3, 4) {
        for k in 0..shape.source_words {
            if body.len() < shape.max_phrases && rng.chance(7, 8) {
                let b = shape.target_long(rng, shape.max_target.min(2));
                let mut line = vec![2, 1, b, shape.source_base + k];
                for _ in 0..b {
                    line.push(shape.target(rng));
                }
                line.push(shape.score(rng));
                body.push(line);
            }
        }
    }
    body
}

/// More P lines, up to a number of them.
fn more_phrases(rng: &mut Rng, shape: &Shape, body: &mut Lines) {
    let goal = rng.below(shape.max_phrases + 1);
    let one_of = if shape.ties.is_empty() { 20 } else { 6 };
    while body.len() < goal {
        if !body.is_empty() && rng.chance(1, one_of) {
            // An equal entry.
            let line = body[rng.below(body.len())].clone();
            body.push(line);
        } else if !body.is_empty() && rng.chance(1, one_of) {
            // Two entries' words and scores in one.
            let (one, other) = (rng.below(body.len()), rng.below(body.len()));
            body.push(put_together(&body[one], &body[other]));
        } else {
            body.push(phrase(rng, shape));
        }
    }
}

/// A P line of its own.
pub fn phrase(rng: &mut Rng, shape: &Shape) -> Vec<i64> {
    let a = rng.between(1, shape.max_source);
    let b = shape.target_long(rng, shape.max_target);
    let mut line = vec![2, a, b];
    for _ in 0..a {
        line.push(shape.source(rng));
    }
    for _ in 0..b {
        line.push(shape.target(rng));
    }
    line.push(shape.score(rng));
    line
}

fn triple_lines(rng: &mut Rng, shape: &Shape, body: &mut Lines) {
    let mut seen = HashSet::new();
    for _ in 0..rng.below(shape.max_triples + 1) {
        let y = shape.target(rng);
        let (v, w) = match rng.below(4) {
            0 => (0, 0),
            1 => (0, shape.target(rng)),
            2 if rng.chance(1, 8) => (shape.target(rng), 0),
            _ => (shape.target(rng), shape.target(rng)),
        };
        if seen.insert((v, w, y)) {
            body.push(vec![3, v, w, y, shape.score(rng)]);
        }
    }
}

fn pair_lines(rng: &mut Rng, shape: &Shape, body: &mut Lines) {
    let mut seen = HashSet::new();
    for _ in 0..rng.below(shape.max_pairs + 1) {
        let (w, y) = (shape.target_or_start(rng), shape.target(rng));
        if seen.insert((w, y)) {
            body.push(vec![5, w, y, shape.score(rng), shape.weight(rng)]);
        }
    }
}

fn word_lines(rng: &mut Rng, shape: &Shape, body: &mut Lines) {
    let mut seen = HashSet::new();
    for _ in 0..rng.below(shape.max_words + 1) {
        let y = shape.target_or_start(rng);
        if seen.insert(y) {
            body.push(vec![4, y, shape.score(rng), shape.weight(rng)]);
        }
    }
}

/// A P line that says what two say one after the other, at the same score; the first of them where
/// it would be too long or its score out of range.
fn put_together(one: &[i64], other: &[i64]) -> Vec<i64> {
    let parts = |line: &[i64]| {
        let (words, at) = (&line[3..line.len() - 1], line[1] as usize);
        (words[..at].to_vec(), words[at..].to_vec())
    };
    let ((x1, y1), (x2, y2)) = (parts(one), parts(other));
    let (source, target) = ([x1, x2].concat(), [y1, y2].concat());
    let score = one[one.len() - 1] + other[other.len() - 1];
    if source.len() > 8 || target.len() > 8 || score.abs() > 1_000_000 {
        return one.to_vec();
    }
    let sizes = vec![2, source.len() as i64, target.len() as i64];
    [sizes, source, target, vec![score]].concat()
}

/// A good book of just so many P, T, U and D lines (each T, U and D line with words of its own).
pub fn lines_of(rng: &mut Rng, shape: &Shape, counts: [usize; 4]) -> Lines {
    let [phrases, triples, words, pairs] = counts;
    let d = rng.between(0, 32);
    let mut all = vec![vec![1, d, shape.eta(rng), shape.score(rng)]];
    for _ in 0..phrases {
        let (x, y) = (shape.source(rng), shape.target(rng));
        all.push(vec![2, 1, 1, x, y, shape.score(rng)]);
    }
    for (kind, count) in [(3, triples), (4, words), (5, pairs)] {
        for k in 0..count as i64 {
            all.push(own_words(rng, shape, kind, k));
        }
    }
    all
}

/// The k-th of up to 65,536 T, U or D lines, with words that no other of them has.
pub fn own_words(rng: &mut Rng, shape: &Shape, kind: i64, k: i64) -> Vec<i64> {
    let s = shape.score(rng);
    match kind {
        3 => vec![3, k / 256, k % 256, shape.target(rng), s],
        4 => vec![4, k, s, shape.weight(rng)],
        _ => vec![5, k / 256, 1 + k % 256, s, shape.weight(rng)],
    }
}

/// A line of a book as its record: a B line gains the counts of the book's P and T lines.
fn record(lines: &Lines, line: &[i64]) -> Vec<i32> {
    let count = |kind: i64| lines.iter().filter(|line| line[0] == kind).count() as i64;
    let counts = match line[0] {
        1 => vec![count(2), count(3)],
        _ => Vec::new(),
    };
    line.iter().chain(&counts).map(|&x| x as i32).collect()
}

/// Lines as a loaded list.
pub fn loaded(lines: &Lines) -> Vec<i32> {
    lines.iter().flat_map(|line| record(lines, line)).collect()
}

/// Lines as text.
pub fn text(lines: &Lines) -> Vec<u8> {
    let mut out = String::new();
    for line in lines {
        out.push(match line[0] {
            1 => 'B',
            2 => 'P',
            3 => 'T',
            4 => 'U',
            _ => 'D',
        });
        for x in &line[1..] {
            out.push_str(&format!(",{x}"));
        }
        out.push('\n');
    }
    out.into_bytes()
}

/// Damages lines so that question `code` (3, 4, 5, 6 or 20) refuses them, whatever is wrong by the
/// later ones. `in_text`: the numbers must still be of 1 to 7 digits.
pub fn damage_lines(rng: &mut Rng, shape: &Shape, lines: &mut Lines, code: u8, in_text: bool) {
    match code {
        3 => damage_lines_3(rng, lines, in_text),
        4 => damage_lines_4(rng, lines, in_text),
        5 => too_many(rng, shape, lines),
        6 => repeat_words(rng, shape, lines, 3),
        20 => {
            let kind = rng.pick(&[4, 5]);
            repeat_words(rng, shape, lines, kind);
        }
        _ => panic!("no such damage to lines"),
    }
}

fn damage_lines_3(rng: &mut Rng, lines: &mut Lines, in_text: bool) {
    let kind = rng.below(4);
    if kind == 0 && lines.len() > 1 {
        lines.remove(0);
    } else if kind == 1 && lines.len() > 1 {
        let first = lines.remove(0);
        let at = 1 + rng.below(lines.len());
        lines.insert(at, first);
    } else if kind == 2 && !in_text {
        lines.clear();
    } else {
        let at = rng.below(lines.len() + 1);
        let line = vec![1, rng.between(0, 32), 0, 0];
        lines.insert(at, line);
    }
}

pub fn damage_lines_4(rng: &mut Rng, lines: &mut Lines, in_text: bool) {
    let k = rng.below(lines.len());
    let line = &mut lines[k];
    let first = if line[0] == 2 { 3 } else { 1 };
    let at = first + rng.below(line.len() - first);
    let left = line.len() - 1 - at;
    // Just past the range.
    let mut bad = match (line[0], at) {
        (1, 1) => vec![-1, 33],
        (1, 2) => vec![-10_001, 10_001],
        (3, 1 | 2) | (4 | 5, 1) => vec![-1, 65_536],
        (4 | 5, _) if left < 2 => vec![-1_000_001, 1_000_001],
        _ if left == 0 => vec![-1_000_001, 1_000_001],
        _ => vec![0, -1, 65_536],
    };
    // Far past it.
    bad.extend(if in_text {
        [9_999_999, -9_999_999]
    } else {
        [i32::MAX as i64, i32::MIN as i64]
    });
    line[at] = rng.pick(&bad);
}

/// One line more of some kind than is allowed, or more.
fn too_many(rng: &mut Rng, shape: &Shape, lines: &mut Lines) {
    let kind = rng.pick(&[2, 2, 3, 4, 5]);
    if kind == 2 {
        for _ in 0..4097 {
            lines.push(vec![2, 1, 1, shape.source(rng), shape.target(rng), 0]);
        }
        return;
    }
    lines.retain(|line| line[0] != kind);
    for k in 0..8193 {
        let mut line = own_words(rng, shape, kind, k);
        // Short numbers: the text is long enough.
        let scores = if kind == 3 { 1 } else { 2 };
        let at = line.len() - scores;
        line[at..].fill(0);
        lines.push(line);
    }
}

/// A line of that kind (3, 4 or 5) twice, with the same scores or with others.
fn repeat_words(rng: &mut Rng, shape: &Shape, lines: &mut Lines, kind: i64) {
    let those: Vec<usize> = (0..lines.len()).filter(|&k| lines[k][0] == kind).collect();
    let mut line = if those.is_empty() {
        let y = shape.target(rng);
        let line = match kind {
            3 => vec![3, 0, 0, y, shape.score(rng)],
            4 => vec![4, rng.pick(&[0, y]), shape.score(rng), shape.weight(rng)],
            _ => vec![5, rng.pick(&[0, y]), y, shape.score(rng), shape.weight(rng)],
        };
        lines.push(line.clone());
        line
    } else {
        lines[rng.pick(&those)].clone()
    };
    if rng.chance(1, 2) {
        let last = line.len() - 1;
        line[last] = shape.score(rng);
    }
    if kind != 3 && rng.chance(1, 2) {
        let last = line.len() - 1;
        line[last - 1] = shape.score(rng);
    }
    let at = 1 + rng.below(lines.len());
    lines.insert(at, line);
}

/// Damages a loaded list so that question 2 refuses it.
pub fn damage_loaded_2(rng: &mut Rng, lines: &Lines) -> Vec<i32> {
    let mut list = loaded(lines);
    let mut starts = Vec::new();
    let mut at = 0;
    for line in lines {
        starts.push(at);
        at += record(lines, line).len();
    }
    let odd = [0, 6, -1, 66, 68, 80, 84, 85, i32::MAX, i32::MIN];
    let phrases: Vec<usize> = (0..lines.len())
        .filter(|&k| lines[k][0] == 2)
        .map(|k| starts[k])
        .collect();
    match rng.below(4) {
        0 if !starts.is_empty() => list[rng.pick(&starts)] = rng.pick(&odd),
        1 if !phrases.is_empty() => {
            let at = rng.pick(&phrases) + 1 + rng.below(2);
            list[at] = rng.pick(&[0, 9, -1, 10, i32::MAX, i32::MIN, 65_537, -8]);
        }
        2 if !starts.is_empty() => {
            let last = *starts.last().unwrap();
            let keep = last + 1 + rng.below(list.len() - last - 1);
            list.truncate(keep);
        }
        _ => list.push(if rng.chance(1, 2) {
            rng.pick(&odd)
        } else {
            rng.between(1, 5) as i32
        }),
    }
    list
}

/// Damages lines so that question 2 refuses their text (and question 1 does not).
pub fn damage_lines_for_text_2(rng: &mut Rng, lines: &mut Lines) {
    let k = rng.below(lines.len());
    let line = &mut lines[k];
    match rng.below(4) {
        0 => {
            let keep = 2 + rng.below(line.len() - 2);
            line.truncate(keep);
        }
        1 => {
            for _ in 0..=rng.below(3) {
                line.push(rng.between(0, 9));
            }
        }
        2 if line[0] == 2 => {
            // a or b changed, within the range or not.
            let at = 1 + rng.below(2);
            let old = line[at];
            while line[at] == old {
                line[at] = rng.between(-2, 12);
            }
        }
        3 if line[0] == 2 => {
            // A phrase of nine words, with all its fields.
            let at = 1 + rng.below(2);
            let place = if at == 1 { 3 } else { 3 + line[1] as usize };
            while line[at] < 9 {
                line[at] += 1;
                line.insert(place, 1);
            }
        }
        _ => line.push(1),
    }
}

/// Damages a text so that question 1 refuses it.
pub fn damage_text_1(rng: &mut Rng, text: &mut Vec<u8>) {
    // Starts of lines, starts of numbers (after a comma), ends of lines.
    let starts: Vec<usize> = (0..text.len())
        .filter(|&k| k == 0 || text[k - 1] == b'\n')
        .collect();
    let commas: Vec<usize> = (0..text.len()).filter(|&k| text[k] == b',').collect();
    let ends: Vec<usize> = (0..text.len()).filter(|&k| text[k] == b'\n').collect();
    let insert = |text: &mut Vec<u8>, at: usize, what: &[u8]| {
        text.splice(at..at, what.iter().copied());
    };
    match rng.below(14) {
        0 => text.clear(),
        1 => {
            text.pop();
        }
        2 => insert(text, rng.pick(&starts), b"\n"),
        3 => text.push(b'\n'),
        4 => text[rng.pick(&starts)] = rng.pick(b"bptudACEVX0 ,\r\x00\xff-"),
        5 => insert(text, rng.pick(&starts), b"B\n"),
        6 => insert(text, rng.pick(&commas), b","),
        7 => insert(text, rng.pick(&ends), b","),
        8 => {
            let bad: &[&[u8]] = &[b"0", b"00", b"-0", b"--", b"+", b" ", b"-,", b"- "];
            let what = bad[rng.below(bad.len())];
            let at = rng.pick(&commas) + 1;
            // "0" before "0" or a digit is a needless zero; before a minus no number at all.
            insert(text, at, what);
        }
        9 => insert(text, rng.pick(&ends), b"\r"),
        10 => insert(text, rng.pick(&commas) + 1, b"12345678,"),
        11 => insert(text, rng.pick(&commas) + 1, b"1-2,"),
        12 => {
            let at = rng.pick(&starts) + 1;
            text.remove(at);
        }
        _ => insert(
            text,
            rng.pick(&ends),
            rng.pick(&[&b"."[..], b" ", b"e1", b"-", b"\x80", b";"]),
        ),
    }
}

/// Now and then something that a question after `code` refuses too.
fn damage_later(rng: &mut Rng, shape: &Shape, lines: &mut Lines, code: u8, in_text: bool) {
    let order = [1, 2, 3, 4, 5, 21, 6, 20];
    let after = order.iter().position(|&c| c == code).map_or(0, |k| k + 1);
    let later: Vec<u8> = (order[after..].iter().copied())
        .filter(|c| [3, 4, 6, 20].contains(c))
        .collect();
    if !later.is_empty() && rng.chance(1, 3) {
        let code = rng.pick(&later);
        damage_lines(rng, shape, lines, code, in_text);
    }
}

/// A loaded book of which 2 to 5, 21, 6 and 20 say `code` (0: good).
pub fn book_saying(rng: &mut Rng, shape: &Shape, code: u8) -> Vec<i32> {
    let mut all = lines(rng, shape);
    if code != 0 {
        damage_later(rng, shape, &mut all, code, false);
    }
    if ![0, 2, 21].contains(&code) {
        damage_lines(rng, shape, &mut all, code, false);
    }
    let mut list = match code {
        2 => damage_loaded_2(rng, &all),
        _ => loaded(&all),
    };
    if code == 21 || ([2, 3, 4, 5].contains(&code) && rng.chance(1, 4)) {
        wrong_counts(rng, &mut list);
    }
    list
}

/// A number that is not the count: near it, far from it, or what another kind of line is allowed.
fn wrong_count(rng: &mut Rng, count: i32) -> i32 {
    let near = [count - 1, count + 1, -count, 0, 4_096, 8_192];
    let far = [-1, i32::MAX, i32::MIN, rng.draw() as i32];
    let wrong = [&near[..], &far].concat();
    let wrong: Vec<i32> = wrong.into_iter().filter(|&x| x != count).collect();
    rng.pick(&wrong)
}

/// Changes one or both counts of a list that begins with a B record: by turns, or each anyhow.
fn wrong_counts(rng: &mut Rng, list: &mut [i32]) {
    let [1, _, _, _, phrases, triples, ..] = list else {
        return;
    };
    match rng.below(4) {
        0 if phrases != triples => std::mem::swap(phrases, triples),
        1 => *phrases = wrong_count(rng, *phrases),
        2 => *triples = wrong_count(rng, *triples),
        _ => {
            *phrases = wrong_count(rng, *phrases);
            *triples = wrong_count(rng, *triples);
        }
    }
}

/// A book's text of which 1 to 6 and 20 say `code` (0: good).
pub fn text_saying(rng: &mut Rng, shape: &Shape, code: u8) -> Vec<u8> {
    let mut all = lines(rng, shape);
    if code != 0 {
        damage_later(rng, shape, &mut all, code, true);
    }
    match code {
        0 => text(&all),
        1 => {
            let mut out = text(&all);
            damage_text_1(rng, &mut out);
            out
        }
        2 => {
            damage_lines_for_text_2(rng, &mut all);
            text(&all)
        }
        _ => {
            damage_lines(rng, shape, &mut all, code, true);
            text(&all)
        }
    }
}

/// Bytes changed, put in or taken out anywhere: what is said is for the decoders to agree on.
pub fn mangle_text(rng: &mut Rng, text: &mut Vec<u8>) {
    for _ in 0..=rng.below(2) {
        let byte = if rng.chance(1, 8) {
            rng.draw() as u8
        } else {
            rng.pick(b"0123456789,-\n\nBPTUD")
        };
        change_anywhere(rng, text, byte);
    }
}

/// One element put in, changed or taken out at any place.
pub fn change_anywhere<T>(rng: &mut Rng, row: &mut Vec<T>, new: T) {
    let at = rng.below(row.len() + 1);
    match rng.below(3) {
        0 => row.insert(at, new),
        1 if at < row.len() => row[at] = new,
        2 if at < row.len() => {
            row.remove(at);
        }
        _ => row.push(new),
    }
}

/// Numbers changed, put in or taken out anywhere.
pub fn mangle_list(rng: &mut Rng, list: &mut Vec<i32>) {
    for _ in 0..=rng.below(2) {
        let number = match rng.below(5) {
            0 => rng.draw() as i32,
            1 => rng.pick(&[0, -1, 33, 65_535, 65_536, 1_000_000, 1_000_001, -1_000_001]),
            _ => rng.between(0, 9) as i32,
        };
        change_anywhere(rng, list, number);
    }
}

/// A count of places for a list that needs so many: enough, or (when wanted and possible) short.
pub fn places(rng: &mut Rng, needed: usize, short: bool) -> usize {
    if short && needed > 0 {
        match rng.below(3) {
            0 => needed - 1,
            1 => 0,
            _ => rng.below(needed),
        }
    } else {
        needed + rng.pick(&[0, 0, 1, 5, 1000])
    }
}

// ------------------------------------------------------------------------------- directions

/// A good direction in the shape's words; now and then with a word of no entry.
pub fn direction(rng: &mut Rng, shape: &Shape) -> Vec<u16> {
    let n = 1 + rng.below(shape.max_direction);
    let mut words: Vec<u16> = (0..n).map(|_| shape.source(rng) as u16).collect();
    if rng.chance(1, 12) {
        words[rng.below(n)] = rng.pick(&[7_777, 1, 65_535]);
    }
    words
}

/// A good direction made of the source words of the book's own phrases (so that long phrases
/// fit), at most the shape's longest.
pub fn direction_from(rng: &mut Rng, shape: &Shape, book: &Book) -> Vec<u16> {
    if book.phrases.is_empty() {
        return direction(rng, shape);
    }
    let n = 1 + rng.below(shape.max_direction);
    let mut words = Vec::new();
    while words.len() < n {
        words.extend_from_slice(book.phrases[rng.below(book.phrases.len())].source());
    }
    words.truncate(n.max(1));
    words
}

/// A direction as numbers of which 9 and 10 say `code` (0: good).
pub fn direction_saying(rng: &mut Rng, shape: &Shape, code: u8) -> Vec<u16> {
    let mut words = direction(rng, shape);
    match code {
        9 => {
            if rng.chance(1, 2) {
                words.clear();
            } else {
                let n = rng.pick(&[33, 34, 64, 100]);
                words = (0..n).map(|_| shape.source(rng) as u16).collect();
                if rng.chance(1, 4) {
                    words[rng.below(n)] = 0;
                }
            }
        }
        10 => {
            let at = rng.below(words.len());
            words[at] = 0;
        }
        _ => {}
    }
    words
}

/// A direction as text.
pub fn direction_text(words: &[u16]) -> Vec<u8> {
    let row: Vec<String> = words.iter().map(|w| w.to_string()).collect();
    (row.join(",") + "\n").into_bytes()
}

/// A direction's text of which 8, 9 and 10 say `code` (0: good).
pub fn direction_text_saying(rng: &mut Rng, shape: &Shape, code: u8) -> Vec<u8> {
    let mut words: Vec<i64> = direction(rng, shape)
        .into_iter()
        .map(|w| w as i64)
        .collect();
    if code == 9 || (code == 8 && rng.chance(1, 8)) {
        let n = rng.pick(&[33, 34, 64, 100]);
        words = (0..n).map(|_| shape.source(rng)).collect();
    }
    if code == 10 || (code != 0 && rng.chance(1, 4)) {
        let at = rng.below(words.len());
        words[at] = rng.pick(&[0, -1, 65_536, 9_999_999, -9_999_999]);
    }
    let row: Vec<String> = words.iter().map(|w| w.to_string()).collect();
    let mut out = (row.join(",") + "\n").into_bytes();
    if code == 8 {
        let starts: Vec<usize> = (0..out.len())
            .filter(|&k| k == 0 || out[k - 1] == b',')
            .collect();
        let at = rng.pick(&starts);
        let end = out.len() - 1;
        let mut insert = |at: usize, what: &[u8]| {
            out.splice(at..at, what.iter().copied());
        };
        match rng.below(10) {
            0 => out.clear(),
            1 => {
                out.pop();
            }
            2 => out = b"\n".to_vec(),
            3 => insert(end, b"\n"),
            4 => insert(end, b","),
            5 => insert(
                at,
                rng.pick(&[&b"0"[..], b"-0", b"--", b"+", b" ", b",", b"\n", b"B,"]),
            ),
            6 => insert(at, b"12345678,"),
            7 => insert(end, b"\r"),
            8 => insert(end + 1, b"11\n"),
            _ => insert(
                end,
                rng.pick(&[&b"-"[..], b".", b"a", b"\xff", b"\x00", b"- "]),
            ),
        }
    }
    out
}

// ----------------------------------------------------------------------------- for decoding

/// A width that 11 allows.
pub fn width(rng: &mut Rng, shape: &Shape) -> i64 {
    match rng.below(8) {
        0 | 1 => -1,
        2 => 0,
        3 => rng.pick(&[WIDEST, WIDEST - 1, i64::MAX, i64::MAX - 1]),
        _ if !shape.ties.is_empty() => rng.between(0, 4),
        4 => rng.between(0, 2_000_000),
        _ => rng.between(0, 4_000),
    }
}

/// A width that 11 refuses.
pub fn bad_width(rng: &mut Rng) -> i64 {
    match rng.below(3) {
        0 => -2,
        1 => rng.pick(&[i64::MIN, i64::MIN + 1, -10, -WIDEST]),
        _ => -2 - rng.below(1_000_000) as i64,
    }
}

/// Places for steps and words, for n words: enough, or one of them short.
pub fn lengths(rng: &mut Rng, n: usize, short: bool) -> (usize, usize) {
    let (s, w) = match (short, rng.below(3)) {
        (false, _) => (false, false),
        (_, 0) => (true, false),
        (_, 1) => (false, true),
        _ => (true, true),
    };
    (places(rng, n, s), places(rng, 8 * n, w))
}

/// Numbers in the store, for so many states entered: near the border, or anything.
pub fn store_len(rng: &mut Rng, states: usize) -> usize {
    match rng.below(8) {
        0 => 8 * states,
        1 => 8 * states + 7,
        2 => 8 * states - 1,
        3 => 8 * (states - 1),
        4 => rng.below(8 * states + 1),
        5 => rng.below(9),
        6 => 8 * states + 8 * rng.below(100),
        _ => 8 * 512,
    }
}

/// A whole call of decode.
#[derive(Clone, Debug)]
pub struct DecodeCase {
    pub book: Vec<i32>,
    pub direction: Vec<u16>,
    pub width: i64,
    pub steps_len: usize,
    pub words_len: usize,
    pub store_len: usize,
}

impl DecodeCase {
    /// What the call answers.
    pub fn answer(&self) -> Result<Answer, u8> {
        decode(
            &self.book,
            &self.direction,
            self.width,
            self.steps_len,
            self.words_len,
            self.store_len,
        )
    }
}

/// A call of decode, now and then with things that a loaded book's questions and 9 to 13 refuse (one
/// or more).
pub fn decode_case(rng: &mut Rng, shape: &Shape) -> DecodeCase {
    let mut book = match rng.below(30) {
        0 => {
            let code = rng.pick(&[2, 3, 4, 6, 20, 21]);
            book_saying(rng, shape, code)
        }
        1 => {
            let mut list = book_saying(rng, shape, 0);
            mangle_list(rng, &mut list);
            list
        }
        _ => book_saying(rng, shape, 0),
    };
    if rng.chance(1, 400) {
        book = book_saying(rng, shape, 5);
    }
    let direction = match (rng.below(20), crate::check_book(&book)) {
        (0, _) => {
            let code = rng.pick(&[9, 10]);
            direction_saying(rng, shape, code)
        }
        (1..=10, Ok(checked)) => direction_from(rng, shape, &checked),
        _ => direction(rng, shape),
    };
    let width = if rng.chance(1, 25) {
        bad_width(rng)
    } else {
        width(rng, shape)
    };
    let short = rng.chance(1, 25);
    let (steps_len, words_len) = lengths(rng, direction.len(), short);
    let store_len = match rng.below(5) {
        0 => {
            let states = 1 + rng.below(40);
            store_len(rng, states)
        }
        _ => 8 * 4096,
    };
    DecodeCase {
        book,
        direction,
        width,
        steps_len,
        words_len,
        store_len,
    }
}

// -------------------------------------------------------------------------------- proposals

/// A valid list of steps, by a random walk with a few tries.
pub fn valid_proposal(rng: &mut Rng, book: &Book, direction: &[u16]) -> Option<Vec<Step>> {
    let fitting = plain::every_fitting_step(book, direction);
    for _ in 0..8 {
        let steps = random_walk(rng, book, direction, &fitting);
        if plain::valid(book, direction, &steps) {
            return Some(steps);
        }
    }
    None
}

fn random_walk(rng: &mut Rng, book: &Book, direction: &[u16], fitting: &[Step]) -> Vec<Step> {
    let mut covered = vec![false; direction.len()];
    let mut steps: Vec<Step> = Vec::new();
    loop {
        let r = steps.last().map_or(0, |s| s.1 as i64);
        let open: Vec<Step> = fitting
            .iter()
            .copied()
            .filter(|s| {
                (s.0..=s.1).all(|p| !covered[p as usize - 1])
                    && (r + 1 - s.0 as i64).abs() <= book.d as i64
            })
            .collect();
        if open.is_empty() {
            return steps;
        }
        let step = rng.pick(&open);
        for p in step.0..=step.1 {
            covered[p as usize - 1] = true;
        }
        steps.push(step);
    }
}

/// A proposed list of which 16 to 19 say `code` (0: valid); None when none was found.
pub fn proposal_saying(
    rng: &mut Rng,
    book: &Book,
    direction: &[u16],
    code: u8,
) -> Option<Vec<Step>> {
    let n = direction.len() as u16;
    let count = book.phrases.len() as u16;
    let fitting = plain::every_fitting_step(book, direction);
    if code == 0 {
        return valid_proposal(rng, book, direction);
    }
    let mut steps = random_walk(rng, book, direction, &fitting);
    if code == 19 {
        // A proper beginning of a walk, or a walk that could not be ended.
        let covered: usize = steps.iter().map(|s| (s.1 - s.0 + 1) as usize).sum();
        if covered == direction.len() {
            let keep = rng.below(steps.len());
            steps.truncate(keep);
        }
        return Some(steps);
    }
    // A good beginning, then the bad step, then anything.
    let keep = rng.below(steps.len() + 1);
    let tail: Vec<Step> = steps.split_off(keep);
    let r = steps.last().map_or(0, |s| s.1 as i64);
    let mut covered = vec![false; n as usize];
    for s in &steps {
        for p in s.0..=s.1 {
            covered[p as usize - 1] = true;
        }
    }
    let far = |s: &Step| (r + 1 - s.0 as i64).abs() > book.d as i64;
    let bad = match code {
        16 => {
            let mut found = None;
            for _ in 0..20 {
                let (first, last) = (rng.between(0, n as i64 + 1), rng.between(0, n as i64 + 1));
                let entry = rng.between(0, count as i64 + 1);
                let mut step = (first as u16, last as u16, entry as u16);
                match rng.below(10) {
                    0 => step.0 = rng.pick(&[0, n + 1, u16::MAX]),
                    1 => step.1 = rng.pick(&[0, n + 1, 32, 33, u16::MAX]),
                    2 => step.2 = rng.pick(&[0, count + 1, 4096, 4097, u16::MAX]),
                    3 if !fitting.is_empty() => {
                        step = rng.pick(&fitting);
                        match rng.below(4) {
                            0 => step.1 += 1,
                            1 => step.1 -= 1,
                            2 => step.0 -= 1,
                            _ => step.0 += 1,
                        }
                    }
                    _ => {}
                }
                if !plain::step_fits(book, direction, step) {
                    found = Some(step);
                    break;
                }
            }
            found?
        }
        17 => {
            let over: Vec<Step> = fitting
                .iter()
                .copied()
                .filter(|s| (s.0..=s.1).any(|p| covered[p as usize - 1]))
                .collect();
            if over.is_empty() {
                return None;
            }
            rng.pick(&over)
        }
        18 => {
            let over: Vec<Step> = fitting
                .iter()
                .copied()
                .filter(|s| (s.0..=s.1).all(|p| !covered[p as usize - 1]) && far(s))
                .collect();
            if over.is_empty() {
                return None;
            }
            rng.pick(&over)
        }
        _ => panic!("no such proposal"),
    };
    steps.push(bad);
    if rng.chance(1, 2) {
        steps.extend(tail);
    }
    Some(steps)
}

/// Any list of steps at all: fitting ones, near misses and nonsense.
pub fn any_proposal(rng: &mut Rng, book: &Book, direction: &[u16]) -> Vec<Step> {
    let n = direction.len() as i64;
    let fitting = plain::every_fitting_step(book, direction);
    let size = rng.below(direction.len() + 3);
    let mut steps = Vec::new();
    for _ in 0..size {
        if !fitting.is_empty() && rng.chance(19, 20) {
            steps.push(rng.pick(&fitting));
        } else {
            let entry = rng.between(0, book.phrases.len() as i64 + 1) as u16;
            steps.push((
                rng.between(0, n + 1) as u16,
                rng.between(0, n + 1) as u16,
                entry,
            ));
        }
    }
    steps
}

// ---------------------------------------------------------------------------- for timing

/// A book as large as allowed (4,096 P and 8,192 T lines) and a direction of n words that many
/// of its phrases fit: about `per_word` entries of one word for each source word, the others of
/// 2 to 4 source words.
pub fn large_case(rng: &mut Rng, n: usize, d: i64, per_word: usize) -> (Vec<i32>, Vec<u16>) {
    let source_words = 200;
    let target_words = 120;
    let mut all: Lines = vec![vec![1, d, -100, -4_000]];
    for k in 0..source_words {
        for _ in 0..per_word {
            let b = rng.between(1, 2);
            let mut line = vec![2, 1, b, 1_000 + k];
            line.extend((0..b).map(|_| 2_000 + rng.between(0, target_words - 1)));
            line.push(rng.between(-3_000, -100));
            all.push(line);
        }
    }
    while all.len() < 1 + 4_096 {
        let (a, b) = (rng.between(2, 4), rng.between(1, 4));
        let mut line = vec![2, a, b];
        line.extend((0..a).map(|_| 1_000 + rng.between(0, source_words - 1)));
        line.extend((0..b).map(|_| 2_000 + rng.between(0, target_words - 1)));
        line.push(rng.between(-4_000, -100));
        all.push(line);
    }
    let mut direction: Vec<u16> = Vec::new();
    while direction.len() < n {
        let line = &all[1 + rng.below(4_096)];
        direction.extend(line[3..3 + line[1] as usize].iter().map(|&x| x as u16));
    }
    direction.truncate(n);
    let mut seen = HashSet::new();
    while seen.len() < 8_192 {
        let mut word = || 2_000 + rng.between(0, target_words - 1);
        let (mut v, mut w, y) = (word(), word(), word());
        if rng.chance(1, 20) {
            v = 0;
            if rng.chance(1, 3) {
                w = 0;
            }
        }
        if seen.insert((v, w, y)) {
            all.push(vec![3, v, w, y, rng.between(-3_000, -100)]);
        }
    }
    (loaded(&all), direction)
}
