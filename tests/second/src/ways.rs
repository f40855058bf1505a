//! The ways in which a triple comes by its score (ticket 2 of 02), and how often each was met: of the target words of every successful
//! scoring and decode. A weight counts where it is not 0: one that is 0 shows nothing. How often an answer had one supplier alone, or all
//! four (ticket 3). And how often the words of a phrase summed up to millions (ticket 4).

use crate::{check_book, plain, Book, Step, Supplied};

pub const WAYS: [&str; 7] = [
    "a T line",
    "a pair",
    "a weight and a pair",
    "a word",
    "weights and a word",
    "u",
    "weights and u",
];

/// What supplied the target words of an answer of several words, where that is one of the four alone, or all of them.
pub const MIXTURES: [&str; 5] = [
    "triples alone",
    "pairs alone",
    "words alone",
    "u alone",
    "all four",
];

/// What the triple scores inside a phrase sum up to: on either side of 0, a third of what 32 bits have to hold.
pub const SUMS: [&str; 2] = ["-8,000,000 or less", "8,000,000 or more"];

/// Each way has to be met so often, where a run asks for its refusals too.
pub const LEAST: u64 = 100;
/// And so often each mixture.
pub const LEAST_ANSWERS: u64 = 20;
/// And so often a large sum on each side.
pub const LEAST_PHRASES: u64 = 20;

/// How often each way was met, in target words, each mixture, in answers, and a large sum, in steps.
#[derive(Clone, Copy, Debug, Default, PartialEq, Eq)]
pub struct Ways {
    pub words: [u64; 7],
    pub answers: [u64; 5],
    pub phrases: [u64; 2],
}

/// The way of a triple, as a place in WAYS.
pub fn way(book: &Book, v: u16, w: u16, y: u16) -> usize {
    if book.triples.iter().any(|t| (t.v, t.w, t.y) == (v, w, y)) {
        return 0;
    }
    let heavy = |weight: Option<i32>| weight.is_some_and(|k| k != 0);
    let before = heavy(plain::pair_line(book, v, w).map(|d| d.k));
    if plain::pair_line(book, w, y).is_some() {
        return 1 + before as usize;
    }
    let any = before || heavy(plain::word_line(book, w).map(|word| word.k));
    match plain::word_line(book, y) {
        Some(_) => 3 + any as usize,
        None => 5 + any as usize,
    }
}

/// The mixture that four counts show, as a place in MIXTURES.
pub fn mixture(supplied: Supplied) -> Option<usize> {
    let met: Vec<usize> = (0..4).filter(|&k| supplied[k] > 0).collect();
    match met[..] {
        [k] if supplied[k] > 1 => Some(k),
        [_, _, _, _] => Some(4),
        _ => None,
    }
}

/// The side of a sum, as a place in SUMS, where it is large.
pub fn side(sum: i32) -> Option<usize> {
    (sum.abs() >= 8_000_000).then_some((sum > 0) as usize)
}

/// Names with their counts, as a row.
fn row(names: &[&str], counts: &[u64]) -> String {
    let row = names.iter().zip(counts);
    let row: Vec<String> = row.map(|(name, n)| format!("{name} {n}")).collect();
    row.join(", ")
}

/// What was met fewer times than `least`, in a sentence.
fn below(names: &[&str], counts: &[u64], least: u64) -> Option<String> {
    let row = names.iter().zip(counts).filter(|(_, n)| **n < least);
    let rare: Vec<&str> = row.map(|(name, _)| *name).collect();
    (!rare.is_empty()).then(|| format!("met fewer than {least} times: {}", rare.join(", ")))
}

impl Ways {
    /// Those of a success: its steps, with a loaded book of which the answer says that it is good. The four counts that it reported are
    /// held to them.
    pub fn of(list: &[i32], steps: &[Step], supplied: Supplied) -> Ways {
        let book = check_book(list).expect("a good book");
        let mut ways = Ways::default();
        let mut row = vec![0, 0];
        row.extend(plain::words_of(&book, steps));
        for three in row.windows(3) {
            ways.words[way(&book, three[0], three[1], three[2])] += 1;
        }
        assert_eq!(supplied, ways.supplied(), "{list:?} {steps:?}");
        if let Some(k) = mixture(supplied) {
            ways.answers[k] += 1;
        }
        for k in plain::phrase_sums(&book, steps)
            .into_iter()
            .filter_map(side)
        {
            ways.phrases[k] += 1;
        }
        ways
    }

    /// The target words by what supplied them, with weights or without.
    fn supplied(&self) -> Supplied {
        let [t, d, weight_d, u, weights_u, unseen, weights_unseen] = self.words;
        let four = [t, d + weight_d, u + weights_u, unseen + weights_unseen];
        four.map(|n| n as usize)
    }

    pub fn add(&mut self, more: Ways) {
        let more = more.words.iter().chain(&more.answers).chain(&more.phrases);
        let all = self.words.iter_mut().chain(&mut self.answers);
        for (sum, times) in all.chain(&mut self.phrases).zip(more) {
            *sum += times;
        }
    }

    pub fn print(&self) {
        println!("target words scored by: {}", row(&WAYS, &self.words));
        let answers = row(&MIXTURES, &self.answers);
        println!("answers of several words supplied by: {answers}");
        let phrases = row(&SUMS, &self.phrases);
        println!("steps whose words score: {phrases}");
    }

    /// A way, a mixture or a side that was met too seldom, in a sentence.
    pub fn seldom(&self) -> Option<String> {
        let words = below(&WAYS, &self.words, LEAST);
        let answers = || below(&MIXTURES, &self.answers, LEAST_ANSWERS);
        let phrases = || below(&SUMS, &self.phrases, LEAST_PHRASES);
        words.or_else(answers).or_else(phrases)
    }
}
