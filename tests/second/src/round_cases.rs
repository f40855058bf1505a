//! Ticket 7 of 02: a whole call of a round, and random ones, good and bad.

use crate::gen::{self, DecodeCase, Rng, Shape};
use crate::round::{decode_round, Lists, ANSWER, STEP_NUMBERS, WORD_PLACES};
use crate::{check_book, plain_round, Book};

/// A whole call: the book, the directions with their ends, the width, and how many numbers of each list are lent.
#[derive(Clone, Debug)]
pub struct RoundCase {
    pub book: Vec<i32>,
    pub directions: Vec<u16>,
    pub ends: Vec<usize>,
    pub width: i64,
    pub steps_len: usize,
    pub words_len: usize,
    pub store_len: usize,
    pub answers_len: usize,
}

impl RoundCase {
    /// A round of those directions, in lists that are just long enough.
    pub fn of(book: &[i32], directions: &[Vec<u16>], width: i64, store_len: usize) -> RoundCase {
        let mut case = RoundCase {
            book: book.to_vec(),
            directions: directions.concat(),
            ends: Vec::new(),
            width,
            steps_len: STEP_NUMBERS * directions.len(),
            words_len: WORD_PLACES * directions.len(),
            store_len,
            answers_len: ANSWER * directions.len(),
        };
        let mut end = 0;
        for one in directions {
            end += one.len();
            case.ends.push(end);
        }
        case
    }

    /// Lists of those lengths, each with the number that is made for its place.
    pub fn lists(&self, mut of: impl FnMut(usize) -> u64) -> Lists {
        Lists {
            steps: (0..self.steps_len).map(|k| of(k) as u16).collect(),
            words: (0..self.words_len).map(|k| of(k) as u16).collect(),
            store: (0..self.store_len).map(|k| of(k) as i64).collect(),
            answers: (0..self.answers_len).map(|k| of(k) as i64).collect(),
        }
    }

    /// What the call replies, and the lists afterwards: the same as place by place, and as before where it is refused.
    pub fn answer(&self, before: &Lists) -> (Result<(), u8>, Lists) {
        let mut after = before.clone();
        let (book, directions, ends) = (&self.book, &self.directions, &self.ends);
        let reply = decode_round(book, directions, ends, self.width, &mut after);
        let plainly = plain_round::decode_round(book, directions, ends, self.width, before);
        let whole = (reply, after);
        assert!(whole == plainly, "{self:?}\n{whole:?}\n{plainly:?}");
        assert!(reply.is_ok() || whole.1 == *before, "{self:?}");
        whole
    }

    /// The decodes that the round stands for: each direction alone, with 32 step places and 256 word places.
    pub fn alone(&self) -> Vec<DecodeCase> {
        let starts = [&[0], &self.ends[..]].concat();
        let parts = starts.iter().zip(&self.ends);
        parts
            .map(|(&start, &end)| DecodeCase {
                book: self.book.clone(),
                direction: self.directions[start..end].to_vec(),
                width: self.width,
                steps_len: 32,
                words_len: 256,
                store_len: self.store_len,
            })
            .collect()
    }

    /// What each direction was answered; nothing for a round that was not accepted.
    pub fn inside(&self, accepted: bool, after: &Lists) -> Vec<u8> {
        let count = if accepted { self.ends.len() } else { 0 };
        let firsts = after.answers.iter().step_by(ANSWER);
        firsts.take(count).map(|&code| code as u8).collect()
    }
}

// ------------------------------------------------------------------------------ random rounds

/// What is wrong with a round. What later questions ask may be wrong too.
#[derive(Clone, Copy, Debug, PartialEq)]
pub enum Flaw {
    None,
    /// The book, by that question.
    Book(u8),
    /// 26, nearly always.
    Ends,
    /// 12.
    Short,
}

/// A round with that flaw.
pub fn with_flaw(rng: &mut Rng, shape: &Shape, flaw: Flaw) -> RoundCase {
    let code = match flaw {
        Flaw::Book(code) => code,
        _ => 0,
    };
    let book = gen::book_saying(rng, shape, code);
    let directions = directions(rng, shape, check_book(&book).ok().as_ref());
    let width = match rng.below(6) {
        0 => gen::bad_width(rng),
        _ => gen::width(rng, shape),
    };
    let store_len = match rng.below(8) {
        0 => rng.below(9),
        1 | 2 => {
            let states = 1 + rng.below(40);
            gen::store_len(rng, states)
        }
        _ => 8 * 4096,
    };
    let mut case = RoundCase::of(&book, &directions, width, store_len);
    if rng.chance(1, 3) {
        let tail = (0..rng.below(6)).map(|_| rng.pick(&[0, 11, 65_535]));
        case.directions.extend(tail.collect::<Vec<u16>>());
    }
    for len in [
        &mut case.steps_len,
        &mut case.words_len,
        &mut case.answers_len,
    ] {
        *len += rng.pick(&[0, 0, 0, 1, 2, 5, 20]);
    }
    let also = |rng: &mut Rng| code != 0 && rng.chance(1, 3);
    if flaw == Flaw::Ends || also(rng) {
        break_ends(rng, &mut case);
    }
    if flaw == Flaw::Short || also(rng) || (flaw == Flaw::Ends && rng.chance(1, 3)) {
        shorten(rng, &mut case);
    }
    case
}

/// A round whose scores add up to more than 2 to the 31, on that side of 0: each word of its long directions has an entry of eight words,
/// and each of these scores nearly as much as a score may.
pub fn heavy(rng: &mut Rng, sign: i32) -> RoundCase {
    let [u, g] = [0; 2].map(|_| sign * (1_000_000 - rng.below(1_000) as i32));
    let mut book = vec![1, 0, 0, u, 1, 0, 2, 1, 8, 11];
    book.extend([7; 8]);
    book.push(g);
    let count = 8 + rng.below(13);
    let mut directions: Vec<Vec<u16>> = (0..count).map(|_| vec![11; 32 - rng.below(2)]).collect();
    if rng.chance(1, 3) {
        let refused = rng.pick(&[0, 12]);
        directions.insert(rng.below(count), vec![refused]);
    }
    RoundCase::of(&book, &directions, -1, 8 * 40)
}

/// 1 to 64 directions: ones that fit the book, ones that do not, ones too long or with a 0, and ones that were there before.
fn directions(rng: &mut Rng, shape: &Shape, book: Option<&Book>) -> Vec<Vec<u16>> {
    let most = if shape.max_direction > 6 { 6 } else { 64 };
    let count = match rng.below(12) {
        0 => most,
        1 => most - 1,
        2 => 1,
        3 => 1 + rng.below(most),
        _ => 1 + rng.below(6),
    };
    let mut all: Vec<Vec<u16>> = Vec::new();
    for _ in 0..count {
        let one = match (rng.below(14), book) {
            (0, _) => too_long(rng, shape),
            (1, _) => gen::direction_saying(rng, shape, 10),
            (2 | 3, _) if !all.is_empty() => all[rng.below(all.len())].clone(),
            (4..=9, Some(book)) => gen::direction_from(rng, shape, book),
            // A word of no entry.
            (10, _) => [gen::direction(rng, shape), vec![7_777]].concat(),
            _ => gen::direction(rng, shape),
        };
        all.push(one);
    }
    all
}

/// A direction that 9 refuses, now and then 10 too.
fn too_long(rng: &mut Rng, shape: &Shape) -> Vec<u16> {
    loop {
        let words = gen::direction_saying(rng, shape, 9);
        if !words.is_empty() {
            return words;
        }
    }
}

/// No end, too many, one that repeats or falls, one past the list, and any end changed anyhow.
fn break_ends(rng: &mut Rng, case: &mut RoundCase) {
    let (ends, words) = (&mut case.ends, case.directions.len());
    let at = rng.below(ends.len());
    let last = ends.len() - 1;
    match rng.below(9) {
        0 => ends.clear(),
        1 => {
            // Good directions, but too many; the lists have places for one more than are allowed.
            let count = rng.pick(&[65, 65, 66, 70]);
            while ends.len() < count {
                case.directions.push(11);
                ends.push(case.directions.len());
            }
            (case.steps_len, case.words_len) = (STEP_NUMBERS * 65, WORD_PLACES * 65);
            case.answers_len = ANSWER * 65;
        }
        2 => ends[at] = at.checked_sub(1).map_or(0, |before| ends[before]),
        3 => ends[0] = 0,
        4 if last > 0 => ends.swap(at.max(1) - 1, at.max(1)),
        5 => ends[last] = words + rng.pick(&[1, 1, 1, 2, 1 << 16, 1 << 32]),
        6 => ends[at] = rng.pick(&[usize::MAX, usize::MAX - 1, 1 << 63, (1 << 63) - 1]),
        7 => ends[at] += rng.pick(&[1 << 16, 1 << 32, 1 << 63]),
        8 if last < 63 => ends.push(words + 1),
        _ => {
            let new = rng.below(words + 2);
            gen::change_anywhere(rng, ends, new);
        }
    }
}

/// One or more of the three lists short.
fn shorten(rng: &mut Rng, case: &mut RoundCase) {
    let which = 1 + rng.below(7);
    let count = case.ends.len();
    for (bit, len, each) in [
        (1, &mut case.steps_len, STEP_NUMBERS),
        (2, &mut case.words_len, WORD_PLACES),
        (4, &mut case.answers_len, ANSWER),
    ] {
        if which & bit != 0 {
            *len = gen::places(rng, each * count, true);
        }
    }
}
