//! Ticket 7 of 02: "A medication round has up to 64 directions against one book. Take them as one list with their ends, and check the
//! book once."

use crate::{check_book, check_direction, search, Answer, Book};

pub const MOST_DIRECTIONS: usize = 64;
/// "Direction k has the 32 step places and 256 word places that follow those of direction k - 1": a step is three numbers.
pub const STEP_NUMBERS: usize = 3 * 32;
pub const WORD_PLACES: usize = 256;
/// An answer: 0 or the refusal, and the eight values that a decode reports.
pub const ANSWER: usize = 9;

/// The lists that a round is lent to write to; steps are three numbers each, and one or two may be left over.
#[derive(Clone, Debug, PartialEq, Eq)]
pub struct Lists {
    pub steps: Vec<u16>,
    pub words: Vec<u16>,
    pub store: Vec<i64>,
    pub answers: Vec<i64>,
}

/// A round that its questions let pass: the book, and the directions.
pub struct Opened<'a> {
    book: Book,
    parts: Vec<&'a [u16]>,
}

/// A loaded book's questions, 26, 12.
pub fn opened<'a>(
    book: &[i32],
    directions: &'a [u16],
    ends: &[usize],
    lists: &Lists,
) -> Result<Opened<'a>, u8> {
    let book = check_book(book)?;
    let parts = parts(directions, ends).ok_or(26)?;
    let count = parts.len();
    if lists.steps.len() / 3 < 32 * count
        || lists.words.len() < WORD_PLACES * count
        || lists.answers.len() < ANSWER * count
    {
        return Err(12);
    }
    Ok(Opened { book, parts })
}

impl Opened<'_> {
    /// Each direction's answer, steps and words stand in its places, and the store is as the directions leave it, one after the other.
    /// The answers.
    pub fn decode<'a>(&self, width: i64, lists: &'a mut Lists) -> &'a [i64] {
        let steps = lists.steps.chunks_exact_mut(STEP_NUMBERS);
        let words = lists.words.chunks_exact_mut(WORD_PLACES);
        let answers = lists.answers.chunks_exact_mut(ANSWER);
        let places = steps.zip(words).zip(answers);
        for (part, ((steps, words), answer)) in self.parts.iter().zip(places) {
            let reply = direction_alone(&self.book, part, width, &mut lists.store);
            answer.fill(0);
            match reply {
                Err(code) => answer[0] = code as i64,
                Ok(found) => {
                    answer[1..].copy_from_slice(&report(&found));
                    for (place, step) in steps.chunks_exact_mut(3).zip(&found.steps) {
                        place.copy_from_slice(&[step.0, step.1, step.2]);
                    }
                    words[..found.words.len()].copy_from_slice(&found.words);
                }
            }
        }
        &lists.answers[..ANSWER * self.parts.len()]
    }
}

/// The questions, and then the decodes. A refused round changes nothing.
pub fn decode_round(
    book: &[i32],
    directions: &[u16],
    ends: &[usize],
    width: i64,
    lists: &mut Lists,
) -> Result<(), u8> {
    opened(book, directions, ends, lists)?.decode(width, lists);
    Ok(())
}

/// 26: "when there are not 1 to 64, an end is not above the one before (0 for the first), or an end lies past the list". The
/// directions; what stands behind the last of them is none.
fn parts<'a>(directions: &'a [u16], ends: &[usize]) -> Option<Vec<&'a [u16]>> {
    if ends.is_empty() || ends.len() > MOST_DIRECTIONS {
        return None;
    }
    let mut parts = Vec::new();
    let mut before = 0;
    for &end in ends {
        if end <= before {
            return None;
        }
        parts.push(directions.get(before..end)?);
        before = end;
    }
    Some(parts)
}

/// Questions 9 to 11 and 13 to 15 of one direction: 12 is not asked again, as 32 step places and 256 word places are enough for any.
/// From 13 on the store is zero.
fn direction_alone(
    book: &Book,
    direction: &[u16],
    width: i64,
    store: &mut [i64],
) -> Result<Answer, u8> {
    check_direction(direction)?;
    if width < -1 {
        return Err(11);
    }
    store.fill(0);
    search(book, direction, width, store.len() / 8)
}

/// "the eight values": the score, how many steps, words and states, and the four counts.
pub fn report(answer: &Answer) -> [i64; 8] {
    let [triple, pair, word, u] = answer.supplied.map(|count| count as i64);
    let (steps, words) = (answer.steps.len() as i64, answer.words.len() as i64);
    let states = answer.states as i64;
    [answer.score, steps, words, states, triple, pair, word, u]
}
