//! Ticket 7 of 02 once more: each question asked of the whole round by counting, and each number of each list told by its place alone,
//! from decodes of the directions one by one.

use crate::round::Lists;
use crate::{decode, plain, Answer};

/// What a round is answered, and the lists afterwards.
pub fn decode_round(
    book: &[i32],
    directions: &[u16],
    ends: &[usize],
    width: i64,
    before: &Lists,
) -> (Result<(), u8>, Lists) {
    match verdict(book, directions.len(), ends, before) {
        0 => {
            let alone = alone(book, directions, ends, width, before.store.len());
            (Ok(()), written(&alone, before))
        }
        refused => (Err(refused), before.clone()),
    }
}

/// What each direction is answered alone.
pub fn alone(
    book: &[i32],
    directions: &[u16],
    ends: &[usize],
    width: i64,
    store: usize,
) -> Vec<Result<Answer, u8>> {
    let words_of = |k: usize| -> Vec<u16> {
        let places = (0..directions.len()).filter(|&at| direction_of(at, ends) == k);
        places.map(|at| directions[at]).collect()
    };
    (0..ends.len())
        .map(|k| decode(book, &words_of(k), width, 32, 256, store))
        .collect()
}

/// The lists after directions with those answers.
pub fn written(alone: &[Result<Answer, u8>], before: &Lists) -> Lists {
    let searched = |reply: &Result<Answer, u8>| !matches!(reply, Err(9..=12));
    let cleared = alone.iter().any(searched);
    Lists {
        steps: told(&before.steps, |at| {
            step_number(alone.get(at / 96)?, at % 96)
        }),
        words: told(&before.words, |at| {
            let answer = alone.get(at / 256)?.as_ref().ok()?;
            answer.words.get(at % 256).copied()
        }),
        store: told(&before.store, |_| cleared.then_some(0)),
        answers: told(&before.answers, |at| {
            Some(answer_number(alone.get(at / 9)?, at % 9))
        }),
    }
}

/// The refusal of the whole round; 0 for none.
pub fn verdict(book: &[i32], words: usize, ends: &[usize], lists: &Lists) -> u8 {
    let refused = plain::loaded_verdict(book);
    if refused != 0 {
        return refused;
    }
    let rises = (0..ends.len()).all(|k| match k {
        0 => ends[0] != 0,
        _ => ends[k - 1] < ends[k],
    });
    if !(1..=64).contains(&ends.len()) || !rises || ends.iter().any(|&end| end > words) {
        return 26;
    }
    let records = (lists.steps.len() - lists.steps.len() % 3) / 3;
    let held = [
        records / 32,
        lists.words.len() / 256,
        lists.answers.len() / 9,
    ];
    if held.iter().any(|&held| held < ends.len()) {
        return 12;
    }
    0
}

/// The direction, from 0, that a word of the list belongs to: as many as have ended before it. Behind the last, their number.
fn direction_of(at: usize, ends: &[usize]) -> usize {
    ends.iter().filter(|&&end| end <= at).count()
}

/// A list in which each place holds what is told of it, or what it held before.
pub fn told<T: Copy>(before: &[T], of: impl Fn(usize) -> Option<T>) -> Vec<T> {
    let places = before.iter().enumerate();
    places.map(|(at, &old)| of(at).unwrap_or(old)).collect()
}

/// A direction's step numbers, by their place among its 96.
fn step_number(reply: &Result<Answer, u8>, at: usize) -> Option<u16> {
    let &(first, last, entry) = reply.as_ref().ok()?.steps.get(at / 3)?;
    Some(match at % 3 {
        0 => first,
        1 => last,
        _ => entry,
    })
}

/// A direction's answer, by the place among its nine.
fn answer_number(reply: &Result<Answer, u8>, at: usize) -> i64 {
    match (reply, at) {
        (Err(code), 0) => *code as i64,
        (Err(_), _) | (Ok(_), 0) => 0,
        (Ok(answer), 1) => answer.score,
        (Ok(answer), 2) => answer.steps.len() as i64,
        (Ok(answer), 3) => answer.words.len() as i64,
        (Ok(answer), 4) => answer.states as i64,
        (Ok(answer), k) => answer.supplied[k - 5] as i64,
    }
}
