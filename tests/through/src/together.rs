//! A round's directions together, through `phrase_decode_round`: held to the library's own decodes of the directions one by one, and to the
//! second decoder. A round's sheet, through `phrase_round_sheet`: its lists held to the library's own round, and all of it to the second
//! decoder. Behind the part of each list that is lent there are places more, which no call may change.

use crate::{garbage16, garbage64, library};
use second::gen::Rng;
use second::round::Lists;
use second::round_cases::RoundCase;
use second::sheet_cases::{SheetCase, Sheeted};

/// How many places each list has behind the part that is lent.
const BEHIND: usize = 100;

/// Lists full of garbage for the case, with the places behind.
fn garbage(rng: &mut Rng, case: &RoundCase) -> Lists {
    Lists {
        steps: garbage16(rng, case.steps_len + BEHIND),
        words: garbage16(rng, case.words_len + BEHIND),
        store: garbage64(rng, case.store_len + BEHIND),
        answers: garbage64(rng, case.answers_len + BEHIND),
    }
}

fn garbage8(rng: &mut Rng, n: usize) -> Vec<u8> {
    (0..n).map(|_| rng.draw() as u8).collect()
}

/// What the library replies to the round, and the lists afterwards, whole.
fn decoded(case: &RoundCase, before: &Lists) -> (i32, Lists) {
    let mut after = before.clone();
    let reply = library::decode_round(
        &case.book,
        &case.directions,
        &case.ends,
        case.width,
        &mut after.steps[..case.steps_len],
        &mut after.words[..case.words_len],
        &mut after.store[..case.store_len],
        &mut after.answers[..case.answers_len],
    );
    (reply, after)
}

/// The same by single decodes: each in its own part of the lists, one after the other.
fn one_by_one(case: &RoundCase, before: &Lists) -> Lists {
    let mut after = before.clone();
    for (k, alone) in case.alone().iter().enumerate() {
        let answer = &mut after.answers[9 * k..9 * (k + 1)];
        answer.fill(0);
        let reply = library::decode(
            &alone.book,
            &alone.direction,
            alone.width,
            &mut after.steps[96 * k..96 * (k + 1)],
            &mut after.words[256 * k..256 * (k + 1)],
            &mut after.store[..case.store_len],
            &mut answer[1..],
        );
        answer[0] = reply as i64;
    }
    after
}

/// The list after the call that was lent its first part.
fn with_behind<T: Copy>(part: &[T], whole: &[T]) -> Vec<T> {
    [part, &whole[part.len()..]].concat()
}

/// The part of each list that is lent.
fn lent(case: &RoundCase, whole: &Lists) -> Lists {
    Lists {
        steps: whole.steps[..case.steps_len].to_vec(),
        words: whole.words[..case.words_len].to_vec(),
        store: whole.store[..case.store_len].to_vec(),
        answers: whole.answers[..case.answers_len].to_vec(),
    }
}

/// The lists after the call that was lent their first parts.
fn all_with_behind(part: &Lists, whole: &Lists) -> Lists {
    Lists {
        steps: with_behind(&part.steps, &whole.steps),
        words: with_behind(&part.words, &whole.words),
        store: with_behind(&part.store, &whole.store),
        answers: with_behind(&part.answers, &whole.answers),
    }
}

/// What the second decoder says, with the places behind as they were.
fn by_second(case: &RoundCase, before: &Lists) -> (Result<(), u8>, Lists, Vec<u8>) {
    let (reply, after) = case.answer(&lent(case, before));
    let inside = case.inside(reply.is_ok(), &after);
    (reply, all_with_behind(&after, before), inside)
}

/// The same of a sheet.
fn sheet_by_second(case: &SheetCase, before: &Sheeted) -> (Result<usize, u8>, Sheeted, Vec<u8>) {
    let (reply, after) = case.answer(&Sheeted {
        lists: lent(&case.round, &before.lists),
        sheet: before.sheet[..case.sheet_len].to_vec(),
    });
    let inside = case.round.inside(reply.is_ok(), &after.lists);
    let whole = Sheeted {
        lists: all_with_behind(&after.lists, &before.lists),
        sheet: with_behind(&after.sheet, &before.sheet),
    };
    (reply, whole, inside)
}

/// What the library replies to a call for the sheet, and what it leaves, whole.
fn sheeted(case: &SheetCase, before: &Sheeted) -> (i64, Sheeted) {
    let mut after = before.clone();
    let (round, lists) = (&case.round, &mut after.lists);
    let reply = library::round_sheet(
        &round.book,
        &round.directions,
        &round.ends,
        round.width,
        &mut lists.steps[..round.steps_len],
        &mut lists.words[..round.words_len],
        &mut lists.store[..round.store_len],
        &mut lists.answers[..round.answers_len],
        &mut after.sheet[..case.sheet_len],
    );
    (reply, after)
}

/// The two are the same, number by number; the case and the first place that differs are said where they are not.
fn hold(case: &RoundCase, said: &str, given: &Lists, meant: &Lists) {
    fn first<T: PartialEq>(one: &[T], other: &[T]) -> Option<usize> {
        (0..one.len().max(other.len())).find(|&k| one.get(k) != other.get(k))
    }
    let differ = [
        ("steps", first(&given.steps, &meant.steps)),
        ("words", first(&given.words, &meant.words)),
        ("store", first(&given.store, &meant.store)),
        ("answers", first(&given.answers, &meant.answers)),
    ];
    for (list, place) in differ {
        assert!(place.is_none(), "{said}: {list} at {place:?} of {case:?}");
    }
}

/// One round; what it and its directions were answered.
pub fn check(rng: &mut Rng, case: &RoundCase) -> (u8, Vec<u8>) {
    let before = garbage(rng, case);
    let (reply, after) = decoded(case, &before);
    let (expected, meant, inside) = by_second(case, &before);
    let code = expected.err().unwrap_or(0);
    assert_eq!(reply, code as i32, "decode_round {case:?}");
    hold(case, "the second decoder's", &after, &meant);
    if code == 0 {
        let alone = one_by_one(case, &before);
        hold(case, "the directions alone", &after, &alone);
    } else {
        hold(case, "the lists before", &after, &before);
    }
    (code, inside)
}

/// One round's sheet; what it was answered, and what its lines say.
pub fn check_sheet(rng: &mut Rng, case: &SheetCase) -> (u8, Vec<u8>) {
    let before = Sheeted {
        lists: garbage(rng, &case.round),
        sheet: garbage8(rng, case.sheet_len + BEHIND),
    };
    let (reply, after) = sheeted(case, &before);
    let (expected, meant, inside) = sheet_by_second(case, &before);
    let number = expected.map_or_else(|code| -(code as i64), |length| length as i64);
    assert_eq!(reply, number, "round_sheet {case:?}");
    hold(&case.round, "the sheet's lists", &after.lists, &meant.lists);
    let [given, text] = [&after.sheet, &meant.sheet].map(|s| String::from_utf8_lossy(s));
    assert_eq!(after.sheet, meant.sheet, "{case:?}\n{given}\n{text}");
    if expected.is_ok() {
        let (_, round) = decoded(&case.round, &before.lists);
        hold(&case.round, "the round's lists", &after.lists, &round);
    } else {
        hold(&case.round, "the lists before", &after.lists, &before.lists);
        assert_eq!(after.sheet, before.sheet, "{case:?}");
    }
    (expected.err().unwrap_or(0), inside)
}
