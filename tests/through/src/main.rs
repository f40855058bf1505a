//! Random inputs, good and broken, to every call of the library, each answer held to the second decoder's. Every lent list is
//! full of garbage before a call and is compared whole afterwards. Books are edited up to 20 times in one list, and ARPA texts are imported
//! to them; what is then asked of them is held to their texts, read afresh by the library. A round's directions together are held to the
//! library's own decodes of them one by one, too, and the lists that a round's sheet leaves to those of its round. `through SEED INPUTS
//! [LEAST]`: LEAST is how often each refusal, and each answer of the two edits, of the import, of a round, of the directions in one, of a
//! sheet and of its lines, must have been met at the end; where it is not 0, each way in which a triple is scored, and each of the four
//! suppliers alone and all of them together in an answer, must have been met too (`second::ways`). It stops at the first difference.

#[path = "../../../include/phrase.rs"]
mod library;
mod together;

use second::edits::{Edit, EditCase};
use second::gen::{DecodeCase, Rng};
use second::imports::ImportCase;
use second::round_cases::RoundCase;
use second::rounds::{self, Calls, Tally};
use second::sheet_cases::SheetCase;
use second::ways::Ways;
use second::{Step, Supplied};

/// The lists that a decode is lent to write to.
#[derive(Clone, Debug, PartialEq)]
struct Lent {
    steps: Vec<u16>,
    words: Vec<u16>,
    store: Vec<i64>,
    report: Vec<i64>,
}

/// Those of a case, full of garbage, with a step begun and places for more or fewer values than are reported.
fn lent(rng: &mut Rng, case: &DecodeCase) -> Lent {
    let (left_over, places) = (rng.below(3), rng.below(11));
    Lent {
        steps: garbage16(rng, 3 * case.steps_len + left_over),
        words: garbage16(rng, case.words_len),
        store: garbage64(rng, case.store_len),
        report: garbage64(rng, places),
    }
}

/// What the library replies to a decode with that book, and the lists afterwards.
fn decoded(book: &[i32], case: &DecodeCase, before: &Lent) -> (i32, Lent) {
    let mut after = before.clone();
    let reply = library::decode(
        book,
        &case.direction,
        case.width,
        &mut after.steps,
        &mut after.words,
        &mut after.store,
        &mut after.report,
    );
    (reply, after)
}

/// What it replies to a scoring, and the report afterwards.
fn scored(book: &[i32], direction: &[u16], numbers: &[u16], before: &[i64]) -> (i32, Vec<i64>) {
    let mut after = before.to_vec();
    let reply = library::score(book, direction, numbers, &mut after);
    (reply, after)
}

fn garbage32(rng: &mut Rng, n: usize) -> Vec<i32> {
    (0..n).map(|_| rng.draw() as i32).collect()
}

fn garbage16(rng: &mut Rng, n: usize) -> Vec<u16> {
    (0..n).map(|_| rng.draw() as u16).collect()
}

fn garbage64(rng: &mut Rng, n: usize) -> Vec<i64> {
    (0..n).map(|_| rng.draw() as i64).collect()
}

/// The list after `new` was written at its beginning, as far as it has places.
fn over<T: Copy>(new: &[T], old: &[T]) -> Vec<T> {
    let mut list = old.to_vec();
    for (place, value) in list.iter_mut().zip(new) {
        *place = *value;
    }
    list
}

fn flat(steps: &[Step]) -> Vec<u16> {
    steps.iter().flat_map(|s| [s.0, s.1, s.2]).collect()
}

/// What a reading of a text replied and left in the lent list, held to the second decoder's result.
fn check_reading<T: Copy + PartialEq + std::fmt::Debug>(
    call: &'static str,
    text: &[u8],
    before: &[T],
    (reply, after): (i64, Vec<T>),
    expected: Result<Vec<T>, u8>,
    tally: &mut Tally,
) {
    let (meant, list) = match &expected {
        Ok(list) => (list.len() as i64, over(list, before)),
        Err(code) => (-(*code as i64), before.to_vec()),
    };
    let shown = String::from_utf8_lossy(text);
    assert_eq!(reply, meant, "{call} {} {shown}", before.len());
    assert_eq!(after, list, "{call} {} {shown}", before.len());
    tally.count(call, expected.err().unwrap_or(0));
}

/// The report of a success: what comes first, and then the four counts.
fn report(first: &[i64], supplied: Supplied, before: &[i64]) -> Vec<i64> {
    let four = supplied.map(|count| count as i64);
    over(&[first, &four].concat(), before)
}

/// The answer, its steps and its words stand in the lists, and what lies beyond them is as before.
fn check_answer(case: &DecodeCase, answer: &second::Answer, before: &Lent, after: &Lent) {
    let first = [
        answer.score,
        answer.steps.len() as i64,
        answer.words.len() as i64,
        answer.states as i64,
    ];
    let meant = report(&first, answer.supplied, &before.report);
    let steps = flat(&answer.steps);
    assert_eq!(after.report, meant, "{case:?}");
    assert_eq!(after.steps, over(&steps, &before.steps), "{case:?}");
    assert_eq!(after.words, over(&answer.words, &before.words), "{case:?}");
}

/// The library, how often each of its calls gave each answer, how the target words of its successes were scored, and how often the
/// directions of rounds and the lines of sheets were given each answer.
#[derive(Default)]
struct Library(Tally, Ways, Tally);

impl Calls for Library {
    fn read_book(&mut self, rng: &mut Rng, text: &[u8], places: usize) {
        let before = garbage32(rng, places);
        let mut book = before.clone();
        let reply = library::read_book(text, &mut book);
        let expected = second::read_book(text, places);
        check_reading(
            "read_book",
            text,
            &before,
            (reply, book),
            expected,
            &mut self.0,
        );
    }
    fn read_direction(&mut self, rng: &mut Rng, text: &[u8], places: usize) {
        let before = garbage16(rng, places);
        let mut words = before.clone();
        let reply = library::read_direction(text, &mut words);
        let expected = second::read_direction(text, places);
        check_reading(
            "read_direction",
            text,
            &before,
            (reply, words),
            expected,
            &mut self.0,
        );
    }
    fn check_book(&mut self, rng: &mut Rng, book: &[i32]) {
        let code = second::check_book(book).err().unwrap_or(0);
        assert_eq!(
            library::check_book(book),
            code as i32,
            "check_book {book:?}"
        );
        self.0.count("check_book", code);
        for entry in [rng.below(12), rng.draw() as usize, 4_096] {
            let (start, size) = second::target_part(book, entry);
            let part = library::target_part(book, entry);
            assert_eq!(part, (start as i64, size as i64), "{entry} {book:?}");
        }
        self.0.count("target_start and target_count", 0);
    }
    fn score(&mut self, rng: &mut Rng, book: &[i32], direction: &[u16], steps: &[Step]) {
        let mut numbers = flat(steps);
        let left_over = rng.below(3);
        numbers.extend(garbage16(rng, left_over));
        let places = rng.below(8);
        let before = garbage64(rng, places);
        let (reply, given) = scored(book, direction, &numbers, &before);
        let (expected, after) = match second::score(book, direction, steps) {
            Ok(scored) => {
                self.1.add(Ways::of(book, steps, scored.supplied));
                (0, report(&[scored.score], scored.supplied, &before))
            }
            Err(code) => (code, before),
        };
        assert_eq!(
            reply, expected as i32,
            "score {book:?} {direction:?} {steps:?}"
        );
        assert_eq!(given, after, "score {book:?} {direction:?} {steps:?}");
        self.0.count("score", expected);
    }
    fn decode(&mut self, rng: &mut Rng, case: &DecodeCase) {
        let before = lent(rng, case);
        let (reply, after) = decoded(&case.book, case, &before);
        let expected = case.answer();
        let code = *expected.as_ref().err().unwrap_or(&0);
        assert_eq!(reply, code as i32, "decode {case:?}");
        let searched = matches!(code, 0 | 13..=15);
        let zero = vec![0; case.store_len];
        assert_eq!(
            after.store,
            if searched { zero } else { before.store.clone() },
            "{case:?}"
        );
        match &expected {
            Ok(answer) => {
                check_answer(case, answer, &before, &after);
                let ways = Ways::of(&case.book, &answer.steps, answer.supplied);
                self.1.add(ways);
            }
            Err(_) => {
                assert_eq!(after.steps, before.steps, "{case:?}");
                assert_eq!(after.words, before.words, "{case:?}");
                assert_eq!(after.report, before.report, "{case:?}");
            }
        }
        self.0.count("decode", code);
    }
    fn edit(&mut self, _: &mut Rng, case: &EditCase) {
        let mut after = case.list.clone();
        let reply = match &case.edit {
            Edit::Add(line) => library::add_entry(&mut after, case.used, line),
            Edit::Remove(entry) => library::remove_entry(&mut after, case.used, *entry),
        };
        let (expected, list) = case.answer();
        let meant = expected.map_or_else(|code| -(code as i64), |count| count as i64);
        assert_eq!(reply, meant, "{case:?}");
        assert_eq!(after, list, "{case:?}");
        self.0.count(case.call(), expected.err().unwrap_or(0));
    }
    fn import(&mut self, _: &mut Rng, case: &ImportCase) {
        let mut after = case.list.clone();
        let reply = library::import_arpa(&case.arpa, &case.spelling, &mut after, case.used);
        let (expected, list) = case.answer();
        let meant = expected.map_or_else(|code| -(code as i64), |count| count as i64);
        assert_eq!(reply, meant, "{case:?}");
        assert_eq!(after, list, "{case:?}");
        self.0.count("import_arpa", expected.err().unwrap_or(0));
    }
    fn round(&mut self, rng: &mut Rng, case: &RoundCase) {
        let (code, inside) = together::check(rng, case);
        self.0.count("decode_round", code);
        for code in inside {
            self.2.count(rounds::DIRECTION_OF_A_ROUND, code);
        }
    }
    fn sheet(&mut self, rng: &mut Rng, case: &SheetCase) {
        let (code, inside) = together::check_sheet(rng, case);
        self.0.count("round_sheet", code);
        for code in inside {
            self.2.count(rounds::LINE_OF_A_SHEET, code);
        }
    }
    fn same_book(&mut self, rng: &mut Rng, text: &[u8], case: &DecodeCase, steps: &[Step]) {
        let (edited, said) = (&case.book, String::from_utf8_lossy(text));
        let mut fresh = garbage32(rng, edited.len() + 9);
        let count = library::read_book(text, &mut fresh);
        let fresh = &fresh[..usize::try_from(count).expect("a good text")];
        assert_eq!(fresh, edited, "{said}");
        for entry in [0, 1, 2, rng.below(40), rng.draw() as usize] {
            let part = library::target_part(fresh, entry);
            assert_eq!(library::target_part(edited, entry), part, "{said}");
        }
        let before = lent(rng, case);
        let answer = decoded(fresh, case, &before);
        assert_eq!(decoded(edited, case, &before), answer, "{said} {case:?}");
        let (steps, before) = (flat(steps), garbage64(rng, 6));
        let given = scored(fresh, &case.direction, &steps, &before);
        let again = scored(edited, &case.direction, &steps, &before);
        assert_eq!(again, given, "{said} {case:?}");
        self.0.count("an edited book as its text", 0);
    }
}

fn main() {
    let number = |k: usize| std::env::args().nth(k).and_then(|a| a.parse::<u64>().ok());
    let (Some(seed), Some(inputs)) = (number(1), number(2)) else {
        eprintln!("through SEED INPUTS [LEAST]");
        std::process::exit(2);
    };
    let least = number(3).unwrap_or(0);
    let (mut rng, mut library) = (Rng::new(seed), Library::default());
    let mut round = 0;
    while library.0.inputs() < inputs {
        rounds::round(&mut rng, round, &mut library);
        round += 1;
    }
    let Library(tally, ways, inside) = library;
    tally.print();
    inside.print();
    ways.print();
    let seldom = seldom(&tally, &inside, &ways, least);
    if !seldom.is_empty() {
        println!("{seldom}");
        std::process::exit(1);
    }
    println!(
        "{} inputs, every answer the second decoder's",
        tally.inputs()
    );
}

/// What was met too seldom; nothing where all was met.
fn seldom(tally: &Tally, inside: &Tally, ways: &Ways, least: u64) -> String {
    let rare: Vec<u8> = (1..=26).filter(|&k| tally.refusals(k) < least).collect();
    if !rare.is_empty() {
        return format!("met fewer than {least} times: {rare:?}");
    }
    for reached in [&rounds::EDITS[..], &rounds::IMPORTS, &rounds::TOGETHER] {
        if let Some(said) = tally.seldom(reached, least) {
            return said;
        }
    }
    if let Some(said) = inside.seldom(&rounds::INSIDE, least) {
        return said;
    }
    match ways.seldom() {
        Some(said) if least > 0 => said,
        _ => String::new(),
    }
}
