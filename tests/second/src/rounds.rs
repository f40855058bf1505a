//! Random inputs to every call, round by round: good ones, and ones that each question refuses. Whoever is handed them asks the call.

use crate::edits::{self, EditCase};
use crate::gen::{self, DecodeCase, Rng, Shape};
use crate::imports::{self, Flaw, ImportCase};
use crate::round::Lists;
use crate::round_cases::{self, RoundCase};
use crate::sheet::SHEET;
use crate::sheet_cases::SheetCase;
use crate::Step;
use std::collections::BTreeMap;

/// One call for each input.
pub trait Calls {
    fn read_book(&mut self, rng: &mut Rng, text: &[u8], places: usize);
    fn read_direction(&mut self, rng: &mut Rng, text: &[u8], places: usize);
    fn check_book(&mut self, rng: &mut Rng, book: &[i32]);
    fn score(&mut self, rng: &mut Rng, book: &[i32], direction: &[u16], steps: &[Step]);
    fn decode(&mut self, rng: &mut Rng, case: &DecodeCase);
    fn edit(&mut self, rng: &mut Rng, case: &EditCase);
    fn import(&mut self, rng: &mut Rng, case: &ImportCase);
    fn round(&mut self, rng: &mut Rng, case: &RoundCase);
    fn sheet(&mut self, rng: &mut Rng, case: &SheetCase);
    /// "A decode after any edits equals a decode of the edited book read afresh": the case has the edited book, and the text is what that
    /// is to be. A scoring of the steps and the target words are asked too.
    fn same_book(&mut self, rng: &mut Rng, text: &[u8], case: &DecodeCase, steps: &[Step]);
}

/// How often each call gave each answer; 0 stands for a result.
#[derive(Default)]
pub struct Tally(BTreeMap<(&'static str, u8), u64>);

impl Tally {
    pub fn count(&mut self, call: &'static str, code: u8) {
        *self.0.entry((call, code)).or_default() += 1;
    }
    pub fn inputs(&self) -> u64 {
        self.0.values().sum()
    }
    pub fn print(&self) {
        let mut calls: Vec<&str> = self.0.keys().map(|k| k.0).collect();
        calls.dedup();
        for call in calls {
            print!("{call}:");
            for (&(_, code), times) in self.0.iter().filter(|(k, _)| k.0 == call) {
                match code {
                    0 => print!(" a result {times} times"),
                    _ => print!(", {code} {times}"),
                }
            }
            println!();
        }
    }
    /// How often a refusal was met, in all calls.
    pub fn refusals(&self, code: u8) -> u64 {
        self.0
            .iter()
            .filter(|(k, _)| k.1 == code)
            .map(|(_, n)| n)
            .sum()
    }
    /// How often a call gave an answer.
    fn times(&self, call: &'static str, code: u8) -> u64 {
        *self.0.get(&(call, code)).unwrap_or(&0)
    }
    /// Of the answers that calls are to reach, one that was met fewer than `least` times, in a sentence.
    pub fn seldom(&self, reached: &[Reached], least: u64) -> Option<String> {
        for &(call, codes) in reached {
            for &code in codes {
                let times = self.times(call, code);
                if times < least {
                    let said = format!("{call} gave {code} {times} times, fewer than {least}");
                    return Some(said);
                }
            }
        }
        None
    }
}

/// A call, and the answers that random inputs reach in it; 0 stands for a result.
pub type Reached = (&'static str, &'static [u8]);

/// Those of the two edits.
pub const EDITS: [Reached; 2] = [
    ("add_entry", &[0, 2, 3, 4, 5, 6, 7, 20, 21]),
    ("remove_entry", &[0, 2, 3, 4, 5, 6, 7, 20, 21, 22]),
];

/// Those of the import.
pub const IMPORTS: [Reached; 1] = [("import_arpa", &[0, 2, 3, 4, 5, 6, 7, 20, 21, 23, 24, 25])];

/// Those of a round's directions together and of a round's sheet, and those of the directions in the one and of the lines of the other.
pub const TOGETHER: [Reached; 2] = [
    ("decode_round", &[0, 2, 3, 4, 5, 6, 12, 20, 21, 26]),
    ("round_sheet", &[0, 2, 3, 4, 5, 6, 7, 12, 20, 21, 26]),
];
const OF_A_DIRECTION: &[u8] = &[0, 9, 10, 11, 13, 14, 15];
pub const INSIDE: [Reached; 2] = [
    (DIRECTION_OF_A_ROUND, OF_A_DIRECTION),
    (LINE_OF_A_SHEET, OF_A_DIRECTION),
];
pub const DIRECTION_OF_A_ROUND: &str = "a direction of a round";
pub const LINE_OF_A_SHEET: &str = "a line of a sheet";

/// The shape of round k's books and directions.
pub fn shape(rng: &mut Rng, k: usize) -> Shape {
    match k % 20 {
        0 => Shape::middle(rng),
        k if k % 2 == 0 => Shape::small(rng),
        _ => Shape::small_ties(rng),
    }
}

/// Round k of every call.
pub fn round(rng: &mut Rng, k: usize, calls: &mut dyn Calls) {
    let shape = shape(rng, k);
    if k % 4 == 0 {
        reading_round(rng, &shape, k % 120 == 0, calls);
    }
    if k % 120 == 0 {
        full_book(rng, &shape, calls);
    }
    if k % 4 == 2 {
        editing_round(rng, &shape, calls);
        edits_in_turn(rng, &shape, calls);
    }
    if k % 32 == 20 {
        full_book_edits(rng, &shape, calls);
        full_book_imports(rng, &shape, calls);
        full_books_together(rng, &shape, calls);
    }
    if k % 4 == 1 {
        importing_round(rng, &shape, calls);
    }
    if k % 16 == 3 || k % 16 == 10 || k % 60 == 0 {
        directions_together(rng, &shape, calls);
    }
    scoring_round(rng, &shape, calls);
    decoding_round(rng, &shape, calls);
}

/// Texts of books and directions, and loaded lists: of each kind of damage one, and one damaged anyhow.
pub fn reading_round(rng: &mut Rng, shape: &Shape, large: bool, calls: &mut dyn Calls) {
    for code in [0, 1, 2, 3, 4, 5, 6, 20] {
        if code == 5 && !large {
            continue;
        }
        let mut text = gen::text_saying(rng, shape, code);
        let needed = crate::read_book(&text, usize::MAX).map_or(4, |list| list.len());
        for short in [false, true] {
            let places = gen::places(rng, needed, short);
            calls.read_book(rng, &text, places);
        }
        if code != 1 {
            let list = gen::book_saying(rng, shape, code);
            calls.check_book(rng, &list);
        }
        gen::mangle_text(rng, &mut text);
        let places = gen::places(rng, needed, false);
        calls.read_book(rng, &text, places);
    }
    // No text is refused by 21.
    let list = gen::book_saying(rng, shape, 21);
    calls.check_book(rng, &list);
    let mut list = gen::book_saying(rng, shape, 0);
    gen::mangle_list(rng, &mut list);
    calls.check_book(rng, &list);
    for code in [0, 8, 9, 10] {
        let mut text = gen::direction_text_saying(rng, shape, code);
        let needed = crate::read_direction(&text, usize::MAX).map_or(2, |words| words.len());
        for short in [false, true] {
            let places = gen::places(rng, needed, short);
            calls.read_direction(rng, &text, places);
        }
        gen::mangle_text(rng, &mut text);
        calls.read_direction(rng, &text, 32);
    }
}

/// As many lines of each kind as are allowed.
fn full_book(rng: &mut Rng, shape: &Shape, calls: &mut dyn Calls) {
    let lines = gen::lines_of(rng, shape, [4_096, 8_192, 8_192, 8_192]);
    let (list, text) = (gen::loaded(&lines), gen::text(&lines));
    for short in [false, true] {
        let places = gen::places(rng, list.len(), short);
        calls.read_book(rng, &text, places);
    }
    calls.check_book(rng, &list);
}

/// Proposed lists: of each refusal one, any at all, and a book or a direction that is broken.
pub fn scoring_round(rng: &mut Rng, shape: &Shape, calls: &mut dyn Calls) {
    let list = gen::book_saying(rng, shape, 0);
    let book = crate::check_book(&list).expect("a good book");
    let direction = gen::direction_from(rng, shape, &book);
    for code in [0, 16, 17, 18, 19] {
        if let Some(steps) = gen::proposal_saying(rng, &book, &direction, code) {
            calls.score(rng, &list, &direction, &steps);
        }
    }
    let steps = gen::any_proposal(rng, &book, &direction);
    calls.score(rng, &list, &direction, &steps);
    let code = rng.pick(&[2, 3, 4, 6, 20, 21]);
    let broken = gen::book_saying(rng, shape, code);
    calls.score(rng, &broken, &direction, &steps);
    let code = rng.pick(&[9, 10]);
    let broken = gen::direction_saying(rng, shape, code);
    calls.score(rng, &list, &broken, &steps);
}

/// Decodes: anything, and the same with the store just enough and just too small.
pub fn decoding_round(rng: &mut Rng, shape: &Shape, calls: &mut dyn Calls) {
    let mut case = gen::decode_case(rng, shape);
    calls.decode(rng, &case);
    if let Ok(answer) = case.answer() {
        for store_len in [8 * answer.states, 8 * answer.states - 1] {
            case.store_len = store_len;
            calls.decode(rng, &case);
        }
    }
}

/// One addition and one removal of a book, each in a list of its own.
fn both_edits(rng: &mut Rng, shape: &Shape, book: &[i32], calls: &mut dyn Calls) {
    let entries = crate::check_book(book).map_or(2, |book| book.phrases.len());
    for edit in [edits::addition(rng, shape), edits::removal(rng, entries)] {
        let case = edits::in_list(rng, book, edit);
        calls.edit(rng, &case);
    }
}

/// Edits of good books, and of books that are broken.
pub fn editing_round(rng: &mut Rng, shape: &Shape, calls: &mut dyn Calls) {
    for code in [0, 0, 0, 2, 3, 4, 6, 20, 21] {
        let book = gen::book_saying(rng, shape, code);
        both_edits(rng, shape, &book, calls);
    }
}

/// Edits of a book with as many P lines as are allowed, and of one with too many.
pub fn full_book_edits(rng: &mut Rng, shape: &Shape, calls: &mut dyn Calls) {
    // Short numbers: the lists are long enough.
    let short = Shape {
        source_base: 1,
        target_base: 1,
        ties: &[0],
        ..shape.clone()
    };
    for counts in [[4_096, 0, 2, 2], [4_097, 2, 0, 0]] {
        let book = gen::loaded(&gen::lines_of(rng, &short, counts));
        both_edits(rng, shape, &book, calls);
    }
}

/// A book edited up to 20 times in one list; now and then, and in the end, it is asked as its edited text is.
pub fn edits_in_turn(rng: &mut Rng, shape: &Shape, calls: &mut dyn Calls) {
    let mut lines = gen::lines(rng, shape);
    let book = gen::loaded(&lines);
    let places = rng.below(200);
    let mut list = edits::lent(rng, &book, places);
    let mut used = book.len();
    for left in (0..=rng.below(20)).rev() {
        let edit = edits::any_edit(rng, shape, &list[..used]);
        let case = EditCase { list, used, edit };
        calls.edit(rng, &case);
        let reply;
        (reply, list) = case.answer();
        if let Ok(count) = reply {
            case.edit.of_lines(&mut lines);
            used = count;
        }
        if left == 0 || rng.chance(1, 4) {
            as_read_afresh(rng, shape, &list[..used], &gen::text(&lines), calls);
        }
    }
}

/// A decode, a scoring and the target words of an edited book, and of its text.
fn as_read_afresh(rng: &mut Rng, shape: &Shape, book: &[i32], text: &[u8], calls: &mut dyn Calls) {
    let checked = crate::check_book(book).expect("a good book");
    let direction = gen::direction_from(rng, shape, &checked);
    let steps = gen::valid_proposal(rng, &checked, &direction)
        .unwrap_or_else(|| gen::any_proposal(rng, &checked, &direction));
    let case = DecodeCase {
        book: book.to_vec(),
        width: gen::width(rng, shape),
        steps_len: direction.len(),
        words_len: 8 * direction.len(),
        store_len: 8 * 1_000,
        direction,
    };
    calls.same_book(rng, text, &case, &steps);
    calls.check_book(rng, &case.book);
    calls.score(rng, &case.book, &case.direction, &steps);
    calls.decode(rng, &case);
}

/// Imports with each flaw to good books, and good ones to books that are broken.
pub fn importing_round(rng: &mut Rng, shape: &Shape, calls: &mut dyn Calls) {
    use Flaw::*;
    for flaw in [None, None, None, Text, Text, Words, Range, Twice] {
        let bare = rng.chance(3, 4);
        let shape = imports::shape(rng, shape, bare);
        let code = match flaw {
            None => 0,
            _ => rng.pick(&[0, 0, 0, 0, 0, 0, 2, 3, 4, 6, 20, 21]),
        };
        let book = gen::book_saying(rng, &shape, code);
        let texts = imports::texts(rng, &shape, flaw);
        let case = imports::in_list(rng, &book, texts);
        calls.import(rng, &case);
        imported(rng, &shape, case, 2, calls);
    }
    for code in [2, 3, 4, 6, 20, 21] {
        let shape = imports::shape(rng, shape, false);
        let book = gen::book_saying(rng, &shape, code);
        let texts = imports::texts(rng, &shape, None);
        let case = imports::in_list(rng, &book, texts);
        calls.import(rng, &case);
    }
}

/// Imports to books with as many lines of a kind as are allowed, of which none is left out, and to one with too many.
pub fn full_book_imports(rng: &mut Rng, shape: &Shape, calls: &mut dyn Calls) {
    // Short numbers: the lists are long enough.
    let short = Shape {
        source_base: 1,
        target_base: 1,
        ties: &[0],
        ..shape.clone()
    };
    let counts = rng.pick(&[[2, 8_192, 0, 0], [2, 0, 8_192, 0], [2, 0, 0, 8_192]]);
    for counts in [counts, [4_097, 0, 0, 0], [0, 8_190, 0, 0]] {
        let book = gen::loaded(&gen::lines_of(rng, &short, counts));
        let texts = imports::texts(rng, &short, Flaw::None);
        let case = imports::in_list(rng, &book, texts);
        calls.import(rng, &case);
    }
}

/// What was imported is asked as its text is, and held to the file's own scores where the caller's book had none; and up to so many
/// imports more go to the same list.
fn imported(rng: &mut Rng, shape: &Shape, case: ImportCase, more: usize, calls: &mut dyn Calls) {
    let (Ok(used), list) = case.answer() else {
        return;
    };
    let book = &list[..used];
    as_read_afresh(rng, shape, book, &gen::text(&imports::lines(book)), calls);
    if case.into_bare_book() {
        as_the_file(rng, shape, &case, book, calls);
    }
    if more > 0 && rng.chance(1, 2) {
        let (arpa, spelling) = imports::texts(rng, shape, Flaw::None);
        let next = ImportCase {
            arpa,
            spelling,
            list,
            used,
        };
        calls.import(rng, &next);
        imported(rng, shape, next, more - 1, calls);
    }
}

/// The triples of the target words, and those of the answer to a decode, score as the file says.
fn as_the_file(
    rng: &mut Rng,
    shape: &Shape,
    case: &ImportCase,
    book: &[i32],
    calls: &mut dyn Calls,
) {
    let mut words: Vec<u16> = (0..5).map(|_| shape.target(rng) as u16).collect();
    words.push(rng.pick(&[1, 2, 65_534, 65_535]));
    case.hold_triples(book, &words);
    let checked = crate::check_book(book).expect("a good book");
    let direction = gen::direction_from(rng, shape, &checked);
    let asked = DecodeCase {
        book: book.to_vec(),
        width: -1,
        steps_len: direction.len(),
        words_len: 8 * direction.len(),
        store_len: 8 * 1_000,
        direction,
    };
    calls.decode(rng, &asked);
    if let Ok(answer) = asked.answer() {
        case.hold_answer(book, &answer);
    }
}

/// A round, and its sheet.
fn with_sheet(rng: &mut Rng, case: &RoundCase, calls: &mut dyn Calls) {
    calls.round(rng, case);
    let sheet = SheetCase::of(rng, case);
    calls.sheet(rng, &sheet);
}

/// Directions together: good rounds, the same with the store just enough for each of them and just not, rounds that 26 and 12 refuse, and
/// rounds with books that are broken. Each is asked for its sheet too; and sheets with sums of more than 32 bits.
pub fn directions_together(rng: &mut Rng, shape: &Shape, calls: &mut dyn Calls) {
    use round_cases::Flaw::*;
    for flaw in [None, None, None, Ends, Ends, Short] {
        let mut case = round_cases::with_flaw(rng, shape, flaw);
        with_sheet(rng, &case, calls);
        if flaw == None {
            if let Some(states) = most_states(&case) {
                for store_len in [8 * states, 8 * states - 1] {
                    case.store_len = store_len;
                    with_sheet(rng, &case, calls);
                }
            }
        }
    }
    for code in [2, 3, 4, 6, 20, 21] {
        let case = round_cases::with_flaw(rng, shape, Book(code));
        with_sheet(rng, &case, calls);
    }
    for sign in [-1, 1] {
        let round = round_cases::heavy(rng, sign);
        let sheet_len = SHEET;
        calls.sheet(rng, &SheetCase { round, sheet_len });
    }
}

/// Rounds with books that have too many lines.
pub fn full_books_together(rng: &mut Rng, shape: &Shape, calls: &mut dyn Calls) {
    for _ in 0..2 {
        let case = round_cases::with_flaw(rng, shape, round_cases::Flaw::Book(5));
        with_sheet(rng, &case, calls);
    }
}

/// The most states that a direction of the round enters, of those that are answered.
fn most_states(case: &RoundCase) -> Option<usize> {
    let (_, after): (_, Lists) = case.answer(&case.lists(|_| 0));
    let states = after.answers.chunks_exact(9).map(|answer| answer[4]);
    states
        .max()
        .filter(|&most| most > 0)
        .map(|most| most as usize)
}
