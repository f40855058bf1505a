//! Random inputs as cases for crates/try_cases, and what that program prints for them, held to the second decoder word for word.

use crate::cases::{self, BOOK, DIRECTION, LINE, READ, RENDERED, STEPS, STORE, TEXT, WORDS};
use crate::cases::{ANSWERS, ENDS, ROUND, ROUND_RECORDS, ROUND_STEPS, ROUND_WORDS};
use crate::cases::{ROUND_PRINTED, SHEET_BYTES};
use crate::edits::{Edit, EditCase};
use crate::gen::{self, DecodeCase, Rng, Shape};
use crate::imports::ImportCase;
use crate::round_cases::RoundCase;
use crate::rounds::{self, Calls, Reached, Tally};
use crate::sheet_cases::{self, Flaw, SheetCase};
use crate::ways::Ways;
use crate::Step;
use std::fmt::Display;

/// The lines made so far, and how many inputs the program has no room for: those are left out.
#[derive(Default)]
pub struct Lines {
    pub lines: Vec<String>,
    pub left_out: usize,
}

/// A list as a case has it.
fn list<T: Display>(numbers: &[T]) -> String {
    let fields = numbers.iter().map(|z| format!(" {z}"));
    format!("{}{}", numbers.len(), fields.collect::<String>())
}

impl Lines {
    /// A line for the call with those numbers, where each size is within its room.
    fn add(&mut self, sizes: &[(usize, usize)], numbers: String) {
        let line = format!("case {}|{numbers}", self.lines.len() + 1);
        if line.len() < LINE && sizes.iter().all(|(size, room)| size <= room) {
            self.lines.push(line);
        } else {
            self.left_out += 1;
        }
    }

    fn check_direction(&mut self, direction: &[u16]) {
        let sizes = [(direction.len(), DIRECTION)];
        self.add(&sizes, format!("7 {}", list(direction)));
    }

    fn render(&mut self, rng: &mut Rng, book: &[u8], direction: &[u8]) {
        let sizes = [(book.len(), RENDERED.0), (direction.len(), RENDERED.1)];
        let numbers = format!("8 {} {} {}", list(book), list(direction), fill(rng));
        self.add(&sizes, numbers);
    }

    fn round_program(&mut self, rng: &mut Rng, book: &[u8], input: &[u8]) {
        let sizes = [
            (book.len(), ROUND_PRINTED.0),
            (input.len(), ROUND_PRINTED.1),
        ];
        let numbers = format!("16 {} {} {}", list(book), list(input), fill(rng));
        self.add(&sizes, numbers);
    }

    /// A round or, with so many bytes, its sheet: by the call with steps as numbers, or by the next one, with records.
    fn add_round(&mut self, rng: &mut Rng, case: &RoundCase, call: u8, sheet: Option<usize>) {
        let steps = match call {
            12 | 14 => (case.steps_len, ROUND_STEPS),
            // The program has records for 34 directions; more are answered 12.
            _ => ((case.steps_len / 3).min(ROUND_RECORDS), ROUND_RECORDS),
        };
        let sizes = [
            (case.book.len(), BOOK),
            (case.directions.len(), ROUND),
            (case.ends.len(), ENDS),
            steps,
            (case.words_len, ROUND_WORDS),
            (case.store_len, STORE),
            (case.answers_len, ANSWERS),
            (sheet.unwrap_or(0), SHEET_BYTES),
        ];
        let (book, directions, ends) = (list(&case.book), list(&case.directions), list(&case.ends));
        let (words, store, answers) = (case.words_len, case.store_len, case.answers_len);
        let sheet = sheet.map_or(String::new(), |bytes| format!(" {bytes}"));
        let lent = format!("{} {words} {store} {answers}{sheet}", steps.0);
        let asked = format!("{call} {book} {directions} {ends} {}", case.width);
        self.add(&sizes, format!("{asked} {lent} {}", fill(rng)));
    }
}

/// What the first place of each lent list holds.
fn fill(rng: &mut Rng) -> u16 {
    match rng.below(4) {
        0 => rng.below(40) as u16,
        _ => rng.draw() as u16,
    }
}

impl Calls for Lines {
    fn read_book(&mut self, rng: &mut Rng, text: &[u8], places: usize) {
        let numbers = format!("1 {} 0 {places} {}", list(text), fill(rng));
        self.add(&[(text.len(), TEXT), (places, READ)], numbers);
    }
    fn read_direction(&mut self, rng: &mut Rng, text: &[u8], places: usize) {
        let numbers = format!("2 {} {places} {}", list(text), fill(rng));
        self.add(&[(text.len(), TEXT), (places, WORDS)], numbers);
    }
    fn check_book(&mut self, rng: &mut Rng, book: &[i32]) {
        let sizes = [(book.len(), BOOK)];
        self.add(&sizes, format!("3 {}", list(book)));
        let entry = match rng.below(3) {
            0 => rng.draw(),
            _ => rng.below(12) as u64,
        };
        self.add(&sizes, format!("4 {} {entry}", list(book)));
    }
    fn score(&mut self, _: &mut Rng, book: &[i32], direction: &[u16], steps: &[Step]) {
        let numbers = steps.iter().map(|(f, l, e)| format!(" {f} {l} {e}"));
        let numbers: String = numbers.collect();
        let sizes = [
            (book.len(), BOOK),
            (direction.len(), DIRECTION),
            (steps.len(), STEPS),
        ];
        let (book, direction) = (list(book), list(direction));
        self.add(
            &sizes,
            format!("5 {book} {direction} {}{numbers}", steps.len()),
        );
    }
    fn decode(&mut self, rng: &mut Rng, case: &DecodeCase) {
        let sizes = [
            (case.book.len(), BOOK),
            (case.direction.len(), DIRECTION),
            (case.steps_len, STEPS),
            (case.words_len, WORDS),
            (case.store_len, STORE),
        ];
        let (book, direction) = (list(&case.book), list(&case.direction));
        let lent = format!("{} {} {}", case.steps_len, case.words_len, case.store_len);
        let numbers = format!("6 {book} {direction} {} {lent} {}", case.width, fill(rng));
        self.add(&sizes, numbers);
    }
    fn edit(&mut self, rng: &mut Rng, case: &EditCase) {
        let (call, asked, size) = match &case.edit {
            Edit::Add(line) => (9, list(line), line.len()),
            Edit::Remove(entry) => (10, entry.to_string(), 0),
        };
        let lent = format!("{} {}", list(&case.list), case.used);
        let sizes = [(case.list.len(), READ), (size, READ)];
        self.add(&sizes, format!("{call} {lent} {asked} {}", fill(rng)));
    }
    fn import(&mut self, rng: &mut Rng, case: &ImportCase) {
        let sizes = [
            (case.arpa.len(), TEXT),
            (case.spelling.len(), TEXT),
            (case.list.len(), READ),
        ];
        let texts = format!("{} {}", list(&case.arpa), list(&case.spelling));
        let lent = format!("{} {}", list(&case.list), case.used);
        self.add(&sizes, format!("11 {texts} {lent} {}", fill(rng)));
    }
    fn round(&mut self, rng: &mut Rng, case: &RoundCase) {
        self.add_round(rng, case, 12, None);
        self.add_round(rng, case, 13, None);
    }
    fn sheet(&mut self, rng: &mut Rng, case: &SheetCase) {
        // The program has no room for a thousand bytes more than are needed.
        let bytes = Some(case.sheet_len.min(SHEET_BYTES));
        self.add_round(rng, &case.round, 14, bytes);
        self.add_round(rng, &case.round, 15, bytes);
    }
    /// A reading of the text, held to the edited book; what else is asked of that book has lines of its own.
    fn same_book(&mut self, rng: &mut Rng, text: &[u8], case: &DecodeCase, _: &[Step]) {
        let (size, book) = (case.book.len(), list(&case.book));
        let numbers = format!("1 {} {book} {size} {}", list(text), fill(rng));
        self.add(&[(text.len(), TEXT), (size, READ)], numbers);
    }
}

/// Directions as numbers, a rendering, and the program `round`.
fn other_calls(rng: &mut Rng, shape: &Shape, lines: &mut Lines) {
    for code in [0, 9, 10] {
        lines.check_direction(&gen::direction_saying(rng, shape, code));
    }
    let (book, direction) = (rng.pick(&[0, 0, 0, 0, 1, 3, 20]), rng.pick(&[0, 0, 0, 8]));
    let book = gen::text_saying(rng, shape, book);
    let direction = gen::direction_text_saying(rng, shape, direction);
    lines.render(rng, &book, &direction);
    round_programs(rng, shape, lines);
}

/// The program `round`: texts that are good, and some of each kind that it refuses.
fn round_programs(rng: &mut Rng, shape: &Shape, lines: &mut Lines) {
    let mut flaws = vec![Flaw::None, rng.pick(&[Flaw::Bytes, Flaw::Lines])];
    for _ in 0..3 {
        flaws.push(Flaw::Book(rng.pick(&[1, 2, 3, 4, 6, 20])));
    }
    for _ in 0..2 {
        flaws.push(Flaw::Line(rng.pick(&[8, 9, 10])));
    }
    for flaw in flaws {
        let (book, input) = sheet_cases::texts(rng, shape, flaw);
        lines.round_program(rng, &book, &input);
    }
}

/// Scoring and decoding with a book that question `code` refuses.
fn refused_books(rng: &mut Rng, shape: &Shape, code: u8, lines: &mut Lines) {
    let mut case = gen::decode_case(rng, shape);
    case.book = gen::book_saying(rng, shape, code);
    lines.score(rng, &case.book, &case.direction, &[(1, 1, 1)]);
    lines.decode(rng, &case);
}

/// So many lines, or a few more: in most rounds the two calls with step records, in some of them the others too.
pub fn made(seed: u64, inputs: usize) -> Lines {
    let (mut rng, mut lines) = (Rng::new(seed), Lines::default());
    let mut k = 0;
    while lines.lines.len() < inputs {
        let shape = rounds::shape(&mut rng, k);
        rounds::scoring_round(&mut rng, &shape, &mut lines);
        for _ in 0..3 {
            rounds::decoding_round(&mut rng, &shape, &mut lines);
        }
        if k % 16 == 0 {
            rounds::reading_round(&mut rng, &shape, false, &mut lines);
            for small in [Shape::small(&mut rng), Shape::small_ties(&mut rng)] {
                other_calls(&mut rng, &small, &mut lines);
            }
        }
        if k % 10 == 3 {
            let code = [2, 3, 4, 6, 20, 21][k / 10 % 6];
            refused_books(&mut rng, &shape, code, &mut lines);
        }
        if k % 16 == 8 {
            rounds::editing_round(&mut rng, &shape, &mut lines);
            rounds::edits_in_turn(&mut rng, &shape, &mut lines);
        }
        if k % 16 == 4 {
            rounds::importing_round(&mut rng, &shape, &mut lines);
        }
        if k % 48 == 1 {
            refused_books(&mut rng, &shape, 5, &mut lines);
        }
        if k % 32 == 17 {
            rounds::full_book_edits(&mut rng, &shape, &mut lines);
            rounds::full_book_imports(&mut rng, &shape, &mut lines);
            rounds::full_books_together(&mut rng, &shape, &mut lines);
        }
        if k % 32 == 12 || k % 32 == 23 {
            rounds::directions_together(&mut rng, &shape, &mut lines);
        }
        k += 1;
    }
    lines
}

/// The answers that random inputs reach in the two calls with step records.
const WITH_STEPS: [Reached; 2] = [
    ("score", &[0, 2, 3, 4, 5, 6, 9, 10, 16, 17, 18, 19, 20, 21]),
    (
        "decode",
        &[0, 2, 3, 4, 5, 6, 9, 10, 11, 12, 13, 14, 15, 20, 21],
    ),
];

/// Those of a round, and of its sheet, with step records.
const ROUNDS_WITH_STEPS: [Reached; 2] = [
    ("decode_round with records", rounds::TOGETHER[0].1),
    ("round_sheet with records", rounds::TOGETHER[1].1),
];

/// Those of the program `round`.
const PROGRAM: [Reached; 1] = [("round program", &[0, 1, 2, 3, 4, 6, 7, 8, 9, 10, 20, 26])];

/// What was met too seldom, in a sentence: an answer of the calls with step records, of the edits, of the import, of a round or its sheet or
/// inside one, or of the program `round`, fewer than `least` times, or a way in which a triple is scored, or a mixture of suppliers.
fn seldom(tally: &Tally, inside: &Tally, ways: &Ways, least: u64) -> Result<(), String> {
    for reached in [
        &WITH_STEPS[..],
        &rounds::EDITS,
        &rounds::IMPORTS,
        &rounds::TOGETHER,
        &ROUNDS_WITH_STEPS,
        &PROGRAM,
    ] {
        tally.seldom(reached, least).map_or(Ok(()), Err)?;
    }
    let answers = inside.seldom(&rounds::INSIDE, least);
    answers.map_or(Ok(()), Err)?;
    match ways.seldom() {
        Some(said) if least > 0 => Err(said),
        _ => Ok(()),
    }
}

/// Holds each line that was printed to its case, and prints how often each call gave each answer. What is wrong, in a sentence: a line
/// that differs, or something that was met too seldom.
pub fn hold(lines: &str, printed: &str, least: u64) -> Result<(), String> {
    let (mut tally, mut shared, mut ways) = (Tally::default(), 0, Ways::default());
    let mut inside = Tally::default();
    let (asked, given) = (lines.lines().count(), printed.lines().count());
    if asked != given {
        return Err(format!("{asked} cases, but {given} lines printed"));
    }
    for (line, printed) in lines.lines().zip(printed.lines()) {
        let said = cases::line_said(line);
        if said.text != printed {
            let meant = said.text;
            return Err(format!(
                "a difference:\n{line}\nprinted\n{printed}\nbut the second decoder says\n{meant}"
            ));
        }
        tally.count(said.call, said.code);
        shared += said.shared as u64;
        ways.add(said.ways);
        for code in said.inside {
            inside.count(rounds::DIRECTION_OF_A_ROUND, code);
        }
        for code in said.on_sheets {
            inside.count(rounds::LINE_OF_A_SHEET, code);
        }
    }
    tally.print();
    inside.print();
    println!("decodes where several derivations have the top score: {shared} or more");
    ways.print();
    seldom(&tally, &inside, &ways, least)?;
    println!("{asked} cases, every line the second decoder's");
    Ok(())
}
