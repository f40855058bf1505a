//! Ticket 8 of 02: a whole call for a round's sheet, what the program `round` prints, and random texts for that program.

use crate::gen::{self, Rng, Shape};
use crate::round::Lists;
use crate::round_cases::RoundCase;
use crate::sheet::{self, BOOK_BYTES, INPUT_BYTES, SHEET};
use crate::{check_book, plain_sheet, read_book, reply};

/// A round, and how many bytes are lent for its sheet.
#[derive(Clone, Debug)]
pub struct SheetCase {
    pub round: RoundCase,
    pub sheet_len: usize,
}

/// What a call for a sheet leaves: the round's lists, and the bytes.
#[derive(Clone, Debug, PartialEq, Eq)]
pub struct Sheeted {
    pub lists: Lists,
    pub sheet: Vec<u8>,
}

impl SheetCase {
    /// A round's sheet in enough bytes, or now and then in too few.
    pub fn of(rng: &mut Rng, round: &RoundCase) -> SheetCase {
        let short = rng.chance(1, 4);
        let sheet_len = match rng.below(4) {
            0 => SHEET - short as usize,
            _ => gen::places(rng, SHEET, short),
        };
        let round = round.clone();
        SheetCase { round, sheet_len }
    }

    /// Lists of those lengths, each with the number that is made for its place.
    pub fn lists(&self, mut of: impl FnMut(usize) -> u64) -> Sheeted {
        Sheeted {
            lists: self.round.lists(&mut of),
            sheet: (0..self.sheet_len).map(|k| of(k) as u8).collect(),
        }
    }

    /// What the call replies, and what it leaves: the same as place by place, and as before where it is refused.
    pub fn answer(&self, before: &Sheeted) -> (Result<usize, u8>, Sheeted) {
        let mut after = before.clone();
        let round = &self.round;
        let (book, directions, ends) = (&round.book, &round.directions, &round.ends);
        let (width, lists, sheet) = (round.width, &mut after.lists, &mut after.sheet);
        let reply = sheet::round_sheet(book, directions, ends, width, lists, sheet);
        let (lists, sheet) = (&before.lists, &before.sheet);
        let (plainly, lists, sheet) =
            plain_sheet::round_sheet(book, directions, ends, width, lists, sheet);
        assert_eq!(reply, plainly, "{self:?}");
        assert_eq!(after.sheet, sheet, "{self:?}");
        assert!(after.lists == lists, "{self:?}");
        assert!(reply.is_ok() || after == *before, "{self:?}");
        (reply, after)
    }
}

/// The sheet that the program `round` prints for these bytes of book.txt and of standard input, or its refusal, by both ways.
pub fn program(book: &[u8], input: &[u8]) -> Result<Vec<u8>, u8> {
    let sheet = sheet::program(book, input);
    let shown = || [book, input].map(|text| String::from_utf8_lossy(text).into_owned());
    assert_eq!(sheet, plain_sheet::program(book, input), "{:?}", shown());
    sheet
}

/// What it prints.
pub fn printed(sheet: Result<Vec<u8>, u8>) -> Vec<u8> {
    sheet.unwrap_or_else(|code| reply(&Err(code)))
}

// ------------------------------------------------------------------------------ random texts

/// What is wrong with the program's texts. What later questions ask may be wrong too.
#[derive(Clone, Copy, Debug, PartialEq)]
pub enum Flaw {
    None,
    /// 7: a byte more than the program takes.
    Bytes,
    /// The book, by that question.
    Book(u8),
    /// 26.
    Lines,
    /// A line, by that question.
    Line(u8),
}

/// The bytes of book.txt and of standard input, with that flaw.
pub fn texts(rng: &mut Rng, shape: &Shape, flaw: Flaw) -> (Vec<u8>, Vec<u8>) {
    let code = match flaw {
        Flaw::Book(code) => code,
        _ => 0,
    };
    let mut book = gen::text_saying(rng, shape, code);
    let mut lines = lines(rng, shape, &book);
    if flaw == Flaw::Lines || (code != 0 && rng.chance(1, 4)) {
        lines = wrong_number(rng, lines);
    }
    if let Flaw::Line(code) = flaw {
        break_line(rng, shape, &mut lines, code);
    } else if flaw != Flaw::None && !lines.is_empty() && rng.chance(1, 4) {
        let code = rng.pick(&[8, 9, 10]);
        break_line(rng, shape, &mut lines, code);
    }
    let mut input = lines.concat();
    if flaw == Flaw::Bytes {
        match rng.below(4) {
            0 => input.resize(INPUT_BYTES + 1, b'1'),
            _ => book.resize(BOOK_BYTES + 1, b'1'),
        }
    }
    (book, input)
}

/// No lines, or more than 64, of which the last may be without its byte 10.
fn wrong_number(rng: &mut Rng, mut lines: Vec<Vec<u8>>) -> Vec<Vec<u8>> {
    let count = rng.pick(&[0, 0, 65, 65, 65, 66, 100]);
    lines.resize(count, b"11\n".to_vec());
    match lines.last_mut() {
        Some(last) if rng.chance(1, 3) => last.truncate(1),
        _ => {}
    }
    lines
}

/// 1 to 64 lines with good directions, of which most fit the book.
fn lines(rng: &mut Rng, shape: &Shape, book: &[u8]) -> Vec<Vec<u8>> {
    let list = read_book(book, usize::MAX).unwrap_or_default();
    let book = check_book(&list).ok();
    let count = match rng.below(8) {
        0 => rng.pick(&[63, 64]),
        1 => 1,
        _ => 1 + rng.below(8),
    };
    let mut one = || match &book {
        Some(book) if rng.chance(2, 3) => gen::direction_from(rng, shape, book),
        _ => gen::direction(rng, shape),
    };
    (0..count).map(|_| gen::direction_text(&one())).collect()
}

/// One line that the question refuses; those behind it may be refused by another.
fn break_line(rng: &mut Rng, shape: &Shape, lines: &mut [Vec<u8>], code: u8) {
    let at = rng.below(lines.len());
    let is_last = at + 1 == lines.len();
    // One line; the last may be without its byte 10.
    let is_line = |text: &[u8]| match text.iter().position(|&byte| byte == b'\n') {
        Some(k) => k + 1 == text.len(),
        None => is_last && !text.is_empty(),
    };
    lines[at] = loop {
        let text = gen::direction_text_saying(rng, shape, code);
        if is_line(&text) {
            break text;
        }
    };
    if !is_last && rng.chance(1, 3) {
        let later = rng.pick(&[8, 9, 10]);
        break_line(rng, shape, &mut lines[at + 1..], later);
    }
}
