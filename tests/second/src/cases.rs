//! Cases as data, for crates/try_cases: a line is a label, `|`, and decimal numbers with one blank between two: the call, its lists (a
//! length, then each number), its scalars. In a list `( n z .. )` is what stands in it n times; there `#` is a number that counts
//! up from z, and `/d` is the digit of that number at d = 1, 10, 100 .., as a byte. What the second decoder says to a line is what
//! that program is to print.

use crate::edits::{Edit, EditCase};
use crate::gen::DecodeCase;
use crate::imports::ImportCase;
use crate::round::Lists;
use crate::round_cases::RoundCase;
use crate::sheet::{BOOK_BYTES, INPUT_BYTES, SHEET};
use crate::sheet_cases::{self, SheetCase};
use crate::ways::Ways;
use crate::{plain, Answer, Scoring, Step, Supplied};
use std::fmt::{Display, Write};
use std::str::{FromStr, SplitWhitespace};

/// What the program has room for: bytes of a line and of a text, numbers of a book, words of a direction.
pub const LINE: usize = 200_000;
pub const TEXT: usize = 120_000;
pub const BOOK: usize = 140_000;
pub const DIRECTION: usize = 128;
/// How many places each lent list has; the case says how many of them are lent.
pub const READ: usize = 41_000;
pub const WORDS: usize = 2_000;
pub const STORE: usize = 33_000;
pub const STEPS: usize = 1_100;
/// The same for a round: words of its directions, ends, places for steps as numbers and as records, for words and for answers.
pub const ROUND: usize = 2_600;
pub const ENDS: usize = 70;
pub const ROUND_STEPS: usize = 6_400;
pub const ROUND_RECORDS: usize = 1_100;
pub const ROUND_WORDS: usize = 16_700;
pub const ANSWERS: usize = 600;
/// Bytes of a round's sheet.
pub const SHEET_BYTES: usize = 2_100;
/// What the rendering program takes, and one byte more; the bytes that it may print. The same of the program `round`.
pub const RENDERED: (usize, usize, usize) = (8_193, 513, 4_096);
pub const ROUND_PRINTED: (usize, usize, usize) = (BOOK_BYTES + 1, INPUT_BYTES + 1, SHEET);

/// The numbers of a case that are not yet read.
struct Case<'a>(SplitWhitespace<'a>);

fn parsed<T: FromStr>(field: &str) -> T {
    let number = field.parse().ok();
    number.unwrap_or_else(|| panic!("{field} does not fit"))
}

impl<'a> Case<'a> {
    fn field(&mut self) -> &'a str {
        self.0.next().expect("a number more")
    }
    fn number<T: FromStr>(&mut self) -> T {
        parsed(self.field())
    }
    fn count(&mut self, most: usize) -> usize {
        let count = self.number();
        assert!(count <= most, "{count} of {most} places");
        count
    }
    /// What a group stands for.
    fn group(&mut self) -> Vec<String> {
        let (turns, first): (u64, u64) = (self.number(), self.number());
        let items: Vec<&str> = self.0.by_ref().take_while(|&item| item != ")").collect();
        let said = |k: u64, item: &str| match item.strip_prefix('/') {
            Some(d) => (k / parsed::<u64>(d) % 10 + 48).to_string(),
            None if item == "#" => k.to_string(),
            None => item.to_string(),
        };
        (first..first + turns)
            .flat_map(|k| items.iter().map(move |item| said(k, item)))
            .collect()
    }
    fn list<T: FromStr>(&mut self, most: usize) -> Vec<T> {
        let count = self.count(most);
        let mut list: Vec<T> = Vec::new();
        while list.len() < count {
            match self.field() {
                "(" => list.extend(self.group().iter().map(|field| parsed(field))),
                field => list.push(parsed(field)),
            }
        }
        assert_eq!(list.len(), count, "a group that goes beyond its list");
        list
    }
    fn steps(&mut self) -> Vec<Step> {
        let count = self.count(STEPS);
        let mut step = || (self.number(), self.number(), self.number());
        (0..count).map(|_| step()).collect()
    }
    fn decode(&mut self) -> DecodeCase {
        DecodeCase {
            book: self.list(BOOK),
            direction: self.list(DIRECTION),
            width: self.number(),
            steps_len: self.count(STEPS),
            words_len: self.count(WORDS),
            store_len: self.count(STORE),
        }
    }
    fn import(&mut self) -> ImportCase {
        ImportCase {
            arpa: self.list(TEXT),
            spelling: self.list(TEXT),
            list: self.list(READ),
            used: self.number(),
        }
    }
    /// A round; where its steps are records they are counted as such.
    fn round(&mut self, records: bool) -> RoundCase {
        RoundCase {
            book: self.list(BOOK),
            directions: self.list(ROUND),
            ends: self.list(ENDS),
            width: self.number(),
            steps_len: match records {
                true => 3 * self.count(ROUND_RECORDS),
                false => self.count(ROUND_STEPS),
            },
            words_len: self.count(ROUND_WORDS),
            store_len: self.count(STORE),
            answers_len: self.count(ANSWERS),
        }
    }
    /// A round's sheet.
    fn sheet(&mut self, records: bool) -> SheetCase {
        SheetCase {
            round: self.round(records),
            sheet_len: self.count(SHEET_BYTES),
        }
    }
    fn edit(&mut self, edit: impl Fn(&mut Self) -> Edit) -> EditCase {
        EditCase {
            list: self.list(READ),
            used: self.number(),
            edit: edit(self),
        }
    }
}

/// What a list is full of before the call, place by place: numbers that count up from `fill`, and 0 follows 65,535.
fn filled(fill: u16) -> impl Fn(usize) -> u64 {
    move |k| fill.wrapping_add(k as u16) as u64
}

fn garbage(fill: u16, places: usize) -> Vec<i64> {
    (0..places).map(filled(fill)).map(|z| z as i64).collect()
}

/// A step as it is printed.
fn step_text<T: Display>(first: T, last: T, entry: T) -> String {
    format!("{first}.{last}.{entry}")
}

/// Numbers as steps, of three each.
fn step_texts(numbers: &[i64]) -> Vec<String> {
    let steps = numbers.chunks(3);
    steps.map(|s| step_text(s[0], s[1], s[2])).collect()
}

/// The list after that was written at its beginning.
fn over<T: Clone>(written: impl IntoIterator<Item = T>, before: &[T]) -> Vec<T> {
    let mut after = before.to_vec();
    for (place, number) in after.iter_mut().zip(written) {
        *place = number;
    }
    after
}

/// A lent list after the call, whole: `~n` is n places that are as before; any other number stands for itself, with `*n` where n in
/// a row are that number.
fn lent<T: Display + PartialEq>(name: &str, after: &[T], before: &[T]) -> String {
    let kept = |i: usize| after[i] == before[i];
    let mut line = format!(" {name}");
    let mut at = 0;
    while at < before.len() {
        let same = |i: &usize| kept(*i) == kept(at) && (kept(at) || after[*i] == after[at]);
        let run = (at..before.len()).take_while(same).count();
        match (kept(at), run) {
            (true, _) => write!(line, " ~{run}"),
            (false, 1) => write!(line, " {}", after[at]),
            (false, _) => write!(line, " {}*{run}", after[at]),
        }
        .unwrap();
        at += run;
    }
    line
}

/// What a case's line is to say.
pub struct Said {
    pub call: &'static str,
    /// The refusal's number; 0 for a result.
    pub code: u8,
    pub text: String,
    /// Several derivations have a decode's score, the best of all (looked for where there are few derivations).
    pub shared: bool,
    /// How the target words of a successful scoring or decode were scored, to which its four counts are held.
    pub ways: Ways,
    /// What each direction of a round was answered, and what each line of a sheet says.
    pub inside: Vec<u8>,
    pub on_sheets: Vec<u8>,
}

fn said<T>(call: &'static str, reply: &Result<T, u8>, text: String) -> Said {
    let code = *reply.as_ref().err().unwrap_or(&0);
    Said {
        call,
        code,
        text,
        shared: false,
        ways: Ways::default(),
        inside: Vec::new(),
        on_sheets: Vec::new(),
    }
}

/// The reply to a reading, and the list after it, held to `expected` over the garbage.
fn read<T: Copy + Into<i64>>(
    name: &str,
    reply: &Result<Vec<T>, u8>,
    expected: &[i32],
    garbage: &[i64],
) -> String {
    let (head, written) = match reply {
        Ok(list) => (format!("N,{}", list.len()), &list[..]),
        Err(k) => (format!("R,{k}"), &[][..]),
    };
    let after = over(written.iter().map(|&z| z.into()), garbage);
    let before = over(expected.iter().map(|&z| z as i64), garbage);
    head + &lent(name, &after, &before)
}

fn read_book(case: &mut Case) -> Said {
    let (text, expected) = (case.list::<u8>(TEXT), case.list::<i32>(READ));
    let (places, fill) = (case.count(READ), case.number());
    let reply = crate::read_book(&text, places);
    let line = read("book", &reply, &expected, &garbage(fill, READ));
    let (code, list) = plain::book_text_verdict(&text, places);
    assert_eq!(reply, if code == 0 { Ok(list) } else { Err(code) });
    said("read_book", &reply, line)
}

/// A reply that is a count.
fn counted(reply: Result<usize, u8>) -> String {
    reply.map_or_else(|k| format!("R,{k}"), |count| format!("N,{count}"))
}

/// An edit or an import: what is replied, and the list afterwards, with garbage behind it, held to what it was before.
fn edited(
    call: &'static str,
    before: &[i32],
    (reply, after): (Result<usize, u8>, Vec<i32>),
    fill: u16,
) -> Said {
    let garbage = garbage(fill, READ);
    let whole = |list: &[i32]| over(list.iter().map(|&z| z as i64), &garbage);
    let text = counted(reply) + &lent("book", &whole(&after), &whole(before));
    said(call, &reply, text)
}

fn read_direction(case: &mut Case) -> Said {
    let (text, places) = (case.list::<u8>(TEXT), case.count(WORDS));
    let fill = case.number();
    let reply = crate::read_direction(&text, places);
    let line = read("words", &reply, &[], &garbage(fill, WORDS));
    let said = said("read_direction", &reply, line);
    assert_eq!(plain::direction_text_verdict(&text, places).0, said.code);
    said
}

fn checked(call: &'static str, reply: Result<(), u8>) -> Said {
    let text = reply.map_or_else(|k| format!("R,{k}"), |()| "passed".into());
    said(call, &reply, text)
}

fn target_words(book: &[i32], entry: usize) -> Said {
    let (start, size) = crate::target_part(book, entry);
    let row: String = book[start..start + size]
        .iter()
        .map(|w| format!(",{w}"))
        .collect();
    said("target_words", &Ok(()), format!("N,{size}{row}"))
}

/// The four counts as they are printed.
fn four_text(supplied: Supplied) -> String {
    supplied.iter().map(|count| format!(" N,{count}")).collect()
}

/// After 13, 14, 15 and success the store is all zero; after the other refusals no lent list is changed.
fn decoded(case: &DecodeCase, fill: u16, reply: &Result<Answer, u8>) -> Said {
    let (head, zeros, steps, words): (_, _, &[Step], &[u16]) = match reply {
        Err(k @ 13..=15) => (format!("R,{k}"), case.store_len, &[], &[]),
        Err(k) => (format!("R,{k}"), 0, &[], &[]),
        Ok(a) => {
            let (s, w) = (a.steps.len(), a.words.len());
            let four = four_text(a.supplied);
            let head = format!("A,{} N,{s} N,{w} N,{}{four}", a.score, a.states);
            (head, case.store_len, &a.steps, &a.words)
        }
    };
    let steps = steps.iter().map(|&(f, l, e)| step_text(f, l, e));
    let words = words.iter().map(|&w| w as i64);
    let (no_steps, no_words, full) = (
        step_texts(&garbage(fill, 3 * STEPS)),
        garbage(fill, WORDS),
        garbage(fill, STORE),
    );
    let text = head
        + &lent("steps", &over(steps, &no_steps), &no_steps)
        + &lent("words", &over(words, &no_words), &no_words)
        + &lent("store", &over(vec![0; zeros], &full), &full);
    let of = |a: &Answer| {
        let ways = Ways::of(&case.book, &a.steps, a.supplied);
        (shared(case, a.score), ways)
    };
    let (shared, ways) = reply.as_ref().map_or_else(|_| Default::default(), of);
    Said {
        shared,
        ways,
        ..said("decode", reply, text)
    }
}

/// A list that was lent the first places of one full of garbage, whole before the call and afterwards.
fn whole<T: Copy + Into<i64>>(after: &[T], fill: u16, places: usize) -> (Vec<i64>, Vec<i64>) {
    let before = garbage(fill, places);
    let after = over(after.iter().map(|&z| z.into()), &before);
    (before, after)
}

/// A list of bytes that was lent, of so many places.
fn bytes(name: &str, written: &[u8], fill: u16, places: usize) -> String {
    let before: Vec<u8> = garbage(fill, places).iter().map(|&z| z as u8).collect();
    lent(name, &over(written.iter().copied(), &before), &before)
}

/// The lists after a round, with steps as numbers or as records.
fn round_lists(after: &Lists, records: bool, fill: u16) -> String {
    let numbers = |name: &str, (before, after): (Vec<i64>, Vec<i64>)| lent(name, &after, &before);
    let steps = match records {
        true => {
            let (before, after) = whole(&after.steps, fill, 3 * ROUND_RECORDS);
            lent("steps", &step_texts(&after), &step_texts(&before))
        }
        false => numbers("steps", whole(&after.steps, fill, ROUND_STEPS)),
    };
    steps
        + &numbers("words", whole(&after.words, fill, ROUND_WORDS))
        + &numbers("store", whole(&after.store, fill, STORE))
        + &numbers("answers", whole(&after.answers, fill, ANSWERS))
}

/// A round.
fn round(case: &mut Case, records: bool) -> Said {
    let asked = case.round(records);
    let fill: u16 = case.number();
    let (reply, after) = asked.answer(&asked.lists(filled(fill)));
    let head = reply.map_or_else(|k| format!("R,{k}"), |()| "passed".into());
    let call = match records {
        true => "decode_round with records",
        false => "decode_round",
    };
    Said {
        inside: asked.inside(reply.is_ok(), &after),
        ..said(call, &reply, head + &round_lists(&after, records, fill))
    }
}

/// A round's sheet.
fn round_sheet(case: &mut Case, records: bool) -> Said {
    let asked = case.sheet(records);
    let fill: u16 = case.number();
    let (reply, after) = asked.answer(&asked.lists(filled(fill)));
    let call = match records {
        true => "round_sheet with records",
        false => "round_sheet",
    };
    let text = counted(reply)
        + &round_lists(&after.lists, records, fill)
        + &bytes("sheet", &after.sheet, fill, SHEET_BYTES);
    Said {
        on_sheets: asked.round.inside(reply.is_ok(), &after.lists),
        ..said(call, &reply, text)
    }
}

/// A scoring against the plain walk, from question 16 on.
pub fn score_plainly(book: &[i32], direction: &[u16], steps: &[Step], reply: Result<Scoring, u8>) {
    if let (Ok(book), Ok(())) = (crate::check_book(book), crate::check_direction(direction)) {
        let plainly = match plain::proposal_verdict(&book, direction, steps) {
            0 => Ok(plain::scoring_of(&book, steps)),
            code => Err(code),
        };
        assert_eq!(reply, plainly);
    }
}

fn scored(case: &mut Case) -> Said {
    let (book, direction) = (case.list::<i32>(BOOK), case.list::<u16>(DIRECTION));
    let steps = case.steps();
    let reply = crate::score(&book, &direction, &steps);
    score_plainly(&book, &direction, &steps, reply);
    let text = reply.map_or_else(
        |k| format!("R,{k}"),
        |s| format!("{}{}", s.score, four_text(s.supplied)),
    );
    let of = |s: Scoring| Ways::of(&book, &steps, s.supplied);
    let ways = reply.map_or_else(|_| Ways::default(), of);
    Said {
        ways,
        ..said("score", &reply, text)
    }
}

fn shared(case: &DecodeCase, score: i64) -> bool {
    let book = crate::check_book(&case.book).expect("a good book");
    plain::best(&book, &case.direction, 200)
        .is_some_and(|best| best.top > 1 && best.score() == Some(score))
}

fn rendered(case: &mut Case) -> Said {
    let (book, direction) = (case.list::<u8>(RENDERED.0), case.list::<u8>(RENDERED.1));
    let out = crate::render(&book, &direction);
    said("render", &Ok(()), printed(&out, case.number(), RENDERED.2))
}

/// What a program printed, in the list that it was lent.
fn printed(out: &[u8], fill: u16, places: usize) -> String {
    format!("N,{}{}", out.len(), bytes("out", out, fill, places))
}

/// The program `round`.
fn round_program(case: &mut Case) -> Said {
    let (book, input) = (case.list(ROUND_PRINTED.0), case.list(ROUND_PRINTED.1));
    let sheet = sheet_cases::program(&book, &input);
    let out = sheet_cases::printed(sheet.clone());
    let text = printed(&out, case.number(), ROUND_PRINTED.2);
    said("round program", &sheet, text)
}

/// What the second decoder says to the numbers of a case.
fn answer(case: &mut Case) -> Said {
    match case.number::<u8>() {
        1 => read_book(case),
        2 => read_direction(case),
        3 => {
            let book = case.list::<i32>(BOOK);
            let reply = crate::check_book(&book).map(|_| ());
            assert_eq!(plain::loaded_verdict(&book), reply.err().unwrap_or(0));
            checked("check_book", reply)
        }
        4 => target_words(&case.list::<i32>(BOOK), case.number()),
        5 => scored(case),
        6 => {
            let asked = case.decode();
            decoded(&asked, case.number(), &asked.answer())
        }
        7 => checked(
            "check_direction",
            crate::check_direction(&case.list::<u16>(DIRECTION)),
        ),
        8 => rendered(case),
        9 => {
            let asked = case.edit(|case| Edit::Add(case.list(READ)));
            edited(asked.call(), &asked.list, asked.answer(), case.number())
        }
        10 => {
            let asked = case.edit(|case| Edit::Remove(case.number()));
            edited(asked.call(), &asked.list, asked.answer(), case.number())
        }
        11 => {
            let asked = case.import();
            edited("import_arpa", &asked.list, asked.answer(), case.number())
        }
        call @ (12 | 13) => round(case, call == 13),
        call @ (14 | 15) => round_sheet(case, call == 15),
        16 => round_program(case),
        k => panic!("call {k}"),
    }
}

/// The decode that a line asks for, if it is one.
pub fn decode_of(line: &str) -> Option<DecodeCase> {
    let mut case = Case(line.split_once('|')?.1.split_whitespace());
    (case.number::<u8>() == 6).then(|| case.decode())
}

/// The round that a line asks for, or asks the sheet of, if there is one.
pub fn round_of(line: &str) -> Option<RoundCase> {
    let mut case = Case(line.split_once('|')?.1.split_whitespace());
    match case.number::<u8>() {
        12 | 14 => Some(case.round(false)),
        13 | 15 => Some(case.round(true)),
        _ => None,
    }
}

/// What the second decoder says to a line, with the line's label.
pub fn line_said(line: &str) -> Said {
    let (label, numbers) = line.split_once('|').expect("a label and a bar");
    let mut case = Case(numbers.split_whitespace());
    let mut said = answer(&mut case);
    assert!(case.0.next().is_none(), "{label}: a number too many");
    said.text = format!("{label}: {}", said.text);
    said
}
