//! Ticket 5 of 02: an edit of a loaded book in a lent list, and random ones, good and bad.

use crate::gen::{self, Lines, Rng, Shape};
use crate::{add_entry, check_book, plain, remove_entry};

/// A line to add, or an entry to remove.
#[derive(Clone, Debug)]
pub enum Edit {
    Add(Vec<i32>),
    Remove(usize),
}

impl Edit {
    /// The same edit of the lines of a book.
    pub fn of_lines(&self, lines: &mut Lines) {
        match self {
            Edit::Add(line) => lines.push(line.iter().map(|&x| x as i64).collect()),
            Edit::Remove(entry) => {
                let mut entries = (0..lines.len()).filter(|&k| lines[k][0] == 2);
                let at = entries.nth(entry - 1).expect("an entry");
                lines.remove(at);
            }
        }
    }
}

/// A whole call: the lent list, how many of its numbers are in use, and the edit.
#[derive(Clone, Debug)]
pub struct EditCase {
    pub list: Vec<i32>,
    pub used: usize,
    pub edit: Edit,
}

impl EditCase {
    pub fn call(&self) -> &'static str {
        match self.edit {
            Edit::Add(_) => "add_entry",
            Edit::Remove(_) => "remove_entry",
        }
    }

    /// What the call replies, and the list afterwards: the same as line by line, and as before where it is refused.
    pub fn answer(&self) -> (Result<usize, u8>, Vec<i32>) {
        let mut after = self.list.clone();
        let (list, used) = (&self.list, self.used);
        let (reply, plainly) = match &self.edit {
            Edit::Add(line) => (
                add_entry(&mut after, used, line),
                plain::add_entry(list, used, line),
            ),
            Edit::Remove(entry) => (
                remove_entry(&mut after, used, *entry),
                plain::remove_entry(list, used, *entry),
            ),
        };
        let whole = reply.map(|count| (count, after.clone()));
        assert_eq!(whole, plainly, "{self:?}");
        assert!(reply.is_ok() || after == self.list, "{self:?}");
        (reply, after)
    }
}

/// Numbers that are no P line, for question 2: none, a kind alone, a P line with another kind, a line of another kind.
fn no_phrase(rng: &mut Rng, shape: &Shape, line: &mut Vec<i64>) {
    match rng.below(4) {
        0 => line.clear(),
        1 => line.truncate(1),
        2 => line[0] = rng.pick(&[0, 1, 3, 4, 5, 6, -2, 80, i32::MAX as i64, i32::MIN as i64]),
        _ => {
            let kind = rng.pick(&[1, 3, 4, 5]);
            *line = match kind {
                1 => vec![1, 0, 0, 0, 0, 0],
                _ => gen::own_words(rng, shape, kind, 7),
            };
        }
    }
}

/// A line to add of which 2 and 4 say `code` (0: good).
pub fn line_saying(rng: &mut Rng, shape: &Shape, code: u8) -> Vec<i32> {
    let mut one = vec![gen::phrase(rng, shape)];
    if code == 4 || (code == 2 && rng.chance(1, 3)) {
        gen::damage_lines_4(rng, &mut one, false);
    }
    match (code, rng.below(2)) {
        (2, 0) => gen::damage_lines_for_text_2(rng, &mut one),
        (2, _) => no_phrase(rng, shape, &mut one[0]),
        _ => {}
    }
    one[0].iter().map(|&x| x as i32).collect()
}

/// An addition to a book, of a line that is good or not.
pub fn addition(rng: &mut Rng, shape: &Shape) -> Edit {
    let code = rng.pick(&[0, 0, 0, 0, 2, 4]);
    Edit::Add(line_saying(rng, shape, code))
}

/// A removal from a book of so many entries: of one of them, or of none.
pub fn removal(rng: &mut Rng, entries: usize) -> Edit {
    Edit::Remove(match rng.below(8) {
        0 => rng.pick(&[0, entries + 1, 4_097, usize::MAX]),
        1 => rng.draw() as usize,
        _ => 1 + rng.below(entries + 1),
    })
}

/// An addition or a removal, as likely the one as the other.
pub fn any_edit(rng: &mut Rng, shape: &Shape, book: &[i32]) -> Edit {
    if rng.chance(1, 2) {
        return addition(rng, shape);
    }
    removal(rng, check_book(book).map_or(2, |book| book.phrases.len()))
}

/// A book in a lent list: with so many places behind it, full of anything.
pub fn lent(rng: &mut Rng, book: &[i32], places: usize) -> Vec<i32> {
    let mut list = book.to_vec();
    list.extend((0..places).map(|_| match rng.below(2) {
        0 => rng.between(-1, 12) as i32,
        _ => rng.draw() as i32,
    }));
    list
}

/// A book in a lent list, and how many numbers are said to be in use: with room for so many more or without, and now and then a wrong
/// count of the numbers in use.
pub fn book_in_list(rng: &mut Rng, book: &[i32], needed: usize) -> (Vec<i32>, usize) {
    let short = rng.chance(1, 8);
    let places = gen::places(rng, needed, short);
    let list = lent(rng, book, places);
    let used = match rng.below(16) {
        0 => list.len() + 1 + rng.pick(&[0, 0, 1, 1 << 32, usize::MAX / 2]),
        1 => rng.below(list.len() + 1),
        2 => rng.pick(&[0, book.len().saturating_sub(1), usize::MAX]),
        _ => book.len(),
    };
    (list, used)
}

/// The edit of a book in a lent list.
pub fn in_list(rng: &mut Rng, book: &[i32], edit: Edit) -> EditCase {
    let needed = match &edit {
        Edit::Add(line) => line.len(),
        Edit::Remove(_) => 0,
    };
    let (list, used) = book_in_list(rng, book, needed);
    EditCase { list, used, edit }
}
