//! A reader as one would write it in a hurry, with `split`, `parse` and HashSets: what reading is measured against. And a check of a
//! loaded book in the same way.

use crate::size;
use std::collections::HashSet;

fn in_range(x: i32, low: i32, high: i32) -> Option<i32> {
    (low..=high).contains(&x).then_some(x)
}

pub fn is_score(x: i32) -> Option<i32> {
    in_range(x, -1_000_000, 1_000_000)
}

/// The numbers of one line after its letter, if each is in its range.
fn line(kind: &str, numbers: &[i32]) -> Option<()> {
    let (last, front) = numbers.split_last()?;
    is_score(*last)?;
    match kind {
        "B" => {
            let [d, eta] = front else { return None };
            in_range(*d, 0, 32)?;
            in_range(*eta, -10_000, 10_000)?;
        }
        "P" => {
            let (a, b) = (
                in_range(*front.first()?, 1, 8)?,
                in_range(*front.get(1)?, 1, 8)?,
            );
            if front.len() != (2 + a + b) as usize {
                return None;
            }
            for word in &front[2..] {
                in_range(*word, 1, 65_535)?;
            }
        }
        "T" => {
            let [v, w, y] = front else { return None };
            in_range(*v, 0, 65_535)?;
            in_range(*w, 0, 65_535)?;
            in_range(*y, 1, 65_535)?;
        }
        "U" => {
            let [y, s] = front else { return None };
            in_range(*y, 0, 65_535)?;
            is_score(*s)?;
        }
        "D" => {
            let [w, y, s] = front else { return None };
            in_range(*w, 0, 65_535)?;
            in_range(*y, 1, 65_535)?;
            is_score(*s)?;
        }
        _ => return None,
    }
    Some(())
}

/// The words of the T, U and D lines so far, and how many P lines there were.
#[derive(Default)]
struct Seen {
    phrases: usize,
    triples: HashSet<(i32, i32, i32)>,
    words: HashSet<i32>,
    pairs: HashSet<(i32, i32)>,
}

impl Seen {
    /// The kind of a line in a loaded book, if its words are new.
    fn add(&mut self, kind: &str, row: &[i32]) -> Option<i32> {
        match kind {
            "B" => Some(1),
            "P" => {
                self.phrases += 1;
                Some(2)
            }
            "T" => self.triples.insert((row[0], row[1], row[2])).then_some(3),
            "U" => self.words.insert(row[0]).then_some(4),
            _ => self.pairs.insert((row[0], row[1])).then_some(5),
        }
    }
    fn few_enough(&self) -> bool {
        let scores = [self.triples.len(), self.words.len(), self.pairs.len()];
        self.phrases <= 4_096 && scores.iter().all(|&n| n <= 8_192)
    }
}

/// The loaded book, or nothing where something is wrong. Behind the numbers of its first line stand how many P and T lines there are.
pub fn read(text: &str) -> Option<Vec<i32>> {
    let mut book = Vec::new();
    let (mut seen, mut row) = (Seen::default(), Vec::new());
    for (k, one) in text.lines().enumerate() {
        let mut fields = one.split(',');
        let kind = fields.next()?;
        row.clear();
        for field in fields {
            row.push(field.parse::<i32>().ok()?);
        }
        line(kind, &row)?;
        if (kind == "B") != (k == 0) {
            return None;
        }
        book.push(seen.add(kind, &row)?);
        book.extend_from_slice(&row);
        if k == 0 {
            book.extend([0, 0]);
        }
    }
    if !seen.few_enough() || book.is_empty() {
        return None;
    }
    book[4] = seen.phrases as i32;
    book[5] = seen.triples.len() as i32;
    Some(book)
}

/// Whether a loaded book is a good one, the counts in its first line too.
pub fn check(book: &[i32]) -> Option<()> {
    let (mut seen, mut at) = (Seen::default(), 0);
    while at < book.len() {
        let kind = *[" ", "B", "P", "T", "U", "D"].get(book[at] as usize)?;
        let end = at + size(book, at);
        let row = book.get(at + 1..end)?;
        let row = if kind == "B" { &row[..3] } else { row };
        line(kind, row)?;
        if (kind == "B") != (at == 0) {
            return None;
        }
        seen.add(kind, row)?;
        at = end;
    }
    let counts = [seen.phrases as i32, seen.triples.len() as i32];
    (seen.few_enough() && book.get(4..6)? == counts).then_some(())
}
