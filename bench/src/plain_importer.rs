//! An importer of ARPA text as one would write it in a hurry, with `lines`, `split_whitespace` and a HashMap, for texts without byte 13
//! and bytes above 127: what importing is measured against.

use crate::plain_reader::{check, is_score};
use std::collections::HashMap;

/// A value in thousandths, by its digits: through an f64 some halves go the other way.
fn thousandths(field: &str) -> Option<i32> {
    let size = field.strip_prefix('-').unwrap_or(field);
    let (whole, part) = size.split_once('.').unwrap_or((size, "0"));
    let are_digits = |s: &str| !s.is_empty() && s.bytes().all(|b| b.is_ascii_digit());
    if !are_digits(whole) || !are_digits(part) {
        return None;
    }
    let digit = |k: usize| part.as_bytes().get(k).map_or(0, |b| (b - b'0') as i32);
    let up = (digit(3) >= 5) as i32;
    let part = 100 * digit(0) + 10 * digit(1) + digit(2) + up;
    let whole = whole.parse().unwrap_or(i32::MAX);
    let nearest = whole.saturating_mul(1_000).saturating_add(part);
    Some(if size == field { nearest } else { -nearest })
}

/// The number of each word; of equal lines the first counts.
fn numbers(spelling: &str) -> HashMap<&str, i32> {
    let lines = spelling.bytes().filter(|b| *b == b'\n').count();
    let mut numbers = HashMap::with_capacity(lines);
    for (word, k) in spelling.lines().zip(1..=65_534) {
        numbers.entry(word).or_insert(k);
    }
    numbers
}

/// How many n-grams of an order a line announces.
fn announced(row: &str, order: usize) -> Option<usize> {
    let (first, count) = row.split_once([' ', '\t'])?;
    let (n, m) = count.trim_start().split_once('=')?;
    (first == "ngram" && n == order.to_string()).then(|| m.parse().ok())?
}

fn is_passed_over(words: &[&str]) -> bool {
    let longer = words.len() > 1;
    words.contains(&"</s>") || longer && (words.contains(&"<unk>") || words.last() == Some(&"<s>"))
}

/// The words' numbers, the longer book so far, and the value of `<unk>`.
struct Import<'a> {
    numbers: HashMap<&'a str, i32>,
    book: Vec<i32>,
    unseen: Option<i32>,
}

impl Import<'_> {
    /// Adds the line of an n-gram, if its fields are right; below the top order it may have a weight.
    fn add(&mut self, fields: &[&str], order: usize, top: usize) -> Option<()> {
        let (value, rest) = fields.split_first()?;
        let (words, weight) = rest.split_at_checked(order)?;
        let value = thousandths(value)?;
        let weight = match weight {
            [] => 0,
            [weight] if order < top => thousandths(weight)?,
            _ => return None,
        };
        if words == ["<unk>"] {
            let first = self.unseen.replace(is_score(value)?).is_none();
            return first.then_some(());
        }
        if is_passed_over(words) {
            return Some(());
        }
        self.book.push([4, 5, 3][order - 1]);
        for word in words {
            let start = *word == "<s>";
            let number = if start { 0 } else { *self.numbers.get(word)? };
            self.book.push(number);
        }
        self.book.push(is_score(value)?);
        if order < 3 {
            self.book.push(is_score(weight)?);
        } else {
            self.book[5] += 1;
        }
        Some(())
    }
}

/// The longer book, or nothing where something is wrong.
pub fn import(arpa: &str, spelling: &str, book: &[i32]) -> Option<Vec<i32>> {
    let mut import = Import {
        numbers: numbers(spelling),
        book: book.to_vec(),
        unseen: None,
    };
    let rows = arpa.lines().map(str::trim).filter(|row| !row.is_empty());
    let mut rows = rows.peekable();
    rows.find(|row| *row == "\\data\\")?;
    let mut counts = Vec::new();
    while let Some(count) = announced(rows.peek()?, counts.len() + 1) {
        counts.push(count);
        rows.next();
    }
    if !(1..=3).contains(&counts.len()) {
        return None;
    }
    let mut fields = Vec::new();
    for (order, count) in (1..).zip(&counts) {
        if rows.next()? != format!("\\{order}-grams:") {
            return None;
        }
        for _ in 0..*count {
            fields.clear();
            fields.extend(rows.next()?.split_whitespace());
            import.add(&fields, order, counts.len())?;
        }
    }
    if rows.next()? != "\\end\\" {
        return None;
    }
    import.book[3] = import.unseen.unwrap_or(book[3]);
    check(&import.book)?;
    Some(import.book)
}
