//! Ticket 6 of 02 once more, as plainly as the paper puts it, for checking: the text byte by byte, a value's
//! rounding by comparing whole decimal numbers, words by looking through the word list, the longer book from
//! its lines. And ARPA's own back-off rule over the file's n-grams as they are spelled.

use crate::plain::{self, Edited, PlainLine};
use std::cmp::Ordering;

/// A value as it is written: its digits without the point, and how many of them stand behind it.
#[derive(Clone, Debug)]
pub struct Value {
    minus: bool,
    digits: Vec<u8>,
    behind: usize,
}

/// "digits, with at most a minus before and a point and digits after", by an automaton.
pub fn value(field: &[u8]) -> Option<Value> {
    #[derive(Clone, Copy)]
    enum At {
        Start,
        Minus,
        Whole,
        Point,
        Behind,
    }
    let (mut at, mut digits, mut behind) = (At::Start, Vec::new(), 0);
    for &byte in field {
        at = match (at, byte) {
            (At::Start, b'-') => At::Minus,
            (At::Start | At::Minus | At::Whole, b'0'..=b'9') => At::Whole,
            (At::Whole, b'.') => At::Point,
            (At::Point | At::Behind, b'0'..=b'9') => At::Behind,
            _ => return None,
        };
        if byte.is_ascii_digit() {
            digits.push(byte - b'0');
        }
        behind += matches!(at, At::Behind) as usize;
    }
    let minus = field.first() == Some(&b'-');
    matches!(at, At::Whole | At::Behind).then_some(Value {
        minus,
        digits,
        behind,
    })
}

/// Two whole numbers by their decimal digits.
fn compared(one: &[u8], other: &[u8]) -> Ordering {
    let bare =
        |digits: &[u8]| -> Vec<u8> { digits.iter().copied().skip_while(|&d| d == 0).collect() };
    let (one, other) = (bare(one), bare(other));
    one.len().cmp(&other.len()).then_with(|| one.cmp(&other))
}

/// A number's decimal digits with so many zeros behind them.
fn decimal(number: i64, zeros: usize) -> Vec<u8> {
    let text = number.to_string() + &"0".repeat(zeros);
    text.bytes().map(|c| c - b'0').collect()
}

/// Twice a number of those digits.
fn doubled(digits: &[u8]) -> Vec<u8> {
    let (mut twice, mut carry) = (vec![0], 0);
    for &d in digits.iter().rev() {
        twice.push((2 * d + carry) % 10);
        carry = (2 * d + carry) / 10;
    }
    twice[0] = carry;
    twice[1..].reverse();
    twice
}

/// Most thousandths of a score.
const MOST: i64 = 1_000_000;

impl Value {
    /// "thousandths, nearest, halves away from 0": the greatest r for which r less a half is no more than the
    /// value's size, found by halving; None where it "leaves a score's range".
    pub fn rounded(&self) -> Option<i64> {
        let twice = [&doubled(&self.digits)[..], &[0; 3]].concat();
        let reached = |r: i64| compared(&decimal(2 * r - 1, self.behind), &twice).is_le();
        let (mut low, mut high) = (0, MOST + 2);
        while high - low > 1 {
            let middle = (low + high) / 2;
            if reached(middle) {
                low = middle;
            } else {
                high = middle;
            }
        }
        let signed = if self.minus { -low } else { low };
        (low <= MOST).then_some(signed)
    }
}

type Fields = Vec<Vec<u8>>;

/// The lines that are not blank, as fields.
fn rows(text: &[u8]) -> Vec<Fields> {
    let mut rows = vec![vec![vec![]]];
    for &byte in text {
        let row: &mut Fields = rows.last_mut().expect("a line");
        match byte {
            b'\n' => rows.push(vec![vec![]]),
            b' ' | b'\t' => row.push(vec![]),
            _ => row.last_mut().expect("a field").push(byte),
        }
    }
    for row in rows.iter_mut() {
        row.retain(|field| !field.is_empty());
    }
    rows.retain(|row| !row.is_empty());
    rows
}

/// One n-gram as the file has it.
#[derive(Clone, Debug)]
pub struct Gram {
    pub value: Value,
    pub words: Fields,
    pub weight: Option<Value>,
}

impl Gram {
    fn is(&self, words: &[&[u8]]) -> bool {
        self.words.len() == words.len() && self.words.iter().zip(words).all(|(a, b)| a == b)
    }
    fn passed_over(&self) -> bool {
        let (n, mut ended, mut unknown) = (self.words.len(), false, false);
        for word in &self.words {
            ended |= word == b"</s>";
            unknown |= word == b"<unk>";
        }
        ended || (n > 1 && unknown) || (n > 1 && self.words[n - 1] == b"<s>")
    }
    /// Its scores in the order of its line: a value, and a weight that may be missing where the line has one.
    fn scores(&self) -> Vec<Option<i64>> {
        let weight = self.weight.as_ref().map_or(Some(0), Value::rounded);
        let mut scores = vec![self.value.rounded(), weight];
        scores.truncate(if self.words.len() == 3 { 1 } else { 2 });
        scores
    }
}

/// The n-grams of a text that 23 says yes to: those between its marks, counted.
pub fn grams(text: &[u8]) -> Option<Vec<Gram>> {
    let rows = rows(text);
    let is_mark = |row: &Fields, mark: &str| row.len() == 1 && row[0] == mark.as_bytes();
    let data = rows.iter().position(|row| is_mark(row, "\\data\\"))?;
    let rows = &rows[data + 1..];
    let top = (0..3).take_while(|&k| {
        rows.get(k)
            .is_some_and(|row| announced(row, k + 1).is_some())
    });
    let top = top.count();
    let (mut all, mut at) = (Vec::new(), top);
    for n in 1..=top {
        if !is_mark(rows.get(at)?, &format!("\\{n}-grams:")) {
            return None;
        }
        at += 1;
        let mut here = 0;
        // A mark has one field, and no n-gram has.
        while rows.get(at)?.len() > 1 {
            all.push(gram(&rows[at], n, n < top)?);
            (at, here) = (at + 1, here + 1);
        }
        if announced(&rows[n - 1], n)? != decimal_text(here) {
            return None;
        }
    }
    let twice = all.iter().filter(|gram| gram.is(&[b"<unk>"])).count() > 1;
    (top > 0 && is_mark(rows.get(at)?, "\\end\\") && !twice).then_some(all)
}

fn decimal_text(number: usize) -> Vec<u8> {
    number.to_string().into_bytes()
}

/// What a line `ngram N=M` announces, without needless zeros.
fn announced(row: &Fields, n: usize) -> Option<Vec<u8>> {
    let begin = format!("{n}=");
    if row.len() != 2 || row[0] != b"ngram" || !row[1].starts_with(begin.as_bytes()) {
        return None;
    }
    let mut m = row[1][begin.len()..].to_vec();
    if m.is_empty() || m.iter().any(|c| !(48..58).contains(c)) {
        return None;
    }
    while m.len() > 1 && m[0] == b'0' {
        m.remove(0);
    }
    Some(m)
}

fn gram(row: &Fields, n: usize, weighted: bool) -> Option<Gram> {
    let mut fields = row.iter();
    let value = value(fields.next()?)?;
    let words: Fields = fields.by_ref().take(n).cloned().collect();
    let weight = match fields.next() {
        Some(field) if weighted => Some(self::value(field)?),
        Some(_) => return None,
        None => None,
    };
    (words.len() == n && fields.next().is_none()).then_some(Gram {
        value,
        words,
        weight,
    })
}

/// The number of a word, by looking through the word list.
fn number(spelling: &[u8], word: &[u8]) -> Option<i64> {
    if word == b"<s>" {
        return Some(0);
    }
    let mut lines = spelling.split(|&c| c == 10);
    let k = lines.position(|line| line == word)? as i64 + 1;
    (k <= 65_534).then_some(k)
}

/// The import: what the text says, line by line, behind the book's own lines.
pub fn import_arpa(arpa: &[u8], spelling: &[u8], list: &[i32], used: usize) -> Edited {
    if used > list.len() {
        return Err(7);
    }
    let mut unseen = None;
    let mut added: Vec<(u8, Vec<Option<i64>>, Vec<Option<i64>>)> = Vec::new();
    for gram in grams(arpa).ok_or(23)? {
        if gram.is(&[b"<unk>"]) {
            unseen = Some(gram.value.rounded());
        } else if !gram.passed_over() {
            let letter = b"UDT"[gram.words.len() - 1];
            let words = gram.words.iter().map(|word| number(spelling, word));
            added.push((letter, words.collect(), gram.scores()));
        }
    }
    if added.iter().any(|line| line.1.contains(&None)) {
        return Err(24);
    }
    if added.iter().any(|line| line.2.contains(&None)) || unseen == Some(None) {
        return Err(25);
    }
    let mut lines = plain::lines_in_use(list, used)?;
    if let Some(u) = unseen.flatten() {
        lines[0].1[2] = u;
    }
    let numbers = added.into_iter().map(|(letter, words, scores)| {
        let numbers = words.into_iter().chain(scores).flatten();
        (letter, numbers.collect())
    });
    lines.extend(numbers.collect::<Vec<PlainLine>>());
    plain::in_list(&plain::list_of(&lines), list)
}

// ----------------------------------------------------------------------- the file's own scores

/// An n-gram's words, and its value and weight, rounded.
struct Rounded {
    words: Fields,
    value: i64,
    weight: i64,
}

/// The n-grams of a text that are not passed over, and u.
pub struct Model {
    grams: Vec<Rounded>,
    unseen: i64,
}

impl Model {
    /// Of a text that is imported; `u` is the caller's.
    pub fn of(arpa: &[u8], u: i64) -> Model {
        let score = |value: &Value| value.rounded().expect("a score");
        let (mut kept, mut unseen) = (Vec::new(), u);
        for gram in grams(arpa).expect("a good text") {
            if gram.is(&[b"<unk>"]) {
                unseen = score(&gram.value);
            } else if !gram.passed_over() {
                kept.push(Rounded {
                    value: score(&gram.value),
                    weight: gram.weight.as_ref().map_or(0, score),
                    words: gram.words,
                });
            }
        }
        let grams = kept;
        Model { grams, unseen }
    }

    fn find(&self, words: &[&[u8]]) -> Option<&Rounded> {
        self.grams.iter().find(|gram| gram.words == words)
    }

    /// ARPA's back-off rule: the score of the last word after the others. Where the n-gram is not listed: the
    /// weight of its history and the score after a history that is shorter by one; and "u for a word that has
    /// no unigram".
    pub fn score(&self, words: &[&[u8]]) -> i64 {
        if let Some(gram) = self.find(words) {
            return gram.value;
        }
        let [history @ .., _] = words else {
            panic!("no word");
        };
        if history.is_empty() {
            return self.unseen;
        }
        self.find(history).map_or(0, |gram| gram.weight) + self.score(&words[1..])
    }
}

/// How the words 0 to 65,535 are spelled in a file: 0 is `<s>`; a line that no field can mean (it is not the first of
/// equal lines, or a symbol's) spells nothing.
pub fn spelled(spelling: &[u8], word: u16) -> &[u8] {
    let line = |k: u16| spelling.split(|&c| c == 10).nth(k as usize - 1);
    match word {
        0 => b"<s>",
        65_535 => b"",
        _ => match line(word) {
            Some(b"<s>" | b"</s>" | b"<unk>") | None => b"",
            Some(field) if number(spelling, field) == Some(word as i64) => field,
            Some(_) => b"",
        },
    }
}
