//! Ticket 6 of 02: the n-grams of an ARPA text as U, D and T lines, put after the last line of a loaded
//! book in a lent list.

use crate::check_book;
use std::collections::HashMap;

/// A word list "whose k-th line spells word k, to 65,534".
const WORDS: usize = 65_534;
/// "up to order 3".
const ORDERS: usize = 3;
/// "a score's range", on either side of 0, in thousandths.
const SCORE: i64 = 1_000_000;
/// Where the B record has u, and where the number of T lines.
const UNSEEN: usize = 3;
const TRIPLE_COUNT: usize = 5;

const START: &[u8] = b"<s>";
const END: &[u8] = b"</s>";
const UNKNOWN: &[u8] = b"<unk>";

/// The fields of a line.
type Row<'a> = Vec<&'a [u8]>;

/// "a value, N words and, below the top order, at most one more value"; "a missing weight is 0".
struct Gram<'a> {
    value: i64,
    words: Row<'a>,
    weight: i64,
}

impl Gram<'_> {
    /// "longer n-grams that hold it or end in `<s>`, and n-grams that hold `</s>`".
    fn passed_over(&self) -> bool {
        let holds = |symbol: &[u8]| self.words.contains(&symbol);
        let longer = self.words.len() > 1;
        holds(END) || (longer && (holds(UNKNOWN) || self.words.last() == Some(&START)))
    }

    fn is_unknown(&self) -> bool {
        self.words[..] == [UNKNOWN]
    }

    /// Its line, the words by their numbers; None where one is not in the word list.
    fn line(&self, numbers: &HashMap<&[u8], i64>) -> Option<Vec<i64>> {
        let number = |word: &&[u8]| match *word {
            START => Some(0),
            word => numbers.get(word).copied(),
        };
        let (kind, scores) = match self.words.len() {
            1 => (4, vec![self.value, self.weight]),
            2 => (5, vec![self.value, self.weight]),
            _ => (3, vec![self.value]),
        };
        let words: Option<Vec<i64>> = self.words.iter().map(number).collect();
        Some([vec![kind], words?, scores].concat())
    }
}

fn all_digits(part: &[u8]) -> bool {
    !part.is_empty() && part.iter().all(u8::is_ascii_digit)
}

/// "Logarithms become thousandths, nearest, halves away from 0": by the first four digits behind the point.
/// None where it is not "digits, with at most a minus before and a point and digits after". Far beyond a
/// score's range any number stands for all.
pub fn thousandths(field: &[u8]) -> Option<i64> {
    let (sign, size) = match field.strip_prefix(b"-") {
        Some(size) => (-1, size),
        None => (1, field),
    };
    let mut parts = size.splitn(2, |&c| c == b'.');
    let (whole, after) = (parts.next()?, parts.next());
    if !all_digits(whole) || !after.is_none_or(all_digits) {
        return None;
    }
    let digit = |c: &u8| (c - b'0') as i64;
    let behind = |k: usize| after.and_then(|digits| digits.get(k)).map_or(0, digit);
    let whole = whole.iter().fold(0, |n, c| SCORE.min(10 * n + digit(c)));
    let cut = 1_000 * whole + 100 * behind(0) + 10 * behind(1) + behind(2);
    Some(sign * (cut + (behind(3) >= 5) as i64))
}

/// "Byte 10 or the text's end ends a line; fields are parted by spaces or tabs; blank lines .. are passed
/// over".
fn rows(text: &[u8]) -> impl Iterator<Item = Row<'_>> {
    let blank = |&c: &u8| c == b' ' || c == b'\t';
    text.split(|&c| c == b'\n')
        .map(move |line| line.split(blank).filter(|f| !f.is_empty()).collect())
        .filter(|row: &Row| !row.is_empty())
}

/// M of a line `ngram N=M`; None for any other line. So large a number as no text has lines stands for all
/// that are larger.
fn count(row: &Row, n: usize) -> Option<usize> {
    let [b"ngram", [digit, b'=', m @ ..]] = row[..] else {
        return None;
    };
    let more = |m: usize, c: &u8| m.saturating_mul(10).saturating_add((c - b'0') as usize);
    (*digit as usize == b'0' as usize + n && all_digits(m)).then(|| m.iter().fold(0, more))
}

/// An n-gram's line, with a weight or not where one is allowed.
fn gram<'a>(row: &Row<'a>, n: usize, top: usize) -> Option<Gram<'a>> {
    let weighted = row.len() == n + 2 && n < top;
    if row.len() != n + 1 && !weighted {
        return None;
    }
    Some(Gram {
        value: thousandths(row[0])?,
        words: row[1..=n].to_vec(),
        weight: if weighted {
            thousandths(row[n + 1])?
        } else {
            0
        },
    })
}

/// Check 23: the n-grams in the file's order.
fn grams(text: &[u8]) -> Option<Vec<Gram<'_>>> {
    let data: &[u8] = b"\\data\\";
    let end: &[u8] = b"\\end\\";
    let mut rows = rows(text).skip_while(|row| row[..] != [data]).peekable();
    rows.next()?;
    let mut counts = Vec::new();
    while counts.len() < ORDERS {
        let Some(m) = rows.peek().and_then(|row| count(row, counts.len() + 1)) else {
            break;
        };
        counts.push(m);
        rows.next();
    }
    let top = counts.len();
    if top == 0 {
        return None;
    }
    let mut grams: Vec<Gram> = Vec::new();
    for (n, m) in (1..).zip(counts) {
        let mark = format!("\\{n}-grams:");
        if rows.next()?[..] != [mark.as_bytes()] {
            return None;
        }
        for _ in 0..m {
            grams.push(gram(&rows.next()?, n, top)?);
        }
    }
    let unknown = grams.iter().filter(|gram| gram.is_unknown()).count();
    (rows.next()?[..] == [end] && unknown < 2).then_some(grams)
}

/// The number of each word, "of equal lines the first".
fn numbers(spelling: &[u8]) -> HashMap<&[u8], i64> {
    let mut numbers = HashMap::new();
    for (k, line) in (1..).zip(spelling.split(|&c| c == b'\n').take(WORDS)) {
        numbers.entry(line).or_insert(k);
    }
    numbers
}

/// Check 25, of the scores of a line or of `<unk>`'s value.
fn in_range(scores: &[i64]) -> bool {
    scores.iter().all(|s| s.abs() <= SCORE)
}

/// Puts the n-grams of an ARPA text after the last line of a loaded book, the first `used` numbers of the
/// lent list: 7, 23, 24, 25, the book's questions, those of the longer book, and 7. The numbers then in use.
pub fn import_arpa(
    arpa: &[u8],
    spelling: &[u8],
    list: &mut [i32],
    used: usize,
) -> Result<usize, u8> {
    let book = list.get(..used).ok_or(7)?;
    let mut kept = grams(arpa).ok_or(23)?;
    kept.retain(|gram| !gram.passed_over());
    let unseen = kept.iter().find(|gram| gram.is_unknown()).map(|g| g.value);
    kept.retain(|gram| !gram.is_unknown());
    let numbers = numbers(spelling);
    let lines = kept.iter().map(|gram| gram.line(&numbers));
    let lines = lines.collect::<Option<Vec<_>>>().ok_or(24)?;
    let mut asked = kept.iter().map(|gram| [gram.value, gram.weight]);
    if !asked.all(|scores| in_range(&scores)) || !in_range(&[unseen.unwrap_or(0)]) {
        return Err(25);
    }
    check_book(book)?;
    let longer = with_lines(book, &lines, unseen);
    check_book(&longer)?;
    let place = list.get_mut(..longer.len()).ok_or(7)?;
    place.copy_from_slice(&longer);
    Ok(longer.len())
}

/// A good book with these lines behind its last, its T count kept right, and with another u if there is one.
fn with_lines(book: &[i32], lines: &[Vec<i64>], unseen: Option<i64>) -> Vec<i32> {
    let mut longer = book.to_vec();
    if let Some(u) = unseen {
        longer[UNSEEN] = u as i32;
    }
    for line in lines {
        longer.extend(line.iter().map(|&x| x as i32));
        longer[TRIPLE_COUNT] += (line[0] == 3) as i32;
    }
    longer
}
