//! Ticket 8 of 02 once more: the rows of the sheet as numbers, from decodes of the directions one by one, with the counts in a map; and each
//! of its bytes put by hand.

use crate::round::Lists;
use crate::{decode, plain, plain_round, Answer};
use std::collections::BTreeMap;

/// What a round's sheet is answered, the lists afterwards, and the bytes.
pub fn round_sheet(
    book: &[i32],
    directions: &[u16],
    ends: &[usize],
    width: i64,
    before: &Lists,
    sheet: &[u8],
) -> (Result<usize, u8>, Lists, Vec<u8>) {
    let refused = match plain_round::verdict(book, directions.len(), ends, before) {
        0 if sheet.len() / 2_048 == 0 => 7,
        code => code,
    };
    if refused != 0 {
        return (Err(refused), before.clone(), sheet.to_vec());
    }
    let alone = plain_round::alone(book, directions, ends, width, before.store.len());
    let bytes = bytes_of(&alone);
    let after = plain_round::told(sheet, |at| bytes.get(at).copied());
    let lists = plain_round::written(&alone, before);
    (Ok(bytes.len()), lists, after)
}

/// The sheet of directions with those answers, made from its last byte to its first.
fn bytes_of(alone: &[Result<Answer, u8>]) -> Vec<u8> {
    let found = || alone.iter().flatten();
    let words: usize = found().map(|answer| answer.words.len()).sum();
    let score: i64 = found().map(|answer| answer.score).sum();
    let mut counts: BTreeMap<u8, i64> = BTreeMap::new();
    let mut rows = vec![(b'Z', vec![alone.len() as i64, words as i64, score])];
    for reply in alone {
        *counts.entry(code_of(reply)).or_default() += 1;
    }
    for (&code, &count) in counts.iter().rev() {
        rows.push((b'E', vec![code as i64, count]));
    }
    for (k, reply) in alone.iter().enumerate().rev() {
        let (score, words) = match reply {
            Ok(answer) => (answer.score, answer.words.len() as i64),
            Err(_) => (0, 0),
        };
        rows.push((
            b'N',
            vec![k as i64 + 1, code_of(reply) as i64, score, words],
        ));
    }
    let mut backwards = Vec::new();
    for (letter, numbers) in rows {
        put_row(&mut backwards, letter, &numbers);
    }
    backwards.reverse();
    backwards
}

fn code_of(reply: &Result<Answer, u8>) -> u8 {
    match reply {
        Ok(_) => 0,
        Err(code) => *code,
    }
}

/// A row, from its last byte to its first.
fn put_row(backwards: &mut Vec<u8>, letter: u8, numbers: &[i64]) {
    backwards.push(10);
    for &number in numbers.iter().rev() {
        let mut left = number.unsigned_abs();
        backwards.push(48 + (left % 10) as u8);
        while left >= 10 {
            left /= 10;
            backwards.push(48 + (left % 10) as u8);
        }
        if number < 0 {
            backwards.push(45);
        }
        backwards.push(44);
    }
    backwards.push(letter);
}

/// The program `round`: its questions by counting, and each line's direction decoded alone.
pub fn program(book: &[u8], input: &[u8]) -> Result<Vec<u8>, u8> {
    if book.get(8_192).is_some() || input.get(32_768).is_some() {
        return Err(7);
    }
    let (code, list) = plain::book_text_verdict(book, book.len());
    if code != 0 {
        return Err(code);
    }
    let ended = input.iter().filter(|&&byte| byte == 10).count();
    let count = ended + input.last().is_some_and(|&byte| byte != 10) as usize;
    if !matches!(count, 1..=64) {
        return Err(26);
    }
    let mut alone = Vec::new();
    let mut rest = input;
    for _ in 0..count {
        let length = rest.iter().position(|&byte| byte == 10);
        let (line, behind) = rest.split_at(length.map_or(rest.len(), |at| at + 1));
        let (code, words) = plain::direction_text_verdict(line, 32);
        if code != 0 {
            return Err(code);
        }
        alone.push(decode(&list, &words, -1, 32, 256, 8 * 512));
        rest = behind;
    }
    Ok(bytes_of(&alone))
}
