//! Ticket 8 of 02: "Homes want a sheet for the round: one line per direction, `N,number,answer,score,words` (the target words) with answer 0
//! for success and score and words 0 on refusal, then `E,answer,count` for each answer that occurred, rising, then
//! `Z,directions,words,score`."

use crate::round::{opened, Lists, ANSWER};
use crate::round_cases::RoundCase;
use crate::{read_book, read_direction};

/// "fewer than 2,048 bytes are 7".
pub const SHEET: usize = 2_048;
/// What the program takes of book.txt and of standard input.
pub const BOOK_BYTES: usize = 8_192;
pub const INPUT_BYTES: usize = 32_768;
/// The store of the program: 512 states.
pub const PROGRAM_STORE: usize = 8 * 512;

/// The sheet of a round's answers, of nine numbers each.
fn sheet_of(answers: &[i64]) -> String {
    let mut sheet = String::new();
    let mut counts = [0; 16];
    let (mut directions, mut words, mut score) = (0, 0, 0);
    for answer in answers.chunks_exact(ANSWER) {
        directions += 1;
        counts[answer[0] as usize] += 1;
        words += answer[3];
        score += answer[1];
        let row = format!("N,{directions},{},{},{}\n", answer[0], answer[1], answer[3]);
        sheet.push_str(&row);
    }
    for (answer, count) in counts.iter().enumerate().filter(|(_, &count)| count > 0) {
        sheet.push_str(&format!("E,{answer},{count}\n"));
    }
    sheet + &format!("Z,{directions},{words},{score}\n")
}

/// A round's questions, and 7. Then the lists are as after the round, and the sheet stands at the beginning of the lent bytes. Its length.
pub fn round_sheet(
    book: &[i32],
    directions: &[u16],
    ends: &[usize],
    width: i64,
    lists: &mut Lists,
    sheet: &mut [u8],
) -> Result<usize, u8> {
    let round = opened(book, directions, ends, lists)?;
    if sheet.len() < SHEET {
        return Err(7);
    }
    let text = sheet_of(round.decode(width, lists));
    sheet[..text.len()].copy_from_slice(text.as_bytes());
    Ok(text.len())
}

/// The program `round`: the sheet of the round whose book is in book.txt, and whose directions are the lines of standard input.
pub fn program(book: &[u8], input: &[u8]) -> Result<Vec<u8>, u8> {
    if book.len() > BOOK_BYTES || input.len() > INPUT_BYTES {
        return Err(7);
    }
    let book = read_book(book, usize::MAX)?;
    let lines: Vec<&[u8]> = input.split_inclusive(|&byte| byte == b'\n').collect();
    if lines.is_empty() || lines.len() > 64 {
        return Err(26);
    }
    let read = |line: &&[u8]| read_direction(line, usize::MAX);
    let directions = lines.iter().map(read).collect::<Result<Vec<_>, u8>>()?;
    let case = RoundCase::of(&book, &directions, -1, PROGRAM_STORE);
    let (mut lists, mut sheet) = (case.lists(|_| 0), vec![0; SHEET]);
    let (ends, width) = (&case.ends, case.width);
    let length = round_sheet(&book, &case.directions, ends, width, &mut lists, &mut sheet)?;
    sheet.truncate(length);
    Ok(sheet)
}
