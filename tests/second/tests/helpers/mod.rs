//! Rounds for the tests of tickets 7 and 8.

use second::round_cases::RoundCase;
use second::{read_book, EXAMPLE};

pub fn loaded(text: &str) -> Vec<i32> {
    read_book(text.as_bytes(), usize::MAX).expect("a good book")
}

/// The example's book, and an entry of eight target words for word 21.
pub fn book() -> Vec<i32> {
    loaded(&format!("{EXAMPLE}P,1,8,21,1,2,3,4,5,6,7,8,-1\n"))
}

/// The example's book without its fourth line, d = 1: with width 0 its last set is empty.
pub fn short() -> Vec<i32> {
    let text = EXAMPLE.replace("B,2,", "B,1,");
    loaded(&text.replace("P,2,2,11,12,102,101,-70\n", ""))
}

/// A round of those directions with that book, in lists that are just long enough.
pub fn case(directions: &[&[u16]]) -> RoundCase {
    let directions: Vec<Vec<u16>> = directions.iter().map(|one| one.to_vec()).collect();
    RoundCase::of(&book(), &directions, -1, 8 * 512)
}

/// Six directions, and their answers with six states and pruning off: the four pairs of words have more.
pub fn each_answer() -> Vec<(Vec<u16>, u8)> {
    vec![
        (vec![11, 12], 0),
        (vec![11; 33], 9),
        (vec![11, 0], 10),
        ([11, 12].repeat(4), 13),
        (vec![11, 13], 14),
        (vec![12], 0),
    ]
}

/// Numbers that differ from place to place, and none of which a decode writes there.
pub fn garbage(k: usize) -> u64 {
    30_000 + (k % 30_000) as u64
}

/// Books that each question refuses, and one that none does.
pub fn refused_books() -> Vec<(Vec<i32>, u8)> {
    let longer = |line: &[i32]| [&book()[..], line].concat();
    let change = |at: usize, to: i32| {
        let mut book = book();
        book[at] = to;
        book
    };
    let mut triples = longer(&[3, 0, 0, 101, -40]);
    triples[5] += 1;
    let mut many = longer(&[2, 1, 1, 11, 101, 0].repeat(4_093));
    many[4] += 4_093;
    vec![
        (Vec::new(), 3),
        (change(0, 9), 2),
        (longer(&[1, 0, 0, 0, 0, 0]), 3),
        (change(1, 33), 4),
        (many, 5),
        (change(4, 3), 21),
        (triples, 6),
        (longer(&[4, 7, 0, 0, 4, 7, 1, 1]), 20),
        (book(), 0),
    ]
}
