//! The printed example and the twelve marked drawers of 01.

use second::*;

const FULL: usize = 8 * 512;

fn book(d: i32) -> Vec<i32> {
    let mut list = read_book(EXAMPLE.as_bytes(), 1000).unwrap();
    list[1] = d;
    list
}

/// Without the fourth line.
fn short(d: i32) -> Vec<i32> {
    let text: String = EXAMPLE
        .lines()
        .enumerate()
        .filter(|(k, _)| *k != 3)
        .map(|(_, l)| format!("{l}\n"))
        .collect();
    let mut list = read_book(text.as_bytes(), 1000).unwrap();
    list[1] = d;
    list
}

fn run(book: &[i32], width: i64, store: usize) -> Result<Answer, u8> {
    decode(book, &[11, 12], width, 2, 16, store)
}

#[test]
fn printed_example() {
    assert_eq!(
        render(EXAMPLE.as_bytes(), b"11,12\n"),
        b"A,-110,1,2,6,2,0,0,0\nS,1,2,3\nW,102,101\n"
    );
    assert_eq!(render(b"", b"11,12\n"), b"R,1\n");
    assert_eq!(render(b"", b""), b"R,1\n");
    assert_eq!(render(EXAMPLE.as_bytes(), b""), b"R,8\n");
    assert_eq!(render(EXAMPLE.as_bytes(), b"11,13\n"), b"R,14\n");
    assert_eq!(render(b"", &[b'1'; 513]), b"R,7\n");
    assert_eq!(render(b"", &[b'1'; 512]), b"R,1\n");
    assert_eq!(render(&[b'x'; 8193], b"11\n"), b"R,7\n");
    assert_eq!(render(&[b'x'; 8192], b"11\n"), b"R,1\n");
}

#[test]
fn loaded_example() {
    let list = book(2);
    assert_eq!(
        list,
        [
            1, 2, -10, -500, 3, 4, 2, 1, 1, 11, 101, -20, 2, 1, 1, 12, 102, -30, 2, 2, 2, 11, 12,
            102, 101, -70, 3, 0, 0, 101, -40, 3, 0, 101, 102, -60, 3, 0, 0, 102, -15, 3, 0, 102,
            101, -25
        ]
    );
    assert_eq!(target_part(&list, 1), (10, 1));
    assert_eq!(target_part(&list, 3), (23, 2));
    assert_eq!(target_part(&list, 0), (list.len(), 0));
    assert_eq!(target_part(&list, 4), (list.len(), 0));
    assert_eq!(target_part(&list[..list.len() - 1], 1), (list.len() - 1, 0));
    assert_eq!(target_part(&[], 1), (0, 0));
}

#[test]
fn a() {
    let answer = run(&book(2), -1, 8 * 6).unwrap();
    assert_eq!((answer.score, answer.states), (-110, 6));
    assert_eq!(answer.steps, [(1, 2, 3)]);
    assert_eq!(answer.words, [102, 101]);
}

#[test]
fn b() {
    assert_eq!(run(&book(2), -1, 8 * 5), Err(13));
    assert_eq!(run(&book(2), -1, 8 * 6 - 1), Err(13));
}

#[test]
fn c() {
    let answer = run(&book(0), -1, FULL).unwrap();
    assert_eq!((answer.score, answer.states), (-110, 4));
}

#[test]
fn d() {
    let answer = run(&short(2), -1, FULL).unwrap();
    assert_eq!(answer.score, -120);
    assert_eq!(answer.steps, [(2, 2, 2), (1, 1, 1)]);
}

#[test]
fn e() {
    let answer = run(&short(1), -1, FULL).unwrap();
    assert_eq!(answer.score, -150);
    assert_eq!(answer.steps, [(1, 1, 1), (2, 2, 2)]);
}

#[test]
fn f() {
    assert_eq!(run(&short(1), 0, FULL), Err(15));
}

#[test]
fn g() {
    assert_eq!(run(&short(1), 5, FULL).unwrap().score, -150);
    assert_eq!(run(&short(1), 4, FULL), Err(15));
}

#[test]
fn h() {
    let answer = run(&book(2), 0, FULL).unwrap();
    assert_eq!((answer.score, answer.states), (-110, 5));
}

#[test]
fn i() {
    assert_eq!(decode(&book(2), &[11, 13], -1, 2, 16, FULL), Err(14));
}

#[test]
fn j() {
    assert_eq!(decode(&book(2), &[], -1, 2, 16, FULL), Err(9));
}

#[test]
fn k() {
    assert_eq!(run(&book(2), -2, FULL), Err(11));
}

#[test]
fn l() {
    assert_eq!(score(&book(2), &[11, 12], &[]), Err(19));
}
