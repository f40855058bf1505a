//! Ticket 5 of 02: a P line added after the last line of a loaded book, or an entry removed.

use second::cases::line_said;
use second::edits::{self, Edit, EditCase};
use second::gen::{self, Rng, Shape};
use second::rounds::{Tally, EDITS};
use second::*;

const BOOK: &str = "B,2,-10,-500
P,1,1,11,101,-20
T,0,0,101,-40
P,2,2,11,12,102,103,-70
U,101,5,6
D,101,102,7,8
P,1,8,12,1,2,3,4,5,6,7,8,-30
T,0,101,102,-60
";
const LINE: [i32; 6] = [2, 1, 1, 13, 104, -5];

/// What stands behind the book.
const TAIL: [i32; 30] = [77; 30];

fn loaded(text: &str) -> Vec<i32> {
    read_book(text.as_bytes(), usize::MAX).expect("a good book")
}

/// The text without its k-th P line.
fn without(text: &str, k: usize) -> String {
    let mut seen = 0;
    let kept = text.split_inclusive('\n').filter(|line| {
        seen += line.starts_with('P') as usize;
        !(line.starts_with('P') && seen == k)
    });
    kept.collect()
}

fn asked(list: &[i32], used: usize, edit: Edit) -> (Result<usize, u8>, Vec<i32>) {
    let list = list.to_vec();
    EditCase { list, used, edit }.answer()
}

fn added(list: &[i32], used: usize, line: &[i32]) -> Result<(usize, Vec<i32>), u8> {
    let (reply, after) = asked(list, used, Edit::Add(line.to_vec()));
    reply.map(|count| (count, after))
}

fn removed(list: &[i32], used: usize, entry: usize) -> Result<(usize, Vec<i32>), u8> {
    let (reply, after) = asked(list, used, Edit::Remove(entry));
    reply.map(|count| (count, after))
}

/// "The B record of a loaded book gains two numbers at its end, the P and then the T lines it holds, kept right by reading".
#[test]
fn reading_counts() {
    let list = loaded(BOOK);
    assert_eq!(list[..6], [1, 2, -10, -500, 3, 2]);
    assert_eq!(list.len(), 6 + 6 + 5 + 8 + 4 + 5 + 13 + 5);
    assert_eq!(read_book(BOOK.as_bytes(), list.len()), Ok(list.clone()));
    assert_eq!(read_book(BOOK.as_bytes(), list.len() - 1), Err(7));
    assert_eq!(loaded("B,0,0,0\n"), [1, 0, 0, 0, 0, 0]);
    assert_eq!(loaded("B,0,0,0\nU,1,2,3\n")[..6], [1, 0, 0, 0, 0, 0]);
    // "The text does not change."
    for text in ["B,0,0,0,0,0\n", "B,0,0,0,0\n", "B,0,0,0,1,0\nP,1,1,1,1,0\n"] {
        assert_eq!(read_book(text.as_bytes(), 99), Err(2));
        assert_eq!(plain::book_text_verdict(text.as_bytes(), 99).0, 2);
    }
}

/// "can be added after the last line"; "The unused tail of the lent list is unchanged by an addition"; "reports the numbers then in use".
#[test]
fn an_addition() {
    let book = loaded(BOOK);
    let list = [&book[..], &TAIL].concat();
    let (count, after) = added(&list, book.len(), &LINE).unwrap();
    let fresh = loaded(&format!("{BOOK}P,1,1,13,104,-5\n"));
    assert_eq!(after[..count], fresh);
    assert_eq!(after[count..], TAIL[6..]);
    assert_eq!(after[4..6], [4, 2]);
    // Just enough places, and one less.
    let enough = &list[..book.len() + 6];
    assert_eq!(added(enough, book.len(), &LINE), Ok((fresh.len(), fresh)));
    assert_eq!(added(&list[..book.len() + 5], book.len(), &LINE), Err(7));
}

/// "an entry removed; later entries then move down by one"; the tail is "zero where a removal frees it".
#[test]
fn a_removal() {
    let book = loaded(BOOK);
    let list = [&book[..], &TAIL].concat();
    for (entry, size) in [(1, 6), (2, 8), (3, 13)] {
        let (count, after) = removed(&list, book.len(), entry).unwrap();
        assert_eq!(count, book.len() - size);
        assert_eq!(after[..count], loaded(&without(BOOK, entry)));
        assert_eq!(after[count..book.len()], vec![0; size]);
        assert_eq!(after[book.len()..], TAIL);
        let words = |list: &[i32], entry: usize| {
            let (start, size) = target_part(list, entry);
            list[start..start + size].to_vec()
        };
        for later in 1..=3 {
            let moved = later + (later >= entry) as usize;
            assert_eq!(words(&after[..count], later), words(&book, moved));
        }
    }
    for entry in [0, 4, 4_097, usize::MAX] {
        assert_eq!(removed(&list, book.len(), entry), Err(22));
    }
    // What was added is the last entry.
    let (count, longer) = added(&list, book.len(), &LINE).unwrap();
    let (count, after) = removed(&longer, count, 4).unwrap();
    assert_eq!((count, &after[..count]), (book.len(), &book[..]));
    assert_eq!(after[count..], [&[0; 6], &TAIL[6..]].concat());
}

/// "The caller names the numbers in use; more than the list holds is 7, before all else."
#[test]
fn the_numbers_in_use() {
    let book = loaded(BOOK);
    let list = [&book[..], &TAIL].concat();
    for (used, code) in [
        (list.len() + 1, 7),
        (usize::MAX, 7),
        (list.len(), 2),
        (book.len() - 1, 2),
        (book.len() - 5, 21),
        (5, 2),
        (0, 3),
    ] {
        for line in [&LINE[..], &[], &[2, 1, 1, 0, 1, 0]] {
            assert_eq!(added(&list, used, line), Err(code), "{used}");
        }
        for entry in [0, 1, 9] {
            assert_eq!(removed(&list, used, entry), Err(code), "{used}");
        }
    }
    // Lines behind the numbers in use are no part of the book.
    let list = [&[1, 0, 0, 0, 0, 0][..], &LINE, &LINE].concat();
    assert_eq!(removed(&list, 6, 1), Err(22));
    let (count, after) = added(&list, 6, &LINE).unwrap();
    assert_eq!(
        (count, after),
        (12, [&[1, 0, 0, 0, 1, 0][..], &LINE, &LINE].concat())
    );
}

/// "An added line, once the book has passed, answers 2 (no numbers, another kind or numbers left over too), 4, 5 and 7 as in reading."
#[test]
fn the_line() {
    let book = loaded(BOOK);
    for (line, code) in [
        (&[][..], 2),
        (&[2], 2),
        (&[2, 1], 2),
        (&[2, 1, 1], 2),
        (&[2, 1, 1, 5, 5], 2),
        (&[2, 1, 1, 5, 5, 0], 0),
        (&[2, 1, 1, 5, 5, 0, 0], 2),
        (&[2, 1, 1, 5, 5, 0, 2, 1, 1, 5, 5, 0], 2),
        (&[1, 0, 0, 0, 0, 0], 2),
        (&[3, 5, 5, 5, 0], 2),
        (&[4, 5, 0, 0], 2),
        (&[5, 5, 5, 0, 0], 2),
        (&[0, 1, 1, 5, 5, 0], 2),
        (&[-2, 1, 1, 5, 5, 0], 2),
        (&[2, 0, 1, 5, 0], 2),
        (&[2, 1, 0, 5, 0], 2),
        (&[2, 9, 1, 1, 2, 3, 4, 5, 6, 7, 8, 9, 5, 0], 2),
        (&[2, 1, 9, 5, 1, 2, 3, 4, 5, 6, 7, 8, 9, 0], 2),
        (&[2, 1, 1, 0, 5], 2),
        (&[2, 1, 1, 0, 5, 0], 4),
        (&[2, 1, 1, 5, 65_536, 0], 4),
        (&[2, 1, 1, -1, 5, 0], 4),
        (&[2, 1, 1, 65_535, 65_535, 1_000_000], 0),
        (&[2, 1, 1, 5, 5, 1_000_001], 4),
        (&[2, 1, 1, 5, 5, -1_000_001], 4),
    ] {
        let list = [&book[..], &TAIL].concat();
        let reply = added(&list, book.len(), line);
        assert_eq!(reply.err().unwrap_or(0), code, "{line:?}");
        // Without room 7 is asked last.
        let reply = added(&book, book.len(), line);
        assert_eq!(reply, Err(if code == 0 { 7 } else { code }), "{line:?}");
    }
}

/// As many P lines as are allowed, and one more: 5, after 4 and before 7.
#[test]
fn the_last_entry_allowed() {
    let shape = Shape::small(&mut Rng::new(1));
    let lines = gen::lines_of(&mut Rng::new(2), &shape, [4_095, 3, 3, 3]);
    let book = gen::loaded(&lines);
    let list = [&book[..], &TAIL].concat();
    let (count, after) = added(&list, book.len(), &LINE).unwrap();
    assert_eq!(after[4..6], [4_096, 3]);
    assert_eq!(added(&after, count, &LINE), Err(5));
    assert_eq!(added(&after[..count], count, &LINE), Err(5));
    assert_eq!(added(&after[..count], count, &[2, 1, 1, 0, 1, 0]), Err(4));
    assert_eq!(added(&after[..count], count, &[2, 1, 1, 1, 1]), Err(2));
    assert_eq!(removed(&after, count, 4_097), Err(22));
    let (count, after) = removed(&after, count, 4_096).unwrap();
    assert_eq!(after[..count], book);
}

/// The checks of the book come before those of the line and before 22; 21 after 5 and before 6.
#[test]
fn the_book_first() {
    for (lines, counts, code) in [
        (&[6][..], [0, 0], 2),
        (&[1, 0, 0, 0, 0, 0], [0, 0], 3),
        (&[2, 1, 1, 0, 1, 0], [1, 0], 4),
        (&[2, 1, 1, 0, 1, 0], [9, 9], 4),
        (&[2, 1, 1, 1, 1, 0], [0, 0], 21),
        (&[3, 1, 1, 1, 1, 3, 1, 1, 1, 1], [0, 1], 21),
        (&[3, 1, 1, 1, 1, 3, 1, 1, 1, 1], [0, 2], 6),
        (&[4, 1, 1, 1, 4, 1, 1, 1], [0, 1], 21),
        (&[4, 1, 1, 1, 4, 1, 1, 1], [0, 0], 20),
        (&[5, 1, 1, 1, 1, 5, 1, 1, 1, 1], [0, 0], 20),
    ] {
        let book = [&[1, 0, 0, 0][..], &counts, lines].concat();
        let list = [&book[..], &TAIL].concat();
        for line in [&LINE[..], &[], &[2, 1, 1, 0, 1, 0]] {
            assert_eq!(added(&list, book.len(), line), Err(code), "{book:?}");
            assert_eq!(added(&book, book.len(), line), Err(code), "{book:?}");
        }
        for entry in [0, 1, 2] {
            assert_eq!(removed(&list, book.len(), entry), Err(code), "{book:?}");
        }
        assert_eq!(decode(&book, &[0], -2, 0, 0, 0), Err(code));
        assert_eq!(score(&book, &[0], &[]), Err(code));
        assert_eq!(target_part(&book, 1), (book.len(), 0));
    }
}

/// A drawer that is locked, opened by a phrase, and locked again.
#[test]
fn a_drawer() {
    let book = loaded(&BOOK.replace("B,2,", "B,0,"));
    let decoded = |list: &[i32]| decode(list, &[11, 13], -1, 2, 16, 8_000);
    assert_eq!(decoded(&book), Err(14));
    let list = [&book[..], &TAIL].concat();
    let (count, list) = added(&list, book.len(), &LINE).unwrap();
    let answer = decoded(&list[..count]).unwrap();
    assert_eq!(answer.steps, [(1, 1, 1), (2, 2, 4)]);
    assert_eq!(answer.words, [101, 104]);
    // T,0,0,101 for the first word; the weight of 101 and u for the other.
    assert_eq!(answer.score, -20 - 40 - 5 + 6 - 500);
    let (count, list) = removed(&list, count, 4).unwrap();
    assert_eq!(decoded(&list[..count]), Err(14));
}

/// One book edited in turn: after each edit the list is the edited text read afresh, and the tail is as it was or freed.
fn edited_in_turn(rng: &mut Rng) -> usize {
    let shape = Shape::small(rng);
    let mut lines = gen::lines(rng, &shape);
    let book = gen::loaded(&lines);
    let mut list = edits::lent(rng, &book, 60);
    let (mut used, mut most, mut edited) = (book.len(), book.len(), 0);
    let tail = list.clone();
    for _ in 0..20 {
        let edit = edits::any_edit(rng, &shape, &list[..used]);
        let (reply, after) = asked(&list, used, edit.clone());
        list = after;
        let Ok(count) = reply else { continue };
        edit.of_lines(&mut lines);
        used = count;
        most = most.max(used);
        edited += 1;
        let fresh = read_book(&gen::text(&lines), usize::MAX);
        assert_eq!(fresh, Ok(list[..used].to_vec()));
        assert!(list[used..most].iter().all(|&x| x == 0));
        assert_eq!(list[most..], tail[most..]);
    }
    edited
}

#[test]
fn edits_in_turn() {
    let mut rng = Rng::new(55);
    let edited: usize = (0..3_000).map(|_| edited_in_turn(&mut rng)).sum();
    println!("{edited} edits");
    assert!(edited > 20_000, "{edited}");
}

/// Books damaged anywhere, above all in the B record: both verdicts agree.
#[test]
fn broken_books() {
    let mut rng = Rng::new(56);
    let mut met = [0; 23];
    for _ in 0..40_000 {
        let shape = Shape::small(&mut rng);
        let code = rng.pick(&[0, 0, 2, 3, 4, 6, 20, 21]);
        let mut list = gen::book_saying(&mut rng, &shape, code);
        if list.len() >= 6 && rng.chance(1, 2) {
            let at = rng.below(6);
            list[at] += rng.pick(&[-1, 1]);
        }
        let verdict = plain::loaded_verdict(&list);
        assert_eq!(check_book(&list).err().unwrap_or(0), verdict, "{list:?}");
        met[verdict as usize] += 1;
    }
    println!("{met:?}");
    assert!([0, 2, 3, 4, 6, 20, 21].iter().all(|&k| met[k] > 500));
}

/// How the two calls are asked and printed as cases.
#[test]
fn as_cases() {
    let said = |line: &str| line_said(line).text;
    assert_eq!(
        said("a|9 14 1 0 0 0 0 0 ( 8 20 # ) 6 6 2 1 1 5 7 -3 100"),
        "a: N,12 book ~4 1 ~1 2 1*2 5 7 -3 ~40988"
    );
    assert_eq!(
        said("a|9 11 1 0 0 0 0 0 1 2 3 4 5 6 6 2 1 1 5 7 -3 100"),
        "a: R,7 book ~41000"
    );
    assert_eq!(
        said("r|10 14 1 0 0 0 1 0 2 1 1 5 7 -3 8 9 12 1 100"),
        "r: N,6 book ~4 0 ~1 0*6 ~40988"
    );
    assert_eq!(said("r|10 6 1 0 0 0 0 0 6 1 100"), "r: R,22 book ~41000");
    let greatest = "r|10 6 1 0 0 0 0 0 18446744073709551615 18446744073709551615 100";
    assert_eq!(said(greatest), "r: R,7 book ~41000");
}

#[test]
fn an_answer_met_too_seldom() {
    let mut tally = Tally::default();
    for (call, codes) in EDITS {
        for &code in codes {
            let said = format!("{call} gave {code} 1 times, fewer than 2");
            tally.count(call, code);
            assert_eq!(tally.seldom(&EDITS, 2), Some(said));
            tally.count(call, code);
        }
    }
    assert_eq!(tally.seldom(&EDITS, 2), None);
}
