//! Ticket 3 of 02: what supplied the final score of each target word, counted by hand.

use second::ways::mixture;
use second::*;

/// The entries of every book here but the example's and the longest: source words 11 to 15, each for the target word 90 more.
const WORDS: &str = "P,1,1,11,101,0
P,1,1,12,102,0
P,1,1,13,103,0
P,1,1,14,104,0
P,1,1,15,105,0
";

/// The counts of those steps, which a scoring and the plain walk give.
fn counted(list: &[i32], direction: &[u16], steps: &[Step]) -> Supplied {
    let scored = score(list, direction, steps).expect("a derivation");
    let book = check_book(list).unwrap();
    assert_eq!(scored, plain::scoring_of(&book, steps));
    scored.supplied
}

/// The counts of a decode, pruning off and with width 0; those of its steps, scored, are the same.
fn decoded(list: &[i32], direction: &[u16]) -> Supplied {
    let answer = |width: i64| decode(list, direction, width, 32, 256, 8_000).expect("an answer");
    let best = answer(-1);
    assert_eq!(best.supplied, answer(0).supplied);
    assert_eq!(best.supplied, counted(list, direction, &best.steps));
    best.supplied
}

/// The counts of the direction's words one after the other, decoded and scored.
fn in_order(lines: &str, direction: &[u16]) -> Supplied {
    let text = format!("B,0,0,1\n{WORDS}{lines}");
    let list = read_book(text.as_bytes(), 1_000).expect("a good book");
    decoded(&list, direction)
}

/// Each row's lines, after those that are common, and the counts.
fn table(common: &str, direction: &[u16], rows: &[(&str, Supplied)]) {
    for (lines, expected) in rows {
        let lines = [common, lines].concat();
        assert_eq!(in_order(&lines, direction), *expected, "{lines}");
    }
}

#[test]
fn the_example() {
    let list = read_book(EXAMPLE.as_bytes(), 1_000).unwrap();
    assert_eq!(decoded(&list, &[11, 12]), [2, 0, 0, 0]);
    // The other derivations: 101,102 and 102,101 by two steps; after 101,102 there is no triple for 101.
    assert_eq!(
        counted(&list, &[11, 12], &[(1, 1, 1), (2, 2, 2)]),
        [2, 0, 0, 0]
    );
    let three = [(1, 1, 1), (2, 2, 2), (3, 3, 1)];
    assert_eq!(counted(&list, &[11, 12, 11], &three), [2, 0, 0, 1]);
    let answer = decode(&list, &[11, 12], -1, 2, 16, 48).unwrap();
    assert_eq!(answer.counts(), "A,-110,1,2,6,2,0,0,0");
}

#[test]
fn each_alone() {
    let triples = "T,0,0,101,2\nT,0,101,102,4\nT,101,102,103,8\n";
    let pairs = "D,0,101,1,3\nD,101,102,1,3\nD,102,103,1,3\n";
    let words = "U,101,1,3\nU,102,1,3\nU,103,1,3\nU,0,1,3\n";
    let all = [triples, pairs, words].concat();
    // Each comes before those that follow it.
    assert_eq!(in_order(&all, &[11, 12, 13]), [3, 0, 0, 0]);
    assert_eq!(in_order(triples, &[11, 12, 13]), [3, 0, 0, 0]);
    let all = [pairs, words].concat();
    assert_eq!(in_order(&all, &[11, 12, 13]), [0, 3, 0, 0]);
    assert_eq!(in_order(pairs, &[11, 12, 13]), [0, 3, 0, 0]);
    assert_eq!(in_order(words, &[11, 12, 13]), [0, 0, 3, 0]);
    assert_eq!(in_order("", &[11, 12, 13]), [0, 0, 0, 3]);
}

#[test]
fn all_four() {
    // 0,0,101 a triple; 101,102 a pair; 103 a word; 104 none; 105 a word; 104,105,101 none and 101 no word.
    let lines = "T,0,0,101,2\nD,101,102,4,8\nU,103,16,32\nU,105,64,128\n";
    assert_eq!(in_order(lines, &[11, 12, 13, 14]), [1, 1, 1, 1]);
    assert_eq!(in_order(lines, &[11, 12, 13, 14, 15]), [1, 1, 2, 1]);
    assert_eq!(in_order(lines, &[14, 15, 11, 12]), [0, 1, 1, 2]);
}

/// "A triple without a T line scores the weight of pair v, w .. an unlisted pair scores the weight of w": these weights supply nothing.
#[test]
fn a_weight_passed() {
    let rows = [
        ("D,0,101,4,8\nU,102,16,32\n", [1, 0, 1, 0]),
        ("D,0,101,4,8\n", [1, 0, 0, 1]),
        ("U,101,4,8\n", [1, 0, 0, 1]),
        ("U,101,4,8\nU,102,16,32\n", [1, 0, 1, 0]),
        ("D,0,101,4,8\nU,101,4,8\n", [1, 0, 0, 1]),
        ("D,0,101,4,8\nD,101,102,16,32\n", [1, 1, 0, 0]),
        ("D,0,101,4,8\nT,0,101,102,16\n", [2, 0, 0, 0]),
    ];
    table("T,0,0,101,2\n", &[11, 12], &rows);
    // The start symbol's weight.
    assert_eq!(in_order("U,0,4,8\n", &[11]), [0, 0, 0, 1]);
    assert_eq!(in_order("U,0,4,8\nU,101,16,32\n", &[11]), [0, 0, 1, 0]);
}

/// A line counts that says what would have been said without it.
#[test]
fn the_score_does_not_tell() {
    assert_eq!(in_order("T,0,0,101,1\n", &[11]), [1, 0, 0, 0]);
    assert_eq!(in_order("D,0,101,1,0\n", &[11]), [0, 1, 0, 0]);
    assert_eq!(in_order("U,101,1,0\n", &[11]), [0, 0, 1, 0]);
}

/// The two start symbols are history of the first two words alone.
#[test]
fn the_start_symbols() {
    let rows = [
        ("T,0,0,101,2\n", [1, 0, 0, 2]),
        ("T,0,101,102,2\n", [1, 0, 0, 2]),
        ("D,0,101,2,4\n", [0, 1, 0, 2]),
        ("T,0,0,102,2\nT,0,0,103,2\nT,0,102,103,2\n", [0, 0, 0, 3]),
        ("D,0,102,2,4\nD,0,103,2,4\n", [0, 0, 0, 3]),
        ("T,101,0,102,2\nU,0,2,4\n", [0, 0, 0, 3]),
    ];
    table("", &[11, 12, 13], &rows);
}

/// Words 1,2 and then 3,4: the history of 3 and of 4 goes back into the step before.
#[test]
fn across_two_steps() {
    let entries = "B,0,0,1\nP,1,2,11,1,2,0\nP,1,2,12,3,4,0\n";
    for (lines, expected) in [
        ("T,1,2,3,9\n", [1, 0, 0, 3]),
        ("T,2,3,4,9\n", [1, 0, 0, 3]),
        ("D,2,3,9,9\n", [0, 1, 0, 3]),
        ("T,0,0,3,9\nT,0,3,4,9\n", [0, 0, 0, 4]),
        ("D,0,3,9,9\n", [0, 0, 0, 4]),
        ("T,0,0,1,9\nD,0,3,9,9\nU,3,9,9\n", [1, 0, 1, 2]),
    ] {
        let text = [entries, lines].concat();
        let list = read_book(text.as_bytes(), 1_000).expect("a good book");
        assert_eq!(decoded(&list, &[11, 12]), expected, "{lines}");
    }
}

/// 32 phrases of the words 1 to 8. Word 1 is a triple at the start, else a pair (8,1); 2 a word at the start, else the triple 8,1,2;
/// 3 the triple 1,2,3; 4 the pair 3,4; 5 a word; 6, 7 and 8 are not listed.
#[test]
fn words_256() {
    let phrase = [2, 1, 8, 11, 1, 2, 3, 4, 5, 6, 7, 8, -3];
    let triples = [3, 0, 0, 1, 2, 3, 8, 1, 2, 4, 3, 1, 2, 3, 8];
    let shorter = [
        5, 8, 1, 16, -3, 5, 3, 4, 32, -5, 4, 2, 128, 7, 4, 5, 256, -9,
    ];
    let list = [&[1, 0, 0, -500, 1, 3][..], &phrase, &triples, &shorter].concat();
    let expected = [1 + 31 + 32, 31 + 32, 1 + 32, 3 * 32];
    assert_eq!(expected.iter().sum::<usize>(), 256);
    assert_eq!(decoded(&list, &[11; 32]), expected);
    let list = [&[1, 0, 0, -500, 1, 0][..], &phrase].concat();
    assert_eq!(decoded(&list, &[11; 32]), [0, 0, 0, 256]);
}

/// Of two derivations of the top score the first in order is the answer, and its counts are reported.
#[test]
fn of_equal_scores_the_winner_is_counted() {
    let tie = |y: i32| {
        let phrases = [2, 1, 1, 11, 101, 0, 2, 1, 1, 11, 102, 0];
        [&[1, 0, 0, -4, 2, 1][..], &phrases, &[3, 0, 0, y, -4]].concat()
    };
    assert_eq!(decoded(&tie(101), &[11]), [1, 0, 0, 0]);
    assert_eq!(decoded(&tie(102), &[11]), [0, 0, 0, 1]);
    assert_eq!(counted(&tie(102), &[11], &[(1, 1, 2)]), [1, 0, 0, 0]);
}

#[test]
fn mixtures() {
    for k in 0..4 {
        let mut supplied = [0; 4];
        supplied[k] = 1;
        assert_eq!(mixture(supplied), None);
        supplied[k] = 2;
        assert_eq!(mixture(supplied), Some(k));
        supplied[(k + 1) % 4] = 1;
        assert_eq!(mixture(supplied), None);
    }
    assert_eq!(mixture([1, 5, 2, 1]), Some(4));
    assert_eq!(mixture([0, 5, 2, 1]), None);
}
