//! Ticket 2 of 02: the score of a triple without a T line, by hand.

use second::ways::{way, Ways, LEAST, LEAST_ANSWERS, LEAST_PHRASES, MIXTURES, SUMS, WAYS};
use second::*;

/// Every score and weight a different power of two.
const BOOK: &str = "B,0,0,1
P,1,1,11,101,0
P,1,1,12,102,0
P,1,1,13,103,0
P,1,1,14,104,0
P,1,1,15,105,0
T,0,0,101,2
D,0,101,-4,8
D,101,102,16,-32
U,102,64,128
U,103,-256,512
U,0,1024,-2048
";

/// The score of the direction's words one after the other, which both decoders give, and the way of the last triple.
fn scored(text: &str, direction: &[u16]) -> (i64, &'static str) {
    let list = read_book(text.as_bytes(), 1_000).expect("a good book");
    let book = check_book(&list).unwrap();
    let steps: Vec<Step> = (1..).zip(direction).map(|(k, x)| (k, k, x - 10)).collect();
    let given = score(&list, direction, &steps).expect("a derivation");
    assert_eq!(given, plain::scoring_of(&book, &steps));
    let answer = decode(&list, direction, -1, 32, 256, 8_000).unwrap();
    assert_eq!((answer.score, answer.steps), (given.score, steps));
    assert_eq!(answer.supplied, given.supplied);
    let mut row = vec![0, 0];
    row.extend(answer.words);
    let last = &row[row.len() - 3..];
    (given.score, WAYS[way(&book, last[0], last[1], last[2])])
}

#[test]
fn each_way() {
    // T,0,0,101.
    assert_eq!(scored(BOOK, &[11]), (2, "a T line"));
    // 0,101,102: the weight of pair 0,101 and the score of pair 101,102.
    assert_eq!(scored(BOOK, &[11, 12]), (2 + 8 + 16, "a weight and a pair"));
    // 0,0,102: no pair 0,0, no pair 0,102: the weight of 0 and the score of 102.
    assert_eq!(scored(BOOK, &[12]), (-2048 + 64, "weights and a word"));
    // 101,102,103: the weight of pair 101,102, the weight of 102, the score of 103.
    let before = 2 + 8 + 16;
    let last = -32 + 128 - 256;
    assert_eq!(
        scored(BOOK, &[11, 12, 13]),
        (before + last, "weights and a word")
    );
    // 0,0,104: the weight of 0, and u.
    assert_eq!(scored(BOOK, &[14]), (-2048 + 1, "weights and u"));
    // Then 0,104,105: neither has a weight, and u.
    assert_eq!(scored(BOOK, &[14, 15]), (-2048 + 1 + 1, "u"));
    // 104,105,102: no weights, the score of 102.
    assert_eq!(scored(BOOK, &[14, 15, 12]), (-2048 + 2 + 64, "a word"));
    // 105,101,102 after 104,105: no weight of pair 105,101, the score of pair 101,102; and 101 has no U line.
    assert_eq!(
        scored(BOOK, &[14, 15, 11, 12]),
        (-2048 + 2 + 1 + 16, "a pair")
    );
}

/// D,0,y stands after the start: as the pair w, y of the first word, and as the pair v, w of the second.
#[test]
fn the_start_symbol() {
    let text = "B,0,0,1\nP,1,1,11,101,0\nP,1,1,12,102,0\nD,0,101,-4,8\n";
    assert_eq!(scored(text, &[11]), (-4, "a pair"));
    assert_eq!(scored(text, &[11, 12]), (-4 + 8 + 1, "weights and u"));
    // The score of word 0 is never looked up: only its weight.
    let text = "B,0,0,1\nP,1,1,11,101,0\nU,0,1024,-2048\n";
    assert_eq!(scored(text, &[11]), (-2048 + 1, "weights and u"));
}

/// A T line is not added to, and its score may be lower than what backing off would give.
#[test]
fn a_triple_comes_first() {
    let text = "B,0,0,1\nP,1,1,11,101,0\nT,0,0,101,-9\nD,0,101,4,8\nU,0,16,32\nU,101,64,128\n";
    assert_eq!(scored(text, &[11]), (-9, "a T line"));
}

/// Eight target words to a phrase, 32 phrases, and each score and weight at an end of the range. A triple scores three times that at
/// most, but only after a pair that is listed, whose own triple has one part less: two for each word in all.
#[test]
fn scores_at_the_ends() {
    for s in [1_000_000, -1_000_000] {
        let mut list = vec![1, 32, s / 100, s, 1, 0];
        list.extend([2, 1, 8, 5, 1, 2, 1, 2, 1, 2, 1, 2, s]);
        list.extend([4, 0, 0, s, 4, 1, s, s, 4, 2, s, s]);
        let direction = [5u16; 32];
        let steps: Vec<Step> = (1..=32).map(|k| (k, k, 1)).collect();
        let said = |list: &[i32]| {
            let book = check_book(list).unwrap();
            let given = score(list, &direction, &steps).unwrap();
            assert_eq!(given, plain::scoring_of(&book, &steps));
            assert!(given.score.abs() <= BOUND);
            given.score / s as i64
        };
        // No pair: each word a weight and a score.
        assert_eq!(said(&list), 32 + 2 * 256);
        // Pair 1,2: a score alone; after it two weights and a score.
        list.extend([5, 1, 2, s, s]);
        assert_eq!(said(&list), 32 + (2 + 1) + 127 * (3 + 1));
        // Each pair: all but the first a weight and a score.
        list.extend([5, 0, 1, s, s, 5, 2, 1, s, s]);
        assert_eq!(said(&list), 32 + 1 + 2 * 255);
    }
    assert_eq!(32 * (1_000_000 + 8 * 3_000_000 + 32 * 10_000), BOUND);
    assert_eq!(WIDEST, 1_620_480_000);
}

#[test]
fn a_way_mixture_or_sum_met_too_seldom() {
    let enough = Ways {
        words: [LEAST; 7],
        answers: [LEAST_ANSWERS; 5],
        phrases: [LEAST_PHRASES; 2],
    };
    let said = |least: u64, name: &str| Some(format!("met fewer than {least} times: {name}"));
    assert_eq!(enough.seldom(), None);
    for (k, name) in WAYS.iter().enumerate() {
        let mut ways = enough;
        ways.words[k] -= 1;
        assert_eq!(ways.seldom(), said(LEAST, name));
    }
    for (k, name) in MIXTURES.iter().enumerate() {
        let mut ways = enough;
        ways.answers[k] -= 1;
        assert_eq!(ways.seldom(), said(LEAST_ANSWERS, name));
    }
    for (k, name) in SUMS.iter().enumerate() {
        let mut ways = enough;
        ways.phrases[k] -= 1;
        assert_eq!(ways.seldom(), said(LEAST_PHRASES, name));
    }
}
