//! Ticket 4 of 02: the sum of the triple scores inside one phrase, up to both ends of what it can be.

use second::*;

/// The words before the phrase, and its eight words.
const ROW: [u16; 10] = [1, 2, 101, 102, 103, 104, 105, 106, 107, 108];

/// The steps of the only derivation: entry 1 says the words before, entry 2 the phrase.
const STEPS: [Step; 2] = [(1, 1, 1), (2, 2, 2)];

/// A book in which every word but word 1 has a weight of `end`, and of the pairs that the phrase's words end those are listed that `chosen` has the
/// binary digits of, the first the lowest, with a score and a weight of `end`, as the phrase's words have.
fn book(end: i64, chosen: usize) -> Vec<i32> {
    let words = ROW[2..].iter().map(|y| format!("{y},")).collect::<String>();
    let mut text =
        format!("B,0,0,0\nP,1,2,11,1,2,0\nP,1,8,12,{words}0\nD,1,2,0,{end}\nU,2,0,{end}\n");
    for k in 2..10 {
        let (w, y) = (ROW[k - 1], ROW[k]);
        text += &format!("U,{y},{end},{end}\n");
        if chosen >> (k - 2) & 1 == 1 {
            text += &format!("D,{w},{y},{end},{end}\n");
        }
    }
    read_book(text.as_bytes(), 1_000).expect("a good book")
}

/// What the phrase's words score: decoded with pruning off and with width 0, scored, and summed up in 32 bits.
fn sum(end: i64, chosen: usize) -> i64 {
    let list = book(end, chosen);
    let scored = score(&list, &[11, 12], &STEPS).expect("a derivation");
    for width in [-1, 0] {
        let answer = decode(&list, &[11, 12], width, 2, 16, 24).expect("an answer");
        assert_eq!(
            (answer.score, &answer.steps[..]),
            (scored.score, &STEPS[..])
        );
    }
    let sums = plain::phrase_sums(&check_book(&list).unwrap(), &STEPS);
    assert_eq!(sums[0], 0);
    assert_eq!(scored.score, sums[1] as i64);
    scored.score
}

/// What each of the phrase's words scores, in millions.
fn each(chosen: usize) -> Vec<i64> {
    let book = check_book(&book(1_000_000, chosen)).unwrap();
    let row = ROW.windows(3);
    row.map(|t| plain::triple(&book, t[0], t[1], t[2]) / 1_000_000)
        .collect()
}

#[test]
fn every_other_word_at_three_million() {
    let odd = 0b1010_1010;
    assert_eq!(each(odd), [3, 1, 3, 1, 3, 1, 3, 1]);
    assert_eq!(each(!odd & 0xff), [2, 3, 1, 3, 1, 3, 1, 3]);
    for (end, sign) in [(1_000_000, 1), (-1_000_000, -1)] {
        assert_eq!(sum(end, odd), sign * 16_000_000);
        assert_eq!(sum(end, !odd & 0xff), sign * 17_000_000);
    }
}

/// A word scores 3,000,000 only after a pair that is listed, and ends one that is not: so no two neighbours do, and eight words score at most 17,000,000.
#[test]
fn whatever_pairs_are_listed() {
    for chosen in 0..256 {
        let words = each(chosen);
        assert!(words.windows(2).all(|two| two != [3, 3]), "{chosen}");
    }
    for end in [1_000_000, -1_000_000] {
        let sums = (0..256).map(|chosen| sum(end, chosen).abs());
        assert_eq!(sums.max(), Some(17_000_000));
    }
}
