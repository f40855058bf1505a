//! Ticket 7 of 02: a round's directions together.

mod helpers;

use helpers::{case, each_answer, garbage, refused_books, short};
use second::cases::{line_said, round_of};
use second::gen::{Rng, Shape};
use second::random_cases::hold;
use second::round::{report, Lists};
use second::round_cases::{self, Flaw, RoundCase};
use second::rounds::{self, Tally};
use second::*;

/// The round by copying: each direction's places are copied out, it is decoded alone in them, and they are copied back; the store goes from
/// one to the next.
fn by_copying(case: &RoundCase, before: &Lists) -> Lists {
    let mut after = before.clone();
    for (k, alone) in case.alone().iter().enumerate() {
        let mut steps = after.steps[96 * k..96 * (k + 1)].to_vec();
        let mut words = after.words[256 * k..256 * (k + 1)].to_vec();
        let mut answer = vec![0; 9];
        match alone.answer() {
            Err(code) => {
                answer[0] = code as i64;
                if code >= 13 {
                    after.store = vec![0; after.store.len()];
                }
            }
            Ok(found) => {
                let flat: Vec<u16> = found.steps.iter().flat_map(|s| [s.0, s.1, s.2]).collect();
                steps.splice(..flat.len(), flat);
                words.splice(..found.words.len(), found.words.clone());
                answer.splice(1.., report(&found));
                after.store = vec![0; after.store.len()];
            }
        }
        assert_eq!((steps.len(), words.len(), answer.len()), (96, 256, 9));
        after.steps.splice(96 * k..96 * (k + 1), steps);
        after.words.splice(256 * k..256 * (k + 1), words);
        after.answers.splice(9 * k..9 * (k + 1), answer);
    }
    after
}

/// What the round replies, and the lists afterwards, held to the copying and, where it is refused, to the lists before.
fn asked(case: &RoundCase) -> (Result<(), u8>, Lists) {
    let before = case.lists(garbage);
    let (reply, after) = case.answer(&before);
    match reply {
        Ok(()) => assert_eq!(after, by_copying(case, &before), "{case:?}"),
        Err(_) => assert_eq!(after, before, "{case:?}"),
    }
    (reply, after)
}

/// What the directions are answered, or the refusal of the round.
fn codes(case: &RoundCase) -> Result<Vec<u8>, u8> {
    let (reply, after) = asked(case);
    reply.map(|()| case.inside(reply.is_ok(), &after))
}

/// "Each answer, with its steps and words": four directions, by hand.
#[test]
fn a_round_by_hand() {
    let case = case(&[&[11, 12], &[12], &[11, 13], &[21, 11]]);
    assert_eq!(case.ends, [2, 3, 5, 7]);
    let before = case.lists(garbage);
    let (reply, after) = asked(&case);
    assert_eq!(reply, Ok(()));
    let answers = [
        [0, -110, 1, 2, 6, 2, 0, 0, 0],
        [0, -45, 1, 1, 2, 1, 0, 0, 0],
        [14, 0, 0, 0, 0, 0, 0, 0, 0],
        [0, -4091, 2, 9, 5, 1, 0, 0, 8],
    ];
    assert_eq!(after.answers, answers.concat());
    let mut steps = before.steps.clone();
    steps[..3].copy_from_slice(&[1, 2, 3]);
    steps[96..99].copy_from_slice(&[1, 1, 2]);
    steps[288..294].copy_from_slice(&[2, 2, 1, 1, 1, 4]);
    assert_eq!(after.steps, steps);
    let mut words = before.words.clone();
    words[..2].copy_from_slice(&[102, 101]);
    words[256] = 102;
    words[768..777].copy_from_slice(&[101, 1, 2, 3, 4, 5, 6, 7, 8]);
    assert_eq!(after.words, words);
    assert_eq!(after.store, vec![0; 8 * 512]);
}

/// "A medication round has up to 64 directions": 26 "when there are not 1 to 64".
#[test]
fn how_many_directions() {
    for count in [0, 1, 2, 63, 64, 65, 66, 128] {
        let directions = vec![&[11, 12][..]; count];
        let case = case(&directions);
        let meant = match count {
            1..=64 => Ok(vec![0; count]),
            _ => Err(26),
        };
        assert_eq!(codes(&case), meant, "{count}");
    }
    // No directions, though there are words.
    let mut none = case(&[&[11]]);
    none.ends.clear();
    assert_eq!(codes(&none), Err(26));
    // The 65th is as good as the others, or not.
    for end in [0, 64, 65, 66, usize::MAX] {
        let mut many = case(&vec![&[11][..]; 64]);
        many.directions.push(12);
        many.ends.push(end);
        assert_eq!(codes(&many), Err(26));
    }
}

/// 26 when "an end is not above the one before (0 for the first)".
#[test]
fn ends_rise() {
    for (ends, meant) in [
        (&[2, 4, 6][..], Ok(vec![0, 0, 0])),
        (&[1, 2, 3], Ok(vec![0, 0, 0])),
        (&[6], Ok(vec![0])),
        (&[1, 6], Ok(vec![0, 0])),
        (&[5, 6], Ok(vec![0, 0])),
        (&[0], Err(26)),
        (&[0, 2, 4], Err(26)),
        (&[2, 2, 4], Err(26)),
        (&[2, 4, 4], Err(26)),
        (&[6, 6], Err(26)),
        (&[4, 2, 6], Err(26)),
        (&[2, 6, 4], Err(26)),
        (&[2, 4, 0], Err(26)),
        (&[2, 1], Err(26)),
        (&[3, 2, 1], Err(26)),
        (&[0, 0, 0], Err(26)),
    ] {
        let mut round = case(&[&[11, 12], &[11, 12], &[11, 12]]);
        round.ends = ends.to_vec();
        assert_eq!(codes(&round), meant, "{ends:?}");
    }
}

/// 26 when "an end lies past the list", be it ever so far.
#[test]
fn ends_within_the_list() {
    for (ends, meant) in [
        (vec![2, 4], Ok(vec![0, 0])),
        (vec![2, 3], Ok(vec![0, 0])),
        (vec![2, 5], Err(26)),
        (vec![2, 6], Err(26)),
        (vec![5], Err(26)),
        (vec![5, 4], Err(26)),
        (vec![5, 6], Err(26)),
        (vec![2, usize::MAX], Err(26)),
        (vec![usize::MAX], Err(26)),
        (vec![usize::MAX, 2], Err(26)),
        (vec![2, usize::MAX, usize::MAX], Err(26)),
        (vec![2, 1 << 63], Err(26)),
        (vec![2, (1 << 63) - 1], Err(26)),
        (vec![2, (1 << 63) + 4], Err(26)),
        (vec![2, (1 << 32) + 4], Err(26)),
        (vec![(1 << 32) + 2, (1 << 32) + 4], Err(26)),
        (vec![2, (1 << 16) + 4], Err(26)),
        (vec![2, (1 << 8) + 4], Err(26)),
    ] {
        let mut round = case(&[&[11, 12], &[11, 12]]);
        round.ends = ends;
        assert_eq!(codes(&round), meant, "{:?}", round.ends);
    }
    // An empty list.
    let mut none = case(&[&[11]]);
    none.directions.clear();
    assert_eq!(codes(&none), Err(26));
}

/// The last end may lie before the list's: what stands behind it belongs to no direction.
#[test]
fn words_behind_the_last_end() {
    let short = case(&[&[11, 12], &[12]]);
    for tail in [&[0][..], &[13], &[11; 40], &[0, 65_535, 7_777]] {
        let mut longer = short.clone();
        longer.directions.extend(tail);
        assert_eq!(asked(&longer), asked(&short));
    }
}

/// "Each answer .. equals that of its direction decoded alone .., a refused direction included": each refusal, with its eight zeros, and its
/// places as before.
#[test]
fn each_answer_in_one_round() {
    let mut directions = each_answer();
    for turns in 0..6 {
        directions.rotate_left(turns);
        let (words, meant): (Vec<&[u16]>, Vec<u8>) = directions
            .iter()
            .map(|(one, code)| (&one[..], code))
            .unzip();
        let mut round = case(&words);
        round.store_len = 48;
        assert_eq!(codes(&round), Ok(meant.clone()));
        let before = round.lists(garbage);
        let (_, after) = asked(&round);
        for (k, &code) in meant.iter().enumerate() {
            if code != 0 {
                assert_eq!(after.answers[9 * k..9 * k + 9][1..], [0; 8]);
                let (s, w) = (96 * k..96 * k + 96, 256 * k..256 * k + 256);
                assert_eq!(after.steps[s.clone()], before.steps[s]);
                assert_eq!(after.words[w.clone()], before.words[w]);
            }
        }
        // A width: 15 in place of 14.
        round.width = WIDEST;
        let fifteen = meant.iter().map(|&c| if c == 14 { 15 } else { c });
        assert_eq!(codes(&round), Ok(fifteen.collect()));
        // 11 of every direction of which 9 and 10 are not said.
        for width in [-2, i64::MIN] {
            round.width = width;
            let eleven = meant
                .iter()
                .map(|&c| if c == 9 || c == 10 { c } else { 11 });
            assert_eq!(codes(&round), Ok(eleven.collect()));
        }
    }
}

/// 15 where pruning emptied the last set of one direction and not of others: the width is each direction's own.
#[test]
fn a_width() {
    let mut round = case(&[&[11, 12], &[12], &[11], &[12, 11], &[11, 12]]);
    round.book = short();
    for (width, meant) in [
        (-1, [0, 0, 0, 0, 0]),
        (0, [15, 0, 0, 0, 15]),
        (4, [15, 0, 0, 0, 15]),
        (5, [0, 0, 0, 0, 0]),
        (WIDEST, [0, 0, 0, 0, 0]),
        (i64::MAX, [0, 0, 0, 0, 0]),
        (-2, [11, 11, 11, 11, 11]),
    ] {
        round.width = width;
        assert_eq!(codes(&round), Ok(meant.to_vec()), "{width}");
    }
}

/// Directions of 32 and 33 words, and one word of 9 or 10 wrong.
#[test]
fn long_directions() {
    for (n, meant) in [(1, 0), (31, 0), (32, 0), (33, 9), (64, 9), (2_000, 9)] {
        let mut round = case(&[&[12], &vec![21; n], &[12]]);
        round.book[1] = 0;
        assert_eq!(codes(&round), Ok(vec![0, meant, 0]), "{n}");
    }
    // 9 before 10.
    assert_eq!(codes(&case(&[&[0; 33], &[0; 32]])), Ok(vec![9, 10]));
}

/// "Direction k has the 32 step places and 256 word places that follow those of direction k - 1": all of them full.
#[test]
fn every_place_written() {
    let full = [21; 32];
    let mut round = case(&[&full, &[12], &full, &full]);
    round.book[1] = 0;
    let (reply, after) = asked(&round);
    assert_eq!(reply, Ok(()));
    let eight: Vec<u16> = (1..=8).collect();
    let steps: Vec<u16> = (1..=32).flat_map(|k| [k, k, 4]).collect();
    for k in [0, 2, 3] {
        assert_eq!(after.words[256 * k..256 * (k + 1)], eight.repeat(32));
        assert_eq!(after.steps[96 * k..96 * (k + 1)], steps);
        assert_eq!(after.answers[9 * k + 2..9 * k + 4], [32, 256]);
    }
    assert_eq!(after.words[256], 102);
    let before = round.lists(garbage);
    assert_eq!(after.words[257..512], before.words[257..512]);
    assert_eq!(after.steps[99..192], before.steps[99..192]);
}

/// "lists of steps, words or answers too short for all directions answer 12 for the whole round"; places behind those of the last are
/// as before.
#[test]
fn lists_long_enough() {
    for count in [1, 2, 64] {
        let exact = case(&vec![&[11, 12][..]; count]);
        assert_eq!(codes(&exact), Ok(vec![0; count]));
        let lengths = |round: &mut RoundCase, by: [i64; 3]| {
            let all = [
                &mut round.steps_len,
                &mut round.words_len,
                &mut round.answers_len,
            ];
            for (len, by) in all.into_iter().zip(by) {
                *len = (*len as i64 + by).max(0) as usize;
            }
        };
        for by in [
            [-1, 0, 0],
            [-2, 0, 0],
            [-3, 0, 0],
            [0, -1, 0],
            [0, 0, -1],
            [-96, 900, 900],
            [900, -256, 900],
            [900, 900, -9],
            [-99_999, 0, 0],
            [0, -99_999, 0],
            [0, 0, -99_999],
            [-99_999; 3],
            [-1; 3],
        ] {
            let mut round = exact.clone();
            lengths(&mut round, by);
            assert_eq!(codes(&round), Err(12), "{count} {by:?}");
        }
        for by in [
            [1, 0, 0],
            [2, 0, 0],
            [3, 0, 0],
            [0, 1, 0],
            [0, 0, 1],
            [500; 3],
        ] {
            let mut round = exact.clone();
            lengths(&mut round, by);
            let (before, (reply, after)) = (round.lists(garbage), asked(&round));
            assert_eq!(reply, Ok(()));
            assert_eq!(after.steps[96 * count..], before.steps[96 * count..]);
            assert_eq!(after.words[256 * count..], before.words[256 * count..]);
            assert_eq!(after.answers[9 * count..], before.answers[9 * count..]);
        }
    }
    // Each direction would do with less, and a round is refused all the same: also one of refused directions.
    let mut small = case(&[&[11], &[11]]);
    (small.steps_len, small.words_len) = (6, 16);
    assert_eq!(codes(&small), Err(12));
    small = case(&[&[0], &[11; 33]]);
    assert_eq!(codes(&small), Ok(vec![10, 9]));
    small.answers_len = 17;
    assert_eq!(codes(&small), Err(12));
    // The width is asked later.
    small.width = -2;
    assert_eq!(codes(&small), Err(12));
}

/// "26, after the book checks and before that 12"; the directions' own questions come last.
#[test]
fn the_order_of_the_questions() {
    for (book, code) in refused_books() {
        // Each of 26 and 12, and of what the directions are refused for, both wrong and right.
        for wrong in 0..8 {
            let mut round = case(&[&[11, 12], &[12]]);
            round.book = book.clone();
            if wrong & 1 != 0 {
                round.ends = vec![2, 2];
            }
            if wrong & 2 != 0 {
                round.words_len = 511;
            }
            if wrong & 4 != 0 {
                (round.width, round.directions[0]) = (-2, 0);
            }
            let meant = match (code, wrong) {
                (0, 0) => Ok(vec![0, 0]),
                (0, 4) => Ok(vec![10, 11]),
                (0, _) if wrong & 1 != 0 => Err(26),
                (0, _) => Err(12),
                _ => Err(code),
            };
            assert_eq!(codes(&round), meant, "{code} {wrong}");
        }
    }
}

/// "with the same store": each direction has all of it, and it is zero after the first that is searched.
#[test]
fn the_store() {
    let directions: [&[u16]; 4] = [&[12], &[11, 12], &[11, 13], &[0]];
    // 2, 6 and 3 states.
    for (store, meant) in [
        (0, [13, 13, 13, 10]),
        (7, [13, 13, 13, 10]),
        (8, [13, 13, 13, 10]),
        (15, [13, 13, 13, 10]),
        (16, [0, 13, 14, 10]),
        (47, [0, 13, 14, 10]),
        (48, [0, 0, 14, 10]),
        (55, [0, 0, 14, 10]),
        (4_096, [0, 0, 14, 10]),
    ] {
        let mut round = case(&directions);
        round.store_len = store;
        assert_eq!(codes(&round), Ok(meant.to_vec()), "{store}");
        let (_, after) = asked(&round);
        assert_eq!(after.store, vec![0; store]);
    }
    // No direction is searched: the store is as before.
    for (width, directions) in [
        (-1, [&[0][..], &[11; 33], &[11, 0]]),
        (-2, [&[11, 12], &[11; 33], &[12]]),
    ] {
        let mut round = case(&directions);
        (round.width, round.store_len) = (width, 55);
        let (reply, after) = asked(&round);
        assert_eq!(reply, Ok(()));
        assert_eq!(after.store, round.lists(garbage).store);
    }
    // One is, be it the first or the last, and be it refused.
    for directions in [
        [&[0][..], &[0], &[11, 12]],
        [&[11, 12], &[0], &[0]],
        [&[0], &[11, 13], &[0]],
    ] {
        let mut round = case(&directions);
        for store in [55, 39, 7] {
            round.store_len = store;
            assert_eq!(asked(&round).1.store, vec![0; store]);
        }
    }
}

/// A round of one direction is that direction's decode; so is each of 64 that are the same.
#[test]
fn equal_directions() {
    let one = case(&[&[11, 12]]);
    let many = case(&vec![&[11, 12][..]; 64]);
    let alone = one.alone()[0].answer().unwrap();
    let (_, after) = asked(&many);
    for k in 0..64 {
        assert_eq!(after.answers[9 * k], 0);
        assert_eq!(after.answers[9 * k + 1..9 * k + 9], report(&alone));
        assert_eq!(after.words[256 * k..256 * k + 2], [102, 101]);
        assert_eq!(after.steps[96 * k..96 * k + 3], [1, 2, 3]);
    }
}

/// The same directions in another order have the same answers, in the changed places.
#[test]
fn another_order() {
    let mut rng = Rng::new(77);
    let mut moved = 0;
    for k in 0..400 {
        let shape = rounds::shape(&mut rng, k);
        let round = round_cases::with_flaw(&mut rng, &shape, Flaw::None);
        let (alone, count) = (round.alone(), round.ends.len());
        let mut order: Vec<usize> = (0..count).collect();
        for k in (1..count).rev() {
            order.swap(k, rng.below(k + 1));
        }
        let directions: Vec<Vec<u16>> = order.iter().map(|&k| alone[k].direction.clone()).collect();
        let again = RoundCase::of(&round.book, &directions, round.width, round.store_len);
        // Garbage that is the same in each direction's places.
        let same = |round: &RoundCase| Lists {
            steps: (0..round.steps_len).map(|k| (k % 96) as u16).collect(),
            words: (0..round.words_len).map(|k| (k % 256) as u16).collect(),
            store: vec![7; round.store_len],
            answers: vec![7; round.answers_len],
        };
        let (reply, first) = round.answer(&same(&round));
        let (reply_again, second) = again.answer(&same(&again));
        assert_eq!((reply, reply_again), (Ok(()), Ok(())));
        assert_eq!(first.store, second.store);
        for (to, &from) in order.iter().enumerate() {
            fn part<T>(list: &[T], each: usize, k: usize) -> &[T] {
                &list[each * k..each * (k + 1)]
            }
            assert_eq!(part(&second.steps, 96, to), part(&first.steps, 96, from));
            assert_eq!(part(&second.words, 256, to), part(&first.words, 256, from));
            assert_eq!(part(&second.answers, 9, to), part(&first.answers, 9, from));
            moved += (to != from) as u32;
        }
    }
    assert!(moved > 1_000, "{moved}");
}

/// Random rounds, full of any garbage, held to the copying; each refusal of a round and each answer in one is met.
#[test]
fn random_rounds() {
    let (mut rng, mut tally) = (Rng::new(7), Tally::default());
    for k in 0..1_500 {
        let shape = match k % 3 {
            0 => rounds::shape(&mut rng, k),
            1 => Shape::small(&mut rng),
            _ => Shape::small_ties(&mut rng),
        };
        let code = [2, 3, 4, 6, 20, 21][k % 6];
        for flaw in [Flaw::None, Flaw::Ends, Flaw::Short, Flaw::Book(code)] {
            let round = round_cases::with_flaw(&mut rng, &shape, flaw);
            let before = round.lists(|_| rng.draw());
            let (reply, after) = round.answer(&before);
            match reply {
                Ok(()) => assert!(after == by_copying(&round, &before), "{round:?}"),
                Err(_) => assert!(after == before, "{round:?}"),
            }
            match flaw {
                Flaw::None => assert_eq!(reply, Ok(())),
                Flaw::Short => assert_eq!(reply, Err(12)),
                Flaw::Book(code) => assert_eq!(reply, Err(code)),
                Flaw::Ends => {}
            }
            tally.count("decode_round", reply.err().unwrap_or(0));
            for code in round.inside(reply.is_ok(), &after) {
                tally.count(rounds::DIRECTION_OF_A_ROUND, code);
            }
        }
    }
    let refused = ("decode_round", &[0, 2, 3, 4, 6, 12, 20, 21, 26][..]);
    assert_eq!(tally.seldom(&[refused], 100), None);
    assert_eq!(tally.seldom(&rounds::INSIDE[..1], 200), None);
}

/// What calls 12 and 13 are to print.
const LINE: &str = "12 12 1 0 0 -500 1 0 2 1 1 11 101 -20 3 11 12 0 2 1 2 -1 192 512 17 18 9";
const RECORDS: &str = "13 12 1 0 0 -500 1 0 2 1 1 11 101 -20 3 11 12 0 2 1 2 -1 64 512 17 18 9";

#[test]
fn as_a_case() {
    let words = "words 101 ~16699 store 0*17 ~32983 answers 0 -520 1*2 2 0*3 1 14 0*8 ~582";
    let printed = format!("r: passed steps 1*3 ~6397 {words}");
    let line = format!("r|{LINE}");
    assert_eq!(line_said(&line).text, printed);
    assert_eq!(line_said(&line).inside, [0, 14]);
    assert_eq!(hold(&line, &printed, 0), Ok(()));
    for (old, new) in [
        ("passed", "R,14"),
        ("1*3 ~6397", "~6400"),
        ("1*3 ~6397", "1*3 ~93 1 ~6303"),
        ("words 101 ~16699", "words 101*2 ~16698"),
        ("0*17 ~32983", "0*18 ~32982"),
        ("14 0*8 ~582", "14 0*9 ~581"),
        ("14 0*8", "15 0*8"),
        ("answers 0 -520", "answers 0 -521"),
    ] {
        let other = printed.replacen(old, new, 1);
        assert_ne!(other, printed, "{old}");
        assert!(hold(&line, &other, 0).is_err(), "{other}");
    }
    let line = format!("r|{RECORDS}");
    let printed = format!("r: passed steps 1.1.1 ~1099 {words}");
    assert_eq!(line_said(&line).text, printed);
    let mut round = round_of(&line).expect("a round");
    assert_eq!((round.steps_len, &round.ends[..]), (192, &[1, 2][..]));
    round.book.clear();
    assert_eq!(codes(&round), Err(3));
    let refused = line.replace(" 64 512", " 63 512");
    let said = "r: R,12 steps ~1100 words ~16700 store ~33000 answers ~600";
    assert_eq!(line_said(&refused).text, said);
}
