//! The borders that 01 names, and the order of the questions.

use second::*;

fn chain(n: usize, d: i32) -> (Vec<i32>, Vec<u16>) {
    // One word each, source k to target k.
    let mut list = vec![1, d, -1, -3, n as i32, 0];
    for k in 1..=n as i32 {
        list.extend([2, 1, 1, k, k, -2]);
    }
    (list, (1..=n as u16).collect())
}

/// What a scoring reports of a book without T, D and U lines: u supplied each of so many words.
fn by_u(score: i64, words: usize) -> Result<Scoring, u8> {
    let supplied = [0, 0, 0, words];
    Ok(Scoring { score, supplied })
}

#[test]
fn words_32_and_33() {
    let (list, direction) = chain(33, 0);
    let answer = decode(&list, &direction[..32], -1, 32, 256, 8 * 33).unwrap();
    assert_eq!(
        (answer.score, answer.states, answer.steps.len()),
        (-160, 33, 32)
    );
    assert_eq!(
        decode(&list, &direction[..32], -1, 32, 256, 8 * 33 - 1),
        Err(13)
    );
    assert_eq!(decode(&list, &direction, -1, 100, 1000, 8 * 1000), Err(9));
    assert_eq!(score(&list, &direction, &[]), Err(9));
    let mut text: Vec<String> = (1..=32).map(|k| k.to_string()).collect();
    assert_eq!(
        read_direction((text.join(",") + "\n").as_bytes(), 32)
            .unwrap()
            .len(),
        32
    );
    assert_eq!(
        read_direction((text.join(",") + "\n").as_bytes(), 31),
        Err(7)
    );
    text.push("0".into());
    assert_eq!(
        read_direction((text.join(",") + "\n").as_bytes(), 0),
        Err(9)
    );
}

#[test]
fn last_positions_of_32() {
    // Blocks for 1 to 28, single words after: the plain walks agree at the top bit.
    let direction: Vec<u16> = (1..=32).collect();
    for d in [0, 1, 2, 5, 8, 32] {
        let mut list = vec![1, d, -1, -3, 10, 2];
        for (first, size) in [(1, 8), (9, 8), (17, 8), (25, 4)] {
            list.extend([2, size, 2]);
            list.extend(first..first + size);
            list.extend([first, first + 1, -2]);
        }
        for k in 29..=32 {
            list.extend([2, 1, 1, k, k, -2]);
        }
        list.extend([2, 2, 2, 31, 32, 77, 78, 5]);
        list.extend([
            2, 8, 8, 25, 26, 27, 28, 29, 30, 31, 32, 1, 2, 3, 4, 5, 6, 7, 8, 9,
        ]);
        list.extend([3, 77, 78, 25, 9, 3, 32, 31, 30, 20]);
        let book = check_book(&list).unwrap();
        let store = 8 * 100_000;
        let answer = decode(&list, &direction, -1, 32, 256, store).unwrap();
        let keys = plain::reachable(&book, &direction, usize::MAX).unwrap();
        assert_eq!(answer.states, keys.len());
        for width in [-1, 0, 1, 2, 5, 10, 20] {
            let result = decode(&list, &direction, width, 32, 256, store);
            campaign::check_plainly(&list, &direction, width, store, &result);
        }
    }
}

#[test]
fn jump_of_d_and_one_more() {
    for d in 0..=31 {
        let (list, direction) = chain(32, d);
        // First step at 1 + d, then at 1 + d + 1 of a fresh list.
        let first = d as u16 + 1;
        assert_eq!(score(&list, &direction, &[(first, first, first)]), Err(19));
        if first < 32 {
            let over = first + 1;
            assert_eq!(score(&list, &direction, &[(over, over, over)]), Err(18));
        }
    }
    // Backwards: 2 then 1 is a jump of 2.
    for (d, expected) in [(1, Err(18)), (2, by_u(-2 - 2 - 3 - 3 - 1 - 2, 2))] {
        let (list, direction) = chain(2, d);
        assert_eq!(score(&list, &direction, &[(2, 2, 2), (1, 1, 1)]), expected);
    }
    // A jump of 32: from r = 32 back to 1.
    let (list, direction) = chain(32, 32);
    let mut steps: Vec<Step> = vec![(32, 32, 32)];
    steps.extend((1..32).map(|k| (k, k, k)));
    assert_eq!(score(&list, &direction, &steps), by_u(-160 - 31 - 32, 32));
    let (list, direction) = chain(32, 31);
    assert_eq!(score(&list, &direction, &steps), Err(18));
}

#[test]
fn ranges() {
    let good = |text: &str| read_book(text.as_bytes(), 1000).map(|_| ());
    for (text, code) in [
        ("B,0,-10000,-1000000\n", 0),
        ("B,32,10000,1000000\n", 0),
        ("B,33,0,0\n", 4),
        ("B,-1,0,0\n", 4),
        ("B,0,10001,0\n", 4),
        ("B,0,-10001,0\n", 4),
        ("B,0,0,1000001\n", 4),
        ("B,0,0,-1000001\n", 4),
        ("B,0,0,10000000\n", 1),
        ("B,0,0,-0\n", 1),
        ("B,0,0,00\n", 1),
        ("B,0,0,-\n", 1),
        ("B,0,0,\n", 1),
        ("B,0,0,0", 1),
        ("B,0,0,0\n\n", 1),
        ("B,0,0,0\r\n", 1),
        ("B\n", 1),
        ("\n", 1),
        ("", 1),
        ("B,0,0\n", 2),
        ("B,0,0,0,0\n", 2),
        ("P,1,1,1,1,0\n", 3),
        ("B,0,0,0\nB,0,0,0\n", 3),
        ("B,99,0,0\nB,0,0,0\n", 3),
        ("B,0,0,0\nP,1,1,1,1,1000000\n", 0),
        ("B,0,0,0\nP,1,1,1,1,1000001\n", 4),
        ("B,0,0,0\nP,1,1,65535,65535,0\n", 0),
        ("B,0,0,0\nP,1,1,65536,1,0\n", 4),
        ("B,0,0,0\nP,1,1,1,0,0\n", 4),
        ("B,0,0,0\nP,0,1,1,0\n", 2),
        ("B,0,0,0\nP,1\n", 2),
        ("B,0,0,0\nP,8,8,1,2,3,4,5,6,7,8,1,2,3,4,5,6,7,8,0\n", 0),
        ("B,0,0,0\nP,9,1,1,2,3,4,5,6,7,8,9,1,0\n", 2),
        ("B,0,0,0\nP,1,9,1,1,2,3,4,5,6,7,8,9,0\n", 2),
        ("B,0,0,0\nT,0,0,1,0\n", 0),
        ("B,0,0,0\nT,1,0,1,0\n", 0),
        ("B,0,0,0\nT,0,0,0,0\n", 4),
        ("B,0,0,0\nT,65535,65535,65535,-1000000\n", 0),
        ("B,0,0,0\nT,65536,0,1,0\n", 4),
        ("B,0,0,0\nT,0,-1,1,0\n", 4),
        ("B,0,0,0\nT,0,0,1,0\nT,0,0,1,5\n", 6),
        ("B,0,0,0\nT,0,0,1,0\nT,0,0,1,0\nT,0,0,0,0\n", 4),
        ("B,0,0,0\nD,0,1,0,0\n", 0),
        ("B,0,0,0\nD,65535,65535,-1000000,1000000\n", 0),
        ("B,0,0,0\nD,1,0,0,0\n", 4),
        ("B,0,0,0\nD,65536,1,0,0\n", 4),
        ("B,0,0,0\nD,1,65536,0,0\n", 4),
        ("B,0,0,0\nD,-1,1,0,0\n", 4),
        ("B,0,0,0\nD,1,1,1000001,0\n", 4),
        ("B,0,0,0\nD,1,1,0,-1000001\n", 4),
        ("B,0,0,0\nD,1,1,0\n", 2),
        ("B,0,0,0\nD,1,1,0,0,0\n", 2),
        ("B,0,0,0\nU,0,0,0\n", 0),
        ("B,0,0,0\nU,65535,1000000,-1000000\n", 0),
        ("B,0,0,0\nU,-1,0,0\n", 4),
        ("B,0,0,0\nU,65536,0,0\n", 4),
        ("B,0,0,0\nU,1,-1000001,0\n", 4),
        ("B,0,0,0\nU,1,0,1000001\n", 4),
        ("B,0,0,0\nU,1,0\n", 2),
        ("B,0,0,0\nU,1,0,0,0\n", 2),
        ("U,1,0,0\n", 3),
        ("D,0,1,0,0\nB,0,0,0\n", 3),
        ("B,0,0,0\nD,0,1,0,0\nD,0,1,5,5\n", 20),
        ("B,0,0,0\nD,1,2,0,0\nD,2,1,0,0\n", 0),
        ("B,0,0,0\nU,1,0,0\nU,1,0,0\n", 20),
        ("B,0,0,0\nU,1,0,0\nD,1,1,0,0\n", 0),
        ("B,0,0,0\nU,1,0,0\nU,1,0,0\nT,0,0,1,0\nT,0,0,1,5\n", 6),
        ("B,0,0,0\nU,1,0,0\nU,1,0,0\nU,1,0,1000001\n", 4),
        ("B,0,0,0\nU,1,0,0\nU,1,0,0\nB,0,0,0\n", 3),
        ("B,0,0,0\nU,1,0,0\nU,1,0,0\nU,1,0\n", 2),
        ("B,0,0,0\nU,1,0,0\nU,1,0,0\nV,1,0\n", 1),
    ] {
        assert_eq!(good(text).err().unwrap_or(0), code, "{text}");
        assert_eq!(
            plain::book_text_verdict(text.as_bytes(), 1000).0,
            code,
            "{text}"
        );
    }
    for (text, code) in [
        ("1\n", 0),
        ("65535\n", 0),
        ("65536\n", 10),
        ("0\n", 10),
        ("-1\n", 10),
        ("-0\n", 8),
        ("01\n", 8),
        ("12345678\n", 8),
        ("9999999\n", 10),
        ("\n", 8),
        ("", 8),
        ("1", 8),
        ("1,\n", 8),
        (",1\n", 8),
        ("1\n\n", 8),
        ("1\n2\n", 8),
        ("1, 2\n", 8),
    ] {
        assert_eq!(
            read_direction(text.as_bytes(), 32).err().unwrap_or(0),
            code,
            "{text}"
        );
        assert_eq!(
            plain::direction_text_verdict(text.as_bytes(), 32).0,
            code,
            "{text}"
        );
    }
}

#[test]
fn loaded_lists() {
    for (list, code) in [
        (&[][..], 3),
        (&[1, 0, 0, 0, 0, 0], 0),
        (&[1, 0, 0, 0, 0], 2),
        (&[1, 0, 0, 0], 2),
        (&[1, 0, 0], 2),
        (&[1], 2),
        (&[0], 2),
        (&[6, 0, 0, 0, 0, 0], 2),
        (&[4, 0, 0, 0], 3),
        (&[5, 0, 1, 0, 0], 3),
        (&[1, 0, 0, 0, 0, 0, 4, 0, 0, 0], 0),
        (&[1, 0, 0, 0, 0, 0, 4, 0, 0], 2),
        (&[1, 0, 0, 0, 0, 0, 4], 2),
        (&[1, 0, 0, 0, 0, 0, 4, -1, 0, 0], 4),
        (&[1, 0, 0, 0, 0, 0, 4, 7, 0, 0, 4, 7, 1, 1], 20),
        (&[1, 0, 0, 0, 0, 0, 5, 0, 1, 0, 0], 0),
        (&[1, 0, 0, 0, 0, 0, 5, 0, 1, 0], 2),
        (&[1, 0, 0, 0, 0, 0, 5], 2),
        (&[1, 0, 0, 0, 0, 0, 5, 1, 0, 0, 0], 4),
        (&[1, 0, 0, 0, 0, 0, 5, 1, 1, 0, i32::MAX], 4),
        (&[1, 0, 0, 0, 0, 0, 5, 0, 1, 0, 0, 5, 0, 1, 0, 0], 20),
        (&[1, 0, 0, 0, 1, 0, 2], 2),
        (&[1, 0, 0, 0, 1, 0, 2, 1], 2),
        (&[1, 0, 0, 0, 1, 0, 2, 1, 9], 2),
        (&[1, 0, 0, 0, 1, 0, 2, 1, 1, 5, 5], 2),
        (&[1, 0, 0, 0, 1, 0, 2, 1, 1, 5, 5, 0], 0),
        (&[1, 0, 0, 0, 1, 0, 2, 1, 1, 5, 5, i32::MIN], 4),
        (&[1, 0, 0, 0, 0, 1, 3, 0, 0, 5], 2),
        (&[2, 1, 1, 5, 5, 0], 3),
        (&[1, 99, 0, 0, 0, 0, 1, 0, 0, 0, 0, 0], 3),
        (&[1, 99, 0, 0, 0, 0, 7], 2),
        // The counts.
        (&[1, 0, 0, 0, 1, 0], 21),
        (&[1, 0, 0, 0, 0, 1], 21),
        (&[1, 0, 0, 0, i32::MIN, i32::MAX], 21),
        (&[1, 0, 0, 0, 0, 1, 2, 1, 1, 5, 5, 0], 21),
        (&[1, 0, 0, 0, 1, 1, 2, 1, 1, 5, 5, 0], 21),
        (&[1, 0, 0, 0, 1, 1, 2, 1, 1, 5, 5, 0, 3, 0, 0, 1, 0], 0),
        (&[1, 0, 0, 0, 1, 0, 2, 1, 1, 5, 5, 0, 3, 0, 0, 1, 0], 21),
        (&[1, 0, 0, 0, 0, 1, 2, 1, 1, 5, 5, 0, 3, 0, 0, 1, 0], 21),
        (&[1, 0, 0, 0, 0, 1, 4, 0, 0, 0], 21),
        (&[1, 0, 0, 0, 0, 1, 5, 0, 1, 0, 0], 21),
        (&[1, 0, 0, 0, 9, 9, 6], 2),
        (&[1, 0, 0, 0, 9, 9, 1, 0, 0, 0, 0, 0], 3),
        (&[1, 33, 0, 0, 9, 9], 4),
        (&[1, 0, 0, 0, 0, 1, 3, 0, 0, 1, 0, 3, 0, 0, 1, 0], 21),
        (&[1, 0, 0, 0, 0, 2, 3, 0, 0, 1, 0, 3, 0, 0, 1, 0], 6),
        (&[1, 0, 0, 0, 0, 1, 4, 7, 0, 0, 4, 7, 1, 1], 21),
    ] {
        assert_eq!(check_book(list).err().unwrap_or(0), code, "{list:?}");
        assert_eq!(plain::loaded_verdict(list), code, "{list:?}");
    }
}

/// One line more than allowed, counted right or wrong: 5 is asked before 21. As many as allowed, counted wrong: 21.
#[test]
fn lines_allowed_and_their_counts() {
    let shape = gen::Shape::small(&mut gen::Rng::new(1));
    let kinds = [(0, 4_096), (1, 8_192), (2, 8_192), (3, 8_192)];
    for (kind, most) in kinds {
        for (lines, expected) in [(most, [0, 21]), (most + 1, [5, 5])] {
            let mut counts = [0; 4];
            counts[kind] = lines;
            let all = gen::lines_of(&mut gen::Rng::new(2), &shape, counts);
            let mut list = gen::loaded(&all);
            for code in expected {
                assert_eq!(check_book(&list).err().unwrap_or(0), code);
                assert_eq!(plain::loaded_verdict(&list), code);
                list[4 + kind % 2] -= 1;
            }
        }
    }
}

#[test]
fn list_lengths() {
    let (list, direction) = chain(3, 0);
    assert!(decode(&list, &direction, -1, 3, 24, 8 * 4).is_ok());
    assert_eq!(decode(&list, &direction, -1, 3, 23, 8 * 4), Err(12));
    assert_eq!(decode(&list, &direction, -1, 2, 24, 8 * 4), Err(12));
    assert_eq!(decode(&list, &direction, -1, 3, 24, 7), Err(13));
    assert_eq!(decode(&list, &[], -2, 0, 0, 0), Err(9));
    assert_eq!(decode(&list, &[0], -2, 0, 0, 0), Err(10));
    assert_eq!(decode(&list, &direction, -2, 0, 0, 0), Err(11));
    assert_eq!(decode(&list, &direction, -1, 0, 0, 0), Err(12));
    // No derivation and too small a store: 13 is asked first.
    assert_eq!(decode(&list, &[99], -1, 1, 8, 0), Err(13));
    assert_eq!(decode(&list, &[99], -1, 1, 8, 8), Err(14));
    assert_eq!(decode(&list, &[99], 0, 1, 8, 8), Err(15));
}

#[test]
fn scores_at_their_bound() {
    // 32 words, each step of 8 target words and all scores at the edge.
    for s in [1_000_000, -1_000_000] {
        let mut list = vec![1, 32, s / 100, s, 1, 0];
        list.extend([2, 1, 8, 5, 1, 1, 1, 1, 1, 1, 1, 1, s]);
        let direction = [5u16; 32];
        let steps: Vec<Step> = (1..=32).map(|k| (k, k, 1)).collect();
        let expected = by_u(32 * 9 * s as i64, 256);
        assert_eq!(score(&list, &direction, &steps), expected);
    }
}
