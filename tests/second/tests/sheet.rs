//! Ticket 8 of 02: the sheet of a round, and the program `round`.

mod helpers;

use helpers::{case, each_answer, garbage, loaded, refused_books, short};
use second::cases::line_said;
use second::gen::{self, Rng, Shape};
use second::random_cases::hold;
use second::round_cases::{self, RoundCase};
use second::rounds::{self, Tally};
use second::sheet::{BOOK_BYTES, INPUT_BYTES, SHEET};
use second::sheet_cases::{self, Flaw, SheetCase, Sheeted};
use second::*;

/// The numbers of the sheet's lines that begin with the letter.
fn rows(sheet: &str, letter: &str) -> Vec<Vec<i64>> {
    let lines = sheet.lines().filter_map(|line| line.strip_prefix(letter));
    lines
        .map(|line| {
            let fields = line.split(',').skip(1);
            fields.map(|field| field.parse().unwrap()).collect()
        })
        .collect()
}

/// What the ticket says of a sheet, read back from it: the N lines are those of the answers; "each count is that of the N lines with its
/// answer; Z gives their number and the sums of their words and scores"; and there is nothing else, and no number is written otherwise.
fn check_sheet(sheet: &str, answers: &[i64]) {
    let [n, e, z] = ["N", "E", "Z"].map(|letter| rows(sheet, letter));
    let meant = answers.chunks_exact(9).zip(1..);
    let meant: Vec<Vec<i64>> = meant.map(|(a, k)| vec![k, a[0], a[1], a[3]]).collect();
    assert_eq!(n, meant);
    assert!(n.iter().all(|row| row[1] == 0 || row[2..] == [0, 0]));
    assert!(e.windows(2).all(|two| two[0][0] < two[1][0]), "{sheet}");
    for answer in 0..100 {
        let count = n.iter().filter(|row| row[1] == answer).count() as i64;
        let said: Vec<&Vec<i64>> = e.iter().filter(|row| row[0] == answer).collect();
        match count {
            0 => assert!(said.is_empty(), "{sheet}"),
            _ => assert_eq!(said, [&vec![answer, count]], "{sheet}"),
        }
    }
    let sum = |field: usize| n.iter().map(|row| row[field]).sum::<i64>();
    assert_eq!(z, [[n.len() as i64, sum(3), sum(2)]]);
    let row = |letter: &str, numbers: &Vec<i64>| {
        let fields: String = numbers.iter().map(|z| format!(",{z}")).collect();
        format!("{letter}{fields}\n")
    };
    let [n, e, z] = [("N", n), ("E", e), ("Z", z)]
        .map(|(letter, rows)| rows.iter().map(|r| row(letter, r)).collect::<String>());
    assert_eq!(sheet, n + &e + &z);
}

/// What a call with so many bytes replies and leaves. On success the lists are the round's, and the bytes behind the sheet as before.
fn asked(round: &RoundCase, sheet_len: usize) -> (Result<usize, u8>, Sheeted) {
    let round = round.clone();
    let case = SheetCase { round, sheet_len };
    let before = case.lists(garbage);
    let (reply, after) = case.answer(&before);
    if let Ok(length) = reply {
        let meant = case.round.answer(&before.lists);
        assert_eq!(meant, (Ok(()), after.lists.clone()));
        let (sheet, behind) = after.sheet.split_at(length);
        assert_eq!(behind, &before.sheet[length..]);
        let answers = &after.lists.answers[..9 * case.round.ends.len()];
        check_sheet(std::str::from_utf8(sheet).unwrap(), answers);
    } else {
        assert_eq!(after, before);
    }
    (reply, after)
}

/// The sheet of an accepted round.
fn sheet(round: &RoundCase) -> String {
    let (reply, after) = asked(round, SHEET);
    let length = reply.expect("a good round");
    String::from_utf8(after.sheet[..length].to_vec()).unwrap()
}

/// A round of those directions with that book.
fn with(book: &str, directions: &[&[u16]]) -> RoundCase {
    let mut round = case(directions);
    round.book = loaded(book);
    round
}

#[test]
fn a_sheet_by_hand() {
    let round = case(&[&[11, 12], &[12], &[11, 13], &[21, 11]]);
    assert_eq!(
        sheet(&round),
        "N,1,0,-110,2\nN,2,0,-45,1\nN,3,14,0,0\nN,4,0,-4091,9\nE,0,3\nE,14,1\nZ,4,12,-4246\n"
    );
}

/// One direction: each answer alone.
#[test]
fn one_direction() {
    for (words, code) in each_answer() {
        let mut round = case(&[&words]);
        round.store_len = 48;
        let meant = match (words.len(), code) {
            (2, 0) => "N,1,0,-110,2\nE,0,1\nZ,1,2,-110\n".to_string(),
            (1, 0) => "N,1,0,-45,1\nE,0,1\nZ,1,1,-45\n".to_string(),
            _ => format!("N,1,{code},0,0\nE,{code},1\nZ,1,0,0\n"),
        };
        assert_eq!(sheet(&round), meant);
    }
    let mut round = case(&[&[11, 12]]);
    round.width = -2;
    assert_eq!(sheet(&round), "N,1,11,0,0\nE,11,1\nZ,1,0,0\n");
    (round.width, round.book) = (0, short());
    assert_eq!(sheet(&round), "N,1,15,0,0\nE,15,1\nZ,1,0,0\n");
}

/// "one line per direction", 1 to 64 of them; the number counts from 1.
#[test]
fn how_many_directions() {
    for count in [1, 9, 10, 11, 63, 64] {
        let round = case(&vec![&[11, 12][..]; count]);
        let rows: String = (1..=count).map(|k| format!("N,{k},0,-110,2\n")).collect();
        let (words, score) = (2 * count, -110 * count as i64);
        let ends = format!("E,0,{count}\nZ,{count},{words},{score}\n");
        assert_eq!(sheet(&round), rows + &ends);
    }
}

/// Each answer in one round, "rising", in whatever order the directions come.
#[test]
fn each_answer_on_one_sheet() {
    let mut directions = each_answer();
    for turns in 0..6 {
        directions.rotate_left(turns);
        let words: Vec<&[u16]> = directions.iter().map(|(one, _)| &one[..]).collect();
        let mut round = case(&words);
        round.store_len = 48;
        for (width, meant) in [
            (-1, "E,0,2\nE,9,1\nE,10,1\nE,13,1\nE,14,1\nZ,6,3,-155\n"),
            (WIDEST, "E,0,2\nE,9,1\nE,10,1\nE,13,1\nE,15,1\nZ,6,3,-155\n"),
            (-2, "E,9,1\nE,10,1\nE,11,4\nZ,6,0,0\n"),
        ] {
            round.width = width;
            let sheet = sheet(&round);
            assert_eq!(&sheet[sheet.find('E').unwrap()..], meant);
        }
    }
}

/// Every direction refused, with one answer and with several.
#[test]
fn refused_directions() {
    let round = case(&[&[13], &[13], &[14]]);
    assert_eq!(
        sheet(&round),
        "N,1,14,0,0\nN,2,14,0,0\nN,3,14,0,0\nE,14,3\nZ,3,0,0\n"
    );
    let round = case(&[&[13], &[0], &[13; 33], &[0]]);
    assert_eq!(
        sheet(&round),
        "N,1,14,0,0\nN,2,10,0,0\nN,3,9,0,0\nN,4,10,0,0\nE,9,1\nE,10,2\nE,14,1\nZ,4,0,0\n"
    );
}

/// Scores above 0, below it and 0, which is no refusal's; sums of all three signs.
#[test]
fn signs() {
    let book = "B,0,0,0\nP,1,1,11,101,7\nP,1,2,12,101,102,-7\nP,1,3,13,1,2,3,0\n";
    for (directions, meant) in [
        (&[&[11][..]][..], "N,1,0,7,1\nE,0,1\nZ,1,1,7\n"),
        (&[&[12]], "N,1,0,-7,2\nE,0,1\nZ,1,2,-7\n"),
        (&[&[13]], "N,1,0,0,3\nE,0,1\nZ,1,3,0\n"),
        (&[&[11], &[12]], "N,1,0,7,1\nN,2,0,-7,2\nE,0,2\nZ,2,3,0\n"),
        (
            &[&[11, 12], &[11]],
            "N,1,0,0,3\nN,2,0,7,1\nE,0,2\nZ,2,4,7\n",
        ),
        (
            &[&[12], &[11], &[12]],
            "N,1,0,-7,2\nN,2,0,7,1\nN,3,0,-7,2\nE,0,3\nZ,3,5,-7\n",
        ),
        (
            &[&[13], &[14]],
            "N,1,0,0,3\nN,2,14,0,0\nE,0,1\nE,14,1\nZ,2,3,0\n",
        ),
    ] {
        assert_eq!(sheet(&with(book, directions)), meant);
    }
}

/// 64 directions of 32 words, each with an entry of eight target words that score `u` each, and of score `g`.
fn full(u: i64, g: i64) -> RoundCase {
    let book = format!("B,0,0,{u}\nP,1,8,21,1,2,3,4,5,6,7,8,{g}\n");
    with(&book, &[&[21; 32][..]; 64])
}

/// Sums of more than 32 bits, on either side of 0.
#[test]
fn large_sums() {
    for (u, score) in [(-1_000_000, "-18432000000"), (1_000_000, "18432000000")] {
        let sheet = sheet(&full(u, u));
        assert!(sheet.ends_with(&format!("\nE,0,64\nZ,64,16384,{score}\n")));
    }
    // 33 directions of 64,000,000, one of 34,000,000 and one of 1,483,648 are 2 to the 31; one more and one less, too.
    let mut directions = vec![&[21; 32][..]; 33];
    directions.extend([&[21; 17][..], &[22]]);
    for (sign, more) in [(-1, -1), (-1, 0), (-1, 1), (1, -1), (1, 0), (1, 1)] {
        let (million, rest) = (1_000_000 * sign, (483_648 + more) * sign);
        let book = format!("B,0,0,{million}\nP,1,1,21,1,{million}\nP,1,1,22,1,{rest}\n");
        let sum = ((1i64 << 31) + more) * sign;
        let sheet = sheet(&with(&book, &directions));
        assert!(sheet.ends_with(&format!("\nZ,35,1074,{sum}\n")), "{sheet}");
    }
}

/// The longest line of a direction has a number of two digits, the answer 0, a score of nine digits and a minus, and three digits of words: 22
/// bytes, or 21 for the first nine directions. A refused direction's has 12 at most, and its answer takes a line of at most 8 more, so no
/// refusal makes a sheet longer. So the longest has 9 x 21 + 55 x 22 = 1,399 bytes of these, `E,0,64` and byte 10 are 7 more, and
/// `Z,64,16384,`, a sum of eleven digits (64 x 810,240,000 has no more) and a minus, and byte 10 are 24: 1,430 bytes.
#[test]
fn the_longest_sheet() {
    let round = full(-1_000_000, -1_000_000);
    let longest = sheet(&round);
    assert!(longest.starts_with("N,1,0,-288000000,256\nN,2,0,"));
    assert_eq!(longest.len(), 1_430);
    assert_eq!(asked(&round, 2_047).0, Err(7));
    assert_eq!(asked(&round, 1_430).0, Err(7));
    assert_eq!(sheet(&full(1_000_000, 1_000_000)).len(), 1_430 - 65);
    // Whatever is answered: `kinds` different refusals, of at least so many directions.
    let digits = |number: i64| number.to_string().len();
    assert_eq!((digits(-BOUND), digits(-64 * BOUND)), (10, 12));
    let mut most = 0;
    for count in 1..=64 {
        for refused in 0..=count {
            for kinds in 0..=refused.min(6) {
                let numbers: usize = (1..=count as i64).map(digits).sum();
                let lines = numbers + 20 * (count - refused) + 10 * refused;
                let counts = 8 * kinds + 7 * (refused < count) as usize;
                most = most.max(lines + counts + 24);
            }
        }
    }
    assert_eq!(most, 1_430);
}

/// "fewer than 2,048 bytes are 7", however short the sheet is; what stands behind it is as before (`asked`).
#[test]
fn how_many_bytes() {
    for round in [case(&[&[12]]), case(&[&[0]]), full(-1, -1)] {
        let length = asked(&round, SHEET).0;
        assert!(length.is_ok());
        for lent in [2_049, 2_050, 2_100, 4_096, 10_000] {
            assert_eq!(asked(&round, lent).0, length);
        }
        for lent in [0, 1, 30, 31, 32, 1_024, 1_430, 2_000, 2_046, 2_047] {
            assert_eq!(asked(&round, lent).0, Err(7));
        }
    }
}

/// The book's questions, 26, 12, and then 7; the directions' own questions refuse no sheet.
#[test]
fn the_order_of_the_questions() {
    for (book, code) in refused_books() {
        for wrong in 0..16 {
            let mut round = case(&[&[11, 12], &[12]]);
            round.book = book.clone();
            if wrong & 1 != 0 {
                round.ends = vec![2, 2];
            }
            if wrong & 2 != 0 {
                round.answers_len = 17;
            }
            if wrong & 8 != 0 {
                (round.width, round.directions[0]) = (-2, 0);
            }
            let sheet_len = if wrong & 4 != 0 { 2_047 } else { SHEET };
            let (reply, _) = asked(&round, sheet_len);
            let meant = match (code, wrong % 8) {
                (0, 0) => Ok(reply.expect("a good round")),
                (0, 4) => Err(7),
                (0, _) if wrong & 1 != 0 => Err(26),
                (0, _) => Err(12),
                _ => Err(code),
            };
            assert_eq!(reply, meant, "{code} {wrong}");
        }
    }
}

/// 26 and 12 by each of their ways, with bytes enough and with none.
#[test]
fn refused_rounds() {
    let good = case(&[&[11, 12], &[12]]);
    let mut refused = Vec::new();
    for ends in [
        vec![],
        vec![0],
        vec![2, 2],
        vec![2, 1],
        vec![2, 4],
        vec![2, usize::MAX],
    ] {
        refused.push((
            RoundCase {
                ends,
                ..good.clone()
            },
            26,
        ));
    }
    refused.push((case(&vec![&[11][..]; 65]), 26));
    for (steps_len, words_len, answers_len) in
        [(191, 512, 18), (192, 511, 18), (192, 512, 17), (0, 0, 0)]
    {
        let short = RoundCase {
            steps_len,
            words_len,
            answers_len,
            ..good.clone()
        };
        refused.push((short, 12));
    }
    for (round, code) in refused {
        for bytes in [0, 2_047, SHEET, 5_000] {
            assert_eq!(asked(&round, bytes).0, Err(code), "{round:?}");
        }
    }
}

/// Random rounds: sums of each sign, each refusal, and each answer on a sheet.
#[test]
fn random_sheets() {
    use round_cases::Flaw::*;
    let (mut rng, mut tally) = (Rng::new(8), Tally::default());
    let mut signs = [0; 3];
    for k in 0..300 {
        let shape = rounds::shape(&mut rng, k);
        let book = [2, 3, 4, 6, 20, 21][k % 6];
        let mut rounds = [None, None, Ends, Short, Book(book)]
            .map(|flaw| round_cases::with_flaw(&mut rng, &shape, flaw))
            .to_vec();
        rounds.push(round_cases::heavy(
            &mut rng,
            if k % 2 == 0 { 1 } else { -1 },
        ));
        for round in rounds {
            let sheet_len = SheetCase::of(&mut rng, &round).sheet_len;
            let (reply, after) = asked(&round, sheet_len);
            tally.count("round_sheet", reply.err().unwrap_or(0));
            for code in round.inside(reply.is_ok(), &after.lists) {
                tally.count(rounds::LINE_OF_A_SHEET, code);
            }
            if let Ok(length) = reply {
                let text = std::str::from_utf8(&after.sheet[..length]).unwrap();
                signs[(rows(text, "Z")[0][2].signum() + 1) as usize] += 1;
            }
        }
    }
    let refused = ("round_sheet", &[0, 2, 3, 4, 6, 7, 12, 20, 21, 26][..]);
    assert_eq!(tally.seldom(&[refused], 40), Option::None);
    assert_eq!(tally.seldom(&rounds::INSIDE[1..], 40), Option::None);
    assert!(signs.iter().all(|&times| times > 40), "{signs:?}");
}

// ------------------------------------------------------------------------------ the program

/// What the program prints.
fn printed(book: &str, input: &str) -> String {
    let sheet = sheet_cases::program(book.as_bytes(), input.as_bytes());
    String::from_utf8(sheet_cases::printed(sheet)).unwrap()
}

/// Is the refusal printed?
fn refuses(book: &str, input: &str, code: u8) {
    let shown: String = input.chars().take(100).collect();
    assert_eq!(printed(book, input), format!("R,{code}\n"), "{shown}");
}

#[test]
fn the_program_by_hand() {
    let one = "N,1,0,-110,2\nE,0,1\nZ,1,2,-110\n";
    assert_eq!(printed(EXAMPLE, "11,12\n"), one);
    let three = "N,1,0,-110,2\nN,2,14,0,0\nN,3,0,-45,1\nE,0,2\nE,14,1\nZ,3,3,-155\n";
    assert_eq!(printed(EXAMPLE, "11,12\n13\n12\n"), three);
}

/// "a store of 512 states": an entry for each target word, and the start.
#[test]
fn states_of_the_program() {
    for (entries, meant) in [
        (510, "N,1,0,0,1\n"),
        (511, "N,1,0,0,1\n"),
        (512, "N,1,13,0,0\n"),
    ] {
        let lines: String = (1..=entries).map(|k| format!("P,1,1,1,{k},0\n")).collect();
        let said = printed(&format!("B,0,0,0\n{lines}"), "1\n2\n");
        assert!(
            said.starts_with(&[meant, "N,2,14,0,0\n"].concat()),
            "{said}"
        );
    }
}

/// 7: more bytes than 8,192 and 32,768, before any other question.
#[test]
fn bytes_of_the_program() {
    let lines = ["P,1,1,9,9,0\n".repeat(662), "P,1,1,9,99,0\n".repeat(9)];
    let book = [EXAMPLE, &lines[0], &lines[1]].concat();
    assert_eq!(book.len(), BOOK_BYTES);
    let sheet = printed(EXAMPLE, "11,12\n");
    assert_eq!(printed(&book, "11,12\n"), sheet);
    let longer = book.replacen("9,9,0", "9,99,0", 1);
    assert_eq!(longer.len(), BOOK_BYTES + 1);
    for input in ["11,12\n", "", "0\n"] {
        refuses(&longer, input, 7);
    }
    // Lines of 512 bytes have more than 32 words, or are refused by 8 or 10.
    let input = ["11,".repeat(170), "1\n".into()].concat().repeat(64);
    assert_eq!(input.len(), INPUT_BYTES);
    refuses(EXAMPLE, &input, 9);
    for book in [EXAMPLE, "", "B,0,0,0"] {
        refuses(book, &input.replacen("11", "111", 1), 7);
        refuses(book, &[&input[..], "\n"].concat(), 7);
    }
    refuses("", &input, 1);
    for more in [1, 2, 100_000] {
        refuses(&"x".repeat(BOOK_BYTES + more), &input, 7);
        refuses(EXAMPLE, &"x".repeat(INPUT_BYTES + more), 7);
    }
    refuses(&"x".repeat(BOOK_BYTES), &"x".repeat(INPUT_BYTES), 1);
    refuses(EXAMPLE, &"x".repeat(INPUT_BYTES), 8);
    refuses(EXAMPLE, &"\n".repeat(INPUT_BYTES), 26);
}

/// The longest lines that are good: 64 of 192 bytes.
#[test]
fn the_longest_input() {
    let book = "B,0,0,-1000000\nP,1,8,60001,1,2,3,4,5,6,7,8,-1000000\n";
    let line = vec!["60001"; 32].join(",") + "\n";
    let said = printed(book, &line.repeat(64));
    assert_eq!((line.len(), said.len()), (192, 1_430));
    assert_eq!(said, sheet(&full(-1_000_000, -1_000_000)));
}

/// The book before the lines, and each question of its text.
#[test]
fn the_book_of_the_program() {
    let with = |line: &str| [EXAMPLE, line].concat();
    for (book, code) in [
        (String::new(), 1),
        ("\n".into(), 1),
        (EXAMPLE[..EXAMPLE.len() - 1].into(), 1),
        (with("P,1,1,9,9,07\n"), 1),
        (with("P,1,2,9,9,7\n"), 2),
        (with("B,0,0,0\n"), 3),
        (EXAMPLE[13..].into(), 3),
        (with("P,1,1,9,0,7\n"), 4),
        (with("T,0,0,101,-40\n"), 6),
        (with("U,7,0,0\nU,7,1,1\n"), 20),
    ] {
        for input in ["11,12\n", "", "11", "0\n", &"1\n".repeat(65)] {
            refuses(&book, input, code);
        }
    }
}

/// 26: not 1 to 64 lines, before any of them is read; a last piece without byte 10 is a line too.
#[test]
fn lines_of_the_program() {
    refuses(EXAMPLE, "", 26);
    for count in [1, 2, 63, 64] {
        let said = printed(EXAMPLE, &"12\n".repeat(count));
        assert!(said.ends_with(&format!(
            "\nE,0,{count}\nZ,{count},{count},{}\n",
            -45 * count as i64
        )));
    }
    for count in [65, 66, 128, 129, 320, 10_000] {
        refuses(EXAMPLE, &"12\n".repeat(count), 26);
        refuses(EXAMPLE, &"\n".repeat(count), 26);
    }
    refuses(EXAMPLE, &["12\n".repeat(64), "12".into()].concat(), 26);
    refuses(EXAMPLE, &["12\n".repeat(64), "x".into()].concat(), 26);
    refuses(EXAMPLE, &["12\n".repeat(63), "12".into()].concat(), 8);
    refuses(EXAMPLE, &"\n".repeat(64), 8);
    // A first line that is refused, of too many.
    refuses(EXAMPLE, &["0\n".into(), "12\n".repeat(64)].concat(), 26);
}

/// Each line is read in turn, and the first that is refused gives the number.
#[test]
fn the_first_refused_line() {
    let long = [&"11,".repeat(32), "11\n"].concat();
    let zeros = [&"0,".repeat(32), "0\n"].concat();
    let lines = [
        ("12\n", 0),
        (",\n", 8),
        (&long[..], 9),
        ("0\n", 10),
        ("\n", 8),
        (&zeros, 9),
        ("x0\n", 8),
    ];
    for (one, first) in lines {
        for (other, second) in lines {
            for (third, last) in [("11,12\n", 0), ("11,12", 8), ("", 0)] {
                let input = [one, other, third].concat();
                match [first, second, last].into_iter().find(|&code| code != 0) {
                    Some(code) => refuses(EXAMPLE, &input, code),
                    None => {
                        assert!(printed(EXAMPLE, &input).starts_with("N,1,0,-45,1\nN,2,0,-45,1\n"))
                    }
                }
            }
        }
    }
}

/// Lines at the border, and ones that are no lines of numbers.
#[test]
fn single_lines() {
    let most = [&"11,".repeat(31), "11\n"].concat();
    for (line, code) in [
        (&most[..], 0),
        ("65535\n", 0),
        ("65536\n", 10),
        ("9999999\n", 10),
        ("10000000\n", 8),
        ("-1\n", 10),
        ("-0\n", 8),
        ("011\n", 8),
        ("11,\n", 8),
        ("11 \n", 8),
        ("11\r\n", 8),
        ("11\0\n", 8),
        ("11", 8),
        ("11\n\n", 8),
        ("\n11\n", 8),
        ("0", 8),
    ] {
        match code {
            0 => assert!(printed(EXAMPLE, line).starts_with("N,1,")),
            _ => refuses(EXAMPLE, line, code),
        }
    }
}

/// Random texts: each flaw gives its number, and what has none is the sheet of the round.
#[test]
fn random_programs() {
    let mut rng = Rng::new(88);
    for k in 0..600 {
        let shape = match k % 2 {
            0 => Shape::small(&mut rng),
            _ => Shape::small_ties(&mut rng),
        };
        let book = [1, 2, 3, 4, 6, 20][k % 6];
        let line = [8, 9, 10][k % 3];
        for (flaw, code) in [
            (Flaw::Bytes, 7),
            (Flaw::Book(book), book),
            (Flaw::Lines, 26),
            (Flaw::Line(line), line),
        ] {
            let (book, input) = sheet_cases::texts(&mut rng, &shape, flaw);
            assert_eq!(sheet_cases::program(&book, &input), Err(code));
        }
        let (book, input) = sheet_cases::texts(&mut rng, &shape, Flaw::None);
        let lines = input.split_inclusive(|&byte| byte == b'\n');
        let directions: Vec<Vec<u16>> = lines.map(|l| read_direction(l, 32).unwrap()).collect();
        let list = read_book(&book, usize::MAX).unwrap();
        let round = RoundCase::of(&list, &directions, -1, 8 * 512);
        let printed = sheet_cases::program(&book, &input);
        assert_eq!(printed, Ok(sheet(&round).into_bytes()));
        // Anything changed: the two ways agree.
        let (mut book, mut input) = (book, input);
        gen::mangle_text(&mut rng, if k % 4 == 0 { &mut book } else { &mut input });
        let _ = sheet_cases::program(&book, &input);
    }
}

// ------------------------------------------------------------------------------ as cases

const ASKED: &str = "12 1 0 0 -500 1 0 2 1 1 11 101 -20 3 11 12 0 2 1 2 -1";

/// What calls 14 and 15 are to print.
#[test]
fn as_a_case() {
    let sheet = "N,1,0,-520,1\nN,2,14,0,0\nE,0,1\nE,14,1\nZ,2,1,-520\n";
    let bytes: Vec<String> = sheet.bytes().map(|byte| byte.to_string()).collect();
    let lists = "words 101 ~16699 store 0*17 ~32983 answers 0 -520 1*2 2 0*3 1 14 0*8 ~582";
    let shown = format!("{} ~{}", bytes.join(" "), 2_100 - bytes.len());
    let printed = format!("s: N,{} steps 1*3 ~6397 {lists} sheet {shown}", bytes.len());
    // From 90 on no byte of the sheet stands where it is written.
    let line = format!("s|14 {ASKED} 192 512 17 18 2048 90");
    assert_eq!(line_said(&line).text, printed);
    assert_eq!(line_said(&line).on_sheets, [0, 14]);
    assert_eq!(hold(&line, &printed, 0), Ok(()));
    let with_records = line.replace("s|14", "s|15").replace(" 192 ", " 64 ");
    let records = printed.replace("1*3 ~6397", "1.1.1 ~1099");
    assert_eq!(line_said(&with_records).text, records);
    let refused = format!("s|14 {ASKED} 192 512 17 18 2047 90");
    let said = "s: R,7 steps ~6400 words ~16700 store ~33000 answers ~600 sheet ~2100";
    assert_eq!(line_said(&refused).text, said);
    for (old, new) in [
        ("N,48", "N,47"),
        ("N,48", "passed"),
        ("sheet 78 44 49", "sheet 78 44 48"),
        ("~2052", "0 ~2051"),
        ("~2052", "~2051"),
        (" sheet", " bytes"),
        ("answers 0 -520", "answers 0 -521"),
    ] {
        let other = printed.replacen(old, new, 1);
        assert_ne!(other, printed, "{old}");
        assert!(hold(&line, &other, 0).is_err(), "{other}");
    }
}

/// What call 16 is to print.
#[test]
fn the_program_as_a_case() {
    let list = |text: &str| {
        let bytes: String = text.bytes().map(|byte| format!(" {byte}")).collect();
        format!("{}{bytes}", text.len())
    };
    let said = |book: &str, input: &str| {
        let said = line_said(&format!("p|16 {} {} 90", list(book), list(input)));
        (said.text, said.code)
    };
    let sheet = list("N,1,0,-45,1\nE,0,1\nZ,1,1,-45\n").replacen(' ', " out ", 1);
    let printed = format!("p: N,{sheet} ~2020");
    assert_eq!(said(EXAMPLE, "12\n"), (printed, 0));
    let refused = |code: u8, bytes: &str| (format!("p: N,{bytes}"), code);
    assert_eq!(
        said(EXAMPLE, "11,12"),
        refused(8, "4 out 82 44 56 10 ~2044")
    );
    assert_eq!(said("", ""), refused(1, "4 out 82 44 49 10 ~2044"));
    assert_eq!(said(EXAMPLE, ""), refused(26, "5 out 82 44 50 54 10 ~2043"));
}
