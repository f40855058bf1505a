//! Ticket 6 of 02: models from ARPA files.

use second::arpa::thousandths;
use second::cases::line_said;
use second::gen::{self, Rng, Shape};
use second::imports::{self, Flaw, ImportCase};
use second::plain_arpa::{self, Model};
use second::*;

const BOOK: &str = "B,2,-10,-500\nP,1,1,11,1,-20\n";
/// Words 1 to 4.
const WORDS: &str = "a\nb\nc\nd\n";

fn loaded(text: &str) -> Vec<i32> {
    read_book(text.as_bytes(), usize::MAX).expect("a good book")
}

fn case(arpa: &str, words: &str, book: &str, places: usize) -> ImportCase {
    let book = loaded(book);
    ImportCase {
        arpa: arpa.into(),
        spelling: words.into(),
        list: [&book[..], &vec![77; places]].concat(),
        used: book.len(),
    }
}

/// The imported book's lines as text; the tail is as before.
fn into(arpa: &str, words: &str, book: &str) -> Result<String, u8> {
    let case = case(arpa, words, book, 400);
    let (reply, after) = case.answer();
    let count = reply?;
    assert_eq!(after[count..], case.list[count..]);
    check_book(&after[..count]).expect("a good book");
    let text = gen::text(&imports::lines(&after[..count]));
    assert_eq!(
        read_book(&text, usize::MAX).as_deref(),
        Ok(&after[..count]),
        "the counts are kept right"
    );
    Ok(String::from_utf8(text).unwrap())
}

/// The lines behind those of BOOK, which are as before.
fn added(arpa: &str, words: &str) -> Result<String, u8> {
    let text = into(arpa, words, BOOK)?;
    Ok(text.strip_prefix(BOOK).expect("the book's lines").into())
}

/// A text of the n-grams of each order, parted by `;`.
fn arpa(orders: &[&str]) -> String {
    let rows = |grams: &str| -> Vec<String> {
        let rows = grams.split(';').filter(|row| !row.is_empty());
        rows.map(String::from).collect()
    };
    let mut text = String::from("\\data\\\n");
    for (k, grams) in orders.iter().enumerate() {
        text += &format!("ngram {}={}\n", k + 1, rows(grams).len());
    }
    for (k, grams) in orders.iter().enumerate() {
        text += &format!("\n\\{}-grams:\n", k + 1);
        for row in rows(grams) {
            text += &(row + "\n");
        }
    }
    text + "\n\\end\\\n"
}

fn of(orders: &[&str]) -> Result<String, u8> {
    added(&arpa(orders), WORDS)
}

fn said(text: &str) -> Result<String, u8> {
    Ok(text.into())
}

/// "Import it to U, D and T lines, put after the last line of a loaded book"; "The lines come out in the file's order".
#[test]
fn lines_of_each_order() {
    assert_eq!(of(&["-1 a -0.5"]), Err(23));
    assert_eq!(of(&["-1 a;-2 b"]), said("U,1,-1000,0\nU,2,-2000,0\n"));
    assert_eq!(
        of(&["-2 b -0.25;-1 a", "-0.5 a b;-0.75 b a"]),
        said("U,2,-2000,-250\nU,1,-1000,0\nD,1,2,-500,0\nD,2,1,-750,0\n")
    );
    assert_eq!(
        of(&["-1 a 1", "-2 a b 2;-3 b c", "-4 a b c;-5 c b a"]),
        said("U,1,-1000,1000\nD,1,2,-2000,2000\nD,2,3,-3000,0\nT,1,2,3,-4000\nT,3,2,1,-5000\n")
    );
    assert_eq!(of(&["", "", ""]), said(""));
    assert_eq!(of(&[""]), said(""));
    assert_eq!(of(&["", "-1 a b", ""]), said("D,1,2,-1000,0\n"));
    assert_eq!(of(&["", "-1 a b 1"]), Err(23));
    assert_eq!(of(&["", "", "-1 a b c 1"]), Err(23));
    assert_eq!(of(&["", "", "", "-1 a b c d"]), Err(23));
}

/// "put after the last line of a loaded book": P and T lines in any mixture before; the T count is kept right.
#[test]
fn behind_other_lines() {
    let book = "B,2,-10,-500\nT,9,9,9,-1\nP,1,1,11,1,-20\nU,9,1,2\nP,1,1,12,2,-20\nD,9,9,1,2\n";
    let text = arpa(&["-1 a 1;-3 <unk>", "-2 a b 2", "-4 a b c"]);
    let case = case(&text, WORDS, book, 20);
    let (reply, after) = case.answer();
    let count = reply.unwrap();
    assert_eq!(count, case.used + 4 + 5 + 5);
    assert_eq!(after[..6], [1, 2, -10, -3000, 2, 2]);
    assert_eq!(after[6..case.used], case.list[6..case.used]);
    let lines = [4, 1, -1000, 1000, 5, 1, 2, -2000, 2000, 3, 1, 2, 3, -4000];
    assert_eq!(after[case.used..count], lines);
    assert_eq!(after[count..], [77; 6]);
}

/// "through a word list whose k-th line spells word k, to 65,534 (of equal lines the first)".
#[test]
fn the_word_list() {
    let text = arpa(&["-1 a;-2 b"]);
    let with = |words: &str| added(&text, words);
    assert_eq!(with("a\nb"), said("U,1,-1000,0\nU,2,-2000,0\n"));
    assert_eq!(with("b\n\na\nb\na\n"), said("U,3,-1000,0\nU,1,-2000,0\n"));
    assert_eq!(with("x y\nb\na"), said("U,3,-1000,0\nU,2,-2000,0\n"));
    for words in [
        "", "a", "a\n", "\na\n", "a\nb ", "a\n b", "a\nb\r\n", "A\nb\n", "a b\n", "a\tb",
    ] {
        assert_eq!(with(words), Err(24), "{words:?}");
    }
    // A byte 13 belongs to its field.
    let text = arpa(&["-1 a\r;-2 b"]);
    assert_eq!(
        added(&text, "a\r\nb\r\nb\n"),
        said("U,1,-1000,0\nU,3,-2000,0\n")
    );
    assert_eq!(added(&text, "a\nb\n"), Err(24));
    // The last line that spells a word.
    let last = |empty: usize| added(&arpa(&["-1 a"]), &("\n".repeat(empty) + "a"));
    assert_eq!(last(65_533), said("U,65534,-1000,0\n"));
    assert_eq!(last(65_534), Err(24));
    let ends = "\n".repeat(65_533) + "a\na\nb\n";
    assert_eq!(added(&arpa(&["-1 a"]), &ends), said("U,65534,-1000,0\n"));
    assert_eq!(added(&arpa(&["-1 b"]), &ends), Err(24));
}

/// "`<s>` is 0": alone, first and in the middle; it is never looked up.
#[test]
fn the_start_symbol() {
    for words in [WORDS, "a\nb\nc\nd\n<s>\n"] {
        let of = |orders: &[&str]| added(&arpa(orders), words);
        assert_eq!(of(&["-99 <s> -0.1", ""]), said("U,0,-99000,-100\n"));
        assert_eq!(of(&["", "-1 <s> a", ""]), said("D,0,1,-1000,0\n"),);
        assert_eq!(
            of(&["", "", "-1 <s> a b;-2 <s> <s> a;-3 a <s> b"]),
            said("T,0,1,2,-1000\nT,0,0,1,-2000\nT,1,0,2,-3000\n")
        );
    }
    assert_eq!(of(&["-1 <s>"]), said("U,0,-1000,0\n"));
    assert_eq!(of(&["-1 <S>"]), Err(24));
}

/// "longer n-grams that .. end in `<s>` .. are passed over", whatever else they hold, but not their form.
#[test]
fn ends_in_the_start_symbol() {
    let passed = [
        "-1 a <s> 0.5",
        "-1 <s> <s>",
        "-1 unheard <s>",
        "-9999 a <s> 9999",
    ];
    for row in passed {
        assert_eq!(of(&["", row, ""]), said(""), "{row}");
    }
    for row in ["-1 a b <s>", "-1 <s> <s> <s>", "5000 x y <s>"] {
        assert_eq!(of(&["", "", row]), said(""), "{row}");
    }
    assert_eq!(of(&["", "x a <s>", ""]), Err(23));
    assert_eq!(of(&["", "-1 a <s> x", ""]), Err(23));
}

/// "n-grams that hold `</s>` are passed over", of any order and in any place.
#[test]
fn holds_the_end_symbol() {
    for words in [WORDS, "</s>\na\nb\n"] {
        let of = |orders: &[&str]| added(&arpa(orders), words);
        assert_eq!(of(&["-1 </s> 0.5", ""]), said(""));
        assert_eq!(of(&["-1 </s>;-2 </s>;9999 </s>"]), said(""));
        assert_eq!(
            of(&["", "1 a </s>;1 </s> a;1 </s> unheard 5000", ""]),
            said("")
        );
        assert_eq!(
            of(&[
                "",
                "",
                "1 a b </s>;1 a </s> b;1 </s> a b;1 </s> x y;1 </s> <s> <unk>"
            ]),
            said("")
        );
    }
    assert_eq!(of(&["x </s>"]), Err(23));
    assert_eq!(of(&["1 </s> .5", ""]), Err(23));
}

/// "`<unk>` sets u (the caller's u stays where the file has none), `<unk>`'s weight, longer n-grams that hold it .. are passed over".
#[test]
fn the_unknown_word() {
    let u = |orders: &[&str]| into(&arpa(orders), WORDS, "B,2,-10,-500\n");
    assert_eq!(u(&["-1 a"]), said("B,2,-10,-500\nU,1,-1000,0\n"));
    assert_eq!(
        u(&["-1 a;-2.5 <unk>"]),
        said("B,2,-10,-2500\nU,1,-1000,0\n")
    );
    assert_eq!(u(&["-0 <unk>"]), said("B,2,-10,0\n"));
    assert_eq!(u(&["1000 <unk> 0.5", ""]), said("B,2,-10,1000000\n"));
    // Its weight is not asked about, but has to be a value.
    assert_eq!(u(&["-1000 <unk> 5000", ""]), said("B,2,-10,-1000000\n"));
    assert_eq!(u(&["-1000 <unk> 5,5", ""]), Err(23));
    assert_eq!(u(&["-1000 <unk> 5"]), Err(23));
    assert_eq!(u(&["1000.0005 <unk>"]), Err(25));
    assert_eq!(u(&["x <unk>"]), Err(23));
    // "lists `<unk>` alone twice".
    assert_eq!(u(&["-1 <unk>;-1 <unk>"]), Err(23));
    assert_eq!(u(&["-1 <unk>;-1 a;-2 <unk> 1", ""]), Err(23));
    assert_eq!(
        u(&["-1 <unk>", "-1 <unk> <unk>;-2 <unk> <unk>"]),
        said("B,2,-10,-1000\n")
    );
    for row in [
        "1 <unk> a",
        "1 a <unk> 9999",
        "9999 <unk> unheard",
        "1 <s> <unk>",
    ] {
        assert_eq!(u(&["", row, ""]), said("B,2,-10,-500\n"), "{row}");
    }
    for row in ["1 <unk> a b", "1 a <unk> b", "1 a b <unk>", "1 x <unk> y"] {
        assert_eq!(u(&["", "", row]), said("B,2,-10,-500\n"), "{row}");
    }
    // It is never looked up.
    let spelled = into(&arpa(&["-1 <unk>"]), "<unk>\n", "B,0,0,0\n");
    assert_eq!(spelled, said("B,0,0,-1000\n"));
}

fn rounded(field: &str) -> Option<Option<i64>> {
    let (one, other) = (
        thousandths(field.as_bytes()),
        plain_arpa::value(field.as_bytes()),
    );
    let other = other.map(|value| value.rounded());
    let ranged = one.map(|t| Some(t).filter(|t| t.abs() <= 1_000_000));
    assert_eq!(ranged, other, "{field}");
    other
}

/// "Logarithms become thousandths, nearest, halves away from 0".
#[test]
fn rounding() {
    let nines = "9".repeat(40);
    let zeros = "0".repeat(40);
    for (field, meant) in [
        ("0", 0),
        ("-0", 0),
        ("1", 1_000),
        ("007", 7_000),
        ("0.0004", 0),
        ("0.0005", 1),
        ("-0.0005", -1),
        ("-0.0004", 0),
        ("0.00049999", 0),
        (&format!("0.0004{nines}"), 0),
        (&format!("-0.0004{nines}"), 0),
        (&format!("-0.0005{zeros}"), -1),
        (&format!("0.0005{zeros}1"), 1),
        ("0.0014999", 1),
        ("0.0015", 2),
        ("-0.0015", -2),
        ("-0.0025", -3),
        ("1.2345", 1_235),
        ("-1.2345", -1_235),
        ("-1.23449", -1_234),
        ("0.9995", 1_000),
        ("-0.9995", -1_000),
        ("0.9994", 999),
        ("0.1", 100),
        ("0.12", 120),
        ("1000", 1_000_000),
        ("1000.0004", 1_000_000),
        ("-1000.00049", -1_000_000),
        ("999.9995", 1_000_000),
        (&format!("{zeros}1000.0004{nines}"), 1_000_000),
        (&format!("-{zeros}.{zeros}"), 0),
    ] {
        assert_eq!(rounded(field), Some(Some(meant)), "{field}");
    }
    for field in [
        "1000.0005",
        "-1000.0005",
        "1001",
        "1000.001",
        "4294967.296",
        &nines,
    ] {
        assert_eq!(rounded(field), Some(None), "{field}");
        assert_eq!(of(&[&format!("{field} a")]), Err(25), "{field}");
        assert_eq!(of(&[&format!("1 a {field}"), ""]), Err(25), "{field}");
    }
    for t in -3_000..=3_000i64 {
        let sign = if t < 0 { "-" } else { "" };
        let (whole, part) = (t.abs() / 1_000, t.abs() % 1_000);
        let near = |digits: &str| rounded(&format!("{sign}{whole}.{part:03}{digits}"));
        let away = t + if t < 0 { -1 } else { 1 };
        assert_eq!(near(""), Some(Some(t)));
        assert_eq!(near("4999"), Some(Some(t)));
        assert_eq!(near("5"), Some(Some(away)));
    }
}

/// "a value that is not digits, with at most a minus before and a point and digits after": 23.
#[test]
fn what_is_no_value() {
    for field in [
        "", "-", ".", "-.", "5.", "-5.", ".5", "-.5", "+1", "1e-5", "1E5", "--1", "1-", "1.2.3",
        "1..2", "1.-2", "1,5", "inf", "nan", "0x1", "1\r", "1.5\r", "\r", "1_0", "a", "-a", "1.a",
        "\u{0661}",
    ] {
        assert_eq!(rounded(field), None, "{field}");
        if !field.is_empty() {
            assert_eq!(of(&[&format!("{field} a")]), Err(23), "{field}");
            assert_eq!(of(&[&format!("1 a {field}"), ""]), Err(23), "{field}");
            assert_eq!(of(&["", &format!("{field} a </s>")]), Err(23), "{field}");
        }
    }
}

/// "a missing weight is 0".
#[test]
fn weights() {
    assert_eq!(
        of(&["1 a;1 b 0.5", "1 a b;1 b a 0.5", ""]),
        said("U,1,1000,0\nU,2,1000,500\nD,1,2,1000,0\nD,2,1,1000,500\n")
    );
}

/// "Byte 10 or the text's end ends a line; fields are parted by spaces or tabs; blank lines and all outside `\data\` to `\end\` are
/// passed over."
#[test]
fn lines_and_fields() {
    let good = "\\data\\\nngram 1=1\n\\1-grams:\n-1 a\n\\end\\\n";
    let line = said("U,1,-1000,0\n");
    let with = |text: &str| added(text, WORDS);
    assert_eq!(with(good), line);
    for (old, new) in [
        ("\\end\\\n", "\\end\\"),
        ("-1 a", "-1\ta"),
        ("-1 a", " \t -1 \t  a \t "),
        ("\\data\\", " \\data\\\t"),
        ("\\end\\\n", "\t\\end\\  "),
        ("\\1-grams:", "  \\1-grams: "),
        ("ngram 1=1", "\tngram   1=1 "),
        ("\n", "\n\n"),
        ("\n", "\n \t\n"),
        ("\\data\\", "\n \nngram 1=5\n\\1-grams:\n\\end\\\n\\data\\"),
        ("\\data\\", "\\data\\ 2\n\\data\\"),
        ("\\data\\", "\\data\\\r\n\\data\\"),
        ("\\data\\", "\u{feff}\\data\\\n\\data\\"),
        ("\\end\\\n", "\\end\\\nanything\n\\data\\\n\\end\\\n"),
        ("\\end\\\n", "\\end\\\n1 a\r"),
        ("1=1", "1=0001"),
    ] {
        let text = good.replace(old, new);
        assert_ne!(text, good);
        assert_eq!(with(&text), line, "{text:?}");
    }
    for (old, new) in [
        ("\\data\\", "\\data\\\r"),
        ("\\data\\", "\\Data\\"),
        ("\\data\\", "\\data\\ x"),
        ("\\data\\", "\\data"),
        ("\\data\\\n", ""),
        ("\\data\\", "\\data\\\n\\data\\"),
        ("\\data\\", "\\data\\\nx"),
        ("ngram 1=1\n", ""),
        ("ngram 1=1", "ngram 1=1\r"),
        ("ngram 1=1", "ngram 1 =1"),
        ("ngram 1=1", "ngram 1= 1"),
        ("ngram 1=1", "ngram1=1"),
        ("ngram 1=1", "Ngram 1=1"),
        ("ngram 1=1", "ngram 1=1 x"),
        ("ngram 1=1", "ngram 01=1"),
        ("ngram 1=1", "ngram 1="),
        ("ngram 1=1", "ngram =1"),
        ("ngram 1=1", "ngram"),
        ("ngram 1=1", "ngram 1=-1"),
        ("ngram 1=1", "ngram 1=+1"),
        ("ngram 1=1", "ngram 1=1.0"),
        ("ngram 1=1", "ngram 1=1x"),
        ("ngram 1=1", "ngram 1==1"),
        ("ngram 1=1", "ngram 2=1"),
        ("ngram 1=1", "ngram 0=1"),
        ("ngram 1=1", "ngram 1=0"),
        ("ngram 1=1", "ngram 1=2"),
        ("ngram 1=1", "ngram 1=18446744073709551617"),
        ("ngram 1=1", "ngram 1=4294967297"),
        ("ngram 1=1", "ngram 1=257"),
        ("ngram 1=1", "ngram 1=100000000000000000000000000000"),
        ("ngram 1=1", "ngram 1=1\nngram 1=1"),
        ("ngram 1=1", "ngram 1=1\nngram 2=0"),
        ("ngram 1=1", "ngram 1=1\nngram 3=0"),
        ("ngram 1=1", "ngram 1=1\nx"),
        ("\\1-grams:\n", ""),
        ("\\1-grams:", "\\1-grams"),
        ("\\1-grams:", "\\2-grams:"),
        ("\\1-grams:", "\\1-grams: 1"),
        ("\\1-grams:", "\\1-grams:\r"),
        ("\\1-grams:", "\\1-grams:\n\\1-grams:"),
        ("-1 a\n", ""),
        ("-1 a", "-1"),
        ("-1 a", "-1 a b"),
        ("-1 a", "-1 a 0"),
        ("-1 a", "a -1"),
        ("-1 a", "-1 a\n-2 b"),
        ("\\end\\\n", ""),
        ("\\end\\", "\\end\\ x"),
        ("\\end\\", "\\end\\\r"),
        ("\\end\\", "\\End\\"),
        ("\\end\\", "x\n\\end\\"),
        ("\\end\\", "\\2-grams:\n\\end\\"),
    ] {
        let text = good.replace(old, new);
        assert_ne!(text, good);
        assert_eq!(with(&text), Err(23), "{text:?}");
    }
    for text in [
        "",
        "\n",
        " ",
        "\\data\\",
        "\\data\\\n\\end\\\n",
        "\\end\\\n\\data\\\n",
    ] {
        assert_eq!(with(text), Err(23), "{text:?}");
    }
    // A byte 13 that belongs to a word.
    assert_eq!(with(&good.replace("-1 a", "-1 a\r")), Err(24));
    assert_eq!(with(&good.replace("-1 a", "-1\r a")), Err(23));
}

/// `ngram 4=M` and sections that are not in turn.
#[test]
fn sections() {
    let good = arpa(&["1 a", "1 a b", "1 a b c"]);
    assert!(added(&good, WORDS).is_ok());
    for (old, new) in [
        ("ngram 3=1\n", "ngram 3=1\nngram 4=0\n"),
        ("ngram 3=1\n", "ngram 4=1\n"),
        ("ngram 3=1\n", ""),
        ("ngram 2=1\nngram 3=1\n", "ngram 3=1\nngram 2=1\n"),
        ("ngram 1=1\n", ""),
        ("\\2-grams:\n1 a b\n", ""),
        ("\\2-grams:", "\\3-grams:"),
        ("1 a b c", "1 a b"),
        ("1 a b c", "1 a b c 1"),
        ("1 a b c", "1 a b c d"),
        ("1 a b\n", "1 a b 1 1\n"),
        ("1 a b\n", "1 a b c\n"),
        ("1 a b\n", "1 a\n"),
        ("1 a b\n", "1 a b\n1 b c\n"),
        ("1 a\n", "1 a 1 1\n"),
        ("1 a\n", "1 a b\n"),
        ("1 a\n", "1\n"),
        ("1 a\n", "\n"),
    ] {
        let text = good.replacen(old, new, 1);
        assert_ne!(text, good);
        assert_eq!(added(&text, WORDS), Err(23), "{text:?}");
    }
}

/// "24 when a word not passed over is not in the word list", in each place of each order.
#[test]
fn words_that_are_missing() {
    for orders in [
        &["1 x"][..],
        &["1 a;1 b;1 x"],
        &["", "1 a x"],
        &["", "1 x a"],
        &["", "1 <s> x"],
        &["", "", "1 x a b"],
        &["", "", "1 a x b"],
        &["", "", "1 a b x"],
        &["", "", "1 <s> <s> x"],
    ] {
        assert_eq!(of(orders), Err(24), "{orders:?}");
    }
}

/// 6 and 20 of the longer book: what is listed twice, and what the caller's book has already.
#[test]
fn listed_twice() {
    assert_eq!(of(&["1 a;2 b;1 a"]), Err(20));
    assert_eq!(of(&["1 <s>;2 <s>"]), Err(20));
    assert_eq!(of(&["", "1 a b;2 a b"]), Err(20));
    assert_eq!(of(&["", "1 <s> b;1 <s> b"]), Err(20));
    assert_eq!(of(&["", "", "1 a b c;2 a b c"]), Err(6));
    // 6 before 20.
    assert_eq!(of(&["1 a;1 a", "1 a b;1 a b", "1 a b c;2 a b c"]), Err(6));
    let to = |line: &str| {
        into(
            &arpa(&["1 a", "1 a b", "1 a b c"]),
            WORDS,
            &format!("{BOOK}{line}\n"),
        )
    };
    assert_eq!(to("U,1,5,5"), Err(20));
    assert_eq!(to("D,1,2,5,5"), Err(20));
    assert_eq!(to("T,1,2,3,5"), Err(6));
    assert!(to("U,2,5,5").is_ok());
    assert!(to("D,2,1,5,5").is_ok());
    assert!(to("T,1,3,2,5").is_ok());
    // Words that are spelled alike are one word.
    assert_eq!(
        added(&arpa(&["1 a;1 b"]), "a\na\nb\n"),
        said("U,1,1000,0\nU,3,1000,0\n")
    );
}

/// "in that order, then the checks of the caller's book, of the longer one, and 7 if the list is too short": each question before the next.
#[test]
fn the_order_of_the_questions() {
    // Refused by 23, 24 and 25; by 24 and 25; by 25; by the longer book; by nothing.
    let texts = [
        (Some(23), arpa(&["1 x;1001 a;y b"])),
        (Some(24), arpa(&["1 x;1001 a;1 b;1 b"])),
        (Some(25), arpa(&["1 b;1 b;1001 a"])),
        (None, arpa(&["1 b;1 b"])),
        (None, arpa(&["1 b"])),
    ];
    let b = [1, 0, 0, 0, 0, 0];
    for (lines, counts, code) in [
        (&[6][..], [0, 0], 2),
        (&[1, 0, 0, 0, 0, 0], [0, 0], 3),
        (&[2, 1, 1, 0, 1, 0], [9, 9], 4),
        (&[2, 1, 1, 1, 1, 0], [0, 0], 21),
        (&[3, 1, 1, 1, 1, 3, 1, 1, 1, 1], [0, 1], 21),
        (&[3, 1, 1, 1, 1, 3, 1, 1, 1, 1], [0, 2], 6),
        (&[4, 1, 1, 1, 4, 1, 1, 1], [0, 0], 20),
        (&[5, 1, 1, 1, 1, 5, 1, 1, 1, 1], [0, 0], 20),
    ] {
        let book = [&b[..4], &counts, lines].concat();
        for (before, text) in &texts {
            for places in [0, 100] {
                let list = [&book[..], &vec![5; places]].concat();
                for (used, meant) in [(book.len(), before.unwrap_or(code)), (list.len() + 1, 7)] {
                    let case = ImportCase {
                        arpa: text.clone().into_bytes(),
                        spelling: b"a\nb\n".to_vec(),
                        list: list.clone(),
                        used,
                    };
                    assert_eq!(case.answer().0, Err(meant), "{case:?}");
                }
            }
        }
    }
    // The longer book's 20 before 7; 7 for one place too few.
    for (text, places, meant) in [
        (&texts[3].1, 0, Err(20)),
        (&texts[3].1, 100, Err(20)),
        (&texts[4].1, 3, Err(7)),
        (&texts[4].1, 4, Ok(16)),
        (&texts[4].1, 5, Ok(16)),
    ] {
        assert_eq!(case(text, "a\nb", BOOK, places).answer().0, meant);
    }
    // The numbers in use.
    let list = [&b[..], &[9; 9]].concat();
    for (used, meant) in [
        (0, 3),
        (5, 2),
        (6, 10),
        (7, 2),
        (15, 2),
        (16, 7),
        (usize::MAX, 7),
    ] {
        let case = ImportCase {
            arpa: texts[4].1.clone().into_bytes(),
            spelling: b"a\nb\n".to_vec(),
            list: list.clone(),
            used,
        };
        let reply = case.answer().0;
        assert_eq!(reply.unwrap_or_else(|code| code as usize), meant, "{used}");
    }
}

/// As many lines of a kind as are allowed, and one more: 5, before 6, 20 and 7.
#[test]
fn the_last_line_allowed() {
    let shape = Shape::small(&mut Rng::new(1));
    for (k, counts) in [[3, 0, 8_191, 0], [3, 0, 0, 8_191], [3, 8_191, 0, 0]]
        .into_iter()
        .enumerate()
    {
        let book = gen::loaded(&gen::lines_of(&mut Rng::new(2), &shape, counts));
        let grams = ["1 a;1 b", "1 a b;1 b a", "1 a b a;1 b a b"][k];
        let (one, _) = grams.split_once(';').unwrap();
        let twice = format!("{one};{one}");
        // Words that no line of the book has.
        let words = "\n".repeat(60_000) + "a\nb\n";
        for (grams, places, meant) in [
            (one, 5, Ok(())),
            (one, 0, Err(7)),
            (grams, 10, Err(5)),
            (grams, 0, Err(5)),
            (&twice[..], 10, Err(5)),
        ] {
            let mut orders = ["", "", ""];
            orders[k] = grams;
            let case = ImportCase {
                arpa: arpa(&orders).into_bytes(),
                spelling: words.clone().into_bytes(),
                list: [&book[..], &vec![7; places]].concat(),
                used: book.len(),
            };
            assert_eq!(case.answer().0.map(|_| ()), meant, "{grams} {places}");
        }
    }
}

/// "scoring them equals scoring the file's own rounded values, less those passed over, by ARPA's back-off rule, with u for a word that has
/// no unigram".
#[test]
fn the_back_off_rule() {
    let text = arpa(&[
        "-1 a -0.1;-2 b -0.2;-99 <s> -0.3;-3 <unk> -5;-1.5 </s>",
        "-0.5 a b -0.01;-0.6 <s> a -0.02;-0.7 a </s>;-0.8 <unk> a 7;-0.9 b <s> 8",
        "-0.05 <s> a b;-0.06 a b a;-0.07 a a <unk>;-0.08 a b </s>",
    ]);
    let case = case(&text, "a\nb\nc\n", BOOK, 100);
    let (reply, after) = case.answer();
    let book = &after[..reply.unwrap()];
    let model = Model::of(text.as_bytes(), -500);
    let words: [&[u8]; 4] = [b"<s>", b"a", b"b", b"c"];
    for ([v, w, y], meant) in [
        ([0, 1, 2], -50),
        ([1, 2, 1], -60),
        ([0, 0, 1], -600),
        ([3, 0, 1], -600),
        ([0, 1, 1], -20 - 100 - 1_000),
        ([1, 1, 2], -500),
        ([1, 2, 2], -10 - 200 - 2_000),
        ([1, 2, 3], -10 - 200 - 3_000),
        ([0, 0, 2], -300 - 2_000),
        ([3, 3, 3], -3_000),
        ([3, 3, 1], -1_000),
        ([2, 3, 2], -2_000),
        ([1, 0, 3], -300 - 3_000),
    ] {
        assert_eq!(model.score(&[words[v], words[w], words[y]]), meant);
        let checked = check_book(book).unwrap();
        let [v, w, y] = [v, w, y].map(|word| word as u16);
        assert_eq!(plain::triple(&checked, v, w, y), meant, "{v} {w} {y}");
    }
    case.hold_triples(book, &[1, 2, 3, 4, 65_534, 65_535]);
    // By the existing scoring: words 1, 2 and 1 after two start symbols.
    let entry = loaded("B,0,0,0\nP,1,3,9,1,2,1,0\n");
    let mut with = [&entry[..], &[0; 100]].concat();
    let count = import_arpa(text.as_bytes(), b"a\nb\nc\n", &mut with, entry.len()).unwrap();
    let scored = score(&with[..count], &[9], &[(1, 1, 1)]).unwrap();
    assert_eq!(
        (scored.score, scored.supplied),
        (-600 - 50 - 60, [2, 1, 0, 0])
    );
}

/// Of equal lines the others spell nothing, and neither does a symbol's line.
#[test]
fn words_without_spelling() {
    let text = arpa(&["-1 a -0.5;-3 <s> -7", "-2 a a"]);
    let words = "a\na\n<s>\n<unk>\n\nb";
    let case = case(&text, words, BOOK, 100);
    let (reply, after) = case.answer();
    let book = &after[..reply.unwrap()];
    case.hold_triples(book, &[1, 2, 3, 4, 5, 6, 7, 65_535]);
    let checked = check_book(book).unwrap();
    assert_eq!(plain::triple(&checked, 0, 0, 2), -7_000 - 500);
    assert_eq!(plain::triple(&checked, 1, 3, 1), -1_000);
}

/// Two imports one after the other are one of both, where they share nothing.
#[test]
fn two_in_turn() {
    let first = arpa(&["1 a;-1 <unk>", "1 a b", "1 a b c"]);
    let second = arpa(&["2 b 1;2 <s> 1", "2 b a", "2 <s> a b;2 c b a"]);
    let mut case = case(&first, WORDS, BOOK, 60);
    let (reply, after) = case.answer();
    (case.used, case.list, case.arpa) = (reply.unwrap(), after, second.into_bytes());
    let (reply, after) = case.answer();
    let meant = "B,2,-10,-1000
P,1,1,11,1,-20
U,1,1000,0
D,1,2,1000,0
T,1,2,3,1000
U,2,2000,1000
U,0,2000,1000
D,2,1,2000,0
T,0,1,2,2000
T,3,2,1,2000
";
    assert_eq!(after[..reply.unwrap()], loaded(meant));
    assert_eq!(after[4..6], [1, 3]);
    // The same once more is listed twice.
    (case.used, case.list) = (reply.unwrap(), after);
    assert_eq!(case.answer().0, Err(6));
}

/// Random imports: both ways agree, and what is imported to a book without such lines scores as the file says.
#[test]
fn at_random() {
    let mut rng = Rng::new(66);
    let (mut met, mut held, mut kinds) = ([0; 26], 0, [0; 6]);
    for k in 0..20_000 {
        let of = Shape::small(&mut rng);
        let shape = imports::shape(&mut rng, &of, k % 3 > 0);
        let book = gen::book_saying(&mut rng, &shape, 0);
        let flaw = rng.pick(&[
            Flaw::None,
            Flaw::None,
            Flaw::Text,
            Flaw::Words,
            Flaw::Range,
            Flaw::Twice,
        ]);
        let texts = imports::texts(&mut rng, &shape, flaw);
        let case = imports::in_list(&mut rng, &book, texts);
        let (reply, after) = case.answer();
        met[reply.err().unwrap_or(0) as usize] += 1;
        let Ok(count) = reply else { continue };
        for line in imports::lines(&after[..count]) {
            kinds[line[0] as usize] += 1;
        }
        if case.into_bare_book() {
            let words: Vec<u16> = (0..4).map(|_| shape.target(&mut rng) as u16).collect();
            case.hold_triples(&after[..count], &words);
            held += 1;
        }
    }
    println!("{met:?}, held to the file {held}, lines {kinds:?}");
    assert!([0, 6, 7, 20, 23, 24, 25].iter().all(|&k| met[k] > 500));
    assert!(held > 4_000 && kinds[3..].iter().all(|&lines| lines > 5_000));
}

/// How the call is asked and printed as a case.
#[test]
fn as_a_case() {
    let said = |line: &str| line_said(line).text;
    let bytes = |text: &str| -> String {
        let fields = text.bytes().map(|byte| format!(" {byte}"));
        format!("{}{}", text.len(), fields.collect::<String>())
    };
    let asked = |used: usize, places: usize| {
        let text = bytes(&arpa(&["-1 a;-2 <unk>"]));
        let list = format!("{} 1 0 0 0 0 0 ( {places} 20 # )", 6 + places);
        said(&format!("i|11 {text} {} {list} {used} 100", bytes("a\n")))
    };
    assert_eq!(asked(6, 8), "i: N,10 book ~3 -2000 ~2 4 1 -1000 0 ~40990");
    assert_eq!(asked(6, 3), "i: R,7 book ~41000");
    assert_eq!(asked(15, 8), "i: R,7 book ~41000");
    assert_eq!(asked(5, 8), "i: R,2 book ~41000");
}
