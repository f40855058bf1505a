//! Cases as data: how a line is read, and how a printed line is held to the second decoder.
use second::campaign::check_plainly;
use second::cases::{decode_of, line_said, round_of};
use second::random_cases::hold;

/// Entries 1 and 2 are equal, entry 3 scores less, and entry 4 does not fit.
const TIE: &str = "tie|6 30 1 0 0 0 4 0 2 1 1 11 101 -20 2 1 1 11 101 -20 2 1 1 11 101 -30 2 1 1 12 101 -20 1 11 -1 1 8 16 500";

const PRINTED: &str =
    "tie: A,-20 N,1 N,1 N,2 N,0 N,0 N,0 N,1 steps 1.1.1 ~1099 words 101 ~1999 store 0*16 ~32984";

#[test]
fn of_equal_entries_the_lower() {
    let said = line_said(TIE);
    assert_eq!(said.text, PRINTED);
    assert!(said.shared);
    assert_eq!(hold(TIE, PRINTED, 0), Ok(()));
}

#[test]
fn any_other_line_is_refused() {
    for (old, new) in [
        ("1.1.1 ~1099", "1.1.2 ~1099"),
        ("1.1.1 ~1099", "1.1.3 ~1099"),
        ("1.1.1 ~1099", "1.1.4 ~1099"),
        ("1.1.1 ~1099", "1.1.5 ~1099"),
        ("1.1.1 ~1099", "~1100"),
        ("1.1.1 ~1099", "1.1.1*2 ~1098"),
        ("1.1.1 ~1099", "1.1.1"),
        ("words 101", "words 102"),
        ("~1999", "101 ~1998"),
        ("A,-20", "A,-30"),
        ("N,1 N,1 N,2", "N,1 N,1 N,3"),
        ("N,0 N,0 N,0 N,1", "N,0 N,0 N,1 N,0"),
        ("N,0 N,0 N,0 N,1", "N,1 N,0 N,0 N,0"),
        ("N,0 N,0 N,0 N,1", "N,0 N,0 N,0 N,0"),
        (" N,0 N,0 N,0 N,1", ""),
        ("0*16 ~32984", "0*15 ~32985"),
        ("steps", "step"),
    ] {
        let printed = PRINTED.replacen(old, new, 1);
        assert_ne!(printed, PRINTED);
        assert!(hold(TIE, &printed, 0).is_err(), "{printed}");
    }
}

/// A step that the garbage held already stands as `~`.
#[test]
fn a_step_may_be_as_before() {
    let line =
        "g|6 25 1 0 0 0 3 0 2 1 1 13 101 0 2 1 1 14 101 0 2 2 1 11 12 101 -20 2 11 12 -1 2 16 16 1";
    let said = line_said(line).text;
    assert!(said.contains(" steps ~1100 words 101 ~1999 "), "{said}");
}

#[test]
fn a_group_stands_for_its_items() {
    let said = |line: &str| line_said(line).text;
    assert_eq!(
        said("text|2 6 ( 2 7 /1 44 ) 57 10 32 100"),
        "text: N,3 words 7 8 9 ~1997"
    );
    assert_eq!(
        said("digits|2 6 ( 1 123 /100 /10 /1 48 ) 50 10 32 100"),
        "digits: N,1 words 12302 ~1999"
    );
    assert_eq!(
        said("list|3 16 1 0 0 0 0 2 ( 2 9 3 0 0 # 0 )"),
        "list: passed"
    );
    assert_eq!(said("list|3 16 1 0 0 0 0 2 ( 2 9 3 0 0 9 0 )"), "list: R,6");
}

#[test]
#[should_panic(expected = "a group that goes beyond its list")]
fn a_group_ends_with_its_list() {
    line_said("list|7 3 ( 2 9 # # )");
}

#[test]
#[should_panic(expected = "a number too many")]
fn a_line_ends_with_its_numbers() {
    line_said("list|7 1 9 9");
}

/// The stored cases' decodes and the directions of their rounds, from question 13 on, are answered by the plain sets in the same way; so
/// are their scorings, in `line_said`.
#[test]
fn the_stored_cases_plainly() {
    let path = concat!(env!("CARGO_MANIFEST_DIR"), "/../../crates/try_cases/stdin");
    let lines = std::fs::read_to_string(path).expect("the cases");
    let mut searched = 0;
    let decodes = lines.lines().filter_map(decode_of);
    let rounds = lines.lines().filter_map(round_of);
    let accepted = rounds.filter(|round| round.answer(&round.lists(|_| 7)).0.is_ok());
    for case in decodes.chain(accepted.flat_map(|round| round.alone())) {
        let result = case.answer();
        if matches!(result, Ok(_) | Err(13..=15)) {
            let (width, store) = (case.width, case.store_len);
            check_plainly(&case.book, &case.direction, width, store, &result);
            searched += 1;
        }
    }
    assert!(searched > 400, "{searched}");
}
