//! Random trials of the decoder against the plain walks. Used by the tests and by
//! `second campaign SEED COUNT`. It panics at the first disagreement.

use crate::edits::EditCase;
use crate::gen::{self, DecodeCase, Rng, Shape};
use crate::imports::ImportCase;
use crate::round_cases::RoundCase;
use crate::sheet_cases::SheetCase;
use crate::{plain, *};
use std::collections::BTreeMap;

#[derive(Clone, Debug, Default)]
pub struct Tally {
    /// How many calls of each sort were checked.
    pub calls: BTreeMap<&'static str, u64>,
    /// How often each call gave each refusal (0: a result).
    pub replies: BTreeMap<(&'static str, u8), u64>,
    /// Other things met.
    pub met: BTreeMap<&'static str, u64>,
}

impl Tally {
    fn reply<T>(&mut self, call: &'static str, result: &Result<T, u8>) {
        *self.calls.entry(call).or_default() += 1;
        *self
            .replies
            .entry((call, *result.as_ref().err().unwrap_or(&0)))
            .or_default() += 1;
    }
    fn meet(&mut self, what: &'static str) {
        *self.met.entry(what).or_default() += 1;
    }
    /// Meets what supplied the words of an answer, if that is one of the four alone or all of them.
    fn mixture(&mut self, supplied: Supplied) {
        if let Some(k) = ways::mixture(supplied) {
            self.meet(ways::MIXTURES[k]);
        }
    }
    /// How often a refusal was met in all calls.
    pub fn refusals(&self) -> BTreeMap<u8, u64> {
        let mut all = BTreeMap::new();
        for (&(_, code), &times) in &self.replies {
            *all.entry(code).or_default() += times;
        }
        all
    }
}

impl std::fmt::Display for Tally {
    fn fmt(&self, f: &mut std::fmt::Formatter) -> std::fmt::Result {
        for (call, times) in &self.calls {
            write!(f, "{call}: {times} calls;")?;
            for ((other, code), count) in &self.replies {
                if other == call {
                    write!(f, " {code}:{count}")?;
                }
            }
            writeln!(f)?;
        }
        for (what, times) in &self.met {
            writeln!(f, "{what}: {times}")?;
        }
        write!(f, "all replies:")?;
        for (code, times) in self.refusals() {
            write!(f, " {code}:{times}")?;
        }
        writeln!(f)
    }
}

const MOST_DERIVATIONS: usize = 3_000;
const AMPLE: usize = 8 * 1_000_000;

/// `count` rounds from a seed.
pub fn run(seed: u64, count: usize) -> Tally {
    let mut tally = Tally::default();
    let mut rng = Rng::new(seed);
    for round in 0..count {
        let shape = if round % 2 == 0 {
            Shape::small(&mut rng)
        } else {
            Shape::small_ties(&mut rng)
        };
        search_round(&mut rng, &shape, &mut tally);
        reading_round(&mut rng, &shape, &mut tally, round % 200 == 0);
        mixed_round(&mut rng, &shape, &mut tally);
        if round % 4 == 0 {
            rounds::editing_round(&mut rng, &shape, &mut tally);
            rounds::edits_in_turn(&mut rng, &shape, &mut tally);
        }
        if round % 8 == 2 {
            rounds::importing_round(&mut rng, &shape, &mut tally);
        }
        if round % 100 == 50 {
            rounds::full_book_edits(&mut rng, &shape, &mut tally);
            rounds::full_book_imports(&mut rng, &shape, &mut tally);
            rounds::full_books_together(&mut rng, &shape, &mut tally);
        }
        if round % 64 == 5 || round % 64 == 40 {
            rounds::directions_together(&mut rng, &shape, &mut tally);
        }
        if round % 40 == 0 {
            let shape = Shape::middle(&mut rng);
            middle_round(&mut rng, &shape, &mut tally);
        }
    }
    tally
}

/// An answer is what 01 and tickets 3 and 4 of 02 say of it: valid steps, their score, phrase by phrase too, their words, and four counts that add
/// up to these.
fn check_answer(list: &[i32], book: &Book, direction: &[u16], answer: &Answer) {
    assert!(
        plain::valid(book, direction, &answer.steps),
        "{list:?} {direction:?} {answer:?}"
    );
    let scored = Scoring {
        score: answer.score,
        supplied: answer.supplied,
    };
    assert_eq!(
        plain::scoring_of(book, &answer.steps),
        scored,
        "{list:?} {direction:?}"
    );
    assert_eq!(score(list, direction, &answer.steps), Ok(scored));
    let by_phrases = plain::score_by_phrases(book, &answer.steps);
    assert_eq!(by_phrases, answer.score, "{list:?} {direction:?}");
    assert_eq!(plain::words_of(book, &answer.steps), answer.words);
    let all: usize = answer.supplied.iter().sum();
    assert_eq!(all, answer.words.len());
    assert!(answer.score.abs() <= BOUND);
}

/// A decode, from question 13 on, against the plain sets: the same answer, or the same refusal.
pub fn check_plainly(
    list: &[i32],
    direction: &[u16],
    width: i64,
    store: usize,
    result: &Result<Answer, u8>,
) {
    let book = check_book(list).expect("a good book");
    let expected = plain::answer(&book, direction, width, store / 8);
    assert_eq!(*result, expected, "{list:?} {direction:?} {width}");
    if let Ok(answer) = result {
        check_answer(list, &book, direction, answer);
    }
}

/// A good book and direction: the search by sets against the recursion and the walks.
fn search_round(rng: &mut Rng, shape: &Shape, tally: &mut Tally) {
    let (list, book, direction, found) = loop {
        let list = gen::book_saying(rng, shape, 0);
        let book = check_book(&list).expect("a good book");
        let direction = if rng.chance(1, 2) {
            gen::direction(rng, shape)
        } else {
            gen::direction_from(rng, shape, &book)
        };
        if let Some(found) = plain::best(&book, &direction, MOST_DERIVATIONS) {
            break (list, book, direction, found);
        }
        tally.meet("inputs left aside (3,000 derivations or more)");
    };
    tally.meet("good inputs searched and listed");
    let (best, total) = (found.score(), found.total);
    if found.top > 1 {
        tally.meet("good inputs with several derivations of the top score");
    }
    if total > 1 {
        tally.meet("good inputs with more than one derivation");
    }
    let n = direction.len();
    let states = plain::reachable(&book, &direction, usize::MAX)
        .unwrap()
        .len();

    // Pruning off: "no valid derivation of that score comes earlier".
    let off = decode(&list, &direction, -1, n, 8 * n, AMPLE);
    tally.reply("decode, pruning off", &off);
    match (&off, &found.one) {
        (Ok(answer), Some(one)) => {
            let given = (answer.score, answer.steps.clone());
            assert_eq!(given, *one, "{list:?} {direction:?}");
            assert_eq!(answer.states, states, "{list:?} {direction:?}");
            check_answer(&list, &book, &direction, answer);
            tally.mixture(answer.supplied);
        }
        (Err(14), None) => {}
        _ => panic!("{off:?} but {best:?}: {list:?} {direction:?}"),
    }
    assert_eq!(plain::by_lists(&book, &direction, -1), (states, found.one));
    if rng.chance(1, 10) && total < 200 {
        let all = all_derivations(&list, &direction).unwrap();
        assert_eq!(all.len(), total);
        for (steps, given) in &all {
            assert!(plain::valid(&book, &direction, steps));
            let scored = plain::scoring_of(&book, steps);
            assert_eq!(scored.score, *given);
            assert_eq!(score(&list, &direction, steps), Ok(scored));
        }
        let mut steps: Vec<_> = all.iter().map(|x| &x.0).collect();
        steps.sort();
        steps.dedup();
        assert_eq!(steps.len(), total);
        tally.meet("inputs whose every derivation was scored");
    }

    // The widest width answers as -1 does, but for 15 in place of 14.
    for width in [WIDEST, i64::MAX] {
        let wide = decode(&list, &direction, width, n, 8 * n, AMPLE);
        tally.reply("decode, widest", &wide);
        let as_off = match &off {
            Err(14) => Err(15),
            other => other.clone(),
        };
        assert_eq!(wide, as_off, "{list:?} {direction:?}");
    }

    // The store's border, pruning off.
    for store in [8 * states, 8 * states + 7] {
        let result = decode(&list, &direction, -1, n, 8 * n, store);
        tally.reply("decode, store just enough", &result);
        assert_eq!(result, off);
    }
    for store in [8 * states - 1, 8 * states - 8, 0] {
        let result = decode(&list, &direction, -1, n, 8 * n, store);
        tally.reply("decode, store short", &result);
        assert_eq!(result, Err(13));
    }

    // A width.
    for _ in 0..2 {
        let width = gen::width(rng, shape);
        let result = decode(&list, &direction, width, n, 8 * n, AMPLE);
        let entered = plain::by_lists(&book, &direction, width).0;
        tally.reply("decode, any width", &result);
        check_plainly(&list, &direction, width, AMPLE, &result);
        match (&result, &off) {
            (Ok(answer), Ok(best)) if answer.score != best.score => {
                tally.meet("widths that lost the best derivation");
            }
            (Ok(answer), Ok(best)) if answer.steps != best.steps => {
                tally.meet("widths that lost the first of the top score");
            }
            (Err(_), Ok(_)) => tally.meet("widths that emptied the last set"),
            _ => {}
        }
        if entered < states {
            tally.meet("widths that left states out");
        }
        let store = gen::store_len(rng, entered);
        let bounded = decode(&list, &direction, width, n, 8 * n, store);
        tally.reply("decode, any width and store", &bounded);
        if store / 8 < entered {
            assert_eq!(bounded, Err(13));
        } else {
            assert_eq!(bounded, result);
        }
    }

    // 11 before 12 before 13.
    let width = gen::bad_width(rng);
    let short = rng.chance(1, 2);
    let (steps_len, words_len) = gen::lengths(rng, n, short);
    let store = gen::store_len(rng, states);
    let result = decode(&list, &direction, width, steps_len, words_len, store);
    tally.reply("decode, bad width", &result);
    assert_eq!(result, Err(11));
    let (steps_len, words_len) = gen::lengths(rng, n, true);
    let width = gen::width(rng, shape);
    let result = decode(&list, &direction, width, steps_len, words_len, store);
    tally.reply("decode, short lists", &result);
    assert_eq!(result, Err(12));

    // Target parts, and the printed program.
    let mut part = 0;
    for (k, phrase) in book.phrases.iter().enumerate() {
        let (start, size) = target_part(&list, k + 1);
        let words: Vec<u16> = list[start..start + size]
            .iter()
            .map(|&y| y as u16)
            .collect();
        assert_eq!(words, phrase.target());
        assert!(start > part);
        part = start;
    }
    for entry in [0, book.phrases.len() + 1, 4097, usize::MAX] {
        assert_eq!(target_part(&list, entry), (list.len(), 0));
    }

    // Proposals.
    for code in [0, 16, 17, 18, 19] {
        if let Some(steps) = gen::proposal_saying(rng, &book, &direction, code) {
            let result = score(&list, &direction, &steps);
            tally.reply("score", &result);
            match result {
                Ok(given) => {
                    assert_eq!(code, 0);
                    assert_eq!(given, plain::scoring_of(&book, &steps));
                    assert!(best.is_some_and(|b| given.score <= b));
                    tally.mixture(given.supplied);
                }
                Err(given) => assert_eq!(given, code, "{list:?} {direction:?} {steps:?}"),
            }
        }
    }
    let steps = gen::any_proposal(rng, &book, &direction);
    let result = score(&list, &direction, &steps);
    tally.reply("score, anything", &result);
    match plain::proposal_verdict(&book, &direction, &steps) {
        0 => assert_eq!(result, Ok(plain::scoring_of(&book, &steps))),
        code => assert_eq!(result, Err(code), "{list:?} {direction:?} {steps:?}"),
    }
}

/// A text's reading against the plain walk's verdict: its refusal, or its numbers.
fn check_verdict<T: PartialEq + std::fmt::Debug>(
    text: &[u8],
    result: &Result<Vec<T>, u8>,
    (code, list): (u8, Vec<T>),
) {
    let plainly = if code == 0 { Ok(list) } else { Err(code) };
    assert_eq!(*result, plainly, "{}", String::from_utf8_lossy(text));
}

/// Reading: good and damaged texts and lists, each with the number meant for it.
fn reading_round(rng: &mut Rng, shape: &Shape, tally: &mut Tally, large: bool) {
    // A good text loads as its lines; a short list gives 7.
    let lines = gen::lines(rng, shape);
    let (list, text) = (gen::loaded(&lines), gen::text(&lines));
    let places = gen::places(rng, list.len(), false);
    let result = read_book(&text, places);
    tally.reply("read_book", &result);
    assert_eq!(result, Ok(list.clone()));
    let places = gen::places(rng, list.len(), true);
    let result = read_book(&text, places);
    tally.reply("read_book", &result);
    assert_eq!(result, Err(7));
    // The records say what the lines said.
    let book = check_book(&list).unwrap();
    assert_eq!(
        vec![1, book.d as i64, book.eta as i64, book.u as i64],
        lines[0]
    );
    let phrases: gen::Lines = (book.phrases.iter())
        .map(|p| {
            let mut line = vec![2, p.source().len() as i64, p.target().len() as i64];
            line.extend(p.source().iter().chain(p.target()).map(|&x| x as i64));
            line.push(p.g as i64);
            line
        })
        .collect();
    let triples: gen::Lines = (book.triples.iter())
        .map(|t| vec![3, t.v as i64, t.w as i64, t.y as i64, t.s as i64])
        .collect();
    let words: gen::Lines = (book.words.iter())
        .map(|u| vec![4, u.y as i64, u.listed.s as i64, u.listed.k as i64])
        .collect();
    let pairs: gen::Lines = (book.pairs.iter())
        .map(|d| {
            let (w, y) = (d.w as i64, d.y as i64);
            vec![5, w, y, d.listed.s as i64, d.listed.k as i64]
        })
        .collect();
    for (kind, records) in [(2, phrases), (3, triples), (4, words), (5, pairs)] {
        assert_eq!(
            records,
            lines
                .iter()
                .filter(|l| l[0] == kind)
                .cloned()
                .collect::<Vec<_>>()
        );
    }

    let good_direction = gen::direction(rng, shape);
    for code in [1, 2, 3, 4, 5, 21, 6, 20] {
        if code == 5 && !large {
            continue;
        }
        // No text is refused by 21.
        if code != 21 {
            let text = gen::text_saying(rng, shape, code);
            let short = rng.chance(1, 2);
            let places = gen::places(rng, 4, short);
            let result = read_book(&text, places);
            tally.reply("read_book", &result);
            assert_eq!(result, Err(code), "{}", String::from_utf8_lossy(&text));
            assert_eq!(plain::book_text_verdict(&text, places).0, code);
        }
        if code > 1 {
            let list = gen::book_saying(rng, shape, code);
            let result = check_book(&list);
            tally.reply("check_book", &result);
            assert_eq!(result.err(), Some(code), "{list:?}");
            assert_eq!(plain::loaded_verdict(&list), code);
            assert_eq!(target_part(&list, rng.below(12)), (list.len(), 0));
            // The other calls that take a loaded book, whatever else is wrong.
            let any = rng.pick(&[0, 9, 10]);
            let direction = gen::direction_saying(rng, shape, any);
            let width = rng.pick(&[-1, -2]);
            let result = decode(&list, &direction, width, 0, 0, 0);
            tally.reply("decode, bad book", &result);
            assert_eq!(result, Err(code));
            let result = score(&list, &direction, &[(0, 0, 0)]);
            tally.reply("score, bad book", &result);
            assert_eq!(result, Err(code));
            assert_eq!(all_derivations(&list, &good_direction), Err(code));
        }
    }
    if large {
        for counts in [
            [4096, 8192, 8192, 8192],
            [4096, 0, 0, 0],
            [0, 8192, 0, 0],
            [0, 0, 8192, 0],
            [0, 0, 0, 8192],
        ] {
            let lines = gen::lines_of(rng, shape, counts);
            let result = read_book(&gen::text(&lines), usize::MAX);
            tally.reply("read_book, as many lines as allowed", &result);
            assert_eq!(result, Ok(gen::loaded(&lines)));
        }
    }

    // Mangled anyhow, against the automaton.
    let mut text = if rng.chance(1, 12) { Vec::new() } else { text };
    gen::mangle_text(rng, &mut text);
    let places = if rng.chance(1, 3) {
        rng.below(list.len() + 4)
    } else {
        usize::MAX
    };
    let result = read_book(&text, places);
    tally.reply("read_book, mangled", &result);
    check_verdict(&text, &result, plain::book_text_verdict(&text, places));
    let mut mangled = list.clone();
    gen::mangle_list(rng, &mut mangled);
    let result = check_book(&mangled);
    tally.reply("check_book, mangled", &result);
    assert_eq!(
        result.err().unwrap_or(0),
        plain::loaded_verdict(&mangled),
        "{mangled:?}"
    );

    // Directions as text.
    let text = gen::direction_text(&good_direction);
    let places = gen::places(rng, good_direction.len(), false);
    let result = read_direction(&text, places);
    tally.reply("read_direction", &result);
    assert_eq!(result, Ok(good_direction.clone()));
    let places = gen::places(rng, good_direction.len(), true);
    let result = read_direction(&text, places);
    tally.reply("read_direction", &result);
    assert_eq!(result, Err(7));
    for code in 8..=10 {
        let text = gen::direction_text_saying(rng, shape, code);
        let short = rng.chance(1, 2);
        let places = gen::places(rng, 2, short);
        let result = read_direction(&text, places);
        tally.reply("read_direction", &result);
        assert_eq!(result, Err(code), "{}", String::from_utf8_lossy(&text));
        assert_eq!(plain::direction_text_verdict(&text, places).0, code);
    }
    let mut text = text;
    gen::mangle_text(rng, &mut text);
    let places = if rng.chance(1, 3) { rng.below(8) } else { 32 };
    let result = read_direction(&text, places);
    tally.reply("read_direction, mangled", &result);
    check_verdict(&text, &result, plain::direction_text_verdict(&text, places));

    // Directions as numbers, with a good book.
    for code in [0, 9, 10] {
        let direction = gen::direction_saying(rng, shape, code);
        let result = check_direction(&direction);
        tally.reply("check_direction", &result);
        assert_eq!(result.err().unwrap_or(0), code);
        if code != 0 {
            let result = decode(&list, &direction, -2, 0, 0, 0);
            tally.reply("decode, bad direction", &result);
            assert_eq!(result, Err(code));
            let result = score(&list, &direction, &[(0, 0, 0)]);
            tally.reply("score, bad direction", &result);
            assert_eq!(result, Err(code));
        }
    }

    // The rendering program, from texts good and bad.
    let book_code = if rng.chance(3, 4) {
        0
    } else {
        rng.pick(&[1, 2, 3, 4, 6, 20])
    };
    let direction_code = if rng.chance(3, 4) {
        0
    } else {
        rng.pick(&[8, 9, 10])
    };
    let mut book_text = gen::text_saying(rng, shape, book_code);
    let mut direction_text = gen::direction_text_saying(rng, shape, direction_code);
    if rng.chance(1, 20) {
        while book_text.len() <= 8192 {
            book_text.extend_from_slice(b"T,1,1,1,0\n");
        }
    }
    if rng.chance(1, 20) {
        while direction_text.len() <= 512 {
            direction_text.push(b'1');
        }
    }
    let printed = render(&book_text, &direction_text);
    let expected = if book_text.len() > 8192 || direction_text.len() > 512 {
        Err(7)
    } else if book_code != 0 {
        Err(book_code)
    } else if direction_code != 0 {
        Err(direction_code)
    } else {
        let list = read_book(&book_text, book_text.len()).unwrap();
        let words = read_direction(&direction_text, 32).unwrap();
        let result = decode(&list, &words, -1, 32, 256, 4096);
        check_plainly(&list, &words, -1, 4096, &result);
        result
    };
    tally.reply("render", &expected);
    assert_eq!(printed, reply(&expected));
}

/// A whole call of decode with anything wrong or nothing, the questions asked in order by the
/// plain walks.
fn mixed_round(rng: &mut Rng, shape: &Shape, tally: &mut Tally) {
    let case = gen::decode_case(rng, shape);
    tally.reply("decode, anything", &decoded_plainly(&case));
}

/// What a decode answers, which the plain walks say too.
fn decoded_plainly(case: &DecodeCase) -> Result<Answer, u8> {
    let result = case.answer();
    let n = case.direction.len();
    let refused = match plain::loaded_verdict(&case.book) {
        0 if n == 0 || n > 32 => 9,
        0 if case.direction.contains(&0) => 10,
        0 if case.width < -1 => 11,
        0 if case.steps_len < n || case.words_len < 8 * n => 12,
        code => code,
    };
    if refused != 0 {
        assert_eq!(result, Err(refused), "{case:?}");
    } else {
        let (width, store) = (case.width, case.store_len);
        check_plainly(&case.book, &case.direction, width, store, &result);
    }
    result
}

/// The inputs of rounds.rs, each held to the plain walks.
impl rounds::Calls for Tally {
    fn read_book(&mut self, _: &mut Rng, text: &[u8], places: usize) {
        let result = read_book(text, places);
        check_verdict(text, &result, plain::book_text_verdict(text, places));
        self.reply("read_book", &result);
    }
    fn read_direction(&mut self, _: &mut Rng, text: &[u8], places: usize) {
        let result = read_direction(text, places);
        check_verdict(text, &result, plain::direction_text_verdict(text, places));
        self.reply("read_direction", &result);
    }
    fn check_book(&mut self, _: &mut Rng, book: &[i32]) {
        let result = check_book(book).map(|_| ());
        assert_eq!(result.err().unwrap_or(0), plain::loaded_verdict(book));
        self.reply("check_book", &result);
    }
    fn score(&mut self, _: &mut Rng, book: &[i32], direction: &[u16], steps: &[Step]) {
        let result = score(book, direction, steps);
        cases::score_plainly(book, direction, steps, result);
        self.reply("score", &result);
    }
    fn decode(&mut self, _: &mut Rng, case: &DecodeCase) {
        self.reply("decode, edited", &decoded_plainly(case));
    }
    fn edit(&mut self, _: &mut Rng, case: &EditCase) {
        self.reply(case.call(), &case.answer().0);
    }
    fn import(&mut self, _: &mut Rng, case: &ImportCase) {
        self.reply("import_arpa", &case.answer().0);
    }
    fn round(&mut self, rng: &mut Rng, case: &RoundCase) {
        let before = case.lists(|_| rng.draw());
        let (reply, after) = case.answer(&before);
        self.reply("decode_round", &reply);
        if reply.is_ok() {
            for (k, alone) in case.alone().iter().enumerate() {
                let result = decoded_plainly(alone);
                let code = *result.as_ref().err().unwrap_or(&0);
                assert_eq!(after.answers[9 * k], code as i64, "{case:?}");
                self.reply(rounds::DIRECTION_OF_A_ROUND, &result);
            }
        }
    }
    fn sheet(&mut self, rng: &mut Rng, case: &SheetCase) {
        let (reply, after) = case.answer(&case.lists(|_| rng.draw()));
        self.reply("round_sheet", &reply);
        for code in case.round.inside(reply.is_ok(), &after.lists) {
            let said = if code == 0 { Ok(()) } else { Err(code) };
            self.reply(rounds::LINE_OF_A_SHEET, &said);
        }
    }
    fn same_book(&mut self, _: &mut Rng, text: &[u8], case: &DecodeCase, _: &[Step]) {
        let fresh = read_book(text, case.book.len());
        let said = String::from_utf8_lossy(text);
        assert_eq!(fresh.as_ref(), Ok(&case.book), "{said}");
        self.meet("edited books that are their texts read afresh");
    }
}

/// Longer directions: the number of states against the breadth-first walk; where they are not too
/// many, the answer and that with a width against the plain sets.
fn middle_round(rng: &mut Rng, shape: &Shape, tally: &mut Tally) {
    let list = gen::book_saying(rng, shape, 0);
    let book = check_book(&list).unwrap();
    let direction = gen::direction_from(rng, shape, &book);
    let n = direction.len();
    let store = 8 * 3_000;
    let result = decode(&list, &direction, -1, n, 8 * n, store);
    tally.reply("decode, longer, pruning off", &result);
    let Some(keys) = plain::reachable(&book, &direction, store / 8) else {
        return assert_eq!(result, Err(13));
    };
    let ended = keys.iter().any(|key| key.1.iter().all(|&c| c));
    match &result {
        Ok(answer) => assert_eq!((answer.states, ended), (keys.len(), true)),
        Err(code) => assert_eq!((*code, ended), (14, false)),
    }
    check_plainly(&list, &direction, -1, store, &result);
    let width = gen::width(rng, shape);
    if width >= 0 {
        let result = decode(&list, &direction, width, n, 8 * n, store);
        tally.reply("decode, longer, any width", &result);
        check_plainly(&list, &direction, width, store, &result);
    }
}
