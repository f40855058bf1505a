//! The library (through its C interface) beside a Rust decoder with the standard library's hash maps, a plain Rust reader and a plain
//! Rust importer, in one run: both must give the same answers, and a ratio is printed for each. Below 1.0 the library is the faster one.

mod arpa;
#[allow(dead_code)]
#[path = "../../include/phrase.rs"]
mod library;
mod plain_importer;
mod plain_reader;

use second::gen::{self, Rng};
use std::collections::HashSet;
use std::time::{Duration, Instant};

/// No search of this benchmark enters more states.
const MOST_STATES: usize = 4_000_000;

/// The shorter of two timings each, of several turns taken one after the other.
fn side_by_side(
    turns: usize,
    mut ours: impl FnMut(),
    mut theirs: impl FnMut(),
) -> (Duration, Duration) {
    let (mut a, mut b) = (Duration::MAX, Duration::MAX);
    for _ in 0..turns {
        let start = Instant::now();
        ours();
        a = a.min(start.elapsed());
        let start = Instant::now();
        theirs();
        b = b.min(start.elapsed());
    }
    (a, b)
}

fn ratio(a: Duration, b: Duration) -> f64 {
    a.as_secs_f64() / b.as_secs_f64()
}

/// The lists that the library is lent: for 32 words, and a store of so many places.
struct Lent {
    steps: [u16; 3 * 32],
    words: [u16; 8 * 32],
    store: Vec<i64>,
    report: [i64; 8],
}

impl Lent {
    fn new(places: usize) -> Lent {
        Lent {
            steps: [0; 3 * 32],
            words: [0; 8 * 32],
            store: vec![0; 8 * places],
            report: [0; 8],
        }
    }
    fn decode(&mut self, book: &[i32], direction: &[u16], width: i64) -> i32 {
        library::decode(
            book,
            direction,
            width,
            &mut self.steps,
            &mut self.words,
            &mut self.store,
            &mut self.report,
        )
    }
    /// The answer that a decode left in the lists.
    fn answer(&self) -> second::Answer {
        let [score, steps, words, states, supplied @ ..] = self.report;
        let steps = self.steps.chunks(3).take(steps as usize);
        second::Answer {
            score,
            states: states as usize,
            supplied: supplied.map(|count| count as usize),
            steps: steps.map(|s| (s[0], s[1], s[2])).collect(),
            words: self.words[..words as usize].to_vec(),
        }
    }
}

/// A book, a direction and a width, decoded by both; the store has a tenth more places than states are entered.
fn decode(name: &str, book: &[i32], direction: &[u16], width: i64) {
    let n = direction.len();
    let search = |room: usize| second::decode(book, direction, width, n, 8 * n, 8 * room);
    let expected = search(MOST_STATES);
    let answer = match &expected {
        Ok(answer) => answer,
        Err(code) => {
            return println!(
                "{name:40} refused with {code} by both: {}",
                Lent::new(MOST_STATES).decode(book, direction, width) == *code as i32
            )
        }
    };
    let states = answer.states;
    let places = states + states / 10 + 1;
    let mut lent = Lent::new(places);
    let turns = (8_000_000 / states.max(1)).clamp(6, 200);
    let (a, b) = side_by_side(
        turns,
        || assert_eq!(lent.decode(book, direction, width), 0),
        || assert_eq!(search(places), expected),
    );
    assert_eq!(lent.answer(), *answer);
    let each = |t: Duration| t.as_nanos() as f64 / states as f64;
    println!(
        "{name:40} {states:8} {:9.3} {:9.3} {:9.0} {:9.0} {:7.2}",
        a.as_secs_f64() * 1e3,
        b.as_secs_f64() * 1e3,
        each(a),
        each(b),
        ratio(a, b)
    );
}

/// 64 directions of the middle book, 4 to 12 words of its own one in another order, together and one by one, both by the library: the same lists afterwards.
/// The store has a tenth more places than the most that one of them enters or, as a dispenser's has that also decodes with pruning off, 300,000.
fn decoding_rounds() {
    println!("64 directions of the middle book           states  round ms  single ms                           ratio");
    let book = second::read_book(&file("middle.txt"), usize::MAX).unwrap();
    let direction = second::read_direction(&file("middle-direction.txt"), 32).unwrap();
    let mut rng = Rng::new(7);
    let (mut directions, mut ends) = (Vec::new(), Vec::new());
    for k in 0..64 {
        let mut next = direction.clone();
        for i in 1..next.len() {
            next.swap(i, rng.between(0, i as i64) as usize);
        }
        directions.extend(&next[..4 + k % 9]);
        ends.push(directions.len());
    }
    for width in [1_000, 3_000] {
        let mut one = Lent::new(300_000);
        let entered: Vec<usize> = (0..64)
            .map(|k| if k == 0 { 0 } else { ends[k - 1] }..ends[k])
            .map(|part| match one.decode(&book, &directions[part], width) {
                0 => one.report[3] as usize,
                _ => 0,
            })
            .collect();
        let most = entered.iter().max().unwrap();
        for (store, places) in [("its own", most + most / 10 + 1), ("large", 300_000)] {
            let mut round = Round::new(64, places);
            let mut single = Round::new(64, places);
            let (a, b) = side_by_side(
                20,
                || assert_eq!(round.decode(&book, &directions, &ends, width), 0),
                || single.decode_one_by_one(&book, &directions, &ends, width),
            );
            assert!(round == single);
            println!(
                "{:40} {:8} {:9.3} {:9.3} {:27.2}",
                format!("{}, {store} store", said(width)),
                entered.iter().sum::<usize>(),
                a.as_secs_f64() * 1e3,
                b.as_secs_f64() * 1e3,
                ratio(a, b)
            );
        }
    }
}

/// The lists that the library is lent for a round.
#[derive(PartialEq)]
struct Round {
    steps: Vec<u16>,
    words: Vec<u16>,
    store: Vec<i64>,
    answers: Vec<i64>,
}

impl Round {
    fn new(count: usize, places: usize) -> Round {
        Round {
            steps: vec![0; 96 * count],
            words: vec![0; 256 * count],
            store: vec![0; 8 * places],
            answers: vec![0; 9 * count],
        }
    }
    fn decode(&mut self, book: &[i32], directions: &[u16], ends: &[usize], width: i64) -> i32 {
        library::decode_round(
            book,
            directions,
            ends,
            width,
            &mut self.steps,
            &mut self.words,
            &mut self.store,
            &mut self.answers,
        )
    }
    fn decode_one_by_one(&mut self, book: &[i32], directions: &[u16], ends: &[usize], width: i64) {
        let mut from = 0;
        for (k, &end) in ends.iter().enumerate() {
            let (answer, report) = self.answers[9 * k..9 * (k + 1)].split_at_mut(1);
            answer[0] = library::decode(
                book,
                &directions[from..end],
                width,
                &mut self.steps[96 * k..96 * (k + 1)],
                &mut self.words[256 * k..256 * (k + 1)],
                &mut self.store,
                report,
            ) as i64;
            from = end;
        }
    }
}

fn file(name: &str) -> Vec<u8> {
    let path = format!("{}/{name}", env!("CARGO_MANIFEST_DIR"));
    std::fs::read(path).expect("a file of this folder")
}

fn decoding() {
    println!("decoding                                   states   ours ms  theirs ms   ours ns/state  theirs   ratio");
    let mut rng = Rng::new(1);
    let (small, _) = gen::large_case(&mut rng, 6, 2, 12);
    let (small, direction) = (
        small_part(&small, 100),
        [1000, 1001, 1002, 1003, 1004, 1005],
    );
    for width in [-1, 0, 1_000, 5_000] {
        decode(
            &format!("small, 6 words, {}", said(width)),
            &small,
            &direction,
            width,
        );
    }
    let middle = second::read_book(&file("middle.txt"), usize::MAX).unwrap();
    let direction = second::read_direction(&file("middle-direction.txt"), 32).unwrap();
    for width in [-1, 0, 1_000, 3_000, 5_000] {
        decode(
            &format!("middle, 12 words, {}", said(width)),
            &middle,
            &direction,
            width,
        );
    }
    let (full, direction) = gen::large_case(&mut rng, 20, 4, 8);
    for width in [3_000, 5_000, 8_000] {
        decode(
            &format!("full, 20 words, {}", said(width)),
            &full,
            &direction,
            width,
        );
    }
    println!();
    println!("growth, pruning off                        states   ours ms  theirs ms   ours ns/state  theirs   ratio");
    for (n, d, per_word) in [
        (6, 1, 4),
        (7, 2, 6),
        (8, 2, 8),
        (12, 2, 8),
        (11, 3, 8),
        (14, 3, 8),
    ] {
        let (full, direction) = gen::large_case(&mut rng, n, d, per_word);
        decode(
            &format!("full, {n} words, limit {d}"),
            &full,
            &direction,
            -1,
        );
    }
}

/// Every state that is met again has the score that it had: the steps decide each time.
fn decoding_ties() {
    println!("all scores equal, pruning off              states   ours ms  theirs ms   ours ns/state  theirs   ratio");
    let mut rng = Rng::new(3);
    for (n, d, per_word) in [(7, 2, 6), (8, 2, 8), (12, 2, 8)] {
        let (full, direction) = gen::large_case(&mut rng, n, d, per_word);
        let name = format!("full, {n} words, limit {d}");
        decode(&name, &all_equal(full, false), &direction, -1);
    }
    for (n, d) in [(12, 4), (14, 4), (16, 3)] {
        let (full, direction) = gen::large_case(&mut rng, n, d, 8);
        let name = format!("one target word, {n} words, limit {d}");
        decode(&name, &all_equal(full, true), &direction, -1);
    }
}

/// Full books with as many D and U lines as allowed: few triples have a T line, and the others back off.
fn decoding_back_off() {
    println!("8,192 D and 8,192 U lines more             states   ours ms  theirs ms   ours ns/state  theirs   ratio");
    let mut rng = Rng::new(4);
    for (n, d, width) in [
        (7, 2, -1),
        (8, 2, -1),
        (12, 2, -1),
        (11, 3, -1),
        (16, 3, 3_000),
        (16, 3, 4_000),
    ] {
        let (full, direction) = gen::large_case(&mut rng, n, d, 8);
        let book = with_shorter_histories(full, &mut rng);
        let name = format!("full, {n} words, limit {d}, {}", said(width));
        decode(&name, &book, &direction, width);
    }
}

/// A book of `gen::large_case` with D lines for more than half of the pairs of its target words (2,000 to 2,119), and with U lines for
/// most of these words, for the start symbol, and for words that it has not.
fn with_shorter_histories(mut book: Vec<i32>, rng: &mut Rng) -> Vec<i32> {
    let mut pairs = HashSet::new();
    while pairs.len() < 8_192 {
        let word = |rng: &mut Rng| rng.between(2_000, 2_119) as i32;
        let w = if rng.chance(1, 100) { 0 } else { word(rng) };
        let y = word(rng);
        if pairs.insert((w, y)) {
            let (s, k) = (rng.between(-3_000, -100), rng.between(-1_000, 200));
            book.extend([5, w, y, s as i32, k as i32]);
        }
    }
    for y in [0].into_iter().chain(2_010..10_201) {
        let (s, k) = (rng.between(-4_000, -1_000), rng.between(-1_000, 200));
        book.extend([4, y, s as i32, k as i32]);
    }
    book
}

fn said(width: i64) -> String {
    match width {
        -1 => "pruning off".into(),
        _ => format!("width {width}"),
    }
}

/// How many numbers the line of a loaded book has that begins there.
fn size(book: &[i32], at: usize) -> usize {
    match book[at] {
        1 => 6,
        2 => (book[at + 1] + book[at + 2] + 4) as usize,
        4 => 4,
        _ => 5,
    }
}

/// The B record and the first lines of a loaded book, which has P and T lines alone.
fn small_part(book: &[i32], lines: usize) -> Vec<i32> {
    let (mut end, mut counts) = (6, [0; 2]);
    for _ in 1..lines {
        counts[(book[end] - 2) as usize] += 1;
        end += size(book, end);
    }
    let mut part = book[..end].to_vec();
    part[4..6].copy_from_slice(&counts);
    part
}

/// The book with every score and eta 0; and, where wanted, with one word for all target words of its entries.
fn all_equal(mut book: Vec<i32>, one_word: bool) -> Vec<i32> {
    book[2..4].fill(0);
    let mut at = 6;
    while at < book.len() {
        let end = at + size(&book, at);
        if one_word && book[at] == 2 {
            let target = at + 3 + book[at + 1] as usize;
            book[target..end - 1].fill(1);
        }
        book[end - 1] = 0;
        at = end;
    }
    book
}

/// A book's text with so many P lines of 8 + 8 words, and twice as many T lines.
fn text_of(rng: &mut Rng, phrases: usize) -> String {
    let mut text = String::from("B,3,-30,-5000\n");
    let mut word = || rng.between(1, 65_535).to_string();
    for _ in 0..phrases {
        let words: Vec<String> = (0..16).map(|_| word()).collect();
        text += &format!("P,8,8,{},-1234\n", words.join(","));
    }
    for k in 0..2 * phrases {
        text += &format!("T,{},{},{},-4321\n", word(), word(), k + 1);
    }
    text
}

/// The same with as many lines of each kind as allowed; no two lines are the same.
fn text_of_all(rng: &mut Rng) -> String {
    let mut text = text_of(rng, 4_096);
    for k in 1..=8_192 {
        let (s, weight) = (rng.between(-9_999, 0), rng.between(-2_000, 2_000));
        text += &format!("U,{},{s},{weight}\n", 7 * k);
    }
    for k in 1..=8_192 {
        let (s, weight) = (rng.between(-9_999, 0), rng.between(-2_000, 2_000));
        let w = rng.between(0, 65_535);
        text += &format!("D,{w},{k},{s},{weight}\n");
    }
    text
}

/// A text, read by both: a good book's numbers, or the refusal of one with more lines than allowed (5).
fn read(name: &str, text: &str) {
    let mut book = vec![0; text.len()];
    let expected = plain_reader::read(text);
    let reply = expected.as_ref().map_or(-5, |list| list.len() as i64);
    let turns = (20_000_000 / text.len()).clamp(20, 5_000);
    let (a, b) = side_by_side(
        turns,
        || assert_eq!(library::read_book(text.as_bytes(), &mut book), reply),
        || assert_eq!(plain_reader::read(text), expected),
    );
    if let Some(list) = &expected {
        assert_eq!(book[..list.len()], list[..]);
    }
    print_by_byte(name, text.len(), a, b);
}

/// A row for texts of so many bytes.
fn print_by_byte(name: &str, bytes: usize, a: Duration, b: Duration) {
    let each = |t: Duration| t.as_nanos() as f64 / bytes as f64;
    println!(
        "{name:40} {bytes:8} {:9.3} {:9.3} {:9.2} {:9.2} {:7.2}",
        a.as_secs_f64() * 1e3,
        b.as_secs_f64() * 1e3,
        each(a),
        each(b),
        ratio(a, b)
    );
}

/// An edit of a full book beside a check of it, both by the library; what is to be edited is put in the list before each turn.
fn edit(name: &str, before: &[i32], used: usize, edit: impl Fn(&mut [i32]) -> i64, then: usize) {
    let mut list = before.to_vec();
    let (mut a, mut b) = (Duration::MAX, Duration::MAX);
    for _ in 0..300 {
        list.copy_from_slice(before);
        let start = Instant::now();
        assert_eq!(edit(&mut list), then as i64);
        a = a.min(start.elapsed());
        let start = Instant::now();
        assert_eq!(library::check_book(&before[..used]), 0);
        b = b.min(start.elapsed());
    }
    print_pair(name, used, a, b);
}

/// A row for two calls of the library.
fn print_pair(name: &str, size: usize, a: Duration, b: Duration) {
    println!(
        "{name:40} {size:8} {:9.3} {:9.3} {:35.2}",
        a.as_secs_f64() * 1e3,
        b.as_secs_f64() * 1e3,
        ratio(a, b)
    );
}

/// A full book, of as many lines of each kind as allowed, and its entries: all of 20 numbers, and the first lines behind the B record.
fn revising() {
    println!("revising a full book                      numbers   edit ms  check ms                               ratio");
    let full = plain_reader::read(&text_of_all(&mut Rng::new(5))).expect("a good book");
    let n = full.len();
    for entry in [1, 2_048, 4_096] {
        let name = format!("remove entry {entry}");
        let remove = |list: &mut [i32]| library::remove_entry(list, n, entry);
        edit(&name, &full, n, remove, n - 20);
    }
    let mut fewer = full.clone();
    assert_eq!(library::remove_entry(&mut fewer, n, 1), n as i64 - 20);
    let add = |list: &mut [i32]| library::add_entry(list, n - 20, &full[6..26]);
    edit("add entry 4096", &fewer, n - 20, add, n);
}

/// The questions of a good book's text, asked of it as a loaded list: by the library alone.
fn check(text: &str) {
    let book = plain_reader::read(text).expect("a good book");
    let (a, _) = side_by_side(200, || assert_eq!(library::check_book(&book), 0), || ());
    println!(
        "questions 2 to 6, 21 and 20 of that book, loaded: {:.3} ms",
        a.as_secs_f64() * 1e3
    );
}

fn reading() {
    println!("reading                                     bytes   ours ms  theirs ms   ours ns/byte  theirs   ratio");
    let mut rng = Rng::new(2);
    for phrases in [6, 64, 640, 4_096] {
        let text = text_of(&mut rng, phrases);
        read(&format!("{phrases} P and {} T lines", 2 * phrases), &text);
        if phrases == 4_096 {
            check(&text);
        }
    }
    read(
        "6500 P and 13000 T lines, refused",
        &text_of(&mut rng, 6_500),
    );
    let text = text_of_all(&mut rng);
    read("4096 P, 8192 of each of T, U and D", &text);
    check(&text);
}

/// The book that lines are imported to: a B record alone.
const BARE: [i32; 6] = [1, 3, -30, -5_000, 0, 0];

/// An ARPA text and the word list by which it is imported.
struct Model {
    arpa: String,
    spelling: String,
}

impl Model {
    /// A text with so many lines to be of each order, its words all over the first so many of the list.
    fn new(words: &[String], of_first: usize, lines: usize) -> Model {
        Model {
            arpa: arpa::text(&mut Rng::new(7), &words[..of_first], lines),
            spelling: words.join("\n") + "\n",
        }
    }
    fn bytes(&self) -> usize {
        self.arpa.len() + self.spelling.len()
    }
    fn turns(&self) -> usize {
        (100_000_000 / self.bytes()).clamp(20, 5_000)
    }
    fn plain(&self) -> Vec<i32> {
        let book = plain_importer::import(&self.arpa, &self.spelling, &BARE);
        book.expect("a good text")
    }
    /// A list with room for the longer book.
    fn room(&self) -> Vec<i32> {
        vec![0; self.plain().len()]
    }
    /// By the library, which must fill the list.
    fn import(&self, list: &mut [i32]) {
        list[..6].copy_from_slice(&BARE);
        let (arpa, spelling) = (self.arpa.as_bytes(), self.spelling.as_bytes());
        let used = library::import_arpa(arpa, spelling, list, 6);
        assert_eq!(used, list.len() as i64);
    }
}

/// A model, imported by both.
fn import(name: &str, model: &Model) {
    let (expected, mut list) = (model.plain(), model.room());
    let (a, b) = side_by_side(
        model.turns(),
        || model.import(&mut list),
        || assert_eq!(model.plain().len(), expected.len()),
    );
    assert_eq!(list, expected);
    print_by_byte(name, model.bytes(), a, b);
}

/// A model beside one of half the text, half the words or both, by the library. Where the time is linear, half of both takes half of
/// it, and half of one more than that.
fn import_growth(name: &str, whole: &Model, half: &Model) {
    let (mut list, mut shorter) = (whole.room(), half.room());
    let (a, b) = side_by_side(
        whole.turns(),
        || whole.import(&mut list),
        || half.import(&mut shorter),
    );
    assert_eq!((list, shorter), (whole.plain(), half.plain()));
    print_pair(name, whole.bytes(), a, b);
}

fn importing() {
    println!("importing                                   bytes   ours ms  theirs ms   ours ns/byte  theirs   ratio");
    let mut rng = Rng::new(6);
    for (name, count, lines) in [
        ("1 KB, 100 words", 100, 7),
        ("100 KB, 5000 words", 5_000, 780),
        ("1 MB, 60000 words", 60_000, 8_192),
    ] {
        let words = arpa::words(&mut rng, count);
        import(name, &Model::new(&words, count, lines));
    }
    let words = arpa::words_with_one_prefix(60_000);
    let name = "60000 words with one prefix";
    import(name, &Model::new(&words, 60_000, 8_192));
    println!();
    println!("importing, growth                           bytes  whole ms   half ms                               ratio");
    let words = arpa::words(&mut rng, 60_000);
    let whole = Model::new(&words, 30_000, 8_192);
    let half_text = Model::new(&words, 30_000, 4_096);
    let half_words = Model::new(&words[..30_000], 30_000, 8_192);
    let half_both = Model::new(&words[..30_000], 30_000, 4_096);
    import_growth("1 MB beside 500 KB", &whole, &half_text);
    import_growth("60000 words beside 30000", &whole, &half_words);
    import_growth("both beside half of both", &whole, &half_both);
}

fn main() {
    decoding();
    println!();
    decoding_ties();
    println!();
    decoding_back_off();
    println!();
    decoding_rounds();
    println!();
    reading();
    println!();
    revising();
    println!();
    importing();
}
