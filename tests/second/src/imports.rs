//! Ticket 6 of 02: an import of an ARPA text into a loaded book in a lent list, and random ones, good and bad.

use crate::gen::{self, Lines, Rng, Shape};
use crate::plain_arpa::{self, Model};
use crate::{check_book, edits, import_arpa, plain, Answer};
use std::collections::HashSet;

/// A whole call: the two texts, the lent list and how many of its numbers are in use.
#[derive(Clone)]
pub struct ImportCase {
    pub arpa: Vec<u8>,
    pub spelling: Vec<u8>,
    pub list: Vec<i32>,
    pub used: usize,
}

impl std::fmt::Debug for ImportCase {
    fn fmt(&self, f: &mut std::fmt::Formatter) -> std::fmt::Result {
        let [arpa, spelling] = [&self.arpa, &self.spelling].map(|text| text.escape_ascii());
        let (used, list) = (self.used, &self.list);
        write!(f, "\"{arpa}\" \"{spelling}\" {used} of {list:?}")
    }
}

impl ImportCase {
    /// What the call replies, and the list afterwards: the same as by the plain way, and as before where it is refused.
    pub fn answer(&self) -> (Result<usize, u8>, Vec<i32>) {
        let mut after = self.list.clone();
        let reply = import_arpa(&self.arpa, &self.spelling, &mut after, self.used);
        let plainly = plain_arpa::import_arpa(&self.arpa, &self.spelling, &self.list, self.used);
        let whole = reply.map(|count| (count, after.clone()));
        assert_eq!(whole, plainly, "{self:?}");
        assert!(reply.is_ok() || after == self.list, "{self:?}");
        (reply, after)
    }

    /// The caller's book.
    fn book(&self) -> &[i32] {
        &self.list[..self.used]
    }

    /// Had the caller's book no T, U or D lines?
    pub fn into_bare_book(&self) -> bool {
        check_book(self.book()).is_ok_and(|book| {
            book.triples.is_empty() && book.words.is_empty() && book.pairs.is_empty()
        })
    }

    /// "scoring them equals scoring the file's own rounded values, less those passed over, by ARPA's back-off rule": every triple of
    /// these words, by the imported book in both its ways, and by the file.
    pub fn hold_triples(&self, imported: &[i32], words: &[u16]) {
        let (model, book) = (self.model(), check_book(imported).expect("a good book"));
        let spelled = |&word: &u16| (word, plain_arpa::spelled(&self.spelling, word));
        let words: Vec<(u16, &[u8])> = words.iter().map(spelled).collect();
        let before = [vec![spelled(&0)], words.clone()].concat();
        for (v, first) in &before {
            for (w, second) in &before {
                for (y, third) in &words {
                    let by_file = model.score(&[first, second, third]);
                    let score = book.triple_score(*v, *w, *y);
                    assert_eq!(score, by_file, "{v} {w} {y} {self:?}");
                    assert_eq!(plain::triple(&book, *v, *w, *y), by_file, "{v} {w} {y}");
                }
            }
        }
    }

    /// The same of an answer to a decode of the imported book: its score is that of its entries and jumps, and its target words' by the
    /// file.
    pub fn hold_answer(&self, imported: &[i32], answer: &Answer) {
        let (model, book) = (self.model(), check_book(imported).expect("a good book"));
        let mut score = 0;
        for (k, step) in answer.steps.iter().enumerate() {
            score += book.phrases[step.2 as usize - 1].g as i64;
            score += book.eta as i64 * plain::jump(&answer.steps, k);
        }
        let row = [&[0, 0], &answer.words[..]].concat();
        for three in row.windows(3) {
            let spelled: Vec<&[u8]> = (three.iter())
                .map(|&word| plain_arpa::spelled(&self.spelling, word))
                .collect();
            score += model.score(&spelled);
        }
        assert_eq!(answer.score, score, "{self:?}");
    }

    fn model(&self) -> Model {
        Model::of(&self.arpa, self.list[3] as i64)
    }
}

// ------------------------------------------------------------------------------ random texts

/// The fields of a line.
type Row = Vec<String>;

/// An ARPA text in the making: the n-grams of each order.
type Orders = Vec<Vec<Row>>;

/// What is wrong with an import.
#[derive(Clone, Copy, Debug, PartialEq)]
pub enum Flaw {
    None,
    /// 23, mostly.
    Text,
    /// 24, mostly: words that the word list has not.
    Words,
    /// 25, where the value is not passed over.
    Range,
    /// 6 or 20, unless that is passed over.
    Twice,
}

/// Books whose target words a short word list can spell, now and then all but the last that there are; without T, U and D lines, if so
/// wanted.
pub fn shape(rng: &mut Rng, of: &Shape, bare: bool) -> Shape {
    let mut shape = of.clone();
    shape.target_base = match rng.below(300) {
        0 => 65_536 - shape.target_words,
        k if k < 40 => 101,
        _ => 1,
    };
    if bare {
        (shape.max_triples, shape.max_pairs, shape.max_words) = (0, 0, 0);
    }
    shape
}

/// How a word is spelled that has a spelling of its own.
fn spelling_of(k: i64) -> String {
    match k % 5 {
        0 => format!("{k}"),
        1 => format!("w{k}"),
        2 => format!("<{k}>"),
        3 => format!("\u{e9}{k}"),
        _ => format!("{k}\r"),
    }
}

/// A word list: a line for each target word and for some words more; now and then equal lines, lines that spell nothing, and lines that
/// symbols have.
fn word_list(rng: &mut Rng, shape: &Shape) -> Vec<String> {
    let first = shape.target_base;
    let last = first + shape.target_words - 1 + rng.pick(&[0, 0, 1, 3]);
    let mut lines = vec![String::new(); first as usize - 1];
    lines.extend((first..=last).map(spelling_of));
    for _ in 0..rng.below(3) {
        let (from, to) = (rng.below(lines.len()), rng.below(lines.len()));
        let odd = ["", " ", "<s>", "</s>", "<unk>", "a b", "w1 ", "\tw1", "\r"];
        lines[to] = match rng.below(2) {
            0 => lines[from].clone(),
            _ => rng.pick(&odd).to_string(),
        };
    }
    lines
}

/// A value that rounds to so many thousandths, or nearly.
fn written(rng: &mut Rng, thousandths: i64) -> String {
    let minus = thousandths < 0 || (thousandths == 0 && rng.chance(1, 4));
    let size = thousandths.abs();
    let decimal = |size: i64| format!("{}.{:03}", size / 1_000, size % 1_000);
    let digits = |rng: &mut Rng, most: usize| -> String {
        (0..rng.below(most))
            .map(|_| rng.pick(b"0123456789") as char)
            .collect()
    };
    let text = match rng.below(12) {
        0 if size > 0 => decimal(size - 1) + "5" + &digits(rng, 4),
        1 if size > 0 => decimal(size - 1) + "4999" + &digits(rng, 30),
        2 => decimal(size) + "5" + &digits(rng, 4),
        3 => decimal(size) + "4" + &digits(rng, 40),
        4 => "0".repeat(1 + rng.below(40)) + &decimal(size),
        5 => format!("{}", size / 1_000),
        6 => format!("{}.{}", size / 1_000, size / 100 % 10),
        7 => decimal(size) + &"0".repeat(rng.below(40)),
        _ => decimal(size),
    };
    format!("{}{text}", if minus { "-" } else { "" })
}

/// A value that is out of a score's range, or just not.
fn far(rng: &mut Rng) -> String {
    let minus = rng.pick(&["", "-"]);
    let sizes = [
        "1000.0005",
        "1000.001",
        "1001",
        "1000.0004",
        "4294967.297",
        "18446744073709551.616",
    ];
    match rng.below(3) {
        0 => format!("{minus}{}", rng.below(1 << 20)),
        1 => format!("{minus}1{}", "0".repeat(rng.below(40))),
        _ => format!("{minus}{}", rng.pick(&sizes)),
    }
}

/// What is no value.
fn no_value(rng: &mut Rng) -> String {
    let odd = [
        "5.", "-.5", ".5", "+1", "1e-5", "--1", "-", ".", "1.2.3", "1,5", "inf", "-99a", "0x1",
        "1.-5", "1-", "\r", "-1.5\r", "\u{ff11}", "1.5-", "<unk>",
    ];
    rng.pick(&odd).to_string()
}

/// The words of an n-gram: words of the list for the most part, and symbols in any place.
fn words(rng: &mut Rng, n: usize, shape: &Shape, list: &[String]) -> Row {
    let mut row: Row = Vec::new();
    for k in 0..n {
        let word = list[shape.target(rng).min(list.len() as i64) as usize - 1].clone();
        let spells = !word.is_empty() && !word.contains([' ', '\t']);
        let any = rng.below(14);
        row.push(match any {
            0 => "<unk>".into(),
            1 => "</s>".into(),
            2 => "<s>".into(),
            3..=5 if k == 0 && n > 1 => "<s>".into(),
            _ if spells => word,
            _ => "<s>".into(),
        });
    }
    row
}

/// Is it passed over, or does it set u?
fn without_line(words: &[String]) -> bool {
    let holds = |symbol: &str| words.iter().any(|word| word == symbol);
    holds("</s>") || holds("<unk>") || (words.len() > 1 && words[words.len() - 1] == "<s>")
}

/// The n-grams of a good text, each n-gram once, save those that are passed over.
fn orders(rng: &mut Rng, shape: &Shape, list: &[String]) -> Orders {
    let top = rng.pick(&[1, 2, 3, 3, 3]);
    let most = [0, 9, 14, 20];
    let mut orders = Vec::new();
    for n in 1..=top {
        let (mut seen, mut rows) = (HashSet::new(), Vec::new());
        for _ in 0..rng.below(most[n]) {
            let words = words(rng, n, shape, list);
            let again = !seen.insert(words.clone());
            if again && (!without_line(&words) || n == 1) {
                continue;
            }
            rows.push(row(rng, shape, words, n < top));
        }
        orders.push(rows);
    }
    orders
}

/// An n-gram's line.
fn row(rng: &mut Rng, shape: &Shape, words: Row, weighted: bool) -> Row {
    let (score, weight) = (shape.score(rng), shape.weight(rng));
    let passed_over = without_line(&words);
    let mut row = vec![written(rng, score)];
    row.extend(words);
    if weighted && rng.chance(3, 4) {
        row.push(written(rng, weight));
    }
    if passed_over && rng.chance(1, 4) && row[1] != "<unk>" {
        row[0] = far(rng);
    }
    row
}

/// All lines of the text, from `\data\` to `\end\`.
fn rows(orders: &Orders) -> Vec<Row> {
    let mut rows = vec![vec!["\\data\\".to_string()]];
    for (k, grams) in orders.iter().enumerate() {
        rows.push(vec!["ngram".into(), format!("{}={}", k + 1, grams.len())]);
    }
    for (k, grams) in orders.iter().enumerate() {
        rows.push(vec![format!("\\{}-grams:", k + 1)]);
        rows.extend(grams.iter().cloned());
    }
    rows.push(vec!["\\end\\".into()]);
    rows
}

/// Marks and counts that are put in where they do not belong, and what is neither.
const MARKS: [&str; 8] = [
    "\\data\\",
    "\\1-grams:",
    "\\2-grams:",
    "\\3-grams:",
    "\\4-grams:",
    "\\end\\",
    "\\END\\",
    "0",
];
const COUNTS: [&str; 12] = [
    "4=1", "2=1", "1=0", "3=1", "0=1", "1=", "=1", "01=1", "1=1.", "1=-1", "1=x", "3=0",
];

/// Breaks a line, or the order of the lines, so that 23 is said for the most part.
fn break_rows(rng: &mut Rng, rows: &mut Vec<Row>) {
    let at = rng.below(rows.len());
    match rng.below(11) {
        0 => drop(rows.remove(at)),
        1 => rows.insert(at, rows[at].clone()),
        2 if at > 0 => rows.swap(at - 1, at),
        3 => rows.insert(at, vec![rng.pick(&MARKS).to_string()]),
        4 => rows.insert(at, vec!["ngram".into(), rng.pick(&COUNTS).to_string()]),
        5 => rows[at].push(rng.pick(&["0", "-0.5", "a", ":", "\r"]).to_string()),
        6 => {
            let k = rng.below(rows[at].len());
            rows[at].remove(k);
        }
        7 => change_count(rng, rows),
        8 => {
            let k = rng.below(rows[at].len());
            rows[at][k].push_str(rng.pick(&["\r", "0", "=", "\\", "x", "."]));
        }
        _ => {
            let at = 1 + rng.below(rows.len() - 1);
            let k = rng.pick(&[0, rows[at].len() - 1]);
            rows[at][k] = no_value(rng);
        }
    }
}

/// M larger or smaller by one, much larger, parted from N or without a digit.
fn change_count(rng: &mut Rng, rows: &mut [Row]) {
    let counts = rows
        .iter()
        .take_while(|row| row.len() != 1 || row[0] == "\\data\\")
        .count()
        - 1;
    let row = &mut rows[1 + rng.below(counts.max(1))];
    let Some((n, m)) = row[row.len() - 1].split_once('=') else {
        return;
    };
    let (n, number) = (n.to_string(), m.parse::<i64>().unwrap_or(0));
    let field = match rng.below(7) {
        0 => format!("{n}={}", number + 1),
        1 => format!("{n}={}", number - 1),
        2 => format!("{n}={number}{}", "0".repeat(1 + rng.below(30))),
        3 => format!("{n}="),
        4 => format!("{n}={}", number as i128 + (1 << 64)),
        5 => format!("{n}={}", number + (1 << 32)),
        _ => format!("{n}={}{number}", "0".repeat(rng.below(30))),
    };
    *row = match rng.below(6) {
        0 => [
            vec!["ngram".into()],
            field.split_inclusive('=').map(String::from).collect(),
        ]
        .concat(),
        _ => vec!["ngram".into(), field],
    };
}

/// What stands before and behind the text proper.
const AROUND: [&str; 6] = [
    "",
    "\n",
    "a model\nngram 1=3\n\\end\\\n",
    "\\1-grams:\n0 a\n",
    " \\data\\ x\n",
    "\\data\\\r\n\n",
];

/// The lines as bytes: tidy ones, and ones with blanks and blank lines anywhere.
fn text(rng: &mut Rng, rows: &[Row]) -> Vec<u8> {
    let tidy = rng.chance(1, 2);
    let mut out = rng.pick(&AROUND).to_string();
    for row in rows {
        let blanks = |rng: &mut Rng| match tidy {
            true => "",
            false => rng.pick(&["", "", "", " ", "\t", "  \t"]),
        };
        out += blanks(rng);
        for (k, field) in row.iter().enumerate() {
            if k > 0 {
                out += rng.pick(&[" ", "\t"]);
                out += blanks(rng);
            }
            out += field;
        }
        out += blanks(rng);
        out += "\n";
        if !tidy && rng.chance(1, 6) {
            out += rng.pick(&["\n", " \n", "\t\n\n"]);
        }
    }
    match rng.below(4) {
        0 => drop(out.pop()),
        1 => out += "\n\\data\\\nngram 1=1\n",
        _ => {}
    }
    out.into_bytes()
}

/// The word list as bytes; its last line ends or not.
fn spelling(rng: &mut Rng, lines: &[String]) -> Vec<u8> {
    let mut out = lines.join("\n").into_bytes();
    if rng.chance(3, 4) {
        out.push(b'\n');
    }
    out
}

/// Some n-gram, if there is one, as its order and its place.
fn any_gram(rng: &mut Rng, orders: &Orders) -> Option<(usize, usize)> {
    let all = orders.iter().enumerate();
    let places: Vec<(usize, usize)> = all
        .flat_map(|(n, rows)| (0..rows.len()).map(move |k| (n, k)))
        .collect();
    (!places.is_empty()).then(|| rng.pick(&places))
}

/// A word that the word list has not, a value out of range, or an n-gram listed twice.
fn spoil(rng: &mut Rng, shape: &Shape, flaw: Flaw, orders: &mut Orders) {
    let Some((n, k)) = any_gram(rng, orders) else {
        return;
    };
    let here = &mut orders[n];
    match flaw {
        Flaw::Words => {
            let odd = ["unheard", "<S>", "<s", "</s", "w1\r", "\\data\\", "-1"];
            here[k][1 + rng.below(n + 1)] = rng.pick(&odd).into();
        }
        Flaw::Range => {
            let last = here[k].len() - 1;
            let weighted = last > n + 1 && rng.chance(1, 2);
            here[k][if weighted { last } else { 0 }] = far(rng);
        }
        Flaw::Twice => {
            let words = here[k][1..=n + 1].to_vec();
            let again = row(rng, shape, words, false);
            here.insert(rng.below(here.len() + 1), again);
        }
        Flaw::None | Flaw::Text => {}
    }
}

/// An ARPA text and a word list with that flaw.
pub fn texts(rng: &mut Rng, shape: &Shape, flaw: Flaw) -> (Vec<u8>, Vec<u8>) {
    let mut list = word_list(rng, shape);
    let mut orders = orders(rng, shape, &list);
    let way = rng.below(6);
    match (flaw, way) {
        (Flaw::Words, 0..=2) => list.truncate(rng.below(list.len() + 1)),
        (Flaw::Text, 0) => {
            for _ in 0..rng.between(1, 2) {
                orders[0].push(row(rng, shape, vec!["<unk>".into()], false));
            }
        }
        _ => spoil(rng, shape, flaw, &mut orders),
    }
    let mut rows = rows(&orders);
    if flaw == Flaw::Text && way > 1 {
        break_rows(rng, &mut rows);
    }
    let mut arpa = text(rng, &rows);
    if flaw == Flaw::Text && way == 1 {
        mangle(rng, &mut arpa);
    }
    (arpa, spelling(rng, &list))
}

/// Bytes changed, put in or taken out anywhere, or the text cut.
fn mangle(rng: &mut Rng, text: &mut Vec<u8>) {
    if rng.chance(1, 8) {
        text.truncate(rng.below(text.len() + 1));
        return;
    }
    for _ in 0..=rng.below(2) {
        let byte = match rng.below(8) {
            0 => rng.draw() as u8,
            _ => rng.pick(b"0123456789.-=\\ \t\n\n\r<>:ngramsed/"),
        };
        gen::change_anywhere(rng, text, byte);
    }
}

/// The import of such texts to a book.
pub fn in_list(rng: &mut Rng, book: &[i32], (arpa, spelling): (Vec<u8>, Vec<u8>)) -> ImportCase {
    let mut ample = [book, &vec![0; arpa.len() * 3]].concat();
    let needed = import_arpa(&arpa, &spelling, &mut ample, book.len());
    let needed = needed.map_or(4, |count| count - book.len());
    let (list, used) = edits::book_in_list(rng, book, needed);
    ImportCase {
        arpa,
        spelling,
        list,
        used,
    }
}

/// The lines of a good loaded book.
pub fn lines(book: &[i32]) -> Lines {
    let mut lines: Lines = Vec::new();
    for line in crate::loaded_lines(book).expect("whole lines") {
        let counts = if line[0] == 1 { 2 } else { 0 };
        lines.push(
            line[..line.len() - counts]
                .iter()
                .map(|&x| x as i64)
                .collect(),
        );
    }
    lines
}
