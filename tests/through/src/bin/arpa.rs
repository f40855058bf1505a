//! ARPA files, imported by the library and scored there, held to a plain back-off over the files' own rounded values, which knows words only
//! by their spelling: `arpa WORDS REFUSAL FILE...`, WORDS being the word list's file. Where REFUSAL is 0, each file has to be taken, and 200
//! sentences and one for each of its n-grams are compared; where it is not, each file has to be refused with it. It stops at the first
//! difference.

#[allow(dead_code)]
#[path = "../../../../include/phrase.rs"]
mod library;

use second::gen::Rng;
use std::collections::HashMap;

/// The u of the book that a file is imported to; a file's own `<unk>` takes its place.
const CALLERS_U: i64 = -7_654;

/// A file's n-grams, save those passed over, each with its score and its weight, and the score of a word that has no unigram.
struct Model {
    ngrams: HashMap<Vec<String>, (i64, i64)>,
    u: i64,
}

/// A value of the file in thousandths, nearest, halves away from 0, by its digits.
fn thousandths(value: &str) -> i64 {
    let size = value.trim_start_matches('-');
    let (whole, part) = size.split_once('.').unwrap_or((size, ""));
    let part = format!("{part}0000");
    let down: i64 = format!("{whole}{}", &part[..3]).parse().unwrap();
    let near = down + i64::from(part.as_bytes()[3] >= b'5');
    if value.starts_with('-') {
        -near
    } else {
        near
    }
}

/// Ticket 6: "longer n-grams that hold it or end in `<s>`, and n-grams that hold `</s>` are passed over".
fn is_passed_over(words: &[String]) -> bool {
    let holds = |mark: &str| words.iter().any(|word| word == mark);
    let is_longer = words.len() > 1;
    holds("</s>") || is_longer && (holds("<unk>") || words[words.len() - 1] == "<s>")
}

impl Model {
    /// Of a text that is in the ticket's form.
    fn read(text: &str) -> Model {
        let (ngrams, u) = (HashMap::new(), CALLERS_U);
        let mut model = Model { ngrams, u };
        let mut order = 0;
        let lines = text.split('\n').map(|line| line.split([' ', '\t']));
        let lines = lines.map(|line| line.filter(|field| !field.is_empty()).collect());
        let inside = lines.skip_while(|line: &Vec<&str>| line != &["\\data\\"]);
        for line in inside.take_while(|line| line != &["\\end\\"]) {
            match line[..] {
                [] | ["\\data\\"] | ["ngram", _] => {}
                ["\\1-grams:"] => order = 1,
                ["\\2-grams:"] => order = 2,
                ["\\3-grams:"] => order = 3,
                _ => model.list(&line, order),
            }
        }
        model
    }

    /// One line of a section.
    fn list(&mut self, line: &[&str], order: usize) {
        let words: Vec<String> = line[1..=order]
            .iter()
            .map(|word| word.to_string())
            .collect();
        let score = thousandths(line[0]);
        let weight = line.get(order + 1).map_or(0, |value| thousandths(value));
        if words == ["<unk>"] {
            self.u = score;
        } else if !is_passed_over(&words) {
            self.ngrams.insert(words, (score, weight));
        }
    }

    /// ARPA's back-off rule: the score of the last word after those before it, and whether triple (0), pair, word or u (3) supplied it.
    fn judge(&self, words: &[String]) -> (i64, usize) {
        if let Some((score, _)) = self.ngrams.get(words) {
            return (*score, 3 - words.len());
        }
        if words.len() == 1 {
            return (self.u, 3);
        }
        let history = self.ngrams.get(&words[..words.len() - 1]);
        let (score, supplier) = self.judge(&words[1..]);
        (history.map_or(0, |(_, weight)| *weight) + score, supplier)
    }

    /// The score of a sentence after two start marks, and how many words each of the four supplied.
    fn report(&self, sentence: &[String]) -> [i64; 5] {
        let mut report = [0; 5];
        let marked = [&["<s>".to_string(), "<s>".to_string()], sentence].concat();
        for words in marked.windows(3) {
            let (score, supplier) = self.judge(words);
            report[0] += score;
            report[1 + supplier] += 1;
        }
        report
    }
}

/// The n-gram as a sentence, with a word of the word list behind it and, unless it begins a sentence, before it: so it is met, and its weight.
fn around(rng: &mut Rng, spelling: &[String], ngram: &[String]) -> Vec<String> {
    let mut words = ngram.to_vec();
    if words[0] != "<s>" {
        words.insert(0, spelling[rng.below(spelling.len())].clone());
    }
    words.retain(|word| word != "<s>");
    words.push(spelling[rng.below(spelling.len())].clone());
    words
}

/// A sentence of 1 to 12 words of the word list: n-grams of the file, and words drawn by themselves.
fn mixture(rng: &mut Rng, spelling: &[String], ngrams: &[&Vec<String>]) -> Vec<String> {
    let length = 1 + rng.below(12);
    let mut words = vec![];
    while words.len() < length {
        let ngram = rng.pick(ngrams);
        words.extend(around(rng, spelling, ngram));
    }
    words.truncate(length);
    words
}

/// What the library's scoring reports of a sentence, with a book in which entry k says word k by word k.
fn library_report(book: &[i32], spelling: &[String], sentence: &[String]) -> [i64; 5] {
    let number = |word| 1 + spelling.iter().position(|other| other == word).unwrap() as u16;
    let direction: Vec<u16> = sentence.iter().map(number).collect();
    let places = (1..).zip(&direction);
    let steps: Vec<u16> = places.flat_map(|(at, entry)| [at, at, *entry]).collect();
    let mut report = [0; 5];
    let reply = library::score(book, &direction, &steps, &mut report);
    assert_eq!(reply, 0, "scoring {sentence:?}");
    report
}

/// 200 sentences, and one for each n-gram; every supplier that the file's order has must have been met.
fn compare(text: &str, spelling: &[String], book: &[i32]) -> String {
    let model = Model::read(text);
    let mut ngrams: Vec<_> = model.ngrams.keys().collect();
    ngrams.sort();
    let mut rng = Rng::new(6);
    let mut sentences: Vec<Vec<String>> = vec![];
    sentences.extend((0..200).map(|_| mixture(&mut rng, spelling, &ngrams)));
    sentences.extend(ngrams.iter().map(|ngram| around(&mut rng, spelling, ngram)));
    let mut met = [0; 5];
    for sentence in &sentences {
        let report = model.report(sentence);
        let given = library_report(book, spelling, sentence);
        assert_eq!(given, report, "{sentence:?}");
        (0..5).for_each(|at| met[at] += report[at]);
    }
    let order = ngrams.iter().map(|words| words.len()).max().unwrap();
    assert!(met[4 - order..].iter().all(|sum| *sum != 0), "{met:?}");
    let ([_, triples, pairs, words, u], sentences) = (met, sentences.len());
    format!("{sentences} sentences equal; {triples} words by triples, {pairs} by pairs, {words} by words, {u} by u")
}

/// A list with places to spare, and how many are in use: a book in which entry k says word k by word k, with nothing else in its score.
fn book(words: usize) -> (Vec<i32>, usize) {
    let phrases = (1..=words).map(|k| format!("P,1,1,{k},{k},0\n"));
    let text = format!("B,0,0,{CALLERS_U}\n{}", phrases.collect::<String>());
    let mut list = vec![-1; 100_000];
    let used = library::read_book(text.as_bytes(), &mut list);
    assert!(used > 0, "the book: {used}");
    (list, used as usize)
}

fn main() {
    let arguments: Vec<String> = std::env::args().collect();
    let spelled = std::fs::read_to_string(&arguments[1]).expect("the word list");
    let spelling: Vec<String> = spelled.lines().map(|word| word.to_string()).collect();
    let refusal: i64 = arguments[2].parse().expect("the refusal");
    for file in &arguments[3..] {
        let text = std::fs::read_to_string(file).expect("an ARPA file");
        let (mut list, used) = book(spelling.len());
        let before = list.clone();
        let reply = library::import_arpa(text.as_bytes(), spelled.as_bytes(), &mut list, used);
        if refusal == 0 {
            assert!(reply >= used as i64, "{file}: {reply}");
            let said = compare(&text, &spelling, &list[..reply as usize]);
            println!("{file}: taken, {} numbers; {said}", reply as usize - used);
        } else {
            assert_eq!(reply, -refusal, "{file}");
            assert!(list == before, "{file}: the list was changed");
            println!("{file}: refused, {refusal}");
        }
    }
}
