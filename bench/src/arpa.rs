//! Word lists and ARPA texts to import: by chance, and the same in each run.

use second::gen::Rng;
use std::collections::HashSet;

/// So many different words of 3 to 14 letters.
pub fn words(rng: &mut Rng, count: usize) -> Vec<String> {
    let (mut words, mut seen) = (Vec::new(), HashSet::new());
    while words.len() < count {
        let size = rng.between(3, 14);
        let letter = |_| rng.between(97, 122) as u8 as char;
        let word: String = (0..size).map(letter).collect();
        if seen.insert(word.clone()) {
            words.push(word);
        }
    }
    words
}

/// Words of 24 bytes that differ in the last five alone.
pub fn words_with_one_prefix(count: usize) -> Vec<String> {
    let word = |k| format!("hydrochlorothiazide{k:05}");
    (0..count).map(word).collect()
}

/// A number from -`most` to 0 with 4 to 7 digits after the point.
fn logarithm(rng: &mut Rng, most: i64) -> String {
    let digits = rng.between(4, 7) as usize;
    let one = 10_i64.pow(digits as u32);
    let size = rng.between(0, most * one);
    format!("-{}.{:0digits$}", size / one, size % one)
}

/// The n-grams of one order, so many of which become lines. Three in ten of the longer ones end in `</s>` or `<unk>`, and become none.
fn ngrams<'a>(
    rng: &mut Rng,
    order: usize,
    words: &[&'a str],
    mut lines: usize,
) -> Vec<Vec<&'a str>> {
    if order == 1 {
        let symbols = ["<unk>", "<s>", "</s>"].iter();
        return symbols.chain(words).map(|word| vec![*word]).collect();
    }
    let (mut ngrams, mut seen) = (Vec::new(), HashSet::new());
    while lines > 0 {
        let mut ngram: Vec<&str> = (0..order).map(|_| rng.pick(words)).collect();
        if rng.chance(1, 10) {
            ngram[0] = "<s>";
        }
        let passed_over = rng.chance(3, 10);
        if passed_over {
            ngram[order - 1] = rng.pick(&["</s>", "<unk>"]);
        }
        if seen.insert(ngram.clone()) {
            ngrams.push(ngram);
            lines -= !passed_over as usize;
        }
    }
    ngrams
}

/// A text of order 3, of which so many n-grams of each order become lines, with words from all over those given. One weight in ten is
/// missing, and one in ten not below 0.
pub fn text(rng: &mut Rng, words: &[String], lines: usize) -> String {
    let every = words.iter().step_by(words.len() / lines);
    let words: Vec<&str> = every.take(lines - 1).map(String::as_str).collect();
    let (mut counts, mut sections) = (String::from("\\data\\\n"), String::new());
    for order in 1..=3 {
        let ngrams = ngrams(rng, order, &words, lines);
        counts += &format!("ngram {order}={}\n", ngrams.len());
        sections += &format!("\n\\{order}-grams:\n");
        for ngram in ngrams {
            sections += &format!("{}\t{}", logarithm(rng, 6), ngram.join(" "));
            if order < 3 && rng.chance(9, 10) {
                let weight = logarithm(rng, 1);
                let sign = rng.chance(1, 10) as usize;
                sections += &format!("\t{}", &weight[sign..]);
            }
            sections += "\n";
        }
    }
    counts + &sections + "\n\\end\\\n"
}
