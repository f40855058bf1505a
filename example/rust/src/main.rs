//! Puts the direction of direction.txt into the words of book.txt, by the library's calls. Build and run: example/run-rust

#[allow(dead_code)]
#[path = "../../../include/phrase.rs"]
mod phrase;

/// A book's text as the numbers that the other calls take, or the refusal.
fn read_book(text: &[u8]) -> Result<Vec<i32>, i64> {
    // No text has more numbers than bytes.
    let mut book = vec![0; text.len()];
    let count = phrase::read_book(text, &mut book);
    book.truncate(usize::try_from(count).map_err(|_| -count)?);
    Ok(book)
}

/// A direction's text as words, or the refusal.
fn read_direction(text: &[u8]) -> Result<Vec<u16>, i64> {
    let mut words = vec![0; 32];
    let count = phrase::read_direction(text, &mut words);
    words.truncate(usize::try_from(count).map_err(|_| -count)?);
    Ok(words)
}

struct Answer {
    score: i64,
    steps: Vec<[u16; 3]>,
    words: Vec<u16>,
    states: i64,
    /// How many of the words were supplied by triples, pairs, words and u.
    supplied: [i64; 4],
}

/// The best derivation, pruning off, with a store of so many states, or the refusal.
fn decode(book: &[i32], direction: &[u16], states: usize) -> Result<Answer, i64> {
    let (mut steps, mut words) = ([0; 3 * 32], [0; 8 * 32]);
    let (mut store, mut report) = (vec![0; 8 * states], [0; 8]);
    let refusal = phrase::decode(
        book,
        direction,
        -1,
        &mut steps,
        &mut words,
        &mut store,
        &mut report,
    );
    if refusal != 0 {
        return Err(refusal as i64);
    }
    let [score, step_count, word_count, states, supplied @ ..] = report;
    Ok(Answer {
        score,
        steps: (steps.chunks_exact(3).take(step_count as usize))
            .map(|s| [s[0], s[1], s[2]])
            .collect(),
        words: words[..word_count as usize].to_vec(),
        states,
        supplied,
    })
}

fn main() {
    let result = read_book(&std::fs::read("book.txt").unwrap_or_default()).and_then(|book| {
        let direction = read_direction(&std::fs::read("direction.txt").unwrap_or_default())?;
        decode(&book, &direction, 512)
    });
    match result {
        Err(number) => println!("refused: {number} (docs/REFUSALS.md)"),
        Ok(answer) => {
            println!("score {}, {} states entered", answer.score, answer.states);
            for [first, last, entry] in answer.steps {
                println!("words {first} to {last} by entry {entry}");
            }
            let words: Vec<String> = answer.words.iter().map(u16::to_string).collect();
            println!("in the carer's language: {}", words.join(" "));
            let [triples, pairs, alone, unseen] = answer.supplied;
            println!(
                "of the {} words the book knows {triples} after the two words before them, {pairs} after one, {alone} by themselves and {unseen} not at all",
                words.len()
            );
        }
    }
}
