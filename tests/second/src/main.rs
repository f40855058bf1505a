use second::gen::{Rng, Shape};
use second::*;
use std::io::{Read, Write};

const USAGE: &str = "second decode BOOKFILE DIRECTIONFILE WIDTH STATES
second score BOOKFILE DIRECTIONFILE FIRST,LAST,ENTRY ...  the score and the four counts
second list BOOKFILE DIRECTIONFILE          every valid derivation, best first, of equal score the first in order
second load BOOKFILE                        the loaded list
second words BOOKFILE ENTRY                 an entry's target words
second render                               book.txt and standard input
second round                                the same, for the sheet of a round
second drawers                              the twelve marked drawers
second emit SEED COUNT [small|ties|middle]  random calls of decode with their replies
second campaign SEED COUNT                  random trials against the plain walks
second bench SEED                           timing of decode on large books
second time BOOKFILE DIRECTIONFILE WIDTH STATES TIMES";

fn main() {
    let args: Vec<String> = std::env::args().skip(1).collect();
    let args: Vec<&str> = args.iter().map(String::as_str).collect();
    let out = match args[..] {
        ["decode", book, direction, width, states] => reply(&decode_files(
            book,
            direction,
            number(width),
            number(states),
        )),
        ["score", book, direction, ref steps @ ..] => {
            let steps: Vec<Step> = steps.iter().map(|s| step(s)).collect();
            let result = read_both(book, direction)
                .and_then(|(book, direction)| score(&book, &direction, &steps));
            scoring_reply(result)
        }
        ["list", book, direction] => {
            let result = read_both(book, direction)
                .and_then(|(book, direction)| all_derivations(&book, &direction));
            plain_reply(result.map(|mut all| {
                all.sort_by_key(|x| -x.1);
                let rows: Vec<String> = all
                    .iter()
                    .map(|(steps, score)| format!("{score} {}", steps_text(steps)))
                    .collect();
                rows.join("\n")
            }))
        }
        ["load", book] => plain_reply(read_book(&read(book), usize::MAX).map(|b| row(&b))),
        ["words", book, entry] => plain_reply(read_book(&read(book), usize::MAX).map(|list| {
            let (start, size) = target_part(&list, number(entry));
            format!("{start},{size}: {}", row(&list[start..start + size]))
        })),
        ["render"] => {
            let (book, direction) = texts(8193, 513);
            render(&book, &direction)
        }
        ["round"] => {
            let (book, input) = texts(8193, 32_769);
            sheet_cases::printed(sheet_cases::program(&book, &input))
        }
        ["drawers"] => drawers().into_bytes(),
        ["emit", seed, count] => emit(number(seed), number(count), "small").into_bytes(),
        ["emit", seed, count, shape] => emit(number(seed), number(count), shape).into_bytes(),
        ["campaign", seed, count] => campaign::run(number(seed), number(count))
            .to_string()
            .into_bytes(),
        ["bench", seed] => bench(number(seed)).into_bytes(),
        ["time", book, direction, width, states, times] => {
            let (width, states, times): (i64, usize, u32) =
                (number(width), number(states), number(times));
            match read_both(book, direction) {
                Err(code) => reply(&Err(code)),
                Ok((book, direction)) => {
                    let start = std::time::Instant::now();
                    let mut result = Err(0);
                    for _ in 0..times {
                        result = decode(&book, &direction, width, 32, 256, 8 * states);
                    }
                    let each = start.elapsed() / times.max(1);
                    let mut out = reply(&result);
                    out.extend(format!("each {each:?}\n").bytes());
                    out
                }
            }
        }
        _ => {
            eprintln!("{USAGE}");
            std::process::exit(2);
        }
    };
    std::io::stdout().write_all(&out).expect("standard output");
}

fn number<T: std::str::FromStr>(text: &str) -> T {
    text.parse().unwrap_or_else(|_| {
        eprintln!("no such number: {text}");
        std::process::exit(2);
    })
}

fn step(text: &str) -> Step {
    let parts: Vec<u16> = text.split(',').map(number).collect();
    match parts[..] {
        [first, last, entry] => (first, last, entry),
        _ => {
            eprintln!("no such step: {text}");
            std::process::exit(2);
        }
    }
}

fn read(path: &str) -> Vec<u8> {
    std::fs::read(path).unwrap_or_else(|error| {
        eprintln!("{path}: {error}");
        std::process::exit(2);
    })
}

fn up_to(from: impl Read, most: u64) -> Vec<u8> {
    let mut bytes = Vec::new();
    let _ = from.take(most).read_to_end(&mut bytes);
    bytes
}

/// So many bytes of book.txt, which is empty where it can't be opened, and of standard input.
fn texts(book: u64, input: u64) -> (Vec<u8>, Vec<u8>) {
    let file = std::fs::File::open("book.txt");
    let book = file.map_or(Vec::new(), |file| up_to(file, book));
    (book, up_to(std::io::stdin(), input))
}

fn read_both(book: &str, direction: &str) -> Result<(Vec<i32>, Vec<u16>), u8> {
    let book = read_book(&read(book), usize::MAX)?;
    let direction = read_direction(&read(direction), usize::MAX)?;
    Ok((book, direction))
}

fn decode_files(book: &str, direction: &str, width: i64, states: usize) -> Result<Answer, u8> {
    let (book, direction) = read_both(book, direction)?;
    decode(&book, &direction, width, 32, 256, states.saturating_mul(8))
}

fn plain_reply(result: Result<String, u8>) -> Vec<u8> {
    match result {
        Ok(text) => text + "\n",
        Err(code) => format!("R,{code}\n"),
    }
    .into_bytes()
}

fn scoring_reply(result: Result<Scoring, u8>) -> Vec<u8> {
    plain_reply(result.map(|s| format!("{},{}", s.score, row(&s.supplied))))
}

fn row<T: ToString>(numbers: &[T]) -> String {
    numbers
        .iter()
        .map(|x| x.to_string())
        .collect::<Vec<_>>()
        .join(",")
}

fn steps_text(steps: &[Step]) -> String {
    steps
        .iter()
        .map(|(f, l, e)| format!("({f},{l},{e})"))
        .collect::<Vec<_>>()
        .join(" ")
}

/// One line for each drawer: its letter and the reply, the reply's lines parted by blanks.
fn drawers() -> String {
    let short = EXAMPLE.replace("P,2,2,11,12,102,101,-70\n", "");
    let with_d = |book: &str, d: u32| book.replace("B,2,", &format!("B,{d},"));
    let mut out = String::new();
    let mut add = |letter: char, book: &str, direction: &[u16], width: i64, states: usize| {
        let result = read_book(book.as_bytes(), usize::MAX)
            .and_then(|book| decode(&book, direction, width, 32, 256, 8 * states));
        let text = String::from_utf8(reply(&result)).unwrap();
        out.push_str(&format!(
            "{letter} {}\n",
            text.trim_end().replace('\n', " ")
        ));
    };
    let direction = [11, 12];
    add('a', EXAMPLE, &direction, -1, 6);
    add('b', EXAMPLE, &direction, -1, 5);
    add('c', &with_d(EXAMPLE, 0), &direction, -1, 512);
    add('d', &with_d(&short, 2), &direction, -1, 512);
    add('e', &with_d(&short, 1), &direction, -1, 512);
    add('f', &with_d(&short, 1), &direction, 0, 512);
    add('g', &with_d(&short, 1), &direction, 5, 512);
    add('h', EXAMPLE, &direction, 0, 512);
    add('i', EXAMPLE, &[11, 13], -1, 512);
    add('j', EXAMPLE, &[], -1, 512);
    add('k', EXAMPLE, &direction, -2, 512);
    let book = read_book(EXAMPLE.as_bytes(), usize::MAX).unwrap();
    let scored = scoring_reply(score(&book, &direction, &[]));
    out.push_str(&format!("l {}", String::from_utf8(scored).unwrap()));
    out
}

/// Each case as a line: book|direction|width|steps|words|store|reply (its lines parted by
/// blanks).
fn emit(seed: u64, count: usize, shape: &str) -> String {
    let mut rng = Rng::new(seed);
    let mut out = String::new();
    for _ in 0..count {
        let shape = match shape {
            "ties" => Shape::small_ties(&mut rng),
            "middle" => Shape::middle(&mut rng),
            _ => Shape::small(&mut rng),
        };
        let case = gen::decode_case(&mut rng, &shape);
        let result = case.answer();
        let text = String::from_utf8(reply(&result)).unwrap();
        out.push_str(&format!(
            "{}|{}|{}|{}|{}|{}|{}\n",
            row(&case.book),
            row(&case.direction),
            case.width,
            case.steps_len,
            case.words_len,
            case.store_len,
            text.trim_end().replace('\n', " ")
        ));
    }
    out
}

fn bench(seed: u64) -> String {
    let mut out = String::new();
    for (n, d, per_word, width) in [
        (8, 3, 3, -1),
        (10, 2, 4, -1),
        (10, 10, 4, -1),
        (16, 1, 4, -1),
        (32, 0, 8, -1),
        (32, 0, 8, 1_500),
        (32, 2, 4, 4_000),
        (32, 4, 4, 4_000),
        (32, 4, 4, 6_000),
    ] {
        let (book, direction) = gen::large_case(&mut Rng::new(seed), n, d, per_word);
        let start = std::time::Instant::now();
        let checked = check_book(&book).unwrap();
        let checking = start.elapsed();
        let start = std::time::Instant::now();
        let result = search(&checked, &direction, width, 5_000_000);
        let searching = start.elapsed();
        let said = match result {
            Ok(a) => format!("score {}, {} states", a.score, a.states),
            Err(code) => format!("R,{code}"),
        };
        out.push_str(&format!(
            "n {n}, d {d}, {per_word} a word, width {width}: {said}; check {checking:?}, search {searching:?}\n"
        ));
    }
    out
}
