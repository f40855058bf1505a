//! The same matters as plainly as the papers put them, for checking: nothing here is shared with
//! the search by sets but the record types of the book and of the answer.

use crate::{check_book, check_direction, Answer, Book, Listed, Scoring, Step, Supplied};
use std::collections::{BTreeSet, VecDeque};

/// The D line of a pair, by looking through them.
pub fn pair_line(book: &Book, w: u16, y: u16) -> Option<Listed> {
    let mut lines = book.pairs.iter();
    lines.find(|d| d.w == w && d.y == y).map(|d| d.listed)
}

/// The U line of a word, by looking through them.
pub fn word_line(book: &Book, y: u16) -> Option<Listed> {
    let mut lines = book.words.iter();
    lines.find(|word| word.y == y).map(|word| word.listed)
}

/// Score of a triple, by looking through the T lines, then the D lines, then the U lines.
pub fn triple(book: &Book, v: u16, w: u16, y: u16) -> i64 {
    for t in &book.triples {
        if t.v == v && t.w == w && t.y == y {
            return t.s as i64;
        }
    }
    let mut total = 0;
    if let Some(before) = pair_line(book, v, w) {
        total += before.k as i64;
    }
    if let Some(pair) = pair_line(book, w, y) {
        return total + pair.s as i64;
    }
    if let Some(before) = word_line(book, w) {
        total += before.k as i64;
    }
    match word_line(book, y) {
        Some(word) => total + word.s as i64,
        None => total + book.u as i64,
    }
}

/// Does the step fit?
pub fn step_fits(book: &Book, direction: &[u16], step: Step) -> bool {
    let (first, last, entry) = (step.0 as usize, step.1 as usize, step.2 as usize);
    if entry == 0 || entry > book.phrases.len() {
        return false;
    }
    let source = book.phrases[entry - 1].source();
    if first == 0 || last > direction.len() || first + source.len() != last + 1 {
        return false;
    }
    (0..source.len()).all(|k| direction[first - 1 + k] == source[k])
}

/// Jump of step k (from 0) of a list.
pub fn jump(steps: &[Step], k: usize) -> i64 {
    let r = if k == 0 { 0 } else { steps[k - 1].1 as i64 };
    (r + 1 - steps[k].0 as i64).abs()
}

/// The three conditions of a valid derivation.
pub fn valid(book: &Book, direction: &[u16], steps: &[Step]) -> bool {
    let each_fits = steps.iter().all(|&step| step_fits(book, direction, step));
    let once = (1..=direction.len()).all(|position| {
        steps
            .iter()
            .filter(|s| s.0 as usize <= position && position <= s.1 as usize)
            .count()
            == 1
    });
    let jumps = (0..steps.len()).all(|k| jump(steps, k) <= book.d as i64);
    each_fits && once && jumps
}

/// The target words of a list of steps.
pub fn words_of(book: &Book, steps: &[Step]) -> Vec<u16> {
    let mut words = Vec::new();
    for step in steps {
        for &y in book.phrases[step.2 as usize - 1].target() {
            words.push(y);
        }
    }
    words
}

/// The score of a derivation, by its definition.
pub fn score_of(book: &Book, steps: &[Step]) -> i64 {
    let mut total = 0;
    for step in steps {
        total += book.phrases[step.2 as usize - 1].g as i64;
    }
    for k in 0..steps.len() {
        total += book.eta as i64 * jump(steps, k);
    }
    let mut row = vec![0, 0];
    row.extend(words_of(book, steps));
    for k in 2..row.len() {
        total += triple(book, row[k - 2], row[k - 1], row[k]);
    }
    total
}

/// Ticket 4 of 02: of each step "the sum of triple scores inside one phrase", kept in 32 bits; "at
/// most 24,000,000 in size, it fits".
pub fn phrase_sums(book: &Book, steps: &[Step]) -> Vec<i32> {
    let (mut v, mut w) = (0, 0);
    let mut sums = Vec::new();
    for step in steps {
        let mut sum = 0i32;
        for &y in book.phrases[step.2 as usize - 1].target() {
            let score = i32::try_from(triple(book, v, w, y)).expect("32 bits");
            sum = sum.checked_add(score).expect("32 bits");
            (v, w) = (w, y);
        }
        assert!(sum.abs() <= 24_000_000);
        sums.push(sum);
    }
    sums
}

/// The score of a derivation, with the triple scores summed up phrase by phrase.
pub fn score_by_phrases(book: &Book, steps: &[Step]) -> i64 {
    let mut total = 0;
    for (k, sum) in phrase_sums(book, steps).into_iter().enumerate() {
        let g = book.phrases[steps[k].2 as usize - 1].g as i64;
        total += g + book.eta as i64 * jump(steps, k) + sum as i64;
    }
    total
}

/// Of the target words of a derivation, how many a T line, a D line, a U line and u supplied with
/// their final score: each kind of line in turn takes the words that it lists from those left.
pub fn supplied_of(book: &Book, steps: &[Step]) -> Supplied {
    let row = [vec![0, 0], words_of(book, steps)].concat();
    let mut left: Vec<usize> = (2..row.len()).collect();
    let mut take = |lists: &dyn Fn(usize) -> bool| {
        let before = left.len();
        left.retain(|&k| !lists(k));
        before - left.len()
    };
    let triples = take(&|k| {
        let mut lines = book.triples.iter();
        lines.any(|t| row[k - 2..=k] == [t.v, t.w, t.y])
    });
    let pairs = take(&|k| book.pairs.iter().any(|d| row[k - 1..=k] == [d.w, d.y]));
    let words = take(&|k| book.words.iter().any(|u| row[k] == u.y));
    [triples, pairs, words, left.len()]
}

/// What a scoring of a valid derivation reports.
pub fn scoring_of(book: &Book, steps: &[Step]) -> Scoring {
    Scoring {
        score: score_of(book, steps),
        supplied: supplied_of(book, steps),
    }
}

/// Every step that fits at all.
pub fn every_fitting_step(book: &Book, direction: &[u16]) -> Vec<Step> {
    let mut steps = Vec::new();
    for first in 1..=direction.len() as u16 {
        for last in first..=direction.len() as u16 {
            for entry in 1..=book.phrases.len() as u16 {
                if step_fits(book, direction, (first, last, entry)) {
                    steps.push((first, last, entry));
                }
            }
        }
    }
    steps
}

/// Every valid derivation with its score, for short directions.
#[allow(clippy::type_complexity)]
pub fn all_derivations(book: &[i32], direction: &[u16]) -> Result<Vec<(Vec<Step>, i64)>, u8> {
    let book = check_book(book)?;
    check_direction(direction)?;
    let mut all = Vec::new();
    walk_derivations(&book, direction, &mut |steps, score| {
        all.push((steps.to_vec(), score));
        true
    });
    Ok(all)
}

/// The same, shown one by one; the visitor says whether to go on. False when it was stopped.
pub fn walk_derivations(
    book: &Book,
    direction: &[u16],
    visit: &mut dyn FnMut(&[Step], i64) -> bool,
) -> bool {
    fn go(
        book: &Book,
        fitting: &[Step],
        covered: &mut Vec<bool>,
        steps: &mut Vec<Step>,
        visit: &mut dyn FnMut(&[Step], i64) -> bool,
    ) -> bool {
        if covered.iter().all(|&c| c) {
            return visit(steps, score_of(book, steps));
        }
        let r = steps.last().map_or(0, |s| s.1 as i64);
        for &step in fitting {
            let (first, last) = (step.0 as usize, step.1 as usize);
            if covered[first - 1..last].iter().any(|&c| c) {
                continue;
            }
            if (r + 1 - first as i64).abs() > book.d as i64 {
                continue;
            }
            covered[first - 1..last].fill(true);
            steps.push(step);
            let on = go(book, fitting, covered, steps, visit);
            steps.pop();
            covered[first - 1..last].fill(false);
            if !on {
                return false;
            }
        }
        true
    }
    let fitting = every_fitting_step(book, direction);
    go(
        book,
        &fitting,
        &mut vec![false; direction.len()],
        &mut Vec::new(),
        visit,
    )
}

/// A score, and steps that have it.
pub type Scored = (i64, Vec<Step>);

/// "Among derivations of equal score the first in order wins: compare step by step by first, then
/// last, then entry."
pub fn wins(a: &Scored, b: &Scored) -> bool {
    a.0 > b.0 || (a.0 == b.0 && a.1 < b.1)
}

/// The derivations of an input: the best one, how many share its score, and how many there are.
#[derive(Default)]
pub struct Best {
    pub one: Option<Scored>,
    pub top: usize,
    pub total: usize,
}

impl Best {
    pub fn score(&self) -> Option<i64> {
        self.one.as_ref().map(|one| one.0)
    }
}

/// All derivations walked; None where there are `most` or more, or where the direction is too long to walk them.
pub fn best(book: &Book, direction: &[u16], most: usize) -> Option<Best> {
    if direction.len() > 6 {
        return None;
    }
    let mut best = Best::default();
    let whole = walk_derivations(book, direction, &mut |steps, score| {
        if best.score().is_none_or(|b| score > b) {
            best.top = 0;
        }
        let one = (score, steps.to_vec());
        if best.one.as_ref().is_none_or(|b| wins(&one, b)) {
            best.one = Some(one);
        }
        if best.score() == Some(score) {
            best.top += 1;
        }
        best.total += 1;
        best.total < most
    });
    whole.then_some(best)
}

/// A key in the plain walks: the last two words, each position covered or not, r.
pub type PlainKey = ([u16; 2], Vec<bool>, usize);

fn next_key(book: &Book, key: &PlainKey, step: Step) -> PlainKey {
    let mut row = vec![key.0[0], key.0[1]];
    row.extend_from_slice(book.phrases[step.2 as usize - 1].target());
    let mut covered = key.1.clone();
    covered[step.0 as usize - 1..step.1 as usize].fill(true);
    (
        [row[row.len() - 2], row[row.len() - 1]],
        covered,
        step.1 as usize,
    )
}

fn next_score(book: &Book, key: &PlainKey, score: i64, step: Step) -> i64 {
    let mut row = vec![key.0[0], key.0[1]];
    row.extend_from_slice(book.phrases[step.2 as usize - 1].target());
    let mut total = score + book.phrases[step.2 as usize - 1].g as i64;
    total += book.eta as i64 * (key.2 as i64 + 1 - step.0 as i64).abs();
    for k in 2..row.len() {
        total += triple(book, row[k - 2], row[k - 1], row[k]);
    }
    total
}

fn may_extend(book: &Book, key: &PlainKey, step: Step) -> bool {
    (step.0..=step.1).all(|position| !key.1[position as usize - 1])
        && (key.2 as i64 + 1 - step.0 as i64).abs() <= book.d as i64
}

/// The keys that the transitions can reach, by a breadth-first walk; None past `most`.
pub fn reachable(book: &Book, direction: &[u16], most: usize) -> Option<BTreeSet<PlainKey>> {
    let fitting = every_fitting_step(book, direction);
    let start: PlainKey = ([0, 0], vec![false; direction.len()], 0);
    let mut seen = BTreeSet::from([start.clone()]);
    let mut queue = VecDeque::from([start]);
    while let Some(key) = queue.pop_front() {
        for &step in &fitting {
            if may_extend(book, &key, step) {
                let next = next_key(book, &key, step);
                if seen.insert(next.clone()) {
                    if seen.len() > most {
                        return None;
                    }
                    queue.push_back(next);
                }
            }
        }
    }
    Some(seen)
}

/// The search by sets in its plainest form (each set a list, equality by looking through it, each
/// state with all its steps): the states entered, and what wins in set n, if any. Width -1 is
/// pruning off.
pub fn by_lists(book: &Book, direction: &[u16], width: i64) -> (usize, Option<Scored>) {
    let n = direction.len();
    let fitting = every_fitting_step(book, direction);
    let mut sets: Vec<Vec<(PlainKey, Scored)>> = vec![Vec::new(); n + 1];
    sets[0].push((([0, 0], vec![false; n], 0), (0, Vec::new())));
    for i in 0..n {
        let set = sets[i].clone();
        let Some(best) = set.iter().map(|q| q.1 .0).max() else {
            continue;
        };
        for (key, (score, steps)) in &set {
            if width != -1 && (*score as i128) < best as i128 - width as i128 {
                continue;
            }
            for &step in &fitting {
                if !may_extend(book, key, step) {
                    continue;
                }
                let new_key = next_key(book, key, step);
                let new_score = next_score(book, key, *score, step);
                let new = (new_score, [&steps[..], &[step]].concat());
                let count = new_key.1.iter().filter(|&&c| c).count();
                match sets[count].iter_mut().find(|q| q.0 == new_key) {
                    Some(old) if wins(&new, &old.1) => old.1 = new,
                    Some(_) => {}
                    None => sets[count].push((new_key, new)),
                }
            }
        }
    }
    let states = sets.iter().map(Vec::len).sum();
    let last = sets.swap_remove(n).into_iter().map(|q| q.1);
    (states, last.reduce(|a, b| if wins(&b, &a) { b } else { a }))
}

/// What questions 13 to 15 say, with room for so many states; or the answer.
pub fn answer(book: &Book, direction: &[u16], width: i64, room: usize) -> Result<Answer, u8> {
    let (states, best) = by_lists(book, direction, width);
    if states > room {
        return Err(13);
    }
    let (score, steps) = best.ok_or(if width == -1 { 14 } else { 15 })?;
    Ok(Answer {
        score,
        states,
        supplied: supplied_of(book, &steps),
        words: words_of(book, &steps),
        steps,
    })
}

// ------------------------------------------------------------------------ verdicts on reading

pub type PlainLine = (u8, Vec<i64>);

/// The text by an automaton, byte for byte: its lines, or None where question 1 says no.
fn lines_of_text(text: &[u8], with_letters: bool) -> Option<Vec<PlainLine>> {
    #[derive(Clone, Copy)]
    enum At {
        LineStart,
        Comma,
        NumberStart,
        Minus,
        Zero,
        Digits(usize),
    }
    let mut at = At::LineStart;
    let mut lines: Vec<PlainLine> = Vec::new();
    let (mut sign, mut value) = (1i64, 0i64);
    for &byte in text {
        // A direction's line has no letter: it starts with a number.
        if let (At::LineStart, false) = (at, with_letters) {
            lines.push((b'-', Vec::new()));
            at = At::NumberStart;
        }
        at = match (at, byte) {
            (At::LineStart, b'B' | b'P' | b'T' | b'U' | b'D') => {
                lines.push((byte, Vec::new()));
                At::Comma
            }
            (At::Comma, b',') => {
                (sign, value) = (1, 0);
                At::NumberStart
            }
            (At::NumberStart, b'-') => {
                sign = -1;
                At::Minus
            }
            (At::NumberStart, b'0') => At::Zero,
            (At::NumberStart | At::Minus, b'1'..=b'9') => {
                value = (byte - 48) as i64;
                At::Digits(1)
            }
            (At::Digits(k), b'0'..=b'9') if k < 7 => {
                value = value * 10 + (byte - 48) as i64;
                At::Digits(k + 1)
            }
            (At::Zero | At::Digits(_), b',' | b'\n') => {
                lines.last_mut()?.1.push(sign * value);
                (sign, value) = (1, 0);
                if byte == b',' {
                    At::NumberStart
                } else {
                    At::LineStart
                }
            }
            _ => return None,
        };
    }
    match at {
        At::LineStart if !lines.is_empty() => Some(lines),
        _ => None,
    }
}

/// Has a text's line the fields of its kind?
fn good_fields(line: &PlainLine) -> bool {
    let size = line.1.len() as i64;
    match line.0 {
        b'B' | b'U' => size == 3,
        b'T' | b'D' => size == 4,
        _ => {
            size >= 2
                && line.1[0] >= 1
                && line.1[0] <= 8
                && line.1[1] >= 1
                && line.1[1] <= 8
                && size == line.1[0] + line.1[1] + 3
        }
    }
}

/// Is number k (from 0) of a line in its range? `left` are those that follow it. After u a loaded B
/// record has two counts, "which 4 passes over".
fn good_number(kind: u8, k: usize, left: usize, x: i64) -> bool {
    let (low, high) = match (kind, k, left) {
        (b'B', 0, _) => (0, 32),
        (b'B', 1, _) => (-10_000, 10_000),
        (b'B', 2, _) => (-1_000_000, 1_000_000),
        (b'B', _, _) => return true,
        (b'P', 0 | 1, _) => (1, 8),
        (_, _, 0) => (-1_000_000, 1_000_000),
        (b'U' | b'D', _, 1) => (-1_000_000, 1_000_000),
        (b'T', 0 | 1, _) => (0, 65_535),
        (b'U' | b'D', 0, _) => (0, 65_535),
        _ => (1, 65_535),
    };
    low <= x && x <= high
}

/// The first numbers of the lines of a kind, so many of each; are two of these rows the same?
fn two_share(lines: &[PlainLine], kind: u8, numbers: usize) -> bool {
    let of_kind = lines.iter().filter(|line| line.0 == kind);
    let mut rows: Vec<&[i64]> = of_kind.map(|line| &line.1[..numbers]).collect();
    rows.sort();
    rows.windows(2).any(|two| two[0] == two[1])
}

/// How many lines of a kind there are.
fn many(lines: &[PlainLine], kind: u8) -> i64 {
    lines.iter().filter(|line| line.0 == kind).count() as i64
}

/// Questions 3 to 5, 21, 6 and 20 of lines whose fields are right, of a text or of a loaded list; 0
/// when all say yes.
fn later_verdict(lines: &[PlainLine]) -> u8 {
    let first = lines.first().filter(|line| line.0 == b'B');
    let (Some(first), 1) = (first, many(lines, b'B')) else {
        return 3;
    };
    for (kind, numbers) in lines {
        for (k, &x) in numbers.iter().enumerate() {
            if !good_number(*kind, k, numbers.len() - k - 1, x) {
                return 4;
            }
        }
    }
    let most = [(b'P', 4096), (b'T', 8192), (b'U', 8192), (b'D', 8192)];
    if most.iter().any(|&(kind, most)| many(lines, kind) > most) {
        return 5;
    }
    let counts = [many(lines, b'P'), many(lines, b'T')];
    let stored = &first.1[3..];
    if !stored.is_empty() && *stored != counts {
        return 21;
    }
    if two_share(lines, b'T', 3) {
        return 6;
    }
    if two_share(lines, b'D', 2) || two_share(lines, b'U', 1) {
        return 20;
    }
    0
}

/// Lines as a loaded list, the B record with the counts of these lines behind d, eta and u.
pub fn list_of(lines: &[PlainLine]) -> Vec<i32> {
    let mut list = Vec::new();
    for (letter, numbers) in lines {
        match letter {
            b'B' => {
                list.push(1);
                list.extend_from_slice(&numbers[..3]);
                list.extend([many(lines, b'P'), many(lines, b'T')]);
                continue;
            }
            b'P' => list.push(2),
            b'T' => list.push(3),
            b'U' => list.push(4),
            _ => list.push(5),
        }
        list.extend_from_slice(numbers);
    }
    list.into_iter().map(|x| x as i32).collect()
}

/// What 1 to 6, 20 and 7 say of a book's text: the number, or 0; and the numbers loaded.
pub fn book_text_verdict(text: &[u8], places: usize) -> (u8, Vec<i32>) {
    let refused = |code: u8| (code, Vec::new());
    let Some(lines) = lines_of_text(text, true) else {
        return refused(1);
    };
    if !lines.iter().all(good_fields) {
        return refused(2);
    }
    match (later_verdict(&lines), list_of(&lines)) {
        (0, list) if list.len() > places => refused(7),
        (0, list) => (0, list),
        (code, _) => refused(code),
    }
}

/// The lines of a loaded list, or None where question 2 says no.
fn lines_of_list(list: &[i32]) -> Option<Vec<PlainLine>> {
    let mut lines: Vec<PlainLine> = Vec::new();
    let mut at = 0;
    while at < list.len() {
        let get = |k: usize| list.get(at + k).map(|&x| x as i64);
        let (letter, size) = match list[at] {
            1 => (b'B', 5),
            3 => (b'T', 4),
            4 => (b'U', 3),
            5 => (b'D', 4),
            2 => match (get(1), get(2)) {
                (Some(a @ 1..=8), Some(b @ 1..=8)) => (b'P', (a + b + 3) as usize),
                _ => return None,
            },
            _ => return None,
        };
        let numbers: Option<Vec<i64>> = (1..=size).map(get).collect();
        lines.push((letter, numbers?));
        at += size + 1;
    }
    Some(lines)
}

/// What 2 to 5, 21, 6 and 20 say of a loaded list.
pub fn loaded_verdict(list: &[i32]) -> u8 {
    lines_of_list(list).map_or(2, |lines| later_verdict(&lines))
}

/// What 8, 9, 10, 7 say of a direction's text; and the words filled in.
pub fn direction_text_verdict(text: &[u8], places: usize) -> (u8, Vec<u16>) {
    let refused = |code: u8| (code, Vec::new());
    let Some(lines) = lines_of_text(text, false) else {
        return refused(8);
    };
    if lines.len() != 1 {
        return refused(8);
    }
    let words = &lines[0].1;
    if words.is_empty() || words.len() > 32 {
        return refused(9);
    }
    if words.iter().any(|w| !(1..=65_535).contains(w)) {
        return refused(10);
    }
    if words.len() > places {
        return refused(7);
    }
    (0, words.iter().map(|&w| w as u16).collect())
}

// ------------------------------------------------------------------------ edits, line by line

/// The numbers in use after an edit, and the lent list whole; or the refusal.
pub type Edited = Result<(usize, Vec<i32>), u8>;

/// The lines of a list's first `used` numbers, of which 7 and all questions of a loaded book say yes.
pub fn lines_in_use(list: &[i32], used: usize) -> Result<Vec<PlainLine>, u8> {
    if used > list.len() {
        return Err(7);
    }
    match loaded_verdict(&list[..used]) {
        0 => lines_of_list(&list[..used]).ok_or(2),
        code => Err(code),
    }
}

/// An addition: the book with the line, and what the list holds behind it. 4 and 5 are what the longer
/// book is refused by.
pub fn add_entry(list: &[i32], used: usize, line: &[i32]) -> Edited {
    let mut lines = lines_in_use(list, used)?;
    match lines_of_list(line) {
        Some(added) if added.len() == 1 && added[0].0 == b'P' => lines.extend(added),
        _ => return Err(2),
    }
    in_list(&list_of(&lines), list)
}

/// A longer book, if its questions say yes, in the list that holds a shorter one; the tail is as before.
pub fn in_list(book: &[i32], list: &[i32]) -> Edited {
    match loaded_verdict(book) {
        0 if book.len() > list.len() => Err(7),
        0 => Ok((book.len(), [book, &list[book.len()..]].concat())),
        code => Err(code),
    }
}

/// A removal: the book without the entry's line, 0 in each place that was in use, and the tail.
pub fn remove_entry(list: &[i32], used: usize, entry: usize) -> Edited {
    let mut lines = lines_in_use(list, used)?;
    let mut entries = (0..lines.len()).filter(|&k| lines[k].0 == b'P');
    let found = (1..=entry).zip(&mut entries).find(|pair| pair.0 == entry);
    let Some((_, at)) = found else {
        return Err(22);
    };
    lines.remove(at);
    let book = list_of(&lines);
    let freed = vec![0; used - book.len()];
    Ok((book.len(), [&book, &freed, &list[used..]].concat()))
}

/// What 16 to 19 say of a proposed list, from the definitions; 0 when it is valid.
pub fn proposal_verdict(book: &Book, direction: &[u16], steps: &[Step]) -> u8 {
    for k in 0..steps.len() {
        let step = steps[k];
        if !step_fits(book, direction, step) {
            return 16;
        }
        if steps[..k].iter().any(|s| s.0 <= step.1 && step.0 <= s.1) {
            return 17;
        }
        if jump(steps, k) > book.d as i64 {
            return 18;
        }
    }
    if valid(book, direction, steps) {
        0
    } else {
        19
    }
}
