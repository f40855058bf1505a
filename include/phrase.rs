//! The library's calls for Rust: each with slices, over the calls of phrase.h, where it is said what each answers and what each list
//! holds afterwards. Use it as a module, `#[path = ".."] mod phrase;`, and link libffi.a (example/rust shows both).

extern "C" {
    fn phrase_read_book(text: *const u8, text_len: usize, book: *mut i32, book_len: usize) -> i64;
    fn phrase_read_direction(
        text: *const u8,
        text_len: usize,
        direction: *mut u16,
        direction_len: usize,
    ) -> i64;
    fn phrase_check_book(book: *const i32, book_len: usize) -> i32;
    fn phrase_target_start(book: *const i32, book_len: usize, entry: usize) -> i64;
    fn phrase_target_count(book: *const i32, book_len: usize, entry: usize) -> i64;
    fn phrase_add_entry(
        book: *mut i32,
        book_len: usize,
        used: usize,
        line: *const i32,
        line_len: usize,
    ) -> i64;
    fn phrase_remove_entry(book: *mut i32, book_len: usize, used: usize, entry: usize) -> i64;
    fn phrase_import_arpa(
        arpa: *const u8,
        arpa_len: usize,
        spelling: *const u8,
        spelling_len: usize,
        book: *mut i32,
        book_len: usize,
        used: usize,
    ) -> i64;
    fn phrase_score(
        book: *const i32,
        book_len: usize,
        direction: *const u16,
        direction_len: usize,
        steps: *const u16,
        steps_len: usize,
        report: *mut i64,
        report_len: usize,
    ) -> i32;
    fn phrase_decode(
        book: *const i32,
        book_len: usize,
        direction: *const u16,
        direction_len: usize,
        width: i64,
        steps: *mut u16,
        steps_len: usize,
        words: *mut u16,
        words_len: usize,
        store: *mut i64,
        store_len: usize,
        report: *mut i64,
        report_len: usize,
    ) -> i32;
    fn phrase_decode_round(
        book: *const i32,
        book_len: usize,
        directions: *const u16,
        directions_len: usize,
        ends: *const usize,
        ends_len: usize,
        width: i64,
        steps: *mut u16,
        steps_len: usize,
        words: *mut u16,
        words_len: usize,
        store: *mut i64,
        store_len: usize,
        answers: *mut i64,
        answers_len: usize,
    ) -> i32;
    fn phrase_round_sheet(
        book: *const i32,
        book_len: usize,
        directions: *const u16,
        directions_len: usize,
        ends: *const usize,
        ends_len: usize,
        width: i64,
        steps: *mut u16,
        steps_len: usize,
        words: *mut u16,
        words_len: usize,
        store: *mut i64,
        store_len: usize,
        answers: *mut i64,
        answers_len: usize,
        sheet: *mut u8,
        sheet_len: usize,
    ) -> i64;
}

/// How many numbers were written, or minus the refusal.
pub fn read_book(text: &[u8], book: &mut [i32]) -> i64 {
    unsafe { phrase_read_book(text.as_ptr(), text.len(), book.as_mut_ptr(), book.len()) }
}

/// How many words were written, or minus the refusal.
pub fn read_direction(text: &[u8], direction: &mut [u16]) -> i64 {
    unsafe {
        phrase_read_direction(
            text.as_ptr(),
            text.len(),
            direction.as_mut_ptr(),
            direction.len(),
        )
    }
}

/// 0, or the refusal.
pub fn check_book(book: &[i32]) -> i32 {
    unsafe { phrase_check_book(book.as_ptr(), book.len()) }
}

/// Where an entry's target words start, and how many they are.
pub fn target_part(book: &[i32], entry: usize) -> (i64, i64) {
    unsafe {
        (
            phrase_target_start(book.as_ptr(), book.len(), entry),
            phrase_target_count(book.as_ptr(), book.len(), entry),
        )
    }
}

/// The numbers then in use, or minus the refusal. `used` says how many of the list's numbers are in use, and the line is a P line as loaded.
pub fn add_entry(book: &mut [i32], used: usize, line: &[i32]) -> i64 {
    unsafe {
        phrase_add_entry(
            book.as_mut_ptr(),
            book.len(),
            used,
            line.as_ptr(),
            line.len(),
        )
    }
}

/// The same of a removal.
pub fn remove_entry(book: &mut [i32], used: usize, entry: usize) -> i64 {
    unsafe { phrase_remove_entry(book.as_mut_ptr(), book.len(), used, entry) }
}

/// The numbers then in use, or minus the refusal: an ARPA text's lines put after the book's last, its words by a word list whose k-th line
/// spells word k.
pub fn import_arpa(arpa: &[u8], spelling: &[u8], book: &mut [i32], used: usize) -> i64 {
    unsafe {
        phrase_import_arpa(
            arpa.as_ptr(),
            arpa.len(),
            spelling.as_ptr(),
            spelling.len(),
            book.as_mut_ptr(),
            book.len(),
            used,
        )
    }
}

/// 0, or the refusal; the report gets five values: the score, and how many target words were supplied by triples, pairs, words and u.
pub fn score(book: &[i32], direction: &[u16], steps: &[u16], report: &mut [i64]) -> i32 {
    unsafe {
        phrase_score(
            book.as_ptr(),
            book.len(),
            direction.as_ptr(),
            direction.len(),
            steps.as_ptr(),
            steps.len(),
            report.as_mut_ptr(),
            report.len(),
        )
    }
}

/// 0, or the refusal. Steps are three numbers each: first, last, entry. The report gets eight values: the score, how many steps, words and states there
/// are, and how many target words were supplied by triples, pairs, words and u.
pub fn decode(
    book: &[i32],
    direction: &[u16],
    width: i64,
    steps: &mut [u16],
    words: &mut [u16],
    store: &mut [i64],
    report: &mut [i64],
) -> i32 {
    unsafe {
        phrase_decode(
            book.as_ptr(),
            book.len(),
            direction.as_ptr(),
            direction.len(),
            width,
            steps.as_mut_ptr(),
            steps.len(),
            words.as_mut_ptr(),
            words.len(),
            store.as_mut_ptr(),
            store.len(),
            report.as_mut_ptr(),
            report.len(),
        )
    }
}

/// 0, or the refusal of the whole round. The directions follow one another in one list, and `ends` says where each ends. Direction k (from 0) has the 96 numbers
/// for steps from 96 × k on, the 256 words from 256 × k on, and of `answers` the nine numbers from 9 × k on: 0 or its refusal, and the eight values of a decode.
#[allow(clippy::too_many_arguments)]
pub fn decode_round(
    book: &[i32],
    directions: &[u16],
    ends: &[usize],
    width: i64,
    steps: &mut [u16],
    words: &mut [u16],
    store: &mut [i64],
    answers: &mut [i64],
) -> i32 {
    unsafe {
        phrase_decode_round(
            book.as_ptr(),
            book.len(),
            directions.as_ptr(),
            directions.len(),
            ends.as_ptr(),
            ends.len(),
            width,
            steps.as_mut_ptr(),
            steps.len(),
            words.as_mut_ptr(),
            words.len(),
            store.as_mut_ptr(),
            store.len(),
            answers.as_mut_ptr(),
            answers.len(),
        )
    }
}

/// The length of the round's sheet, which stands at the front of `sheet`, or minus the refusal. The other lists are as `decode_round` leaves them.
#[allow(clippy::too_many_arguments)]
pub fn round_sheet(
    book: &[i32],
    directions: &[u16],
    ends: &[usize],
    width: i64,
    steps: &mut [u16],
    words: &mut [u16],
    store: &mut [i64],
    answers: &mut [i64],
    sheet: &mut [u8],
) -> i64 {
    unsafe {
        phrase_round_sheet(
            book.as_ptr(),
            book.len(),
            directions.as_ptr(),
            directions.len(),
            ends.as_ptr(),
            ends.len(),
            width,
            steps.as_mut_ptr(),
            steps.len(),
            words.as_mut_ptr(),
            words.len(),
            store.as_mut_ptr(),
            store.len(),
            answers.as_mut_ptr(),
            answers.len(),
            sheet.as_mut_ptr(),
            sheet.len(),
        )
    }
}
