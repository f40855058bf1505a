//! Ticket 1 of 02: which of two derivations of equal score is the answer.

use second::gen::{self, Rng, Shape};
use second::*;

/// A store for every search here.
const ROOM: usize = 8 * 10_000;

/// A book of phrases alone, in which only g scores.
fn book(d: i32, phrases: &[(&[i32], &[i32], i32)]) -> Vec<i32> {
    let mut list = vec![1, d, 0, 0, phrases.len() as i32, 0];
    for &(source, target, g) in phrases {
        list.extend([2, source.len() as i32, target.len() as i32]);
        list.extend(source.iter().chain(target));
        list.push(g);
    }
    list
}

/// The steps of the answer, which the plain sets give too.
fn steps(list: &[i32], direction: &[u16], width: i64) -> Vec<Step> {
    let result = decode(list, direction, width, 32, 256, ROOM);
    campaign::check_plainly(list, direction, width, ROOM, &result);
    result.expect("an answer").steps
}

/// "compare step by step by first, then last, then entry"
#[test]
fn the_order() {
    let in_order: [&[Step]; 9] = [
        &[],
        &[(1, 1, 2)],
        &[(1, 1, 2), (2, 2, 1)],
        &[(1, 1, 2), (2, 2, 3)],
        &[(1, 1, 3), (2, 2, 1)],
        &[(1, 2, 1)],
        &[(1, 3, 1)],
        &[(2, 2, 1), (1, 1, 1)],
        &[(2, 3, 1)],
    ];
    for (i, a) in in_order.iter().enumerate() {
        for (j, b) in in_order.iter().enumerate() {
            assert_eq!(plain::wins(&(7, a.to_vec()), &(7, b.to_vec())), i < j);
            assert!(plain::wins(&(8, a.to_vec()), &(7, b.to_vec())));
            assert!(!plain::wins(&(6, a.to_vec()), &(7, b.to_vec())));
        }
    }
}

#[test]
fn by_first_then_last_then_entry() {
    // Both orders of the words, and equal entries: first decides, then entry.
    let list = book(32, &[(&[12], &[7], 0), (&[11], &[7], 0), (&[11], &[7], 0)]);
    assert_eq!(steps(&list, &[11, 12], -1), [(1, 1, 2), (2, 2, 1)]);
    // The lowest entry has both words: last decides.
    let list = book(
        2,
        &[(&[11, 12], &[7, 7], 0), (&[11], &[7], 0), (&[12], &[7], 0)],
    );
    assert_eq!(steps(&list, &[11, 12], -1), [(1, 1, 2), (2, 2, 3)]);
    assert_eq!(steps(&list, &[11, 12], 0), [(1, 1, 2), (2, 2, 3)]);
}

/// (1,1) (2,3) is entered from set 1, and (1,1) (2,2) (3,3), which comes first, from set 2; in equal states and in the last set.
#[test]
fn the_order_of_entering_does_not_count() {
    for other in [6, 8] {
        let list = book(
            0,
            &[
                (&[11], &[5], 0),
                (&[12, 13], &[other, 7], 0),
                (&[12], &[6], 0),
                (&[13], &[7], 0),
            ],
        );
        for width in [-1, 0, 5] {
            let first = [(1, 1, 1), (2, 2, 3), (3, 3, 4)];
            assert_eq!(steps(&list, &[11, 12, 13], width), first);
        }
    }
}

/// A higher score wins, whatever the order.
#[test]
fn the_score_decides_before_the_order() {
    let list = book(2, &[(&[11], &[7], 0), (&[12], &[8], 0), (&[11], &[7], 1)]);
    assert_eq!(steps(&list, &[11, 12], -1), [(1, 1, 3), (2, 2, 2)]);
}

/// A random book whose scores are few: pruning off the answer is the first of all derivations of the top score, and with a width it is
/// that of the plain sets, where each state has its whole list of steps. Do several derivations share the top score?
fn trial(rng: &mut Rng, shape: &Shape) -> bool {
    let list = gen::book_saying(rng, shape, 0);
    let book = check_book(&list).expect("a good book");
    let direction = gen::direction_from(rng, shape, &book);
    let Some(best) = plain::best(&book, &direction, 1_000) else {
        return false;
    };
    let decoded = |width: i64| decode(&list, &direction, width, 32, 256, ROOM);
    let off = decoded(-1).ok().map(|a| (a.score, a.steps));
    assert_eq!(off, best.one, "{list:?} {direction:?}");
    for width in [0, 1, 2, 3] {
        campaign::check_plainly(&list, &direction, width, ROOM, &decoded(width));
    }
    best.top > 1
}

#[test]
fn random_ties() {
    let mut rng = Rng::new(77);
    for scores in [&[0][..], &[-1, 0, 1]] {
        let mut shared = 0;
        for _ in 0..6_000 {
            let mut shape = Shape::small_ties(&mut rng);
            shape.ties = scores;
            shared += trial(&mut rng, &shape) as usize;
        }
        println!("scores {scores:?}: {shared} inputs with several derivations of the top score");
        assert!(shared > 1_500, "{scores:?}: {shared}");
    }
}
