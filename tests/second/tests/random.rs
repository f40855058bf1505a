//! Random inputs, good and broken: 4 x 12,500 rounds, each a good input searched, listed and
//! walked, and some forty damaged or bordering ones. The tally is printed with --nocapture.

use second::campaign;
use second::rounds::{EDITS, IMPORTS, INSIDE, TOGETHER};
use second::ways::MIXTURES;

fn rounds(seed: u64) {
    let tally = campaign::run(seed, 12_500);
    println!("seed {seed}\n{tally}");
    assert!(tally.met["good inputs searched and listed"] >= 12_500);
    let refusals = tally.refusals();
    for code in 1..=26 {
        assert!(refusals[&code] > 100, "refusal {code} met too seldom");
    }
    assert!(tally.met["good inputs with several derivations of the top score"] > 1000);
    assert!(tally.met["widths that left states out"] > 1000);
    assert!(tally.met["widths that lost the best derivation"] > 100);
    assert!(tally.met["widths that lost the first of the top score"] > 100);
    assert!(tally.met["widths that emptied the last set"] > 100);
    for name in MIXTURES {
        assert!(tally.met[name] > 100, "{name} met too seldom");
    }
    assert!(tally.met["edited books that are their texts read afresh"] > 5_000);
    for (call, codes) in [&EDITS[..], &IMPORTS, &TOGETHER, &INSIDE].concat() {
        for &code in codes {
            let times = tally.replies[&(call, code)];
            assert!(times > 50, "{call} gave {code} {times} times");
        }
    }
}

#[test]
fn seed_1001() {
    rounds(1001);
}

#[test]
fn seed_1002() {
    rounds(1002);
}

#[test]
fn seed_1003() {
    rounds(1003);
}

#[test]
fn seed_1004() {
    rounds(1004);
}

#[test]
fn generator_is_deterministic() {
    let mut one = second::gen::Rng::new(5);
    let mut two = second::gen::Rng::new(5);
    for _ in 0..50 {
        let s1 = second::gen::Shape::small(&mut one);
        let s2 = second::gen::Shape::small(&mut two);
        let c1 = second::gen::decode_case(&mut one, &s1);
        let c2 = second::gen::decode_case(&mut two, &s2);
        assert_eq!(format!("{c1:?}"), format!("{c2:?}"));
    }
}
