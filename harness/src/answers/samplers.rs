//! Cases of the two samplers and of the small case.

use super::{bits, Answers, BERNOULLI, SMALL, UNIFORM};
use crate::compare::{bernoulli, small_case, uniform};
use crate::{ffi, model::threshold};

pub fn write(answers: &mut Answers) {
    write_uniform(answers);
    write_bernoulli(answers);
    write_small(answers);
}

/// The specification's cases a to d, then every n at its edges, then random ones.
fn write_uniform(answers: &mut Answers) {
    let most = u128::MAX;
    for (n, i) in [(8, 0x0d << 64 | most >> 64), (1, most), (10, most - 6), (10, most - 5), (3, most - 1), (3, most)] {
        uniform_case(answers, n, i);
    }
    for n in uniform::edges() {
        let bound = uniform::bound(n);
        for i in [bound - 1, bound, u128::from(n) << 64 | u128::from(n - 1)] {
            uniform_case(answers, n, i);
        }
    }
    let mut rng = answers.rng(UNIFORM);
    while !answers.is_full(UNIFORM) {
        let n = uniform::any_n(&mut rng);
        let i = uniform::any_hash(&mut rng, n);
        uniform_case(answers, n, i);
    }
}

/// `i` is the hash as a big-endian number.
fn uniform_case(answers: &mut Answers, n: u64, i: u128) {
    let answer = match oracle::sample_uniform(&i.to_be_bytes(), n) {
        Some(value) => format!("0 {value}"),
        None => ffi::NO_DRAW.to_string(),
    };
    answers.case(UNIFORM, &format!("{i:032x} {n}"), &answer);
}

/// Both ends of q and the powers of two that matter (the specification's cases e to g among them), each with hashes at its threshold and
/// at the ends; then random ones.
fn write_bernoulli(answers: &mut Answers) {
    let mut rng = answers.rng(BERNOULLI);
    let mut qs = vec![0.0, -0.0, 0.3, 0.999, f64::from_bits(1), f64::MIN_POSITIVE];
    for k in [0, 1, 2, 52, 53, 63, 64, 65, 76, 127, 128, 129] {
        let power = bernoulli::power_of_half(k).to_bits();
        qs.extend([power - 1, power, power + 1].map(f64::from_bits));
    }
    qs.retain(|q| *q <= 1.0);
    for q in qs {
        for i in bernoulli::around(&mut rng, q) {
            bernoulli_case(answers, q, i);
        }
    }
    while !answers.is_full(BERNOULLI) {
        let q = bernoulli::any_q(&mut rng);
        let near = bernoulli::around(&mut rng, q);
        let i = near[rng.below(near.len() as u64) as usize];
        bernoulli_case(answers, q, i);
    }
}

fn bernoulli_case(answers: &mut Answers, q: f64, i: u128) {
    let answer = u32::from(oracle::sample_bernoulli(&i.to_be_bytes(), q));
    answers.case(BERNOULLI, &format!("{i:032x} {}", bits(q)), &answer.to_string());
}

/// The specification's case h, the least and the greatest u with every c at an edge, then u from all over with random c.
fn write_small(answers: &mut Answers) {
    small_case(answers, 1, 128.0);
    small_case(answers, 200, 128.0);
    for u in [1, 1024] {
        for c in small_case::listed() {
            small_case(answers, u, c);
        }
    }
    let mut rng = answers.rng(SMALL);
    while !answers.is_full(SMALL) {
        let u = 1 + rng.below(1024);
        small_case(answers, u, small_case::any_c(&mut rng));
    }
}

/// Only a lawful c: the Rust has no refusals.
fn small_case(answers: &mut Answers, u: u64, c: f64) {
    if !(0.0..=65_535.0).contains(&c) {
        return;
    }
    let p = oracle::param_small_case(c, u);
    let x = threshold::of(p.valid_proof_probability).expect("the small case's q is from 0 to 1");
    let answer = format!("0 {} {} {} {} {x:032x}", p.proof_size, p.max_retries, p.search_width, p.dfs_bound);
    answers.case(SMALL, &format!("{u} {}", bits(c)), &answer);
}
