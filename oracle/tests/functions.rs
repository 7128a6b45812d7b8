//! Functions of numbers: the oracle agrees with itself, and wrong ones are found and shrunk.

use oracle::numbers::{compare, functions, Answered, Difference, Function};
use oracle::random::Random;

fn named(name: &str) -> &'static Function {
    functions().find(|function| function.name == name).expect("a function of that name")
}

fn found(name: &str, wrong: Answered) -> Difference {
    compare(named(name), wrong, 20_000, &mut Random::seeded(2)).expect_err("a wrong function is found")
}

#[test]
fn each_agrees_with_itself() {
    for function in functions() {
        let compared = compare(function, function.oracle, 200, &mut Random::seeded(1));
        assert!(compared.is_ok_and(|compared| compared > 200), "{}", function.name);
    }
}

#[test]
fn a_field_one_bit_too_wide() {
    let difference = found("extract_rs1", |a| a[0] >> 11 & 0x1f);
    assert_eq!((difference.arguments, difference.oracle, difference.subject), (vec![1 << 15], 0, 16));
}

#[test]
fn an_unsigned_reading() {
    let difference = found("extract_imm_signed", |a| a[0] >> 15);
    assert_eq!((difference.arguments, difference.oracle), (vec![1 << 31], -65536i64 as u64));
}

#[test]
fn a_kind_one_opcode_too_far() {
    assert_eq!(found("is_stype", |a| (37..=41).contains(&(a[0] & 0x7f)) as u64).arguments, [41]);
}

#[test]
fn an_encoder_that_masks_nothing() {
    let difference = found("encode_jtype", |a| (a[0] | a[1] << 7 | a[2] << 11) & 0xffff_ffff);
    assert_eq!(difference.arguments, [1, 16, 0]);
}

#[test]
fn an_encoder_that_takes_65536() {
    let lax: Answered = |a| (named("encode").oracle)(&[a[0], a[1], a[2], a[3], a[4].min(65535)]);
    let difference = found("encode", lax);
    assert_eq!((difference.arguments[4], difference.oracle), (65536, u64::MAX - 9));
}

#[test]
fn a_product_of_64_bits() {
    let difference = found("value_mulh", |a| a[0].wrapping_mul(a[1]) >> 40);
    assert!(difference.arguments.iter().map(|number| number.count_ones()).sum::<u32>() <= 4, "{difference}");
}

/// Mulh in columns of 20 bits: which products of two columns count, and which columns carry.
fn in_columns(a: &[u64], counts: fn(usize, usize) -> bool, carries: fn(usize) -> bool) -> u64 {
    let column = |number: u64, k: usize| number >> (20 * k) & 0xf_ffff;
    let (mut carry, mut answer) = (0, 0);
    for k in 0..4 {
        let products = (0..=k).filter(|&i| counts(i, k - i)).map(|i| column(a[0], i) * column(a[1], k - i));
        let sum = products.sum::<u64>() + carry;
        carry = if carries(k) { sum >> 20 } else { 0 };
        answer = answer >> 20 | (sum & 0xf_ffff) << 20;
    }
    answer
}

#[test]
fn a_product_in_columns() {
    let all: Answered = |a| in_columns(a, |_, _| true, |_| true);
    assert!(compare(named("value_mulh"), all, 20_000, &mut Random::seeded(2)).is_ok());
    found("value_mulh", |a| in_columns(a, |_, _| true, |k| k != 0));
    found("value_mulh", |a| in_columns(a, |_, _| true, |k| k != 1));
    found("value_mulh", |a| in_columns(a, |_, _| true, |k| k != 2));
    found("value_mulh", |a| in_columns(a, |i, j| i < 3 && j < 3, |_| true));
    found("value_mulh", |a| in_columns(a, |i, j| i <= j, |_| true));
}

#[test]
fn a_quotient_by_bit_39() {
    let signed = |number: u64| (number << 24) as i64 >> 24;
    let wrong: Answered = |a| {
        let signed = |number: u64| (number << 24) as i64 >> 24;
        (signed(a[0]).wrapping_div(signed(a[1]).max(1))) as u64
    };
    let difference = found("value_div", wrong);
    assert!(difference.arguments.iter().any(|&number| signed(number) as u64 != number), "{difference}");
}

#[test]
fn a_note_that_is_not_capped() {
    let difference = found("bound_after_add", |a| a[0].max(a[1]) + 1);
    assert_eq!((difference.oracle, difference.subject), (64, 65));
}
