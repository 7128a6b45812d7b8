//! Numbers of 40 bits and notes of how many bits a number needs.

pub const CUT: u64 = (1 << 40) - 1;

/// A register's value with its bound.
#[derive(Clone, Copy)]
pub struct Noted {
    pub value: u64,
    pub bound: u8,
}

#[inline]
pub fn noted(value: u64, bound: u8) -> Noted {
    Noted { value, bound }
}

/// "A constant's bound is the bits it needs, 0 for 0."
#[inline]
pub fn constant(value: u64) -> Noted {
    noted(value, (64 - value.leading_zeros()) as u8)
}

/// "Comparison 1."
#[inline]
pub fn truth(holds: bool) -> Noted {
    noted(holds as u64, 1)
}

/// "signed reading is by bit 39".
#[inline]
pub fn signed(value: u64) -> i64 {
    (value << 24) as i64 >> 24
}

#[inline]
pub fn cut(value: u64) -> u64 {
    value & CUT
}

/// "Add: larger plus 1", "capped at 64".
#[inline]
pub fn sum_bound(a: u8, b: u8) -> u8 {
    (a.max(b) + 1).min(64)
}

#[inline]
pub fn add(a: Noted, b: Noted) -> Noted {
    noted(cut(a.value.wrapping_add(b.value)), sum_bound(a.bound, b.bound))
}

/// "Sub, Or, Xor: larger."
#[inline]
pub fn sub(a: Noted, b: Noted) -> Noted {
    noted(cut(a.value.wrapping_sub(b.value)), a.bound.max(b.bound))
}

/// "Mul, Mulh: sum."
#[inline]
pub fn mul(a: Noted, b: Noted) -> Noted {
    noted(cut(a.value.wrapping_mul(b.value)), (a.bound + b.bound).min(64))
}

/// Bits 40 to 79 of the whole product.
#[inline]
pub fn mulh(a: Noted, b: Noted) -> Noted {
    let product = a.value as u128 * b.value as u128;
    noted(cut((product >> 40) as u64), (a.bound + b.bound).min(64))
}

/// "And: smaller."
#[inline]
pub fn and(a: Noted, b: Noted) -> Noted {
    noted(cut(a.value & b.value), a.bound.min(b.bound))
}

#[inline]
pub fn or(a: Noted, b: Noted) -> Noted {
    noted(cut(a.value | b.value), a.bound.max(b.bound))
}

#[inline]
pub fn xor(a: Noted, b: Noted) -> Noted {
    noted(cut(a.value ^ b.value), a.bound.max(b.bound))
}

/// "shifts of 40 or more give 0"; "Left shift: b+k, at most 40." The amount is below 64.
#[inline]
pub fn shift_left(a: Noted, amount: u32) -> Noted {
    let value = if amount < 40 { cut(a.value << amount) } else { 0 };
    noted(value, (a.bound + amount as u8).min(40))
}

/// "Srl: b-k, at least 0." Of 40 bits nothing is left by a shift of 40 or more.
#[inline]
pub fn shift_right(a: Noted, amount: u32) -> Noted {
    noted(cut(a.value) >> amount, a.bound.saturating_sub(amount as u8))
}

/// "Sra: 40 if b is 40 or more, else as Srl."
#[inline]
pub fn shift_right_signed(a: Noted, amount: u32) -> Noted {
    let bound = if a.bound >= 40 { 40 } else { a.bound.saturating_sub(amount as u8) };
    noted(cut((signed(a.value) >> amount) as u64), bound)
}
