/// "Bounds are notes of 0 to 64 bits, capped at 64."
#[derive(Clone, Copy, Debug, PartialEq, Eq)]
pub struct ValueBound {
    pub max_bits: u32,
}

impl ValueBound {
    #[inline]
    pub fn computed(bits: u32) -> Self {
        Self { max_bits: bits.min(64) }
    }

    /// "A constant's bound is the bits it needs, 0 for 0."
    #[inline]
    pub fn from_constant(value: u64) -> Self {
        Self::computed(64 - value.leading_zeros())
    }

    /// "Loads 8, 16, 32, and 40 for Ld, signed loads too."
    #[inline]
    pub fn from_type_width(bits: u32) -> Self {
        Self::computed(bits)
    }

    /// "Add: larger plus 1."
    #[inline]
    pub fn after_add(a: &Self, b: &Self) -> Self {
        Self::computed(a.max_bits.max(b.max_bits) + 1)
    }

    /// "Sub, Or, Xor: larger."
    #[inline]
    pub fn after_sub(a: &Self, b: &Self) -> Self {
        Self::computed(a.max_bits.max(b.max_bits))
    }

    #[inline]
    pub fn after_or(a: &Self, b: &Self) -> Self {
        Self::after_sub(a, b)
    }

    #[inline]
    pub fn after_xor(a: &Self, b: &Self) -> Self {
        Self::after_sub(a, b)
    }

    /// "Mul, Mulh: sum."
    #[inline]
    pub fn after_mul(a: &Self, b: &Self) -> Self {
        Self::computed(a.max_bits + b.max_bits)
    }

    /// "Division: the dividend's."
    #[inline]
    pub fn after_div(dividend: &Self, _divisor: &Self) -> Self {
        *dividend
    }

    /// "And: smaller."
    #[inline]
    pub fn after_and(a: &Self, b: &Self) -> Self {
        Self::computed(a.max_bits.min(b.max_bits))
    }

    /// "Left shift: b+k, at most 40."
    #[inline]
    pub fn after_shl(b: &Self, amount: u32, at_most: u32) -> Self {
        Self::computed((b.max_bits + amount).min(at_most))
    }

    /// "Srl: b-k, at least 0."
    #[inline]
    pub fn after_srl(b: &Self, amount: u32) -> Self {
        Self::computed(b.max_bits.saturating_sub(amount))
    }

    /// "Sra: 40 if b is 40 or more, else as Srl."
    #[inline]
    pub fn after_sra(b: &Self, amount: u32, width: u32) -> Self {
        if b.max_bits >= width {
            return Self::computed(width);
        }
        Self::after_srl(b, amount)
    }

    /// "Comparison 1."
    #[inline]
    pub fn after_cmp() -> Self {
        Self::computed(1)
    }
}
