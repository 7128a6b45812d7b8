/// "`Value40` takes the low 40 bits".
#[derive(Clone, Copy, Debug, PartialEq, Eq)]
pub struct Value40(u64);

const MODULUS: u64 = 1 << 40;

impl Value40 {
    #[inline]
    pub fn from_u64(value: u64) -> Self {
        Self(value % MODULUS)
    }

    #[inline]
    pub fn to_u64(self) -> u64 {
        self.0
    }

    /// "add, subtract and multiply are modulo 2^40".
    #[inline]
    pub fn wrapping_add(self, other: Self) -> Self {
        Self::from_u64(self.0 + other.0)
    }

    #[inline]
    pub fn wrapping_sub(self, other: Self) -> Self {
        Self::from_u64(self.0 + MODULUS - other.0)
    }

    #[inline]
    pub fn wrapping_mul(self, other: Self) -> Self {
        Self::from_u64(self.0.wrapping_mul(other.0))
    }

    #[inline]
    pub fn bitwise_and(self, other: Self) -> Self {
        Self(self.0 & other.0)
    }

    #[inline]
    pub fn bitwise_or(self, other: Self) -> Self {
        Self(self.0 | other.0)
    }

    #[inline]
    pub fn bitwise_xor(self, other: Self) -> Self {
        Self(self.0 ^ other.0)
    }

    /// "shifts of 40 or more give 0".
    #[inline]
    pub fn left_shift(self, amount: u32) -> Self {
        if amount >= 40 {
            return Self(0);
        }
        Self::from_u64(self.0 << amount)
    }

    #[inline]
    pub fn right_shift(self, amount: u32) -> Self {
        if amount >= 40 {
            return Self(0);
        }
        Self(self.0 >> amount)
    }

    /// "arithmetic ones 0 or 2^40-1".
    #[inline]
    pub fn arithmetic_right_shift(self, amount: u32, width: u32) -> Self {
        let amount = amount.min(width);
        Self::from_u64((self.signed(width) >> amount) as u64)
    }

    #[inline]
    pub fn signed_lt(self, other: Self, width: u32) -> bool {
        self.signed(width) < other.signed(width)
    }

    #[inline]
    pub fn unsigned_lt(self, other: Self) -> bool {
        self.0 < other.0
    }

    /// "signed reading is by bit 39".
    #[inline]
    fn signed(self, width: u32) -> i64 {
        debug_assert_eq!(width, 40, "only the width of 40 bits is in scope");
        if self.0 >> 39 == 1 {
            self.0 as i64 - MODULUS as i64
        } else {
            self.0 as i64
        }
    }
}
