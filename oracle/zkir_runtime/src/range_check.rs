use zkir_spec::{Value40, ValueBound};

/// "pending checks stand first as three lists of numbers": values, bounds and pcs, with a count of those in use.
pub struct RangeCheckTracker<'a> {
    pub values: &'a mut [u64],
    pub bounds: &'a mut [u64],
    pub pcs: &'a mut [u64],
    pub count: usize,
    found_full: bool,
}

impl<'a> RangeCheckTracker<'a> {
    #[inline]
    pub fn lent(values: &'a mut [u64], bounds: &'a mut [u64], pcs: &'a mut [u64], count: usize) -> Self {
        Self { values, bounds, pcs, count, found_full: false }
    }

    /// "a lent list, empty meaning none is lent".
    #[inline]
    pub fn none() -> Self {
        Self::lent(&mut [], &mut [], &mut [], 0)
    }

    #[inline]
    pub fn is_lent(&self) -> bool {
        !self.values.is_empty()
    }

    /// "Lists of unequal length, or a count beyond them, are malformed."
    #[inline]
    pub fn is_well_formed(&self) -> bool {
        let room = self.values.len();
        self.bounds.len() == room && self.pcs.len() == room && self.count <= room
    }

    /// "A check is needed above 40 bits."
    #[inline]
    pub fn needs_check(&self, bound: &ValueBound) -> bool {
        bound.max_bits > 40
    }

    /// "append, where a check is needed, the result's value, bound and pc". A full list takes nothing and remembers
    /// that it was asked (refusal 8), since the published text looks at no answer here.
    #[inline]
    pub fn defer(&mut self, value: Value40, bound: ValueBound, pc: u64) {
        if self.count == self.values.len() {
            self.found_full = true;
            return;
        }
        self.values[self.count] = value.to_u64();
        self.bounds[self.count] = bound.max_bits as u64;
        self.pcs[self.count] = pc;
        self.count += 1;
    }

    /// Whether a check was turned away since this was last asked.
    #[inline]
    pub fn take_found_full(&mut self) -> bool {
        std::mem::take(&mut self.found_full)
    }

    /// "Emptying the list makes its room usable again."
    #[inline]
    pub fn empty(&mut self) {
        self.count = 0;
    }
}
