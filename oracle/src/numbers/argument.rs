use crate::corners::{self, BOUNDS, IMMEDIATES, LIMBS, VALUES};
use crate::random::Random;

/// What an argument of a function ranges over: the numbers that document 01 lets it be.
#[derive(Clone, Copy, Debug, PartialEq, Eq)]
pub enum Argument {
    /// 32 bits.
    Word,
    /// 1 to 50.
    OpcodeNumber,
    /// A register's number as an instruction may be given it, 16 and more too.
    Number,
    /// An immediate modulo 2^64, one that fits no word too.
    Immediate,
    /// 64 bits.
    Value,
    /// 64 bits, not 0.
    Divisor,
    /// A shift amount, 0 to 63.
    Amount,
    /// 0 to 64.
    Bound,
    /// The size of an access: 1, 2, 4 or 8.
    Size,
    /// 8 bits.
    Byte,
    /// 16 bits.
    Half,
}

impl Argument {
    pub fn admits(self, number: u64) -> bool {
        match self {
            Argument::Word => number <= u32::MAX as u64,
            Argument::OpcodeNumber => (1..=50).contains(&number),
            Argument::Number | Argument::Byte => number <= 0xff,
            Argument::Immediate | Argument::Value => true,
            Argument::Divisor => number != 0,
            Argument::Amount => number <= 63,
            Argument::Bound => number <= 64,
            Argument::Size => [1, 2, 4, 8].contains(&number),
            Argument::Half => number <= 0xffff,
        }
    }

    /// Numbers at which something changes; all of them where they are few.
    pub fn corners(self) -> Vec<u64> {
        let candidates: Vec<u64> = match self {
            Argument::Word => (0..33).flat_map(|bit| [(1 << bit) - 1, !(1 << bit) & 0xffff_ffff, 1 << bit]).collect(),
            Argument::Number => vec![0, 1, 8, 15, 16, 31, 255],
            Argument::Immediate => {
                let near = |limit: i64| (limit - 2..=limit + 2).chain(-limit - 2..=-limit + 2);
                IMMEDIATES
                    .map(i64::from)
                    .into_iter()
                    .chain([64, 1 << 16, 1 << 20].into_iter().flat_map(near))
                    .map(|imm| imm as u64)
                    .collect()
            }
            Argument::Value | Argument::Divisor => VALUES.into_iter().chain(LIMBS).collect(),
            Argument::Bound => BOUNDS.map(u64::from).to_vec(),
            _ => (0..=0xffff).collect(),
        };
        candidates.into_iter().filter(|&number| self.admits(number)).collect()
    }

    pub fn draw(self, random: &mut Random) -> u64 {
        match self {
            Argument::Word => random.draw() >> 32 >> if random.chance(4) { random.below(32) } else { 0 },
            Argument::OpcodeNumber => random.below(50) + 1,
            Argument::Number if random.chance(4) => random.below(256),
            Argument::Number => random.below(16),
            Argument::Immediate if random.chance(2) => random.between(-(1 << 21), 1 << 21) as u64,
            Argument::Immediate => random.between(-70_000, 70_000) as u64,
            Argument::Value => corners::value(random),
            Argument::Divisor => corners::value(random).max(1),
            Argument::Amount => random.below(64),
            Argument::Bound => corners::bound(random) as u64,
            Argument::Size => 1 << random.below(4),
            Argument::Byte => random.below(1 << 8),
            Argument::Half => random.below(1 << 16),
        }
    }
}
