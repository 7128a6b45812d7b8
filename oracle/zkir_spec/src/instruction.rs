use crate::{decode, Opcode, Register};

/// Writes the instructions as `execute.rs` matches them, and their operands once for each shape of a word, with the
/// function of `decode.rs` that reads them.
macro_rules! instructions {
    ($($shape:ident $fields:tt $bound:tt by $read:ident: $($name:ident)*;)*) => {
        /// An instruction as `execute.rs` takes it. Immediates and shift amounts are 64 bits wide, so that what does
        /// not fit a word can be given too.
        #[derive(Clone, Copy, Debug, PartialEq, Eq)]
        pub enum Instruction {
            $($($name $fields,)*)*
            Ecall,
            Ebreak,
        }

        /// The operands of an instruction, by where they lie in its word.
        #[derive(Clone, Copy, Debug, PartialEq, Eq)]
        pub enum Operands {
            $($shape $fields,)*
            Alone,
        }

        impl Instruction {
            /// The instruction of a word with this opcode; none where the word has bits that its shape refuses.
            #[inline(always)]
            pub(crate) fn read(opcode: Opcode, word: u32) -> Option<Self> {
                Some(match opcode {
                    $($(Opcode::$name => match decode::$read(word)? {
                        Operands::$shape $bound => Self::$name $bound,
                        _ => unreachable!("operands are read by their shape"),
                    },)*)*
                    Opcode::Ecall => decode::nothing(word).map(|()| Self::Ecall)?,
                    Opcode::Ebreak => decode::nothing(word).map(|()| Self::Ebreak)?,
                })
            }

            #[inline]
            pub fn opcode(&self) -> Opcode {
                match self {
                    $($(Self::$name { .. } => Opcode::$name,)*)*
                    Self::Ecall => Opcode::Ecall,
                    Self::Ebreak => Opcode::Ebreak,
                }
            }

            #[inline(always)]
            pub fn operands(&self) -> Operands {
                match *self {
                    $($(Self::$name $bound => Operands::$shape $bound,)*)*
                    Self::Ecall | Self::Ebreak => Operands::Alone,
                }
            }

            /// The instruction of these parts; none where the opcode has operands of another shape.
            pub fn from_parts(opcode: Opcode, operands: Operands) -> Option<Self> {
                Some(match (opcode, operands) {
                    $($((Opcode::$name, Operands::$shape $bound) => Self::$name $bound,)*)*
                    (Opcode::Ecall, Operands::Alone) => Self::Ecall,
                    (Opcode::Ebreak, Operands::Alone) => Self::Ebreak,
                    _ => return None,
                })
            }
        }
    };
}

#[rustfmt::skip]
instructions! {
    R { rd: Register, rs1: Register, rs2: Register } { rd, rs1, rs2 } by three_registers:
        Add Sub Mul Mulh Div Divu Rem Remu And Or Xor Sll Srl Sra Slt Sltu Sge Sgeu Seq Sne Cmov Cmovz Cmovnz;
    I { rd: Register, rs1: Register, imm: i64 } { rd, rs1, imm } by immediate:
        Addi Andi Ori Xori Lb Lbu Lh Lhu Lw Ld Jalr;
    Shift { rd: Register, rs1: Register, shamt: u64 } { rd, rs1, shamt } by shift_amount:
        Slli Srli Srai;
    S { rs1: Register, rs2: Register, imm: i64 } { rs1, rs2, imm } by store:
        Sb Sh Sw Sd;
    B { rs1: Register, rs2: Register, offset: i64 } { rs1, rs2, offset } by branch:
        Beq Bne Blt Bge Bltu Bgeu;
    J { rd: Register, offset: i64 } { rd, offset } by jump:
        Jal;
}

impl Instruction {
    /// rd, if the instruction has one.
    #[inline(always)]
    pub fn destination(&self) -> Option<Register> {
        match self.operands() {
            Operands::R { rd, .. } | Operands::I { rd, .. } | Operands::Shift { rd, .. } | Operands::J { rd, .. } => {
                Some(rd)
            }
            Operands::S { .. } | Operands::B { .. } | Operands::Alone => None,
        }
    }

    /// rs1 and rs2, as far as the instruction has them.
    #[inline(always)]
    pub fn sources(&self) -> [Option<Register>; 2] {
        match self.operands() {
            Operands::R { rs1, rs2, .. } | Operands::S { rs1, rs2, .. } | Operands::B { rs1, rs2, .. } => {
                [Some(rs1), Some(rs2)]
            }
            Operands::I { rs1, .. } | Operands::Shift { rs1, .. } => [Some(rs1), None],
            Operands::J { .. } | Operands::Alone => [None, None],
        }
    }
}
