/// Writes the opcodes from one list.
macro_rules! opcodes {
    ($first:ident $($name:ident)*) => {
        /// "Opcodes run from 1 in the order of the match in `execute.rs`".
        #[derive(Clone, Copy, Debug, PartialEq, Eq)]
        #[repr(u8)]
        pub enum Opcode {
            $first = 1,
            $($name,)*
        }

        impl Opcode {
            pub const ALL: [Opcode; 50] = [Self::$first, $(Self::$name,)*];

            /// "opcode 0 or over 50" is none.
            #[inline]
            pub const fn from_u8(number: u8) -> Option<Opcode> {
                Some(match number {
                    1 => Self::$first,
                    $(number if number == Self::$name as u8 => Self::$name,)*
                    _ => return None,
                })
            }
        }
    };
}

#[rustfmt::skip]
opcodes! {
    Add Sub Mul Mulh Div Divu Rem Remu Addi
    And Or Xor Andi Ori Xori
    Sll Srl Sra Slli Srli Srai
    Slt Sltu Sge Sgeu Seq Sne
    Cmov Cmovz Cmovnz
    Lb Lbu Lh Lhu Lw Ld
    Sb Sh Sw Sd
    Beq Bne Blt Bge Bltu Bgeu
    Jal Jalr Ecall Ebreak
}

impl Opcode {
    #[inline]
    pub const fn to_u8(self) -> u8 {
        self as u8
    }

    /// "Kind S is 37-40, B 41-46, J 47 alone".
    #[inline]
    pub fn is_store_raw(opcode: u32) -> bool {
        (37..=40).contains(&opcode)
    }

    #[inline]
    pub fn is_branch_raw(opcode: u32) -> bool {
        (41..=46).contains(&opcode)
    }

    #[inline]
    pub fn is_jump_raw(opcode: u32) -> bool {
        opcode == 47
    }
}
