use zkir_spec::Opcode;

/// The operands that an instruction is written with.
#[derive(Clone, Copy, Debug, PartialEq, Eq)]
pub enum Form {
    /// rd, rs1, rs2
    Registers,
    /// rd, rs1, immediate
    Immediate,
    /// rd, rs1, shift amount
    Shift,
    /// rs1, rs2, immediate
    Store,
    /// rs1, rs2, offset
    Branch,
    /// rd, offset
    Jump,
    Alone,
}

/// Writes both ways between names and opcodes from one list.
macro_rules! names {
    ($($form:ident: $($name:literal $opcode:ident)*;)*) => {
        pub fn named(name: &[u8]) -> Option<(Opcode, Form)> {
            Some(match name {
                $($($name => (Opcode::$opcode, Form::$form),)*)*
                _ => return None,
            })
        }

        pub fn name(opcode: Opcode) -> &'static [u8] {
            match opcode {
                $($(Opcode::$opcode => $name,)*)*
            }
        }
    };
}

#[rustfmt::skip]
names! {
    Registers:
        b"Add" Add  b"Sub" Sub  b"Mul" Mul  b"Mulh" Mulh  b"Div" Div  b"Divu" Divu  b"Rem" Rem  b"Remu" Remu
        b"And" And  b"Or" Or  b"Xor" Xor  b"Sll" Sll  b"Srl" Srl  b"Sra" Sra
        b"Slt" Slt  b"Sltu" Sltu  b"Sge" Sge  b"Sgeu" Sgeu  b"Seq" Seq  b"Sne" Sne
        b"Cmov" Cmov  b"Cmovz" Cmovz  b"Cmovnz" Cmovnz;
    Immediate:
        b"Addi" Addi  b"Andi" Andi  b"Ori" Ori  b"Xori" Xori
        b"Lb" Lb  b"Lbu" Lbu  b"Lh" Lh  b"Lhu" Lhu  b"Lw" Lw  b"Ld" Ld  b"Jalr" Jalr;
    Shift: b"Slli" Slli  b"Srli" Srli  b"Srai" Srai;
    Store: b"Sb" Sb  b"Sh" Sh  b"Sw" Sw  b"Sd" Sd;
    Branch: b"Beq" Beq  b"Bne" Bne  b"Blt" Blt  b"Bge" Bge  b"Bltu" Bltu  b"Bgeu" Bgeu;
    Jump: b"Jal" Jal;
    Alone: b"Ecall" Ecall  b"Ebreak" Ebreak;
}
