use zkir_runtime::state::Held;
use zkir_spec::Opcode;

use crate::assemble::{b, i, image, r, s, word, EBREAK, ECALL};
use crate::case::Case;
use crate::corners;
use crate::random::Random;

use super::{mode, strew};

const COUNTER: u32 = 15;
const DIVISOR: u32 = 14;

#[rustfmt::skip]
const BODY: [Opcode; 32] = [
    Opcode::Add, Opcode::Sub, Opcode::Mul, Opcode::Mulh, Opcode::Div, Opcode::Divu, Opcode::Rem, Opcode::Remu,
    Opcode::Addi, Opcode::And, Opcode::Or, Opcode::Xor, Opcode::Andi, Opcode::Ori, Opcode::Xori, Opcode::Sll,
    Opcode::Srl, Opcode::Sra, Opcode::Slli, Opcode::Srli, Opcode::Srai, Opcode::Slt, Opcode::Sltu, Opcode::Sge,
    Opcode::Sgeu, Opcode::Seq, Opcode::Sne, Opcode::Cmov, Opcode::Cmovz, Opcode::Cmovnz, Opcode::Add, Opcode::Sub,
];

/// A body of arithmetic, gone through a counted number of times.
pub fn counted(random: &mut Random) -> Case {
    let times = random.below(60) as i32;
    let body = random.between(1, 12) as i32;
    let mut program = vec![i(Opcode::Addi, COUNTER, 0, times + 1)];
    for _ in 0..body {
        let opcode = random.pick(&BODY);
        let rs2 = match opcode {
            Opcode::Div | Opcode::Divu | Opcode::Rem | Opcode::Remu => DIVISOR,
            _ => random.below(14) as u32,
        };
        let registers = [random.below(14) as u32, random.below(14) as u32, rs2];
        program.push(word(opcode, registers, random.between(-65536, 65535) as i32));
    }
    program.push(i(Opcode::Addi, COUNTER, COUNTER, -1));
    program.push(b(random.pick(&[Opcode::Bne, Opcode::Bltu]), 0, COUNTER, -4 * (body + 1)));
    program.push(random.pick(&[EBREAK, ECALL, 0]));
    let mut case = Case::new(mode(random), image(&program, 128), random.pick(&[50, 1000, 1000, 1000]));
    strew(&mut case, random);
    case.set_register(DIVISOR, Held::Whole(corners::value(random) | 1), corners::bound(random));
    case
}

const SIZES: [(Opcode, Opcode, i32); 6] = [
    (Opcode::Lb, Opcode::Sb, 1),
    (Opcode::Lbu, Opcode::Sb, 1),
    (Opcode::Lh, Opcode::Sh, 2),
    (Opcode::Lhu, Opcode::Sh, 2),
    (Opcode::Lw, Opcode::Sw, 4),
    (Opcode::Ld, Opcode::Sd, 8),
];

/// Copies from R1 to R2, often up to memory's end or one too far; sometimes over the code itself.
pub fn copy(random: &mut Random) -> Case {
    let (load, store, size) = random.pick(&SIZES);
    let length = random.pick(&[96, 128, 131, 200]);
    let nearest = if random.chance(8) { 0 } else { 5 };
    let target = 8 * random.between(nearest, 8) as i32;
    let room = (length - target) / size;
    let times = (room as i64 + random.pick(&[-2, -1, 0, 0, 0, 1])).max(1) as i32;
    let step = if random.chance(8) { size + 1 } else { size };
    let program = [
        i(Opcode::Addi, 2, 0, target),
        i(Opcode::Addi, 3, 0, times),
        i(load, 4, 1, 0),
        s(store, 2, 4, 0),
        i(Opcode::Addi, 1, 1, size),
        i(Opcode::Addi, 2, 2, step),
        r(Opcode::Add, 5, 5, 4),
        i(Opcode::Addi, 3, 3, -1),
        b(Opcode::Bne, 3, 0, -24),
        EBREAK,
    ];
    let mut case = Case::new(mode(random), image(&program, length as usize), 2000);
    for at in 40..length as usize {
        case.memory[at] = random.draw() as u8;
    }
    case
}
