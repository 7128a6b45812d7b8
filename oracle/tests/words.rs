//! Words: the laws of kinds, decoder and encoder, and what the encoder refuses.

use oracle::random::Random;
use oracle::words::{agrees, keeps_laws, shrunk, taken_apart, Decoded, OracleWords, Word, WordSubject};
use zkir_spec::encoding::{encode_itype, encode_jtype, encode_rtype, encode_stype};
use zkir_spec::{encode, Instruction, Opcode, Register, Unencodable};

const R1: Register = Register(1);

#[test]
fn a_sample_keeps_the_laws() {
    let mut random = Random::seeded(11);
    for number in 0..128 {
        for rest in [0, 1 << 7, 1 << 19, 63 << 15, 64 << 15, 1 << 31, u32::MAX << 7] {
            assert!(keeps_laws(number | rest));
        }
    }
    for _ in 0..500_000 {
        let word = random.draw() as u32;
        assert!(keeps_laws(word), "{word:08x}");
    }
}

#[test]
fn raw_encoders_mask_their_fields() {
    assert_eq!(encode_rtype(Opcode::Add, 16, 17, 18, 1 << 13), 0x00010801);
    assert_eq!(encode_itype(Opcode::Addi, 16, 0, 1 << 17), 0x00000009);
    assert_eq!(encode_stype(Opcode::Sb, u32::MAX, 0, 0), 0x000007a5);
    assert_eq!(encode_jtype(Opcode::Jal, 0, 1 << 21), 0x0000002f);
}

#[test]
fn the_encoder_refuses_what_does_not_fit() {
    let addi = |rd, imm| encode(&Instruction::Addi { rd, rs1: R1, imm });
    let jal = |offset| encode(&Instruction::Jal { rd: R1, offset });
    let slli = |shamt| encode(&Instruction::Slli { rd: R1, rs1: R1, shamt });
    assert!([addi(R1, 65535), addi(R1, -65536), jal(1048575), jal(-1048576), slli(63)].iter().all(Result::is_ok));
    let refused = [addi(R1, 65536), addi(R1, -65537), addi(Register(16), 0), jal(1048576), jal(-1048577), slli(64)];
    assert!(refused.iter().all(|answer| *answer == Err(Unencodable)));
}

#[test]
fn a_store_has_rs1_at_bits_7_to_10() {
    let Decoded::Instruction { opcode, registers, imm } = taken_apart(0x00041927).decoded else {
        panic!("Sw is valid")
    };
    assert_eq!((opcode, registers, imm), (39, [0, 2, 3], 8));
}

/// Reads a store's rs1 at bits 11-14.
struct Swapped;

impl WordSubject for Swapped {
    fn taken_apart(&self, word: u32) -> Word {
        let mut right = taken_apart(word);
        if let Decoded::Instruction { opcode: 37..=40, registers, .. } = &mut right.decoded {
            registers.swap(1, 2);
        }
        right
    }

    fn gives_back(&self, word: u32) -> bool {
        OracleWords.gives_back(word)
    }
}

#[test]
fn a_wrong_decoder_is_found_and_its_word_shrunk() {
    let mut random = Random::seeded(12);
    assert!((0..1_000).all(|_| agrees(random.draw() as u32, &OracleWords)));
    let word = (0..).map(|_| random.draw() as u32).find(|&word| !agrees(word, &Swapped)).expect("a store comes");
    let difference = shrunk(word, &Swapped);
    assert!(difference.word.count_ones() <= 4 && difference.word & 0x7f >= 37, "{difference}");
}
