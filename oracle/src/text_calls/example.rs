//! Two texts and every text that is one byte away from them, and what is lent.

use crate::assemble::image;

use super::call::Call;
use super::damage::BYTES;

/// Small, with one of everything that a text can have.
pub const SMALL: &str = "\
start:
 Addi R1, R0, 3 - (1 - -2)\r
Beq R1,R15,end
Slli R10, R1, end - 007

  Jal R2, start + 0
Sw R3 , R4,-65536
end : \r
Ebreak
";

/// All fifty names.
pub const WHOLE: &str = "\
Add R1, R2, R3\nSub R4, R5, R6\nMul R7, R8, R9\nMulh R10, R11, R12\nDiv R13, R14, R15\nDivu R0, R1, R2
Rem R3, R4, R5\nRemu R6, R7, R8\nAddi R9, R10, -1\nAnd R11, R12, R13\nOr R14, R15, R0\nXor R1, R2, R3
again:
Andi R4, R5, 255\nOri R6, R7, again\nXori R8, R9, -65536\nSll R10, R11, R12\nSrl R13, R14, R15\nSra R0, R1, R2
Slli R3, R4, 63\nSrli R5, R6, 0\nSrai R7, R8, 31\nSlt R9, R10, R11\nSltu R12, R13, R14\nSge R15, R0, R1
Sgeu R2, R3, R4\nSeq R5, R6, R7\nSne R8, R9, R10\nCmov R11, R12, R13\nCmovz R14, R15, R0\nCmovnz R1, R2, R3
Lb R4, R5, 1\nLbu R6, R7, -1\nLh R8, R9, 2\nLhu R10, R11, -2\nLw R12, R13, 4\nLd R14, R15, 8
Sb R0, R1, 1\nSh R2, R3, 2\nSw R4, R5, 4\nSd R6, R7, -8\nBeq R8, R9, again\nBne R10, R11, again + 4
Blt R12, R13, done\nBge R14, R15, (done)\nBltu R0, R1, 8\nBgeu R2, R3, -8\nJal R15, again\nJalr R0, R15, 0
done:
Ecall\nEbreak\n";

/// Each byte of the small text made each other.
pub fn changed(visit: &mut dyn FnMut(Call)) {
    for place in 0..SMALL.len() {
        for byte in 0..=255 {
            let mut text = SMALL.as_bytes().to_vec();
            text[place] = byte;
            visit(Call::assemble(text));
        }
    }
}

/// Each byte of both texts taken away, and each byte that means something put in its place and before it.
pub fn edited(visit: &mut dyn FnMut(Call)) {
    for text in [SMALL, WHOLE].map(str::as_bytes) {
        for place in 0..text.len() {
            let (before, behind) = text.split_at(place);
            visit(Call::assemble([before, &behind[1..]].concat()));
            for byte in BYTES {
                visit(Call::assemble([before, &[byte], behind].concat()));
                visit(Call::assemble([before, &[byte], &behind[1..]].concat()));
            }
        }
        visit(Call::assemble(text.to_vec()));
    }
}

/// Lent less than enough, just enough and more, for words and for labels, of good texts and of bad ones.
pub fn lent(visit: &mut dyn FnMut(Call)) {
    let twice = [SMALL, "start:\n"].concat();
    let bad = [SMALL, "Nop\n"].concat();
    for text in [SMALL, &twice, &bad, "", "\n", "x:", "x:\nx:", "Ebreak"] {
        let enough = Call::assemble(text.into());
        for output in 0..enough.output.len() + 6 {
            for labels in 0..enough.labels.len() + 4 {
                let lent = Call { output: vec![0x5a; output], labels: vec![7; labels], ..enough.clone() };
                visit(lent);
            }
        }
    }
}

/// Prints of a few words, some of which do not decode, of each length and with each room near enough.
pub fn lent_for_prints(visit: &mut dyn FnMut(Call)) {
    const WORDS: [u32; 5] = [0x00000032, 0xffff8089, 0x00000000, 0x00000132, 0x00200013];
    for number in 0..WORDS.len().pow(3) {
        let words = [number, number / 5, number / 25].map(|place| WORDS[place % 5]);
        for length in 0..=12 {
            let enough = Call::print(image(&words, length));
            for room in 0..enough.output.len() + 3 {
                visit(Call { output: vec![0x5a; room], ..enough.clone() });
            }
        }
    }
}
