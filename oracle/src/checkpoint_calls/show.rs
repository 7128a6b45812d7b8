//! A difference in hex, of long parts only what is not zero, or not the same.

use std::fmt;

use crate::checkpoint::is_zero;
use crate::compare::hex;

use super::call::{Call, Left, Lent, What};
use super::compare::CheckpointDifference;

const ROW_BYTES: usize = 16;
const MOST_ROWS: usize = 24;

impl fmt::Display for CheckpointDifference {
    fn fmt(&self, f: &mut fmt::Formatter) -> fmt::Result {
        let Call { what, lent } = &self.call;
        let what = match what {
            What::Write => "write",
            What::Read => "read",
        };
        writeln!(f, "the smallest call on which they differ, in hex, rows of zeros left out: {what}")?;
        for (name, bytes) in named(lent) {
            writeln!(f, "  {name} {} bytes", bytes.len())?;
            let rows = bytes.chunks(ROW_BYTES).enumerate().filter(|(_, row)| !is_zero(row));
            show_rows(rows.map(|(number, row)| format!("    {:05x}: {}", ROW_BYTES * number, hex(row))), f)?;
        }
        for (who, Left { told, .. }) in [("oracle", &self.oracle), ("subject", &self.subject)] {
            writeln!(f, "{who}: code {} particular {} length {}", told.code, told.particular, told.length)?;
        }
        for ((name, right), (_, other)) in named(&self.oracle.lent).into_iter().zip(named(&self.subject.lent)) {
            if right != other {
                writeln!(f, "  where the {name} that they leave differs")?;
                show_rows(differing(right, other), f)?;
            }
        }
        Ok(())
    }
}

fn named(lent: &Lent) -> [(&'static str, &[u8]); 3] {
    [("state", &lent.state), ("memory", &lent.memory), ("image", &lent.image)]
}

fn differing<'b>(oracle: &'b [u8], subject: &'b [u8]) -> impl Iterator<Item = String> + 'b {
    let rows = oracle.chunks(ROW_BYTES).zip(subject.chunks(ROW_BYTES)).enumerate();
    rows.filter(|(_, (right, other))| right != other).map(|(number, (right, other))| {
        let at = ROW_BYTES * number;
        format!("    {at:05x}: oracle  {}\n           subject {}", hex(right), hex(other))
    })
}

fn show_rows(mut rows: impl Iterator<Item = String>, f: &mut fmt::Formatter) -> fmt::Result {
    for row in rows.by_ref().take(MOST_ROWS) {
        writeln!(f, "{row}")?;
    }
    match rows.count() {
        0 => Ok(()),
        more => writeln!(f, "    and {more} more rows"),
    }
}
