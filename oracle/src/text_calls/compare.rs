use std::fmt;

use crate::calls::{Compared, Comparer, Difference};
use crate::compare::hex;
use crate::text::{OracleText, TextSubject};

use super::call::{Call, Left, Needs, What};
use super::met::Met;
use super::shrink::shrink;

pub type TextComparer<'s> = Comparer<'s, Call>;
pub type TextDifference = Difference<Call>;

impl Compared for Call {
    type Subject<'s> = dyn TextSubject + 's;
    type Left = Left;
    type Met = Met;
    const ORACLE: &'static dyn TextSubject = &OracleText;

    fn through<'s>(&self, subject: &'s (dyn TextSubject + 's)) -> Left {
        let (mut output, mut labels) = (self.output.clone(), self.labels.clone());
        let told = match self.what {
            What::Assemble => subject.assemble(&self.given, &mut output, &mut labels),
            What::Print => subject.print(&self.given, &mut output),
        };
        Left { told, output, labels }
    }

    fn count(&self, left: &Left, met: &mut Met) {
        met.count(self, &left.told);
    }

    fn shrunk(self, differs: &dyn Fn(&Self) -> bool) -> Self {
        shrink(self, differs)
    }
}

impl fmt::Display for TextDifference {
    fn fmt(&self, f: &mut fmt::Formatter) -> fmt::Result {
        self.call.show(f)?;
        for (who, left) in [("oracle", &self.oracle), ("subject", &self.subject)] {
            let Left { told, output, labels } = left;
            writeln!(f, "{who}: code {} particular {} length {}", told.code, told.particular, told.length)?;
            if *output != self.call.output {
                match self.call.what {
                    What::Assemble => writeln!(f, "  leaves words {}", hex(output))?,
                    What::Print => writeln!(f, "  leaves \"{}\"", output.escape_ascii())?,
                }
            }
            if labels.iter().any(|&number| number != 0) {
                writeln!(f, "  leaves labels {labels:x?}")?;
            }
        }
        Ok(())
    }
}

impl Call {
    fn show(&self, f: &mut fmt::Formatter) -> fmt::Result {
        let Call { what, given, output, labels } = self;
        match what {
            What::Assemble => {
                let Needs { bytes, numbers } = self.needs();
                writeln!(f, "the smallest text on which they differ, {} bytes:", given.len())?;
                for line in given.split_inclusive(|&byte| byte == b'\n') {
                    writeln!(f, "  \"{}\"", line.escape_ascii())?;
                }
                writeln!(f, "  lent for words {} bytes of {bytes} needed: {}", output.len(), hex(output))?;
                writeln!(f, "  lent for labels {} numbers of {numbers} needed: {labels:x?}", labels.len())
            }
            What::Print => {
                writeln!(f, "the smallest words on which they differ, in hex: {}", hex(given))?;
                writeln!(f, "  lent for the text {} bytes: {}", output.len(), hex(output))
            }
        }
    }
}
