use crate::calls::{Compared, Comparer, Difference};
use crate::checkpoint::{CheckpointSubject, OracleCheckpoint};

use super::call::{Call, Left, What};
use super::met::Met;
use super::shrink::shrink;

pub type CheckpointComparer<'s> = Comparer<'s, Call>;
pub type CheckpointDifference = Difference<Call>;

impl Compared for Call {
    type Subject<'s> = dyn CheckpointSubject + 's;
    type Left = Left;
    type Met = Met;
    const ORACLE: &'static dyn CheckpointSubject = &OracleCheckpoint;

    fn through<'s>(&self, subject: &'s (dyn CheckpointSubject + 's)) -> Left {
        let mut lent = self.lent.clone();
        let told = match self.what {
            What::Write => subject.write(&lent.state, &lent.memory, &mut lent.image),
            What::Read => subject.read(&lent.image, &mut lent.state, &mut lent.memory),
        };
        Left { told, lent }
    }

    fn count(&self, left: &Left, met: &mut Met) {
        met.count(self, left);
    }

    fn shrunk(self, differs: &dyn Fn(&Self) -> bool) -> Self {
        shrink(self, differs)
    }
}
