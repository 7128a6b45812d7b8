//! Calls of one kind, compared with the oracle's: enumerated ones, section by section, then generated ones.

use std::fmt::Display;
use std::time::Instant;

use crate::random::Random;

/// A call with everything lent to it.
pub trait Compared: Clone + 'static {
    type Subject<'s>: ?Sized + 's;
    /// What a call leaves: its answer and everything lent.
    type Left: PartialEq;
    /// What the calls met, as the oracle answers them.
    type Met: Default;

    const ORACLE: &'static Self::Subject<'static>;

    fn through<'s>(&self, subject: &'s Self::Subject<'s>) -> Self::Left;
    fn count(&self, left: &Self::Left, met: &mut Self::Met);
    /// The smallest call that is found on which they still differ.
    fn shrunk(self, differs: &dyn Fn(&Self) -> bool) -> Self;
}

/// Compares the calls of a subject with the oracle's.
pub struct Comparer<'s, C: Compared> {
    subject: &'s C::Subject<'s>,
    pub compared: u64,
    pub met: C::Met,
    /// The first difference, shrunk; nothing is compared after it.
    pub difference: Option<Difference<C>>,
}

/// A smallest call on which the two differ.
pub struct Difference<C: Compared> {
    pub call: C,
    pub oracle: C::Left,
    pub subject: C::Left,
}

impl<'s, C: Compared> Comparer<'s, C> {
    pub fn new(subject: &'s C::Subject<'s>) -> Self {
        Self { subject, compared: 0, met: C::Met::default(), difference: None }
    }

    /// Compares one call; false once a difference was found.
    pub fn compare(&mut self, call: &C) -> bool {
        if self.difference.is_some() {
            return false;
        }
        let right = call.through(C::ORACLE);
        self.compared += 1;
        call.count(&right, &mut self.met);
        if call.through(self.subject) != right {
            self.difference = Some(Difference::shrunk(call.clone(), self.subject));
        }
        self.difference.is_none()
    }
}

impl<C: Compared> Difference<C> {
    pub fn shrunk<'s>(call: C, subject: &'s C::Subject<'s>) -> Self {
        let call = call.shrunk(&|call| call.through(C::ORACLE) != call.through(subject));
        Self { oracle: call.through(C::ORACLE), subject: call.through(subject), call }
    }

    /// Prints it, or that there is none; false where there is one.
    pub fn shown(found: Option<&Self>) -> bool
    where
        Self: Display,
    {
        match found {
            None => println!("no difference"),
            Some(difference) => println!("{difference}"),
        }
        found.is_none()
    }
}

/// Visits every call of a kind.
pub type Section<C> = fn(&mut dyn FnMut(C));

/// All calls of one kind.
pub struct Calls<C: Compared> {
    /// What is enumerated, in a word.
    pub enumerated: &'static str,
    pub sections: &'static [(&'static str, Section<C>)],
    pub generated: fn(&mut Random) -> C,
}

impl<C: Compared> Calls<C>
where
    C::Met: Display,
    Difference<C>: Display,
{
    /// Compares the enumerated calls and so many generated ones with the subject of this name and prints what was met; false
    /// where they differ.
    pub fn compare<'s>(&self, (name, subject): (&str, &'s C::Subject<'s>), count: u64, seed: u64) -> bool {
        let mut comparer = Comparer::new(subject);
        let started = Instant::now();
        println!("enumerated {}, then {count} generated calls, seed {seed}", self.enumerated);
        for (title, section) in self.sections {
            let before = comparer.compared;
            section(&mut |call| {
                comparer.compare(&call);
            });
            println!("  {title}: {}", comparer.compared - before);
            if comparer.difference.is_some() {
                break;
            }
        }
        println!("{}", comparer.met);
        comparer.met = C::Met::default();
        let mut random = Random::seeded(seed);
        let generated = (0..count).take_while(|_| comparer.compare(&(self.generated)(&mut random))).count();
        println!("  generated: {generated}\n{}", comparer.met);
        println!("compared with {name}: {} calls in {:.1} s", comparer.compared, started.elapsed().as_secs_f64());
        Difference::shown(comparer.difference.as_ref())
    }
}
