//! How much is measured, and the least of it.

/// How often each row is measured, and over how many instructions, lines or calls.
#[derive(Clone, Copy)]
pub struct Effort {
    pub rounds: u64,
    pub count: u64,
}

impl Effort {
    /// Of a command's arguments, `[ROUNDS [COUNT]]`.
    pub fn of(arguments: &[String], usual_count: u64) -> Self {
        let number = |at: usize| arguments.get(at).map(|text| text.parse::<u64>().expect("a number"));
        Self { rounds: number(0).unwrap_or(11), count: number(1).unwrap_or(usual_count) }
    }

    /// The least time of each subject; they take turns.
    pub fn least_times<S: ?Sized>(self, subjects: &[&S], time: impl Fn(&S, u64) -> f64) -> Vec<f64> {
        let mut least = vec![f64::INFINITY; subjects.len()];
        for _ in 0..self.rounds {
            for (subject, least) in subjects.iter().zip(&mut least) {
                *least = least.min(time(subject, self.count));
            }
        }
        least
    }
}
