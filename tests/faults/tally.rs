//! How often each number was answered.

/// A run of this many cases or more must have met every number and every code.
const ENOUGH_TO_COUNT: usize = 10_000;

#[derive(Default)]
pub struct Tally {
    pub cases: usize,
    /// How many sessions each number, 0 to 13, answered.
    pub sessions: [usize; 14],
    /// How many commands each number answered; 1 to 3 are for sessions alone.
    pub commands: [usize; 14],
    /// How many commands of each code, 1 to 12, were accepted.
    pub accepted: [usize; 12],
}

impl Tally {
    /// Whether a long run has not met some number or code.
    pub fn is_lacking(&self) -> bool {
        let numbers = self.sessions.iter().chain(&self.commands[4..]);
        let mut counts = numbers.chain(&self.commands[..1]).chain(&self.accepted);
        self.cases >= ENOUGH_TO_COUNT && counts.any(|&times| times == 0)
    }

    /// One line.
    pub fn line(&self) -> String {
        let of = |numbers: &[usize], first: usize| -> String {
            let numbered = numbers.iter().zip(first..);
            let times = numbered.map(|(times, number)| format!(" {number}:{times}"));
            times.collect()
        };
        format!(
            "{} cases alike, no fault; sessions answered{}; commands answered 0:{}{}; accepted by code{}",
            self.cases,
            of(&self.sessions, 0),
            self.commands[0],
            of(&self.commands[4..], 4),
            of(&self.accepted, 1),
        )
    }
}
