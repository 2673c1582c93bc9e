//! What the program prints: a line a call, or the first difference.

use crate::replay::Verdict;
use crate::wazimroot::{detail, number};
use std::fmt;

/// The first difference, shown whole.
pub struct Difference {
    text: String,
}

impl Difference {
    pub fn new(text: String) -> Difference {
        Difference { text }
    }

    /// The same, saying where it came up.
    pub fn within(self, place: &str) -> Difference {
        Difference::new(format!("{place}: {}", self.text))
    }
}

impl fmt::Display for Difference {
    fn fmt(&self, f: &mut fmt::Formatter) -> fmt::Result {
        f.write_str(&self.text)
    }
}

/// Number and detail of an answer, for reading.
pub fn shown(answer: u64) -> String {
    match (number(answer), detail(answer)) {
        (0, 0) => "accepted".to_string(),
        (number, detail) => format!("refused {number} detail {detail}"),
    }
}

/// The cases of one call in which the library and the rules gave the same.
pub struct Tally {
    name: &'static str,
    accepted: u64,
    /// Of the accepted ones, K2's `wrong`.
    wrong: u64,
    /// By refusal number, 1 to 12.
    refused: [u64; 13],
}

impl Tally {
    pub fn new(name: &'static str) -> Tally {
        Tally {
            name,
            accepted: 0,
            wrong: 0,
            refused: [0; 13],
        }
    }

    /// Counts a case by its answer.
    pub fn count(&mut self, answer: u64) {
        match number(answer) as usize {
            0 => self.accepted += 1,
            number => self.refused[number] += 1,
        }
    }

    pub fn count_verdict(&mut self, verdict: Verdict) {
        match verdict {
            Verdict::Ok => self.count(0),
            Verdict::Refused(number) => self.count(u64::from(number)),
            Verdict::Wrong(..) => {
                self.count(0);
                self.wrong += 1;
            }
        }
    }

    /// Whether `ok`, `wrong` and each of these refusals were there.
    pub fn has_verdicts(&self, numbers: &[usize]) -> bool {
        let refused = numbers.iter().all(|&number| self.refused[number] > 0);
        refused && self.wrong > 0 && self.accepted > self.wrong
    }

    pub fn cases(&self) -> u64 {
        self.accepted + self.refused.iter().sum::<u64>()
    }
}

impl fmt::Display for Tally {
    fn fmt(&self, f: &mut fmt::Formatter) -> fmt::Result {
        let refused = self.cases() - self.accepted;
        let (name, cases, accepted) = (self.name, self.cases(), self.accepted);
        write!(f, "{name}: {cases} cases, {accepted} accepted")?;
        if self.wrong > 0 {
            write!(f, " ({} wrong)", self.wrong)?;
        }
        write!(f, ", {refused} refused")?;
        let mut before = " (";
        for (number, &times) in self.refused.iter().enumerate() {
            if times > 0 {
                write!(f, "{before}{number}: {times}")?;
                before = ", ";
            }
        }
        let end = if refused > 0 { ")" } else { "" };
        write!(f, "{end}, no difference")
    }
}
