//! How many calls of a subject agree, and how that is printed.

use std::fmt::{Display, Formatter, Result as Shown};

/// How many calls agree, by their status; where a subject has several kinds of calls, also of each kind.
pub struct Tally {
    agreed: [u64; 256],
    kinds: Vec<(&'static str, Tally)>,
}

impl Tally {
    pub fn new() -> Tally {
        Tally { agreed: [0; 256], kinds: Vec::new() }
    }

    /// The tally of all calls of these kinds.
    pub fn of_kinds(kinds: Vec<(&'static str, Tally)>) -> Tally {
        let mut agreed = [0; 256];
        for (_, kind) in &kinds {
            for (sum, times) in agreed.iter_mut().zip(kind.agreed) {
                *sum += times;
            }
        }
        Tally { agreed, kinds }
    }

    /// How many calls were answered with this status.
    pub fn times(&self, status: u8) -> u64 {
        self.agreed[usize::from(status)]
    }

    pub fn count(&mut self, status: u8) {
        self.agreed[usize::from(status)] += 1;
    }
}

impl Display for Tally {
    fn fmt(&self, text: &mut Formatter) -> Shown {
        let calls: u64 = self.agreed.iter().sum();
        write!(text, "{} calls agree (accepted {}", calls, self.agreed[0])?;
        let given = self.agreed.iter().enumerate().skip(1).filter(|(_, &times)| times > 0);
        for (order, (number, times)) in given.enumerate() {
            let lead = if order == 0 { "refused " } else { "" };
            write!(text, ", {}{}: {}", lead, number, times)?;
        }
        text.write_str(")")?;
        match &self.kinds[..] {
            [_] => Ok(()),
            kinds => kinds.iter().try_for_each(|(name, kind)| write!(text, "\n  {}: {}", name, kind)),
        }
    }
}
