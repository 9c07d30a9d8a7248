//! What the command line asks for.

/// The number of cases where none is given: then the counts are held to be large enough.
pub const DEFAULT_CASES: u64 = 20_000;
const DEFAULT_SEED: u64 = 1;

/// How large the comparison is, and the seed of its cases.
#[derive(Clone, Copy, PartialEq, Eq, Debug)]
pub struct Plan {
    pub cases: u64,
    pub seed: u64,
}

#[derive(Clone, Copy, PartialEq, Eq, Debug)]
pub enum Command {
    Compare(Plan),
    Bench,
}

pub const USAGE: &str = "usage: compare [--cases N] [--seed S], or compare bench";

impl Plan {
    pub const DEFAULT: Plan = Plan { cases: DEFAULT_CASES, seed: DEFAULT_SEED };

    /// Whether there are so many cases that each kind of answer is to come often enough.
    pub fn is_full(self) -> bool {
        self.cases >= DEFAULT_CASES
    }
}

/// The command that these words make, if they make one.
pub fn command(mut words: impl Iterator<Item = String>) -> Option<Command> {
    let mut plan = Plan::DEFAULT;
    let mut first = true;
    while let Some(word) = words.next() {
        let mut number = || words.next()?.parse().ok();
        match word.as_str() {
            "bench" if first => return words.next().is_none().then_some(Command::Bench),
            "--cases" => plan.cases = number()?,
            "--seed" => plan.seed = number()?,
            _ => return None,
        }
        first = false;
    }
    Some(Command::Compare(plan))
}

#[cfg(test)]
mod tests {
    use super::*;

    fn parsed(line: &str) -> Option<Command> {
        command(line.split_whitespace().map(String::from))
    }

    #[test]
    fn words_make_commands() {
        assert_eq!(parsed(""), Some(Command::Compare(Plan::DEFAULT)));
        assert_eq!(parsed("bench"), Some(Command::Bench));
        let plan = Plan { cases: 12, seed: 7 };
        assert_eq!(parsed("--seed 7 --cases 12"), Some(Command::Compare(plan)));
        for wrong in ["--cases", "--cases x", "--seed -1", "bench more", "--seed 1 bench", "other"]
        {
            assert_eq!(parsed(wrong), None, "{wrong}");
        }
    }
}
