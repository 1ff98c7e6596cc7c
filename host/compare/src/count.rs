//! Counts the checks of one kind and shows the first few that fail.

/// How many failures of each kind are shown in detail.
const SHOWN: u64 = 5;

pub struct Count {
    kind: &'static str,
    pub passed: u64,
    pub failed: u64,
}

impl Count {
    pub fn new(kind: &'static str) -> Count {
        Count {
            kind,
            passed: 0,
            failed: 0,
        }
    }

    /// Counts one check, whose error says what was found.
    pub fn check(&mut self, result: Result<(), String>) {
        let Err(found) = result else {
            self.passed += 1;
            return;
        };
        self.failed += 1;
        if self.failed <= SHOWN {
            println!("{}: {found}", self.kind);
        }
    }

    pub fn show(&self) {
        let checks = self.passed + self.failed;
        println!("{}: {checks} checks, {} failed", self.kind, self.failed);
    }
}
