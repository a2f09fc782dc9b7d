//! What a comparison found: how often each kind of input came up, and how many answers were as they should be.

use std::collections::BTreeMap;

#[derive(Default)]
pub struct Tally {
    kinds: BTreeMap<String, u64>,
    failed: u64,
    passed: u64,
}

impl Tally {
    /// Kinds that must come up.
    pub fn expect(&mut self, kinds: &[&str]) {
        for kind in kinds {
            self.kinds.entry(kind.to_string()).or_default();
        }
    }

    pub fn saw(&mut self, kind: &str) {
        *self.kinds.entry(kind.to_string()).or_default() += 1;
    }

    pub fn check(&mut self, same: bool, what: impl FnOnce() -> String) {
        if same {
            self.passed += 1;
        } else {
            self.failed += 1;
            if self.failed <= 10 {
                println!("FAILED {}", what());
            }
        }
    }

    /// Prints the counts and 'N passed, M failed', in which a kind that did not come up is a failure; and leaves.
    pub fn end(&self) -> ! {
        for (kind, count) in &self.kinds {
            println!("{count:>9} {kind}");
        }
        let missing = self.kinds.iter().filter(|(_, count)| **count == 0);
        let failed = self.failed
            + missing.map(|(kind, _)| println!("FAILED {kind}: it did not come up")).count() as u64;
        println!("{} passed, {failed} failed", self.passed);
        std::process::exit(i32::from(failed > 0));
    }
}
