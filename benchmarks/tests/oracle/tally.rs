//! How often each thing came up, so that a test fails where its draws miss one.

use std::collections::BTreeMap;
use std::fmt::Debug;

#[derive(Debug, Default)]
pub struct Tally(BTreeMap<String, usize>);

impl Tally {
    pub fn note(&mut self, what: impl Debug) {
        *self.0.entry(format!("{what:?}")).or_default() += 1;
    }

    pub fn count(&self, what: impl Debug) -> usize {
        self.0.get(&format!("{what:?}")).copied().unwrap_or(0)
    }

    /// Fails if a thing came up less often than this.
    pub fn at_least(&self, least: usize, what: impl Debug) {
        let count = self.count(&what);
        assert!(count >= least, "{what:?} came up {count} times: {self:#?}");
    }
}
