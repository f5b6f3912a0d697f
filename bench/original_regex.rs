// The real crate `regex`, with the `Default` of `RegexSet` that older versions lack and the original derives. No set is ever asked.
pub use real::{Captures, Error, Regex, SetMatches};

#[derive(Debug, Clone)]
pub struct RegexSet(real::RegexSet);

impl RegexSet {
    pub fn new<I, S>(exprs: I) -> Result<Self, Error>
    where
        S: AsRef<str>,
        I: IntoIterator<Item = S>,
    {
        real::RegexSet::new(exprs).map(Self)
    }

    pub fn matches(&self, text: &str) -> SetMatches {
        self.0.matches(text)
    }
}

impl Default for RegexSet {
    fn default() -> Self {
        Self(real::RegexSet::empty())
    }
}
