// Stands for the original's `formatter/mod.rs` where bench/original builds its reader. Not the original's.
#![allow(dead_code, unused_imports)]

mod defns;
mod defns_const;
mod error;
mod parse;

pub use defns::*;
pub use defns_const::*;
pub use error::*;
use parse::ConstSplit;

pub trait DeParseTrait {
    fn deparse_string(&self) -> String {
        unimplemented!()
    }
}
impl DeParseTrait for Matcher {}
impl DeParseTrait for Formatter {}

impl Default for Formatter {
    fn default() -> Self {
        "$-1$${0}$$(#0..-1$(|, |))$$-1$".parse().unwrap()
    }
}
