// Makes one call of the original's reader many times, as bench/driver.c does: original CALL TIMES FILE [FILE].
#![allow(dead_code)]

pub use nonmax::NonMaxU32;

mod formatter;

use formatter::{Formatter, FormatterConst, MatcherConst};

fn main() {
    let args: Vec<String> = std::env::args().collect();
    let times: usize = args[2].parse().unwrap();
    let one = std::fs::read_to_string(&args[3]).unwrap();
    let other = args.get(4).map(|p| std::fs::read_to_string(p).unwrap()).unwrap_or_default();
    let pattern = if args[1] == "match" { Some(regex::Regex::new(&format!("^(?:{one})$")).unwrap()) } else { None };
    let mut accepted = 0usize;
    for _ in 0..times {
        let text = std::hint::black_box(one.as_str());
        accepted += match args[1].as_str() {
            "matcher" => MatcherConst::parse(text).is_ok() as usize,
            "template" => FormatterConst::parse(text).is_ok() as usize,
            "formatter" => text.parse::<Formatter>().is_ok() as usize,
            "match" => pattern.as_ref().unwrap().captures(std::hint::black_box(other.as_str())).is_some() as usize,
            "groups" => regex::Regex::new(text).map(|r| r.captures_len()).unwrap_or(0),
            _ => 0,
        };
    }
    std::process::exit((accepted == usize::MAX) as i32);
}
