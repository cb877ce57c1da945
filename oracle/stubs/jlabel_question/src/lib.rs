//! Stub for the oracle. Pattern strings are kept as strings, so `parse` keeps them and never fails.
//! A question whose only string is its row's number can be asked: the driver walks with such questions.
use serde::{Deserialize, Serialize};

#[derive(Debug)]
pub enum ParseError {}
impl std::fmt::Display for ParseError {
    fn fmt(&self, _: &mut std::fmt::Formatter<'_>) -> std::fmt::Result {
        match *self {}
    }
}
impl std::error::Error for ParseError {}

/// For bench/: a row's number in four characters, 7 bits in each, so that reading it costs next to nothing in a walk that is timed.
pub fn coded(row: usize) -> String {
    (0..4).map(|k| (row >> (7 * k) & 127) as u8 as char).collect()
}

#[cfg(not(coded))]
fn row(s: &str) -> usize {
    s.parse().unwrap()
}
#[cfg(coded)]
fn row(s: &str) -> usize {
    let b: [u8; 4] = s.as_bytes().try_into().unwrap();
    b[0] as usize | (b[1] as usize) << 7 | (b[2] as usize) << 14 | (b[3] as usize) << 21
}

pub trait QuestionMatcher {
    fn test(&self, label: &jlabel::Label) -> bool;
}

#[derive(Debug, Clone, PartialEq, Serialize, Deserialize)]
pub struct AllQuestion(pub Vec<String>);
impl AllQuestion {
    pub fn parse(patterns: &[&str]) -> Result<Self, ParseError> {
        Ok(Self(patterns.iter().map(|s| s.to_string()).collect()))
    }
}
impl QuestionMatcher for AllQuestion {
    fn test(&self, label: &jlabel::Label) -> bool {
        let row = row(&self.0[0]);
        let Some(answer) = label.answers.get(row) else {
            panic!("unanswered")
        };
        if label.asked.get() == label.limit {
            panic!("limit")
        }
        label.asked.set(label.asked.get() + 1);
        *answer != 0
    }
}

pub mod regex {
    #[derive(Debug, Clone)]
    pub struct RegexQuestion;
    impl RegexQuestion {
        pub fn parse<S: AsRef<str>>(_: &[S]) -> Result<Self, super::ParseError> {
            Ok(Self)
        }
    }
    impl super::QuestionMatcher for RegexQuestion {
        fn test(&self, _: &jlabel::Label) -> bool {
            unimplemented!("`parse` never fails, so this is never reached")
        }
    }
}
