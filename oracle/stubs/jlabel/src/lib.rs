//! Stub for the oracle. Label matching is outside the scope: a label is the answer to each question, and how many may be asked.
use std::cell::Cell;

pub struct Label {
    /// One byte a question; 0 is no.
    pub answers: Vec<u8>,
    pub limit: u64,
    pub asked: Cell<u64>,
}
