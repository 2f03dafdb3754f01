//! Texts joined end to end: each is read and given to the exact planner.
//!
//! An answer is four numbers, text t's from 4t on: number (0, 12, 14 or 15), place (0), tests, and
//! the rows read. Text t's offsets stand from 64t on.

use crate::exact::exact;
use crate::link::{refuse, Refusal, Table, MAX_ROWS};
use crate::text::{judge_lines, MAX_TEXT};

pub const MAX_INPUT: usize = 32_768;
pub const MAX_TEXTS: usize = 32;
/// The numbers of an answer.
pub const FIELDS: usize = 4;

/// What stopped the run, if anything did, and how many texts were answered. That is also the
/// index of the text at fault.
#[derive(Clone, Copy, Debug, PartialEq, Eq)]
pub struct Run {
    pub refusal: Option<Refusal>,
    pub texts: u64,
}

/// "The planning office sends up to 32 texts joined end to end."
pub fn plan_texts(input: &[u8], budget: u64, answers: &mut [u64], offsets: &mut [u64]) -> Run {
    if let Err(refusal) = judge(input, answers, offsets) {
        return Run { refusal: Some(refusal), texts: 0 };
    }
    let mut place = 0;
    let mut texts = 0;
    // "Empty input holds no text and gets no answers."
    while place < input.len() {
        match text_at(input, place, texts) {
            // "At the first text fault stop .. the answers before it stand."
            Err(refusal) => return Run { refusal: Some(refusal), texts: texts as u64 },
            Ok((table, length)) => {
                let answer = &mut answers[FIELDS * texts..][..FIELDS];
                plan_text(&table, budget, answer, &mut offsets[MAX_ROWS * texts..][..MAX_ROWS]);
                // "Bytes after a last line begin another text, so 10 isn't given here."
                place += length;
                texts += 1;
            }
        }
    }
    Run { refusal: None, texts: texts as u64 }
}

fn judge(input: &[u8], answers: &[u64], offsets: &[u64]) -> Result<(), Refusal> {
    // "23, before any answer, for joined input above 32,768 bytes, place 0"
    if input.len() > MAX_INPUT {
        return refuse(23, 0);
    }
    // "then 11 if a lent list lacks 32 answers or 2,048 offsets"
    if answers.len() < FIELDS * MAX_TEXTS || offsets.len() < MAX_ROWS * MAX_TEXTS {
        return refuse(11, 0);
    }
    Ok(())
}

/// The table of the text that begins here, and the text's length.
fn text_at(input: &[u8], place: usize, texts: usize) -> Result<(Table, usize), Refusal> {
    // "24 where a thirty-third text begins, with that byte of the input, after the 32 answers"
    if texts == MAX_TEXTS {
        return refuse(24, place);
    }
    // "give that text's index with its own place": places count from the text's first byte.
    let rest = &input[place..];
    let front = &rest[..rest.len().min(MAX_TEXT)];
    match judge_lines(front) {
        // "a line not ended within the text's first 1,024 bytes gives 1 if the input goes on past
        // them, and 3 if it doesn't"
        Err(Refusal { number: 3, .. }) if rest.len() > MAX_TEXT => refuse(1, 0),
        read => read,
    }
}

/// "Answer each, in order, exactly as reading it and running the exact planner answer on that text
/// alone, with the whole budget; refusals 12, 14 and 15 are such answers and don't stop the run."
fn plan_text(table: &Table, budget: u64, answer: &mut [u64], offsets: &mut [u64]) {
    let exact = exact(table, budget, offsets);
    let (number, place) = exact.refusal.map_or((0, 0), |refusal| (refusal.number, refusal.place));
    answer.copy_from_slice(&[number, place, exact.tests, table.rows() as u64]);
}
