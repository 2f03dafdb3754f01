//! The comparisons for joined texts: each text alone by the text reader and the exact planner, the
//! faults by reading byte by byte, and what a lost byte 10 does.

use crate::brute::{self, all_lists};
use crate::cases::{joined, Case, Lent, Part};
use crate::exact::exact;
use crate::joined::plan_texts;
use crate::limits;
use crate::link::Table;
use crate::mix::{good_texts, joined_case};
use crate::random::Random;
use crate::selftest::same;
use crate::text::read_table;
use crate::vectors;
use std::collections::BTreeSet;

/// Number, place and texts, then both lists after the call, every element of them.
type Whole = ([u64; 3], Vec<u64>, Vec<u64>);

/// Lists that are long enough; no answer and no offset is such a number.
const ANSWERS: Lent = Lent { length: 130, first: 3_000_000 };
const OFFSETS: Lent = Lent { length: 2050, first: 2_000_000 };

fn whole(input: &[u8], budget: u64, answers: &Lent, offsets: &Lent) -> Whole {
    let (mut answers, mut offsets) = (answers.numbers(), offsets.numbers());
    let run = plan_texts(input, budget, &mut answers, &mut offsets);
    let (number, place) = run.refusal.map_or((0, 0), |refusal| (refusal.number, refusal.place));
    ([number, place, run.texts], answers, offsets)
}

/// "exactly as reading it and running the exact planner answer on that text alone"
fn alone(text: &[u8], budget: u64) -> ([u64; 4], Vec<u64>) {
    let mut delays = vec![0; 64];
    let read = read_table(text, &mut delays).expect("an accepted text");
    delays.truncate(read.rows as usize);
    let mut plan = vec![0; delays.len()];
    let answer = exact(&Table::new(read.period, read.size, &delays), budget, &mut plan);
    match answer.refusal {
        None => ([0, 0, answer.tests, read.rows], plan),
        Some(refusal) => ([refusal.number, refusal.place, answer.tests, read.rows], Vec::new()),
    }
}

/// The lists with the answers of these texts and nothing else written.
fn written(texts: &[&[u8]], budget: u64, answers: &Lent, offsets: &Lent) -> (Vec<u64>, Vec<u64>) {
    let (mut answers, mut offsets) = (answers.numbers(), offsets.numbers());
    for (t, text) in texts.iter().enumerate() {
        let (answer, plan) = alone(text, budget);
        answers.splice(4 * t..4 * t + 4, answer);
        offsets.splice(64 * t..64 * t + plan.len(), plan);
    }
    (answers, offsets)
}

/// The pieces of an input, each up to the end of a line that begins with `end `.
fn pieces(input: &[u8]) -> Vec<&[u8]> {
    let (mut begin, mut end) = (0, 0);
    let mut pieces = Vec::new();
    for line in input.split_inclusive(|&byte| byte == 10) {
        end += line.len();
        if line.starts_with(b"end ") {
            pieces.push(&input[begin..end]);
            begin = end;
        }
    }
    pieces
}

/// Inputs without a fault, one to 32 texts.
pub fn good_inputs() -> Result<u64, String> {
    let mut random = Random::new(20);
    let mut count = 0;
    for _ in 0..3000 {
        let texts = random.pick(&[0, 1, 1, 2, 2, 3, 3, 4, 5, 9, 20, 31, 32]);
        let input = joined(&good_texts(&mut random, texts));
        let budget = random.pick(&[0, 1, 2, 5, 20, 100, 500]);
        let pieces = pieces(&input);
        same("pieces", pieces.len(), texts)?;
        let (answers, offsets) = written(&pieces, budget, &ANSWERS, &OFFSETS);
        let expected = ([0, 0, texts as u64], answers, offsets);
        let shown = String::from_utf8_lossy(&input);
        same((shown, budget), whole(&input, budget, &ANSWERS, &OFFSETS), expected)?;
        count += texts as u64;
    }
    Ok(count)
}

/// The length of the text that the rest begins with, or its fault. The bytes come in one by one,
/// and the first front to which the text reader says anything but 3 decides: the text is whole, or
/// it is at fault. If there is none among the first 1,024 bytes it is 1 or 3.
fn byte_by_byte(rest: &[u8]) -> Result<usize, [u64; 2]> {
    let mut last = [3, 0];
    for length in 0..=rest.len().min(1024) {
        match read_table(&rest[..length], &mut [0; 64]) {
            Ok(_) => return Ok(length),
            Err(refusal) if refusal.number == 3 => last = [3, refusal.place],
            Err(refusal) => return Err([refusal.number, refusal.place]),
        }
    }
    Err(if rest.len() > 1024 { [1, 0] } else { last })
}

/// The same from the list of all faults of the first 1,024 bytes. 10 comes there when a whole text
/// has bytes behind it, and its place is the first of them.
fn from_all_faults(rest: &[u8]) -> Result<usize, [u64; 2]> {
    let front = &rest[..rest.len().min(1024)];
    match brute::text_fault(front).map(|refusal| [refusal.number, refusal.place]) {
        None => Ok(front.len()),
        Some([10, place]) => Ok(place as usize),
        Some([3, _]) if rest.len() > 1024 => Err([1, 0]),
        Some(fault) => Err(fault),
    }
}

/// What stops the run, and the texts before it.
fn stop(input: &[u8], answers: usize, offsets: usize) -> Result<([u64; 2], Vec<&[u8]>), String> {
    let too_short = answers < 4 * 32 || offsets < 64 * 32;
    let mut texts = Vec::new();
    let mut rest = input;
    let refusal = loop {
        match rest {
            _ if input.len() > 32_768 => break [23, 0],
            _ if too_short => break [11, 0],
            [] => break [0, 0],
            _ if texts.len() == 32 => break [24, (input.len() - rest.len()) as u64],
            _ => {}
        }
        let text = byte_by_byte(rest);
        same(String::from_utf8_lossy(rest), text, from_all_faults(rest))?;
        match text {
            Err(fault) => break fault,
            Ok(length) => {
                texts.push(&rest[..length]);
                rest = &rest[length..];
            }
        }
    };
    Ok((refusal, texts))
}

/// Everything of one call; what is not an answer or a plan is as it was in the lists.
fn once(input: &[u8], budget: u64, answers: &Lent, offsets: &Lent) -> Result<(), String> {
    let (refusal, texts) = stop(input, answers.length, offsets.length)?;
    let lists = written(&texts, budget, answers, offsets);
    let expected = ([refusal[0], refusal[1], texts.len() as u64], lists.0, lists.1);
    let shown = String::from_utf8_lossy(input);
    same((shown, budget, answers, offsets), whole(input, budget, answers, offsets), expected)
}

/// All cases of the fixed block and random ones, with their lists.
pub fn any_inputs() -> Result<u64, String> {
    let mut random = Random::new(21);
    let mut count = 0;
    let fixed = vectors::all().into_iter().map(|vector| vector.case).chain(limits::all());
    let made = (0..8000).map(|_| joined_case(&mut random));
    for case in fixed.chain(made) {
        if let Case::PlanTexts { budget, parts, answers, offsets } = case {
            once(&joined(&parts), budget, &answers, &offsets)?;
            count += 1;
        }
    }
    Ok(count)
}

/// All inputs of up to seven of these pieces.
pub fn short_inputs() -> Result<u64, String> {
    let pieces: [&[u8]; 7] =
        [b"pma 1\n1 1\n", b"0\n", b"end 1\n", b"end 2\n", b"\n", b"1", b"end "];
    let mut count = 0;
    for length in 0..=7 {
        for list in all_lists(length, pieces.len() as u64) {
            let input: Vec<&[u8]> = list.iter().map(|&piece| pieces[piece as usize]).collect();
            once(&input.concat(), 2, &ANSWERS, &OFFSETS)?;
            count += 1;
        }
    }
    Ok(count)
}

/// What is no longer as it was lent from this index on, counted from there.
fn changes_from(lent: &Lent, list: &[u64], from: usize) -> Vec<(usize, u64)> {
    let changed = (from..list.len()).filter(|&index| list[index] != lent.first + index as u64);
    changed.map(|index| (index - from, list[index])).collect()
}

/// Good texts in front of any input: its answers come behind theirs, its fault stays as it is.
pub fn texts_in_front() -> Result<u64, String> {
    let mut random = Random::new(22);
    let mut count = 0;
    while count < 2000 {
        let Case::PlanTexts { parts, .. } = joined_case(&mut random) else { continue };
        let (input, budget) = (joined(&parts), random.below(50));
        let texts = 1 + random.place(8);
        let front = joined(&good_texts(&mut random, texts));
        let (stop, answers, offsets) = whole(&input, budget, &ANSWERS, &OFFSETS);
        let both = whole(&[&front[..], &input].concat(), budget, &ANSWERS, &OFFSETS);
        if [23, 24].contains(&both.0[0]) {
            continue;
        }
        let shown = (String::from_utf8_lossy(&front), String::from_utf8_lossy(&input));
        same(&shown, both.0, [stop[0], stop[1], stop[2] + texts as u64])?;
        let behind = changes_from(&ANSWERS, &both.1, 4 * texts);
        same(&shown, behind, changes_from(&ANSWERS, &answers, 0))?;
        let behind = changes_from(&OFFSETS, &both.2, 64 * texts);
        same(&shown, behind, changes_from(&OFFSETS, &offsets, 0))?;
        count += 1;
    }
    Ok(count)
}

/// Which line of a text of n rows lost its byte 10.
fn line_name(line: usize, rows: usize, last_text: bool) -> &'static str {
    match line {
        0 => "line one",
        1 => "line two",
        _ if line == rows + 2 && last_text => "end of the last text",
        _ if line == rows + 2 => "end",
        _ if line == rows + 1 => "last row",
        _ => "row",
    }
}

/// All that a lost byte 10 can lead to.
const LOST: [(&str, u64); 11] = [
    ("end", 4),
    ("end of the last text", 3),
    ("last row", 4),
    ("line one", 2),
    ("line two", 4),
    ("line two", 6),
    ("line two", 8),
    ("line two", 9),
    ("row", 4),
    ("row", 7),
    ("row", 9),
];

/// Every byte 10 of one good input lost, one at a time: the run stops in the text that lost it, at
/// the line that lost it or, with 8 and 9, at the `end` line; nothing is written from there on.
fn lose_each(input: &[u8], found: &mut BTreeSet<(&str, u64)>) -> Result<u64, String> {
    let texts = pieces(input);
    let mut count = 0;
    let mut begin = 0;
    for (t, text) in texts.iter().enumerate() {
        let lines: Vec<&[u8]> = text.split_inclusive(|&byte| byte == 10).collect();
        let (answers, offsets) = written(&texts[..t], 20, &ANSWERS, &OFFSETS);
        let mut place = 0;
        for (index, line) in lines.iter().enumerate() {
            let lost = begin + place + line.len() - 1;
            let shorter = [&input[..lost], &input[lost + 1..]].concat();
            let shown = String::from_utf8_lossy(&shorter);
            let got = whole(&shorter, 20, &ANSWERS, &OFFSETS);
            let end = text.len() - lines[lines.len() - 1].len() - 1;
            let at = if [8, 9].contains(&got.0[0]) { end } else { place };
            let expected = [got.0[0], at as u64, t as u64];
            same(&shown, got, (expected, answers.clone(), offsets.clone()))?;
            found.insert((line_name(index, lines.len() - 3, t + 1 == texts.len()), expected[0]));
            place += line.len();
            count += 1;
        }
        begin += text.len();
    }
    Ok(count)
}

pub fn lost_newlines() -> Result<u64, String> {
    let mut random = Random::new(23);
    let mut found = BTreeSet::new();
    let mut count = 0;
    for _ in 0..2000 {
        let texts = random.pick(&[1, 1, 2, 2, 3, 3, 4, 5, 6, 31, 32]);
        count += lose_each(&joined(&good_texts(&mut random, texts)), &mut found)?;
    }
    let longest = brute::text_of(&Table::new(1_000_000, 1_000_000, &[16_777_215; 64]));
    count += lose_each(&joined(&[Part::new(32, &longest)]), &mut found)?;
    same("lost byte 10", found, BTreeSet::from(LOST))?;
    Ok(count)
}
