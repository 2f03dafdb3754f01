//! How often each kind of case ends in each refusal or verdict.

use crate::cases::{joined, Case, KINDS};
use crate::joined::{plan_texts, FIELDS};
use crate::link::{Table, CROSSINGS};
use crate::oneslot::{enough, place_all};
use crate::planner::Planner;
use std::collections::BTreeMap;

/// The outcomes of a quick planner; at the bound of request Three's promise and above there is no 13.
const QUICK: &[&str] = &[
    "plan",
    "plan at bound",
    "plan below bound",
    "5",
    "6",
    "8",
    "7",
    "11",
    "13",
    "13 below bound",
];

/// The outcomes that each kind can have; the kinds are those of `KINDS`.
const POSSIBLE: [&[&str]; 13] = [
    &["clear", "crossing 1", "crossing 2", "5", "6", "8", "7", "11", "17"],
    QUICK,
    QUICK,
    &["plan", "5", "6", "8", "7", "11", "12", "14", "15"],
    &["read", "1", "2", "3", "4", "5", "6", "7", "8", "9", "10", "11"],
    &["written", "5", "6", "8", "7", "11 offsets", "17", "18", "11 output"],
    &["read", "16", "19 tag", "19 number", "20", "21", "5", "6", "8", "7", "17", "22", "18", "11"],
    &["joined both", "joined 1", "joined 2", "apart", "5", "6", "8", "7", "11", "17", "18"],
    &["value", "0"],
    &["clear", "crossing 1", "crossing 2", "5", "6", "8", "7", "17"],
    &["found", "none", "1", "2", "3", "4", "5", "6", "7", "8", "9", "10", "12"],
    JOINED,
    ONE_SLOT,
];

/// The outcomes of joined texts: what stopped the run (`all` where nothing did), how many texts were
/// answered, and the number of each answer.
const JOINED: &[&str] = &[
    "all",
    "23",
    "11",
    "24",
    "1",
    "2",
    "3",
    "4",
    "5",
    "6",
    "7",
    "8",
    "9",
    "texts 0",
    "texts 1-31",
    "texts 32",
    "answer 0",
    "answer 12",
    "answer 14",
    "answer 15",
];

/// The outcomes of one-slot messages: how many moves a plan took, and whether a refused table has more
/// slots than rows. From 2n-1 slots on there is neither a move nor a 13.
const ONE_SLOT: &[&str] = &[
    "plan",
    "plan at bound",
    "1 move",
    "2-5 moves",
    "more moves",
    "5",
    "6",
    "8",
    "7",
    "11",
    "25",
    "13",
    "13 P above n",
];

/// One line a kind: every possible outcome with its count, `MISSING` where there is none.
pub fn table(cases: &[Case]) -> String {
    let mut counts: BTreeMap<(usize, String), u64> = BTreeMap::new();
    for case in cases {
        for outcome in outcomes(case) {
            *counts.entry((case.kind(), outcome)).or_default() += 1;
        }
    }
    let mut lines = format!("{} cases\n", cases.len());
    for (index, possible) in POSSIBLE.iter().enumerate() {
        let mut line = format!("{:2} {:13}", index + 1, KINDS[index]);
        for name in *possible {
            match counts.remove(&(index + 1, name.to_string())) {
                Some(count) => line += &format!(" | {name}: {count}"),
                None => line += &format!(" | {name}: MISSING"),
            }
        }
        lines += &(line + "\n");
    }
    for ((kind, name), count) in counts {
        lines += &format!("not expected: kind {kind} outcome {name}: {count}\n");
    }
    lines
}

/// A case has one outcome, but joined texts have several.
fn outcomes(case: &Case) -> Vec<String> {
    let Case::PlanTexts { budget, parts, answers, offsets } = case else {
        return vec![outcome(case)];
    };
    let (mut given, mut plans) = (answers.numbers(), offsets.numbers());
    let run = plan_texts(&joined(parts), *budget, &mut given, &mut plans);
    let stop = run.refusal.map_or("all".to_string(), |refusal| refusal.number.to_string());
    let texts = match run.texts {
        0 => "texts 0",
        32 => "texts 32",
        _ => "texts 1-31",
    };
    let numbers = given.chunks(FIELDS).take(run.texts as usize).map(|answer| answer[0]);
    let numbers = numbers.map(|number| format!("answer {number}"));
    [stop, texts.to_string()].into_iter().chain(numbers).collect()
}

fn outcome(case: &Case) -> String {
    let answer = case.answer();
    match case {
        Case::Program { .. } => program_outcome(&answer[1..]),
        Case::Ceiling { .. } if answer[0] > 0 => "value".to_string(),
        Case::WritePlan { table, offsets, .. } if answer[0] == 11 => {
            let unequal = table.rows() != offsets.len();
            if unequal { "11 offsets" } else { "11 output" }.to_string()
        }
        // "for the tag always 0": a number is never cut there
        Case::ReadPlan { .. } if answer[0] == 19 => {
            if answer[1] == 0 { "19 tag" } else { "19 number" }.to_string()
        }
        Case::FirstFit { table, .. } if [0, 13].contains(&answer[0]) => {
            quick_outcome(Planner::FirstFit, table, answer[0])
        }
        Case::MetaOffset { table, .. } if [0, 13].contains(&answer[0]) => {
            quick_outcome(Planner::MetaOffset, table, answer[0])
        }
        Case::OneSlot { table, .. } if [0, 13].contains(&answer[0]) => {
            one_slot_outcome(table).to_string()
        }
        _ if answer[0] > 0 => answer[0].to_string(),
        Case::Check { .. } | Case::CheckRecords { .. } => match answer[4] {
            0 => "clear".to_string(),
            crossing => format!("crossing {crossing}"),
        },
        Case::ReadTable { .. } | Case::ReadPlan { .. } => "read".to_string(),
        Case::WritePlan { .. } => "written".to_string(),
        Case::Report { table, offsets } => report_outcome(table, offsets).to_string(),
        Case::Ceiling { .. } => "0".to_string(),
        _ => "plan".to_string(),
    }
}

/// A plan or a 13, and whether the planner looks at just as many offsets as the promise asks for or
/// at one less.
fn quick_outcome(planner: Planner, table: &Table, number: u64) -> String {
    let name = if number == 0 { "plan" } else { "13" };
    let count = planner.looks_at(table.period, table.size);
    let enough = planner.enough(table.rows() as u64, table.size);
    match number {
        _ if count == enough => format!("{name} at bound"),
        _ if count + 1 == enough => format!("{name} below bound"),
        13 if count > enough => format!("{name} above bound"),
        _ => name.to_string(),
    }
}

fn one_slot_outcome(table: &Table) -> &'static str {
    let (rows, period) = (table.rows() as u64, table.period);
    let moves = place_all(table).map(|placed| placed.moves.len());
    match moves {
        Ok(0) if period == enough(rows) => "plan at bound",
        Ok(0) => "plan",
        Ok(_) if period >= enough(rows) => "move at bound",
        Ok(1) => "1 move",
        Ok(2..=5) => "2-5 moves",
        Ok(_) => "more moves",
        Err(_) if period >= enough(rows) => "13 at bound",
        Err(_) if period > rows => "13 P above n",
        Err(_) => "13",
    }
}

/// "a run at the end and a run at the start are one stretch": in which crossings is it so?
fn report_outcome(table: &Table, offsets: &[u64]) -> &'static str {
    let joined = CROSSINGS.map(|crossing| {
        [0, table.period - 1].iter().all(|&slot| free(table, offsets, crossing, slot))
    });
    match joined {
        [true, true] => "joined both",
        [true, false] => "joined 1",
        [false, true] => "joined 2",
        [false, false] => "apart",
    }
}

/// Is the slot none of the T slots from any row's start?
fn free(table: &Table, offsets: &[u64], crossing: u64, slot: u64) -> bool {
    let from_start = |(row, &offset): (usize, &u64)| {
        (slot + table.period - table.start(crossing, row, offset)) % table.period
    };
    offsets.iter().enumerate().all(|row| from_start(row) >= table.size)
}

/// The first word that the program prints, or its refusal number.
fn program_outcome(output: &[u64]) -> String {
    let text: String = output.iter().map(|&byte| char::from(byte as u8)).collect();
    let words: Vec<&str> = text.split_whitespace().collect();
    if words[0] == "refused" { words[1] } else { words[0] }.to_string()
}
