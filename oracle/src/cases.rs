//! Cases: one call of one entry point, its line of numbers, and its answer.

use crate::checker::{check, check_records, Record, Verdict};
use crate::exact::{ceiling, exact};
use crate::joined::plan_texts;
use crate::link::{Refusal, Table};
use crate::oneslot::one_slot;
use crate::planfile::{read_plan, write_plan};
use crate::program;
use crate::quick::{first_fit, meta_offset};
use crate::report::report;
use crate::text::{read_table, Read};

/// A lent output buffer: `length` elements, element i being `first` + i.
#[derive(Clone, Copy, Debug, PartialEq, Eq)]
pub struct Lent {
    pub length: usize,
    pub first: u64,
}

impl Lent {
    pub fn new(length: usize, first: u64) -> Lent {
        Lent { length, first }
    }

    pub fn numbers(&self) -> Vec<u64> {
        (0..self.length as u64).map(|i| self.first + i).collect()
    }

    pub fn bytes(&self) -> Vec<u8> {
        (0..self.length as u64).map(|i| ((self.first + i) % 256) as u8).collect()
    }
}

/// A part of a joined input: its bytes, so many times over.
#[derive(Clone, Debug, PartialEq, Eq)]
pub struct Part {
    pub times: usize,
    pub bytes: Vec<u8>,
}

impl Part {
    pub fn new(times: usize, bytes: &[u8]) -> Part {
        Part { times, bytes: bytes.to_vec() }
    }
}

/// All parts, end to end.
pub fn joined(parts: &[Part]) -> Vec<u8> {
    parts.iter().flat_map(|part| part.bytes.repeat(part.times)).collect()
}

#[derive(Clone, Debug, PartialEq, Eq)]
pub enum Case {
    Check { table: Table, offsets: Vec<u64> },
    FirstFit { table: Table, lent: Lent },
    MetaOffset { table: Table, lent: Lent },
    Exact { table: Table, budget: u64, lent: Lent },
    ReadTable { text: Vec<u8>, lent: Lent },
    WritePlan { table: Table, offsets: Vec<u64>, lent: Lent },
    ReadPlan { file: Vec<u8>, delays: Lent, offsets: Lent },
    Report { table: Table, offsets: Vec<u64> },
    Ceiling { rows: u64 },
    CheckRecords { period: u64, size: u64, records: Vec<Record> },
    Program { input: Vec<u8> },
    PlanTexts { budget: u64, parts: Vec<Part>, answers: Lent, offsets: Lent },
    OneSlot { table: Table, lent: Lent },
}

/// The kinds by number; kind k has the name at k - 1.
pub const KINDS: [&str; 13] = [
    "check",
    "first_fit",
    "meta_offset",
    "exact",
    "read_table",
    "write_plan",
    "read_plan",
    "report",
    "ceiling",
    "check_records",
    "program",
    "plan_texts",
    "one_slot",
];

impl Case {
    pub fn kind(&self) -> usize {
        match self {
            Case::Check { .. } => 1,
            Case::FirstFit { .. } => 2,
            Case::MetaOffset { .. } => 3,
            Case::Exact { .. } => 4,
            Case::ReadTable { .. } => 5,
            Case::WritePlan { .. } => 6,
            Case::ReadPlan { .. } => 7,
            Case::Report { .. } => 8,
            Case::Ceiling { .. } => 9,
            Case::CheckRecords { .. } => 10,
            Case::Program { .. } => 11,
            Case::PlanTexts { .. } => 12,
            Case::OneSlot { .. } => 13,
        }
    }

    /// The numbers of the case's line.
    pub fn numbers(&self) -> Vec<u64> {
        let mut line = Line(vec![self.kind() as u64]);
        match self {
            Case::Check { table, offsets } | Case::Report { table, offsets } => {
                line.one(table.period).one(table.size).list(&table.delays).list(offsets)
            }
            Case::FirstFit { table, lent }
            | Case::MetaOffset { table, lent }
            | Case::OneSlot { table, lent } => {
                line.one(table.period).one(table.size).list(&table.delays).lent(lent)
            }
            Case::Exact { table, budget, lent } => {
                let line = line.one(table.period).one(table.size).one(*budget);
                line.list(&table.delays).lent(lent)
            }
            Case::ReadTable { text, lent } => line.bytes(text).lent(lent),
            Case::WritePlan { table, offsets, lent } => {
                let line = line.one(table.period).one(table.size);
                line.list(&table.delays).list(offsets).lent(lent)
            }
            Case::ReadPlan { file, delays, offsets } => line.bytes(file).lent(delays).lent(offsets),
            Case::Ceiling { rows } => line.one(*rows),
            Case::CheckRecords { period, size, records } => {
                line.one(*period).one(*size).one(records.len() as u64);
                for record in records {
                    line.one(record.delay).one(record.offset);
                }
                &mut line
            }
            Case::Program { input } => line.bytes(input),
            Case::PlanTexts { budget, parts, answers, offsets } => {
                line.one(*budget).one(parts.len() as u64);
                for part in parts {
                    line.one(part.times as u64).bytes(&part.bytes);
                }
                line.lent(answers).lent(offsets)
            }
        };
        line.0
    }

    /// The case of a line of numbers, if the line is one.
    pub fn from_numbers(numbers: &[u64]) -> Option<Case> {
        let mut rest = Rest(numbers);
        let case = match rest.one()? {
            1 => Case::Check { table: rest.table()?, offsets: rest.list()? },
            2 => Case::FirstFit { table: rest.table()?, lent: rest.lent()? },
            3 => Case::MetaOffset { table: rest.table()?, lent: rest.lent()? },
            4 => {
                let (period, size, budget) = (rest.one()?, rest.one()?, rest.one()?);
                let table = Table { period, size, delays: rest.list()? };
                Case::Exact { table, budget, lent: rest.lent()? }
            }
            5 => Case::ReadTable { text: rest.bytes()?, lent: rest.lent()? },
            6 => {
                let (table, offsets) = (rest.table()?, rest.list()?);
                Case::WritePlan { table, offsets, lent: rest.lent()? }
            }
            7 => {
                let (file, delays) = (rest.bytes()?, rest.lent()?);
                Case::ReadPlan { file, delays, offsets: rest.lent()? }
            }
            8 => Case::Report { table: rest.table()?, offsets: rest.list()? },
            9 => Case::Ceiling { rows: rest.one()? },
            10 => {
                let (period, size) = (rest.one()?, rest.one()?);
                Case::CheckRecords { period, size, records: rest.records()? }
            }
            11 => Case::Program { input: rest.bytes()? },
            12 => {
                let (budget, parts, answers) = (rest.one()?, rest.parts()?, rest.lent()?);
                Case::PlanTexts { budget, parts, answers, offsets: rest.lent()? }
            }
            13 => Case::OneSlot { table: rest.table()?, lent: rest.lent()? },
            _ => return None,
        };
        rest.0.is_empty().then_some(case)
    }

    /// The expected answer, as numbers.
    pub fn answer(&self) -> Vec<u64> {
        match self {
            Case::Check { table, offsets } => verdict(check(table, offsets)),
            Case::FirstFit { table, lent } => {
                let mut list = lent.numbers();
                let answer = first_fit(table, &mut list);
                [refusal(answer.err()), list].concat()
            }
            Case::MetaOffset { table, lent } => {
                let mut list = lent.numbers();
                let answer = meta_offset(table, &mut list);
                [refusal(answer.err()), list].concat()
            }
            Case::Exact { table, budget, lent } => {
                let mut list = lent.numbers();
                let answer = exact(table, *budget, &mut list);
                [refusal(answer.refusal), vec![answer.tests], list].concat()
            }
            Case::ReadTable { text, lent } => {
                let mut list = lent.numbers();
                [read(read_table(text, &mut list)), list].concat()
            }
            Case::WritePlan { table, offsets, lent } => {
                let mut output = lent.bytes();
                let answer = write_plan(table, offsets, &mut output);
                let length = answer.unwrap_or(0);
                [refusal(answer.err()), vec![length], widened(&output)].concat()
            }
            Case::ReadPlan { file, delays, offsets } => {
                let (mut delays, mut offsets) = (delays.numbers(), offsets.numbers());
                [read(read_plan(file, &mut delays, &mut offsets)), delays, offsets].concat()
            }
            Case::Report { table, offsets } => stretches(table, offsets),
            Case::Ceiling { rows } => vec![ceiling(*rows)],
            Case::CheckRecords { period, size, records } => {
                verdict(check_records(*period, *size, records))
            }
            Case::Program { input } => counted(&program::run(input)),
            Case::PlanTexts { budget, parts, answers, offsets } => {
                planned(*budget, &joined(parts), answers, offsets)
            }
            Case::OneSlot { table, lent } => {
                let mut list = lent.numbers();
                let answer = one_slot(table, &mut list);
                [refusal(answer.err()), list].concat()
            }
        }
    }
}

/// Number and place, 0 and 0 where nothing is refused.
fn refusal(refusal: Option<Refusal>) -> Vec<u64> {
    match refusal {
        Some(refusal) => vec![refusal.number, refusal.place],
        None => vec![0, 0],
    }
}

/// number place earlier later crossing; "Fields of an answer that don't apply are 0"
fn verdict(verdict: Verdict) -> Vec<u64> {
    match verdict {
        Verdict::Clear => vec![0; 5],
        Verdict::Collision(named) => {
            vec![0, 0, named.earlier as u64, named.later as u64, named.crossing]
        }
        Verdict::Refused(refusal) => vec![refusal.number, refusal.place, 0, 0, 0],
    }
}

/// number place period size rows
fn read(answer: Result<Read, Refusal>) -> Vec<u64> {
    match answer {
        Ok(read) => vec![0, 0, read.period, read.size, read.rows],
        Err(refusal) => vec![refusal.number, refusal.place, 0, 0, 0],
    }
}

/// number place, then free, stretches and widest of each crossing
fn stretches(table: &Table, offsets: &[u64]) -> Vec<u64> {
    match report(table, offsets) {
        Ok(crossings) => {
            let fields = crossings.iter().flat_map(|one| [one.free, one.stretches, one.widest]);
            [0, 0].into_iter().chain(fields).collect()
        }
        Err(refusal) => vec![refusal.number, refusal.place, 0, 0, 0, 0, 0, 0],
    }
}

/// number place texts, then what changed in the lists of answers and of offsets
fn planned(budget: u64, input: &[u8], answers: &Lent, offsets: &Lent) -> Vec<u64> {
    let (mut given, mut plans) = (answers.numbers(), offsets.numbers());
    let run = plan_texts(input, budget, &mut given, &mut plans);
    let stop = [refusal(run.refusal), vec![run.texts]].concat();
    [stop, changed(answers, &given), changed(offsets, &plans)].concat()
}

/// How many elements are no longer those that were lent, then of each its index and its value.
fn changed(lent: &Lent, list: &[u64]) -> Vec<u64> {
    let pairs = (0..).zip(list).filter(|&(index, &value)| value != lent.first + index);
    let pairs: Vec<u64> = pairs.flat_map(|(index, &value)| [index, value]).collect();
    [vec![pairs.len() as u64 / 2], pairs].concat()
}

fn widened(bytes: &[u8]) -> Vec<u64> {
    bytes.iter().map(|&byte| u64::from(byte)).collect()
}

/// A list of bytes: its length, then its elements.
pub fn counted(bytes: &[u8]) -> Vec<u64> {
    [vec![bytes.len() as u64], widened(bytes)].concat()
}

/// A line of numbers as text, without its byte 10.
pub fn line_text(numbers: &[u64]) -> String {
    let words: Vec<String> = numbers.iter().map(u64::to_string).collect();
    words.join(" ")
}

/// The numbers of a line of text.
pub fn line_numbers(line: &str) -> Option<Vec<u64>> {
    line.split(' ').map(|word| word.parse().ok()).collect()
}

/// A line that is being written.
struct Line(Vec<u64>);

impl Line {
    fn one(&mut self, number: u64) -> &mut Line {
        self.0.push(number);
        self
    }

    fn list(&mut self, list: &[u64]) -> &mut Line {
        self.one(list.len() as u64);
        self.0.extend(list);
        self
    }

    fn bytes(&mut self, bytes: &[u8]) -> &mut Line {
        self.0.extend(counted(bytes));
        self
    }

    fn lent(&mut self, lent: &Lent) -> &mut Line {
        self.one(lent.length as u64).one(lent.first)
    }
}

/// The rest of a line that is being read.
struct Rest<'a>(&'a [u64]);

impl Rest<'_> {
    fn one(&mut self) -> Option<u64> {
        let (first, rest) = self.0.split_first()?;
        self.0 = rest;
        Some(*first)
    }

    fn list(&mut self) -> Option<Vec<u64>> {
        let length = self.one()?;
        (0..length).map(|_| self.one()).collect()
    }

    fn bytes(&mut self) -> Option<Vec<u8>> {
        self.list()?.into_iter().map(|number| u8::try_from(number).ok()).collect()
    }

    fn lent(&mut self) -> Option<Lent> {
        Some(Lent { length: self.one()? as usize, first: self.one()? })
    }

    fn table(&mut self) -> Option<Table> {
        Some(Table { period: self.one()?, size: self.one()?, delays: self.list()? })
    }

    fn parts(&mut self) -> Option<Vec<Part>> {
        let length = self.one()?;
        (0..length)
            .map(|_| Some(Part { times: self.one()? as usize, bytes: self.bytes()? }))
            .collect()
    }

    fn records(&mut self) -> Option<Vec<Record>> {
        let length = self.one()?;
        (0..length).map(|_| Some(Record { delay: self.one()?, offset: self.one()? })).collect()
    }
}
