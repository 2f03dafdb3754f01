//! The writer and the reader of the plan file (document 01; request One of document 02).

use crate::checker;
use crate::link::{refuse, Refusal, Table, MAX_DELAY, MAX_PERIOD, MAX_ROWS};
use crate::text::Read;
use std::ops::RangeInclusive;

/// "Bytes 50 4D 41 01 (hex), then the numbers period, size, n"
pub const TAG: [u8; 4] = [0x50, 0x4D, 0x41, 0x01];

/// Writes a clear plan to the front of the lent bytes and gives the file's length.
/// "it judges 5, 6, 8, 7, then 11 if there aren't as many offsets as rows, 17, 18, and last
/// 11 if the output buffer is too short"
pub fn write_plan(table: &Table, offsets: &[u64], output: &mut [u8]) -> Result<u64, Refusal> {
    checker::judge(table, offsets)?;
    checker::judge_clear(table, offsets)?;
    let file = plan_file(table, offsets);
    if output.len() < file.len() {
        return refuse(11, 0);
    }
    output[..file.len()].copy_from_slice(&file);
    Ok(file.len() as u64)
}

/// The bytes of a plan: the tag, "period, size, n, and for each row delay and offset".
pub fn plan_file(table: &Table, offsets: &[u64]) -> Vec<u8> {
    let mut file = TAG.to_vec();
    for number in plan_numbers(table, offsets) {
        file.extend(seven_bit_groups(number));
    }
    file
}

/// The numbers of a plan in the order of the file.
pub fn plan_numbers(table: &Table, offsets: &[u64]) -> Vec<u64> {
    let mut numbers = vec![table.period, table.size, table.rows() as u64];
    for (&delay, &offset) in table.delays.iter().zip(offsets) {
        numbers.push(delay);
        numbers.push(offset);
    }
    numbers
}

/// "A number goes in groups of seven bits, lowest group first; the top bit is set in each
/// byte but the last."
pub fn seven_bit_groups(mut number: u64) -> Vec<u8> {
    let mut bytes = Vec::new();
    while number >= 128 {
        bytes.push((number % 128) as u8 | 0x80);
        number /= 128;
    }
    bytes.push(number as u8);
    bytes
}

/// Reads a plan; the two lent lists are written last, when nothing is left to refuse.
pub fn read_plan(bytes: &[u8], delays: &mut [u64], offsets: &mut [u64]) -> Result<Read, Refusal> {
    judge_tag(bytes)?;
    let mut reader = Reader { bytes, next: TAG.len() };
    let (table, plan) = reader.plan()?;
    // "After the last number: 16 for bytes left over, then 18, then 11."; document 02: "22 left
    // over" in place of this 16
    if reader.next < bytes.len() {
        return refuse(22, reader.next);
    }
    checker::judge_clear(&table, &plan)?;
    let rows = table.rows();
    if delays.len() < rows || offsets.len() < rows {
        return refuse(11, 0);
    }
    delays[..rows].copy_from_slice(&table.delays);
    offsets[..rows].copy_from_slice(&plan);
    Ok(Read { period: table.period, size: table.size, rows: rows as u64 })
}

/// Document 02: "A short file whose bytes so far agree with the tag counts as cut." and "16
/// keeps the wrong tag; 19 cut". The place: "for the tag always 0".
fn judge_tag(bytes: &[u8]) -> Result<(), Refusal> {
    if bytes.iter().zip(&TAG).any(|(byte, right)| byte != right) {
        return refuse(16, 0);
    }
    if bytes.len() < TAG.len() {
        return refuse(19, 0);
    }
    Ok(())
}

/// "The file reader keeps the caller's bytes and its own place in them."
struct Reader<'a> {
    bytes: &'a [u8],
    next: usize,
}

impl Reader<'_> {
    /// "Each number is judged as it is read: 16, then its range (5, 6, 8, 7, 17)."; since
    /// document 02 its form is 19, 20 or 21 in place of 16.
    fn plan(&mut self) -> Result<(Table, Vec<u64>), Refusal> {
        let period = self.number_in(1..=MAX_PERIOD, 5)?;
        let size = self.number_in(1..=period, 6)?;
        let rows = self.number_in(1..=MAX_ROWS as u64, 8)?;
        let mut delays = Vec::new();
        let mut offsets = Vec::new();
        for _ in 0..rows {
            delays.push(self.number_in(0..=MAX_DELAY, 7)?);
            offsets.push(self.number_in(0..=period - 1, 17)?);
        }
        Ok((Table { period, size, delays }, offsets))
    }

    /// The next number, refused at its first byte: 19, 20 or 21 for its form, then its own
    /// refusal. Document 02: "Places stay as they are."
    fn number_in(&mut self, range: RangeInclusive<u64>, refusal: u64) -> Result<u64, Refusal> {
        let place = self.next;
        let (value, length) = match number(&self.bytes[place..]) {
            Ok(number) => number,
            Err(form) => return refuse(form, place),
        };
        self.next += length;
        if !range.contains(&value) {
            return refuse(refusal, place);
        }
        Ok(value)
    }
}

/// The number at the front of the bytes and how many bytes it has, or what is wrong with its
/// form: "No number has more than four bytes, and the last byte is zero only in the one-byte
/// form of 0."; document 02: "19 cut, 20 too long, 21 needless group".
fn number(bytes: &[u8]) -> Result<(u64, usize), u64> {
    let with_top_bit = bytes.iter().take(4).take_while(|&byte| byte & 0x80 != 0).count();
    // "bytes end inside .. a number of fewer than four bytes so far"
    if with_top_bit < 4 && with_top_bit == bytes.len() {
        return Err(19);
    }
    // "a fourth byte with its top bit set"
    if with_top_bit == 4 {
        return Err(20);
    }
    // "number with a needless zero group"
    let last = with_top_bit;
    if bytes[last] == 0 && last > 0 {
        return Err(21);
    }
    let groups = bytes[..=last].iter().rev();
    let value = groups.fold(0, |value, byte| 128 * value + u64::from(byte & 0x7F));
    Ok((value, last + 1))
}
