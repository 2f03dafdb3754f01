//! The text table.

use crate::link::{refuse, Refusal, Table, MAX_DELAY, MAX_PERIOD, MAX_ROWS};

pub const MAX_TEXT: usize = 1024;
const LINE_ONE: &[u8] = b"pma 1";
const END: &[u8] = b"end ";
const NEWLINE: u8 = 10;

/// What a reader says of the table it read; the delays go to the lent list.
#[derive(Clone, Copy, Debug, PartialEq, Eq)]
pub struct Read {
    pub period: u64,
    pub size: u64,
    pub rows: u64,
}

/// Reads a text; the delays are written last, when nothing is left to refuse.
pub fn read_table(text: &[u8], list: &mut [u64]) -> Result<Read, Refusal> {
    // "A text above 1,024 bytes is refused with 1."
    if text.len() > MAX_TEXT {
        return refuse(1, 0);
    }
    let (table, end) = judge_lines(text)?;
    // "then 10 if bytes follow"; "for 10 the first byte after the last line"
    if end < text.len() {
        return refuse(10, end);
    }
    // "Last of all, 11."
    if list.len() < table.rows() {
        return refuse(11, 0);
    }
    list[..table.rows()].copy_from_slice(&table.delays);
    Ok(Read { period: table.period, size: table.size, rows: table.rows() as u64 })
}

/// "Then lines are judged from the start, the first fault deciding." Gives the table and the first
/// byte after its `end` line; what stands there is not looked at.
pub fn judge_lines(text: &[u8]) -> Result<(Table, usize), Refusal> {
    let mut lines = Lines { text, next: 0 };
    let (place, line) = lines.next_line()?;
    if line != LINE_ONE {
        return refuse(2, place);
    }
    let (place, line) = lines.next_line()?;
    let (period, size) = line_two(line, place)?;
    let delays = row_lines(&mut lines)?;
    Ok((Table { period, size, delays }, lines.next))
}

struct Lines<'a> {
    text: &'a [u8],
    next: usize,
}

impl<'a> Lines<'a> {
    /// The next line without its byte 10, and the place of its first byte.
    /// "Each line: if no byte 10 remains, 3 (so empty input gives 3)."
    fn next_line(&mut self) -> Result<(usize, &'a [u8]), Refusal> {
        let place = self.next;
        let rest = &self.text[place..];
        match rest.iter().position(|&byte| byte == NEWLINE) {
            None => refuse(3, place),
            Some(length) => {
                self.next = place + length + 1;
                Ok((place, &rest[..length]))
            }
        }
    }
}

/// "Line two is period, one space, size." and "Line two: 4, then 5, then 6."
fn line_two(line: &[u8], place: usize) -> Result<(u64, u64), Refusal> {
    let words: Vec<&[u8]> = line.split(|&byte| byte == b' ').collect();
    if words.len() != 2 {
        return refuse(4, place);
    }
    let (Some(period), Some(size)) = (number(words[0]), number(words[1])) else {
        return refuse(4, place);
    };
    if !(1..=MAX_PERIOD).contains(&period) {
        return refuse(5, place);
    }
    if !(1..=period).contains(&size) {
        return refuse(6, place);
    }
    Ok((period, size))
}

/// The lines after line two, the `end` line included.
fn row_lines(lines: &mut Lines) -> Result<Vec<u64>, Refusal> {
    let mut delays = Vec::new();
    loop {
        let (place, line) = lines.next_line()?;
        if let Some(count) = line.strip_prefix(END) {
            end_line(count, delays.len(), place)?;
            return Ok(delays);
        }
        delays.push(delay_line(line, delays.len(), place)?);
    }
}

/// "A line that begins with `end` and a space: 4, then 8 if no row came, then 9"
fn end_line(count: &[u8], rows: usize, place: usize) -> Result<(), Refusal> {
    let Some(count) = number(count) else {
        return refuse(4, place);
    };
    if rows == 0 {
        return refuse(8, place);
    }
    if count != rows as u64 {
        return refuse(9, place);
    }
    Ok(())
}

/// "Any other line: 4, then 7, then 8 if 64 rows came already."
fn delay_line(line: &[u8], rows: usize, place: usize) -> Result<u64, Refusal> {
    let Some(delay) = number(line) else {
        return refuse(4, place);
    };
    if delay > MAX_DELAY {
        return refuse(7, place);
    }
    if rows == MAX_ROWS {
        return refuse(8, place);
    }
    Ok(delay)
}

/// "Numbers are decimal, 1 to 8 digits, with no leading zero but `0` itself."
fn number(word: &[u8]) -> Option<u64> {
    let digits = word.iter().all(|byte| byte.is_ascii_digit());
    if !digits || !(1..=8).contains(&word.len()) {
        return None;
    }
    if word.len() > 1 && word[0] == b'0' {
        return None;
    }
    Some(word.iter().fold(0, |value, digit| 10 * value + u64::from(digit - b'0')))
}
