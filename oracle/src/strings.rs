//! Every string of up to three bytes behind the tag or a header: counts and digests.

use crate::planfile::read_plan;

/// What stands before the strings: the tag alone; the tag and a header of one row, with size 2
/// and a period of 10 or of 300; the tag and three bytes of a number, which a fourth can make too
/// long.
pub const PREFIXES: [(&str, &[u8]); 4] = [
    ("tag", b"PMA\x01"),
    ("ten", b"PMA\x01\x0A\x02\x01"),
    ("threehundred", b"PMA\x01\xAC\x02\x02\x01"),
    ("number", b"PMA\x01\x80\x80\x80"),
];

/// The longest strings.
pub const LONGEST: usize = 3;

/// The answers that are counted; 0 is a file read.
const NUMBERS: [u64; 13] = [0, 5, 6, 7, 8, 11, 16, 17, 18, 19, 20, 21, 22];

/// FNV-1a, 64 bits, fed with whole numbers.
struct Digest(u64);

impl Digest {
    fn feed(&mut self, number: u64) {
        self.0 = (self.0 ^ number).wrapping_mul(0x0000_0100_0000_01b3);
    }
}

/// Hands on each file of the prefix and a string of this length, the last byte quickest, and
/// gives how many these are.
pub fn each_file(
    prefix: &[u8],
    length: usize,
    mut call: impl FnMut(&[u8]) -> Result<(), String>,
) -> Result<u64, String> {
    let mut file = [prefix, &vec![0; length]].concat();
    let count = 1u64 << (8 * length);
    for index in 0..count {
        file[prefix.len()..].copy_from_slice(&index.to_be_bytes()[8 - length..]);
        call(&file)?;
    }
    Ok(count)
}

/// number place period size rows, then the lists of delays and of offsets, which were lent as
/// (7, 8) and (9, 10).
pub fn answer(file: &[u8]) -> [u64; 9] {
    let (mut delays, mut offsets) = ([7, 8], [9, 10]);
    let head = match read_plan(file, &mut delays, &mut offsets) {
        Ok(read) => [0, 0, read.period, read.size, read.rows],
        Err(refusal) => [refusal.number, refusal.place, 0, 0, 0],
    };
    let [number, place, period, size, rows] = head;
    let ([delay, next_delay], [offset, next_offset]) = (delays, offsets);
    [number, place, period, size, rows, delay, next_delay, offset, next_offset]
}

/// One line: name, length, how many strings, how many of each answer, digest.
fn line(name: &str, prefix: &[u8], length: usize) -> Result<(u64, String), String> {
    let mut counts = [0u64; NUMBERS.len()];
    let mut digest = Digest(0xcbf2_9ce4_8422_2325);
    let count = each_file(prefix, length, |file| {
        let answer = answer(file);
        let known = NUMBERS.iter().position(|&number| number == answer[0]);
        counts[known.ok_or_else(|| format!("{file:?}: not expected: {answer:?}"))?] += 1;
        answer.iter().for_each(|&number| digest.feed(number));
        Ok(())
    })?;
    let counts: Vec<String> = counts.iter().map(u64::to_string).collect();
    Ok((count, format!("{name} {length} {count} {} {:016x}", counts.join(" "), digest.0)))
}

/// One line for each prefix and length, then the number of all strings.
pub fn print() -> Result<(), String> {
    let mut total = 0;
    for (name, prefix) in PREFIXES {
        for length in 0..=LONGEST {
            let (count, line) = line(name, prefix, length)?;
            println!("{line}");
            total += count;
        }
    }
    println!("total {total}");
    Ok(())
}
