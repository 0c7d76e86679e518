// The line format of docs/REPLAY.md: input lines, and answers to the byte.

pub const NOT_DIGITS: &str = "! not 34 lower-case hexadecimal digits\n";
pub const NO_OPERATION: &str = "! no such operation\n";
pub const OUT_OF_REACH: &str = "! out of reach\n";

const DIGITS: &[u8; 16] = b"0123456789abcdef";

fn digits<const W: usize>(out: &mut Vec<u8>, x: u64) {
    let mut text = [0; W];
    for (k, place) in text.iter_mut().enumerate() {
        *place = DIGITS[(x >> (4 * (W - 1 - k)) & 15) as usize];
    }
    out.extend_from_slice(&text);
}

// An input line without its LF.
pub fn line(out: &mut Vec<u8>, code: u8, a: u64, b: u64) {
    digits::<2>(out, code as u64);
    digits::<16>(out, a);
    digits::<16>(out, b);
}

// Operation and numbers of a line, if it is 34 lower-case hexadecimal digits.
pub fn parse(line: &[u8]) -> Option<(u8, u64, u64)> {
    if line.len() != 34 {
        return None;
    }
    let number = |part: &[u8]| {
        part.iter().try_fold(0u64, |sum, byte| {
            let digit = DIGITS.iter().position(|d| d == byte)?;
            Some(sum << 4 | digit as u64)
        })
    };
    Some((number(&line[..2])? as u8, number(&line[2..18])?, number(&line[18..])?))
}

// The first line of an answer; `rest` is head and length of both containers, front and back, `slot` what the call reports, and `totals` of both containers.
pub fn answer(out: &mut Vec<u8>, number: u8, value: u32, moves: u64, rest: [u64; 6], slot: u64, totals: [u64; 2]) {
    digits::<2>(out, number as u64);
    out.push(b' ');
    digits::<8>(out, value as u64);
    out.push(b' ');
    digits::<16>(out, moves);
    for x in rest {
        out.push(b' ');
        digits::<16>(out, x);
    }
    out.push(b' ');
    digits::<4>(out, slot);
    for total in totals {
        out.push(b' ');
        digits::<16>(out, total);
    }
    out.push(b'\n');
}

// A line for each slot, or for each entry that stood in a part.
pub fn entries(out: &mut Vec<u8>, slots: &[u32]) {
    for x in slots {
        digits::<8>(out, *x as u64);
        out.push(b'\n');
    }
}

pub fn text(out: &mut Vec<u8>, text: &[u8]) {
    out.extend_from_slice(text);
    out.push(b'\n');
}
