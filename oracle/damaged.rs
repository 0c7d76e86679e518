// Lines that can't be taken: too short, too long, other bytes, no operation, numbers out of reach.
use crate::format;
use crate::ops;
use crate::pen::Pen;
use crate::rng::Rng;

fn is_operation(code: u8) -> bool {
    ops::find(code).is_some() || ops::PLACING.contains(&code)
}

fn good(rng: &mut Rng) -> Vec<u8> {
    let code = if rng.one_in(4) { 1 + rng.below(11) as u8 } else { rng.pick(&ops::OPS.each_ref()).code };
    written(code, rng.next(), rng.next())
}

fn written(code: u8, a: u64, b: u64) -> Vec<u8> {
    let mut line = Vec::new();
    format::line(&mut line, code, a, b);
    line
}

// Each kind of damage once, every byte at the first and the last digit, every code that is no operation, every length up to 70.
pub fn each(pen: &mut Pen) {
    for length in 0..=70 {
        pen.raw(&vec![b'0'; length], true);
    }
    for at in [0, 1, 33] {
        for byte in (0..=255).filter(|&byte| byte != b'\n') {
            let mut line = vec![b'1'; 34];
            line[at] = byte;
            pen.raw(&line, true);
        }
    }
    for code in (0..=255).filter(|&code| !is_operation(code)) {
        pen.line(code, 0, 0);
    }
    pen.raw(b"12000000000000000000000000000000ab\r", true);
    reach(pen);
    totals(pen);
    text(pen);
}

// Any total can be placed, and it stays when a line that would place another can't be taken; a call then shows both.
fn totals(pen: &mut Pen) {
    for code in [0x08, 0x09] {
        for a in [0x1e, 1 << 32, 1 << 63, u64::MAX] {
            pen.line(code, a, !a);
            let line = written(code, !a, a);
            pen.raw(&line[..33], true);
            pen.raw(&[&line[..], b"0"].concat(), true);
            pen.raw(&[&line[..33], b"F"].concat(), true);
            pen.line(0x12, 0, 0);
        }
    }
}

// The text stays too. Where it changed, the check that comes after would no longer say yes.
fn text(pen: &mut Pen) {
    let text = b"0000000100000001\n00000006\n";
    pen.set_text(text);
    for (code, a, b) in [(0x0a, 25, 0), (0x0b, 0, 0x31), (0x80, 3, 0)] {
        let line = written(code, a, b);
        pen.raw(&line[..33], true);
        pen.raw(&[&line[..], b"0"].concat(), true);
        pen.raw(&[&line[..33], b"F"].concat(), true);
        pen.line(0x84, 0, 0);
    }
    let size = text.len() as u64;
    for (code, a, b) in [(0x0a, 40_001, 0), (0x0a, (1 << 32) + 25, 0), (0x0b, size, 0x31), (0x0b, 0, 0x131), (0x0b, 1 << 32, 0x31), (0x0b, 0, (1 << 32) + 0x31), (0x81, 40_001, 0)] {
        pen.line(code, a, b);
        pen.line(0x84, 0, 0);
    }
}

// One above each bound, and the bound itself.
pub fn reach(pen: &mut Pen) {
    let entry = u32::MAX as u64;
    for code in [0x01, 0x04] {
        for a in [4201, 1 << 32, u64::MAX, 3] {
            pen.line(code, a, 0);
        }
    }
    for code in [0x03, 0x06] {
        for (a, b) in [(3, 0), (2, entry + 1), (u64::MAX, 0), (0, u64::MAX), (2, entry)] {
            pen.line(code, a, b);
        }
    }
    for op in ops::OPS.iter().filter(|op| ops::has_entry(op.act)) {
        for b in [entry + 1, entry + 2, u64::MAX, entry] {
            pen.line(op.code, 0, b);
        }
    }
    for a in [4, 1 << 32, u64::MAX, 3] {
        pen.line(0x2f, a, 0);
    }
    for code in [0x80, 0x81, 0x0a] {
        for a in [40_001, 1 << 32, u64::MAX, 44] {
            pen.line(code, a, 0);
        }
    }
    for (a, b) in [(44, 0), (43, 256), (u64::MAX, 0), (0, u64::MAX), (43, 255)] {
        pen.line(0x0b, a, b);
    }
}

// Lines far longer than any that is taken.
pub fn long(pen: &mut Pen, lengths: &[usize]) {
    for &length in lengths {
        pen.raw(&vec![b'1'; length], true);
        pen.line(0x12, 0, 0);
    }
}

// Some damage of a good line.
pub fn some(pen: &mut Pen, rng: &mut Rng) {
    let mut line = good(rng);
    let at = rng.below(34) as usize;
    match rng.below(9) {
        0 => line.truncate(at),
        1 => line.insert(at, b'0'),
        2 => line[at] = rng.pick(b"ABCDEF"),
        3 => line[at] = rng.pick(b"/:`g@G \0\r\t\x7f\xff-+x"),
        4 => line.push(b'\r'),
        5 => line.extend(good(rng)),
        6 => line.extend(vec![b'a'; rng.below(300) as usize]),
        7 => line = format!("{:02x}{:032x}", rng.below(256), rng.below(6000)).into_bytes(),
        _ => line = b"# a line of words".to_vec(),
    }
    pen.raw(&line, true);
}
