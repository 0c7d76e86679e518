// Wrong rules of which text stands on the desk, each of which a program might follow: the fixed list must notice them all. The text is only seen by what a later
// reading or check makes of it, so a rule is held against the right one from line to line.
use crate::desk::{Desk, Taken};
use crate::format;

// A line that was taken: its operation, its first number, what it was answered, and the text before it.
struct Seen<'a> {
    code: u8,
    a: u64,
    number: u8,
    value: u32,
    before: &'a [u8],
}

impl Seen<'_> {
    fn writes(&self) -> bool {
        matches!(self.code, 0x80 | 0x81)
    }

    fn reads(&self) -> bool {
        matches!(self.code, 0x82 | 0x83)
    }
}

// When it differs from the right rule, and what it makes of the text then.
struct Rule {
    name: &'static str,
    when: fn(&Seen) -> bool,
    leaves: fn(&Seen, &mut Vec<u8>),
}

const fn rule(name: &'static str, when: fn(&Seen) -> bool, leaves: fn(&Seen, &mut Vec<u8>)) -> Rule {
    Rule { name, when, leaves }
}

const RIGHT: Rule = rule("the right one", |_| true, |_, _| {});

const RULES: [Rule; 12] = [
    rule("a length placed empties the text", |s| s.code == 0x0a, |_, text| text.fill(b'-')),
    rule("a longer text ends in LF", |s| s.code == 0x0a && s.a as usize > s.before.len(), |_, text| *text.last_mut().unwrap() = b'\n'),
    rule("a length placed keeps the longer one", |s| s.code == 0x0a && (s.a as usize) < s.before.len(), |s, text| *text = s.before.to_vec()),
    rule("bytes placed are not kept", |s| s.code == 0x0b, |s, text| *text = s.before.to_vec()),
    rule("what is written is not kept", |s| s.writes(), |s, text| *text = s.before.to_vec()),
    rule("a refused writer leaves the text", |s| s.writes() && s.number != 0, |s, text| *text = s.before.to_vec()),
    rule("a writer leaves what it wrote and no more", |s| s.writes() && s.number == 0, |s, text| text.truncate(s.value as usize)),
    rule("a done reading uses the text up", |s| s.reads() && s.number == 0, |_, text| text.clear()),
    rule("a refused reading uses the text up", |s| s.reads() && s.number != 0, |_, text| text.clear()),
    rule("a check uses the text up", |s| s.code == 0x84, |_, text| text.clear()),
    rule("slots placed empty the text", |s| s.code == 0x01, |_, text| text.clear()),
    rule("a call on the container empties the text", |s| matches!(s.code, 0x10..=0x7f), |_, text| text.clear()),
];

// How many wrong rules there are; it is an error if one passes on these lines.
pub fn noticed(input: &[u8]) -> Result<usize, String> {
    if differs(&RIGHT, input) {
        return Err("the right rule of the text on the desk differs from itself".to_string());
    }
    match RULES.iter().find(|rule| !differs(rule, input)) {
        Some(rule) => Err(format!("the fixed list doesn't notice a wrong rule of the text on the desk: {}", rule.name)),
        None => Ok(RULES.len()),
    }
}

// Whether some call prints something else by this rule.
fn differs(rule: &Rule, input: &[u8]) -> bool {
    let (mut right, mut wrong) = (Desk::default(), Desk::default());
    input.split(|&byte| byte == b'\n').any(|line| {
        let before = wrong.text.clone();
        let (mut says, mut came) = (Vec::new(), Vec::new());
        right.take(line, &mut says);
        let taken = wrong.take(line, &mut came);
        let (number, value) = if let Taken::Called(_, number, value, _) = taken { (number, value) } else { (0, 0) };
        if let Some((code, a, _)) = format::parse(line).filter(|_| taken != Taken::Refused) {
            let seen = Seen { code, a, number, value, before: &before };
            if (rule.when)(&seen) {
                (rule.leaves)(&seen, &mut wrong.text);
            }
        }
        // what the line itself prints stands before the rule changes the text
        says != came
    })
}
