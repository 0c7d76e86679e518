// Reading records of comma-separated text, against csv-core and libcsv: each reads the same 10 MB, and is asked for the ends of all fields of every record.
use crate::place::{Line, Page};
use crate::texts::{texts, Text};
use crate::{median, PASSES};
use std::hint::black_box;
use std::time::Instant;

const GOAL: f64 = 1.2; // times as fast as the faster of the others
const WINDOW: usize = 65_535; // what a call takes at most
const ROOM: usize = 4096; // fields

// The records and the fields of a text, counted while the time is taken.
#[derive(Default, Clone, Copy, PartialEq, Debug)]
struct Counts {
    records: usize,
    fields: usize,
}

impl Counts {
    #[inline(always)]
    fn add(&mut self, fields: usize) {
        self.records += 1;
        self.fields += fields;
    }
}

// What stands in the fields, doubled quotes undone, as one number (FNV-1a), with a mark after each field and each record. Worked out apart from the timing.
#[derive(PartialEq, Debug)]
struct Digest(u64);

impl Digest {
    fn new() -> Digest {
        Digest(0xcbf2_9ce4_8422_2325)
    }

    fn add(&mut self, x: u64) {
        self.0 = (self.0 ^ x).wrapping_mul(0x100_0000_01b3);
    }

    fn field(&mut self, bytes: impl IntoIterator<Item = u8>) {
        bytes.into_iter().for_each(|b| self.add(b as u64));
        self.add(256);
    }

    fn record(&mut self) {
        self.add(257);
    }
}

// A side: how it reads a text when timed, and what it finds there.
struct Side {
    name: &'static str,
    count: fn(&[u8]) -> Counts,
    digest: fn(&[u8]) -> Digest,
}

fn sides() -> Vec<Side> {
    vec![
        Side { name: "ours", count: ours::count, digest: ours::digest },
        #[cfg(csv_core)]
        Side { name: "csv-core", count: of_csv_core::count, digest: of_csv_core::digest },
        #[cfg(libcsv)]
        Side { name: "libcsv", count: of_libcsv::count, digest: of_libcsv::digest },
    ]
}

mod ours {
    use super::*;

    type State = [u64; 2]; // a vector's length and total

    extern "C" {
        fn tum_record_read(
            text: *const u8, count: usize,
            starts: *mut u32, starts_room: usize, starts_state: *mut State,
            ends: *mut u32, ends_room: usize, ends_state: *mut State,
        ) -> u64;
    }

    static mut STARTS: Page = Page::of(0);
    static mut ENDS: Page = Page::of(0);
    static mut STATES: [Line<State>; 2] = [const { Line([0; 2]) }; 2];

    // A call for each record, on what comes from its start on; two vectors as `new` makes them. `each` gets that window, the starts and the ends.
    #[inline(always)]
    fn read(text: &[u8], mut each: impl FnMut(&[u8], &[u32], &[u32])) {
        let mut at = 0;
        while at < text.len() {
            let window = &text[at..text.len().min(at + WINDOW)];
            let word = unsafe {
                STATES[0].0 = [0; 2];
                STATES[1].0 = [0; 2];
                tum_record_read(
                    window.as_ptr(), window.len(),
                    (&raw mut STARTS.slots).cast(), ROOM, &raw mut STATES[0].0,
                    (&raw mut ENDS.slots).cast(), ROOM, &raw mut STATES[1].0,
                )
            };
            assert!(word >> 60 == 0, "the record at byte {at} was refused with {}", word >> 60);
            let [starts_len, ends_len] = unsafe { [STATES[0].0[0] as usize, STATES[1].0[0] as usize] };
            let (starts, ends) = unsafe { (&(&*(&raw const STARTS)).slots[..starts_len], &(&*(&raw const ENDS)).slots[..ends_len]) };
            each(window, starts, ends);
            at += word as u32 as usize;
        }
    }

    pub fn count(text: &[u8]) -> Counts {
        let mut counts = Counts::default();
        read(text, |_, starts, ends| {
            black_box((starts, ends));
            counts.add(ends.len());
        });
        counts
    }

    // The second of two quotes goes; outside quotes there is none.
    fn undone(field: &[u8]) -> impl Iterator<Item = u8> + '_ {
        let mut kept = false;
        field.iter().copied().filter(move |&b| {
            kept = b == b'"' && !kept;
            b != b'"' || kept
        })
    }

    pub fn digest(text: &[u8]) -> Digest {
        let mut digest = Digest::new();
        read(text, |window, starts, ends| {
            assert_eq!(starts.len(), ends.len());
            starts.iter().zip(ends).for_each(|(&start, &end)| digest.field(undone(&window[start as usize..end as usize])));
            digest.record();
        });
        digest
    }
}

#[cfg(csv_core)]
mod of_csv_core {
    use super::*;
    use csv_core::{ReadRecordResult, Reader};

    // A call for each record, on all that is left of the text. `each` gets the bytes of the fields and where each ends among them.
    #[inline(always)]
    fn read(text: &[u8], mut each: impl FnMut(&[u8], &[usize])) {
        let (mut reader, mut left) = (Reader::new(), text);
        let (mut output, mut ends) = (vec![0; WINDOW], vec![0; ROOM]);
        loop {
            let (result, read, bytes, fields) = reader.read_record(left, &mut output, &mut ends);
            left = &left[read..];
            match result {
                ReadRecordResult::Record => each(&output[..bytes], &ends[..fields]),
                ReadRecordResult::InputEmpty => assert!(bytes == 0 && fields == 0, "csv-core: the text ends within a record"),
                ReadRecordResult::End => return,
                full => panic!("csv-core: {full:?}"),
            }
        }
    }

    pub fn count(text: &[u8]) -> Counts {
        let mut counts = Counts::default();
        read(text, |output, ends| {
            black_box((output, ends));
            counts.add(ends.len());
        });
        counts
    }

    pub fn digest(text: &[u8]) -> Digest {
        let mut digest = Digest::new();
        read(text, |output, ends| {
            let mut start = 0;
            for &end in ends {
                digest.field(output[start..end].iter().copied());
                start = end;
            }
            digest.record();
        });
        digest
    }
}

#[cfg(libcsv)]
mod of_libcsv {
    use super::*;
    use std::ffi::{c_int, c_uchar, c_void};
    use std::mem::MaybeUninit;

    // `struct csv_parser` of csv.h, which the caller lends; nothing in it is looked at here.
    #[repr(C)]
    struct Parser {
        pstate: c_int,
        quoted: c_int,
        spaces: usize,
        entry_buf: *mut c_uchar,
        entry_pos: usize,
        entry_size: usize,
        status: c_int,
        characters: [c_uchar; 3], // options, quote, delimiter
        functions: [*const c_void; 2],
        blk_size: usize,
        memory: [*const c_void; 3],
    }

    type OnField = extern "C" fn(*const u8, usize, *mut c_void);
    type OnRecord = extern "C" fn(c_int, *mut c_void);

    const STRICT: c_uchar = 1; // a quote where none may stand is an error
    const STRICT_FINI: c_uchar = 4; // and so is one that is never closed

    #[link(name = "csv")]
    extern "C" {
        fn csv_init(parser: *mut Parser, options: c_uchar) -> c_int;
        fn csv_parse(parser: *mut Parser, text: *const u8, count: usize, field: OnField, record: OnRecord, data: *mut c_void) -> usize;
        fn csv_fini(parser: *mut Parser, field: OnField, record: OnRecord, data: *mut c_void) -> c_int;
        fn csv_free(parser: *mut Parser);
    }

    // The whole text in one call.
    fn read<T>(text: &[u8], field: OnField, record: OnRecord, data: &mut T) {
        let (mut parser, data) = (MaybeUninit::<Parser>::uninit(), (&raw mut *data).cast());
        let parser = parser.as_mut_ptr();
        unsafe {
            assert_eq!(csv_init(parser, STRICT | STRICT_FINI), 0, "libcsv: csv_init");
            assert_eq!(csv_parse(parser, text.as_ptr(), text.len(), field, record, data), text.len(), "libcsv: csv_parse");
            assert_eq!(csv_fini(parser, field, record, data), 0, "libcsv: csv_fini");
            csv_free(parser);
        }
    }

    // The ends of a record's fields, as the calls for each field note them.
    struct Noted {
        ends: [usize; ROOM],
        fields: usize,
        end: usize,
        counts: Counts,
    }

    extern "C" fn note_field(_bytes: *const u8, count: usize, data: *mut c_void) {
        let noted = unsafe { &mut *data.cast::<Noted>() };
        noted.end += count;
        noted.ends[noted.fields] = noted.end;
        noted.fields += 1;
    }

    extern "C" fn note_record(_end: c_int, data: *mut c_void) {
        let noted = unsafe { &mut *data.cast::<Noted>() };
        black_box(&noted.ends[..noted.fields]);
        noted.counts.add(noted.fields);
        (noted.fields, noted.end) = (0, 0);
    }

    pub fn count(text: &[u8]) -> Counts {
        let mut noted = Noted { ends: [0; ROOM], fields: 0, end: 0, counts: Counts::default() };
        read(text, note_field, note_record, &mut noted);
        noted.counts
    }

    extern "C" fn digest_field(bytes: *const u8, count: usize, data: *mut c_void) {
        let field = unsafe { std::slice::from_raw_parts(bytes, count) };
        unsafe { &mut *data.cast::<Digest>() }.field(field.iter().copied());
    }

    extern "C" fn digest_record(_end: c_int, data: *mut c_void) {
        unsafe { &mut *data.cast::<Digest>() }.record();
    }

    pub fn digest(text: &[u8]) -> Digest {
        let mut digest = Digest::new();
        read(text, digest_field, digest_record, &mut digest);
        digest
    }
}

// All sides must find the same records, fields and bytes, else nothing is measured.
fn agree(text: &Text, sides: &[Side]) -> Counts {
    let (counts, digest) = ((sides[0].count)(&text.bytes), (sides[0].digest)(&text.bytes));
    for side in &sides[1..] {
        assert_eq!(counts, (side.count)(&text.bytes), "{}: {} counts otherwise than ours", text.name, side.name);
        assert_eq!(digest, (side.digest)(&text.bytes), "{}: {} reads other fields than ours", text.name, side.name);
    }
    counts
}

// The seconds that each side took, round by round.
type Times = Vec<Vec<f64>>;

// Each round has every side read the whole text once, and another side begins.
fn measure(text: &Text, sides: &[Side], counts: Counts, rounds: usize, times: &mut Times) {
    for round in 0..rounds {
        for turn in 0..sides.len() {
            let side = (round + turn) % sides.len();
            let start = Instant::now();
            let seen = (sides[side].count)(black_box(&text.bytes));
            times[side].push(start.elapsed().as_secs_f64());
            assert_eq!(seen, counts);
        }
    }
}

// How many times as fast as another side ours is: the median of the rounds' ratios.
fn ratio(ours: &[f64], theirs: &[f64]) -> f64 {
    median(&mut ours.iter().zip(theirs).map(|(ours, theirs)| theirs / ours).collect::<Vec<_>>())
}

// 142104 as 142,104.
fn thousands(n: usize) -> String {
    if n < 1000 { n.to_string() } else { format!("{},{:03}", thousands(n / 1000), n % 1000) }
}

fn line(text: &Text, counts: Counts, times: &mut Times) -> String {
    let ratios: Vec<f64> = times[1..].iter().map(|theirs| ratio(&times[0], theirs)).collect();
    let speeds = times.iter_mut().map(|t| format!("{:.0}", text.bytes.len() as f64 / 1e6 / median(t)));
    let mut cells = vec![text.name.to_string(), format!("{} / {}", thousands(counts.records), thousands(counts.fields))];
    cells.extend(speeds);
    if let Some(least) = ratios.into_iter().min_by(f64::total_cmp) {
        cells.push(format!("{least:.2}"));
        cells.push(if least + 0.005 >= GOAL { "reached".into() } else { "not reached".into() });
    }
    format!("| {} |", cells.join(" | "))
}

fn head(sides: &[Side]) -> String {
    let mut cells = vec!["text".to_string(), "records / fields".into()];
    cells.extend(sides.iter().map(|side| format!("{}, MB/s", side.name)));
    if sides.len() > 1 {
        cells.push("times as fast as the faster of the others".into());
        cells.push(format!("{GOAL:.2}"));
    }
    format!("| {} |\n|{}", cells.join(" | "), "---|".repeat(cells.len()))
}

// The rounds of all passes together: a text takes as long as some hundred batches of the other rows, so a pass has a tenth of their rounds.
pub fn rounds_of(rounds: usize) -> usize {
    rounds.div_ceil(10) * PASSES
}

// The table of records.
pub fn table(rounds: usize) -> String {
    let (texts, sides) = (texts(), sides());
    let counts = texts.each_ref().map(|text| agree(text, &sides));
    let mut times: [Times; 3] = std::array::from_fn(|_| vec![Vec::new(); sides.len()]);
    for _ in 0..PASSES {
        for at in 0..3 {
            measure(&texts[at], &sides, counts[at], rounds.div_ceil(10), &mut times[at]);
        }
    }
    let lines = (0..3).map(|at| line(&texts[at], counts[at], &mut times[at]));
    std::iter::once(head(&sides)).chain(lines).collect::<Vec<_>>().join("\n")
}
