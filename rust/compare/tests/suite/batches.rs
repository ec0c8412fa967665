//! Batches of requests: the worked ones, the proved call against the plain desk, and against direct calls.

use std::thread;

use compare::batch::{Batch, REQUEST_WORDS, Reply, Request, handed, nodes};
use compare::generate::batches::draw;
use compare::generate::limits;
use compare::generate::rng::Rng;
use compare::proved::batch::{agrees, directly, returned};
use compare::refusal::Refusal;
use compare::words::{read, write};

use super::words;

/// The worked register and sheets: beyond request 10's, sheet 7 once more, one without words and one with words after its tree.
const REGISTER: &str =
    "01000007 0 02000009 0 03000003 0 04000004 0 05000005 0 06000006 0 07800007 0 08000007 1F4";
const SHEETS: &str = "00070003 88000003 0 20000005 \
    00090009 A0000002 80000001 0 50000002 20000000 20000001 80000002 0 20000002 \
    00070001 60000001 00030004 90000003 60000001 70000000 60000002 00040000 00050002 60000001 60000001";

/// A request with all but the table's first word 0.
fn request(group: u32, day: u32, length: u32, first: u32) -> Vec<u32> {
    let mut words = vec![group << 24 | length, day, first];
    words.resize(REQUEST_WORDS, 0);
    words
}

fn a() -> Vec<u32> {
    request(1, 10, 2, 0x0010_0000)
}

fn b() -> Vec<u32> {
    request(2, 10, 1, 0x1000_0000)
}

fn c() -> Vec<u32> {
    request(3, 10, 0, 0)
}

fn batch(requests: &[Vec<u32>], allowance: u32, room: usize) -> Batch {
    Batch {
        levels: None,
        register: words(REGISTER),
        sheets: words(SHEETS),
        requests: requests.concat(),
        allowance,
        places: requests.len(),
        room,
    }
}

/// The replies and the records, of both sides.
#[track_caller]
fn replies(requests: &[Vec<u32>], allowance: u32, room: usize, due: &[u64], records: &str) {
    let batch = batch(requests, allowance, room);
    let found = batch.answer().expect("a batch");
    let numbers: Vec<u64> = found.iter().map(Reply::number).collect();
    assert_eq!(numbers, due, "{numbers:X?}");
    let written: Vec<u32> = found.iter().flat_map(Reply::record).copied().collect();
    assert_eq!(written, words(records));
    assert!(agrees(&batch));
    assert!(directly(&batch).is_some());
}

#[test]
fn the_worked_batches() {
    const A: &str = "E0007001 40050000 C0000003 00000001 00050000";
    const B: &str = "E0009003 00004001 00020000 C0000001 00000001 00010000";
    const C: &str = "E0003000 D0000000 00000000 00000000";
    const OVER: u64 = 0x12_0000_0000;
    replies(&[], 0, 0, &[], "");
    replies(&[a()], 65_535, 8, &[0x2_0005], A);
    replies(&[a()], 2, 8, &[0x2_0005], A);
    replies(&[a()], 1, 8, &[OVER], "");
    let three = [a(), b(), c()];
    let both = |other: &str| format!("{A} {other}");
    replies(&three, 5, 16, &[0x2_0005, OVER, 0x3_0004], &both(C));
    replies(&three, 10, 20, &[0x2_0005, 0x7_0006, OVER], &both(B));
    let no_room = 0xB_0000_0000;
    replies(&three, 65_535, 9, &[0x2_0005, no_room, 0x3_0004], &both(C));
    let first = "E0009002 40000002 C0000001 00000001 00000000";
    replies(&[request(2, 10, 1, 0x4000_0000)], 10, 8, &[0x6_0005], first);
}

#[test]
fn the_worked_requests() {
    // Withdrawn, before its day, not handed over, of no entry, and the table isn't read.
    let none = [
        request(7, 10, 0, 0),
        request(8, 499, 0, 0),
        request(6, 10, 0, 0),
        request(9, 10, 0, 0),
        request(6, 10, 0xFF_FFFF, 0xFF00_0000),
    ];
    replies(&none, 9, 9, &[0; 5], "");
    let causes = [
        (request(4, 10, 257, 0), 0x1_0000_0000),
        (request(5, 10, 0, 0), 0xA_0000_0000),
        (request(5, 10, 257, 0), 0x2_0000_0000),
        (request(1, 10, 257, 0xFF00_0000), 0x2_0000_0000),
        (request(1, 10, 256, 0x0010_0000), 0x2_0005),
        (request(1, 10, 1, 0x8000_0000), 0x4_0000_0000),
        (request(1, 10, 1, 0x3000_0000), 0x3_0000_0000),
        (request(1, 10, 1, 0x00FF_0000), 0x2_0006),
        (request(8, 500, 2, 0x0010_0000), 0x2_0005),
    ];
    for (request, due) in causes {
        let batch = batch(&[request], 65_535, 16);
        let found = batch.answer().expect("a batch");
        assert_eq!(found[0].number(), due);
        assert!(agrees(&batch));
    }
    let neither = [a(), request(5, 10, 0, 0)];
    replies(&neither, 0, 0, &[0x12_0000_0000, 0xA_0000_0000], "");
}

#[test]
fn the_worked_causes_of_a_batch() {
    let turned_back = |batch: &Batch, refusal| {
        assert_eq!(batch.answer(), Err(refusal));
        assert!(agrees(batch));
    };
    let mut many = batch(&vec![a(); 65], 9, 9);
    turned_back(&many, Refusal::Length);
    many.register.pop();
    many.sheets.pop();
    many.places = 0;
    turned_back(&many, Refusal::Length);
    many.requests.truncate(65);
    turned_back(&many, Refusal::Length);
    many.requests.push(0);
    turned_back(&many, Refusal::Register);
    many.allowance = 65_536;
    turned_back(&many, Refusal::Length);
    let mut early = batch(&[a()], 9, 9);
    early.sheets.pop();
    early.places = 0;
    turned_back(&early, Refusal::Ended);
    early.sheets = words(SHEETS);
    turned_back(&early, Refusal::Room);
}

/// Arm by arm, what counts and what doesn't.
#[test]
fn nodes_by_hand() {
    for (sheet, table, count) in [
        ("70000000", 0x00, 1),
        ("60000001", 0x00, 1),
        ("90000000", 0x00, 1),
        ("A0000000", 0x00, 1),
        ("80000001 0 00000000", 0x00, 2),
        ("80000001 0 10000000", 0x00, 2),
        ("80000001 0 30000000 30000000 20000000", 0x00, 4),
        ("80000001 0 40000000", 0x00, 2),
        ("80000001 0 40000003 20000000 20000001 20000002", 0x40, 4),
        ("80000001 0 40000003 20000000 20000001 20000002", 0x54, 5),
        ("80000001 0 50000003 20000000 20000001 20000002", 0x00, 5),
        ("80000001 0 50000003 20000000 20000001 20000002", 0x10, 4),
        ("90000003 60000001 60000001 60000001", 0x00, 4),
        ("90000003 60000001 70000000 60000001", 0x00, 3),
        ("A0000003 60000001 70000000 60000001", 0x00, 4),
        ("B0000000 60000001 60000002", 0x00, 2),
        ("B0000000 70000000 60000002", 0x00, 3),
        ("B0000000 80000001 0 20000000 70000000", 0x00, 4),
        ("B0000000 80000001 0 20000000 70000000", 0x40, 3),
    ] {
        let sheet = words(sheet);
        assert_eq!(nodes(&sheet, &[table]), Ok(count), "{sheet:X?}");
        let list = [
            &[0x0007_0000 | u32::try_from(sheet.len()).expect("few")],
            &sheet[..],
        ]
        .concat();
        for (allowance, decided) in [(count, true), (count - 1, false)] {
            let batch = Batch {
                sheets: list.clone(),
                ..batch(
                    &[request(1, 10, 1, u32::from(table) << 24)],
                    u32::try_from(allowance).expect("few"),
                    64,
                )
            };
            assert!(agrees(&batch), "{sheet:X?}");
            let reply = &batch.answer().expect("a batch")[0];
            assert_eq!(matches!(reply, Reply::Decided { .. }), decided);
        }
    }
}

/// What drawn batches have met, so that none of it is missing.
#[derive(Debug, Default)]
struct Met {
    turned_back: [usize; 22],
    refused: [usize; 22],
    none: usize,
    decided: usize,
    by_levels: usize,
    /// Decided with what remains to the last node, and, by sets of products, refused for one node.
    exactly: usize,
    one_short: usize,
    /// Decided into what remains to the last word.
    full: usize,
    /// Decided after one that was refused for the allowance, and after one refused for the room.
    after_over: usize,
    after_room: usize,
    /// Decided, and refused, by the first of a number that the list has several times.
    first_decides: usize,
    first_refuses: usize,
    /// By the length of the table: 0, 1, 255, 256, 257 and the greatest.
    lengths: [usize; 6],
    most: usize,
}

impl Met {
    fn count(&mut self, batch: &Batch) {
        let replies = match batch.answer() {
            Err(refusal) => {
                self.turned_back[usize::from(refusal.number())] += 1;
                return;
            }
            Ok(replies) => replies,
        };
        let sheets = handed(&batch.sheets).expect("a whole list");
        let (requests, _) = batch.requests.as_chunks::<REQUEST_WORDS>();
        let (mut left, mut room) = (batch.allowance as usize, batch.room);
        let (mut over, mut full) = (false, false);
        self.most += usize::from(requests.len() == 64);
        for (reply, request) in replies.iter().zip(requests) {
            let request = Request::of(request);
            let deciding = batch.deciding(&request, &sheets);
            let number = deciding.map(|(number, _)| number);
            let of = sheets.iter().filter(|(of, _)| Some(*of) == number);
            let first = usize::from(of.count() > 1);
            match reply {
                Reply::None => self.none += 1,
                Reply::Refused(refusal) => {
                    self.refused[usize::from(refusal.number())] += 1;
                    over |= *refusal == Refusal::Allowance;
                    full |= *refusal == Refusal::Room;
                    self.first_refuses += first;
                    let short = |(_, sheet)| nodes(sheet, &request.table) == Ok(left + 1);
                    let spent = *refusal == Refusal::Allowance && batch.levels.is_none();
                    self.one_short += usize::from(spent && deciding.is_some_and(short));
                }
                Reply::Decided { record, nodes } => {
                    self.decided += 1;
                    self.by_levels += usize::from(batch.levels.is_some());
                    self.exactly += usize::from(*nodes == left);
                    self.full += usize::from(record.len() == room);
                    self.after_over += usize::from(over);
                    self.after_room += usize::from(full);
                    self.first_decides += first;
                }
            }
            if !matches!(reply, Reply::None) {
                let ends = [0, 1, 255, 256, 257, 0xFF_FFFF];
                for (count, length) in self.lengths.iter_mut().zip(ends) {
                    *count += usize::from(request.length == length);
                }
            }
            left -= reply.nodes();
            room -= reply.record().len();
        }
    }
}

#[test]
fn drawn_batches() {
    let mut met = Met::default();
    for batch in draw(10, 20_000) {
        assert!(agrees(&batch), "{batch:X?}");
        met.count(&batch);
    }
    for refusal in [1, 6, 11, 15, 21] {
        assert!(met.turned_back[refusal] > 50, "{met:?}");
    }
    for refusal in [1, 2, 3, 4, 5, 6, 8, 10, 11, 18] {
        assert!(met.refused[refusal] > 200, "{met:?}");
    }
    let counts = [
        met.none,
        met.decided,
        met.by_levels,
        met.exactly,
        met.one_short,
        met.full,
        met.after_over,
        met.after_room,
        met.first_decides,
        met.first_refuses,
        met.most,
    ];
    let least = counts.into_iter().chain(met.lengths).min();
    assert!(least > Some(50) && met.refused[7] > 0, "{met:?}");
}

#[test]
fn decided_as_by_direct_calls() {
    let decided: Option<usize> = draw(11, 20_000).map(|batch| directly(&batch)).sum();
    assert!(decided > Some(10_000), "{decided:?}");
}

/// 64 requests of the longest and deepest sheets, in a thread with 256 KiB of stack.
#[test]
fn the_longest_sheets_on_a_small_stack() {
    let longest = write::tree(&limits::deep(4_000, &[]));
    let lists = [vec![0xA000_0FFF], vec![0x6000_0001; 4_095]].concat();
    let grants = [
        vec![0xA000_0555],
        [0x8000_0001, 0, 0x2000_0000].repeat(1_365),
    ]
    .concat();
    let mut rng = Rng::new(1);
    let others = limits::sheets(&mut rng).into_iter();
    let others = others.filter(|sheet| sheet.len() >= 4_000 && read::sheet(sheet).is_ok());
    let sheets: Vec<Vec<u32>> = [longest, lists, grants].into_iter().chain(others).collect();
    assert!(sheets.len() > 5 && sheets.iter().all(|sheet| sheet.len() >= 4_000));
    let number = |at: usize| u32::try_from(at % sheets.len()).expect("few");
    let list = sheets.iter().enumerate().flat_map(|(at, sheet)| {
        let count = u32::try_from(sheet.len()).expect("few words");
        [vec![number(at) << 16 | count], sheet.clone()].concat()
    });
    let entries = (0..sheets.len()).flat_map(|at| [number(at) << 24 | number(at), 0]);
    let asked = |at: usize| {
        let mut words = request(number(at), 0, 256, 0);
        words[2..].fill(if at.is_multiple_of(2) { 0x5555_5555 } else { 0 });
        words
    };
    let batch = Batch {
        levels: None,
        register: entries.collect(),
        sheets: list.collect(),
        requests: (0..64).flat_map(asked).collect(),
        allowance: 65_535,
        places: 64,
        room: 64 * 16_384,
    };
    let run = |batch: &Batch| {
        let (mut replies, mut out) = (vec![0; 64], vec![0; batch.room]);
        let found = returned(batch, &mut replies, &mut out);
        (found, replies)
    };
    let moved = batch.clone();
    let small = thread::Builder::new().stack_size(256 * 1024);
    let found = small.spawn(move || run(&moved));
    let (found, replies) = found.expect("a thread").join().expect("no overflow");
    assert_eq!(found >> 32, 0);
    let decided = replies
        .iter()
        .filter(|reply| **reply != 0 && *reply >> 32 == 0);
    let over = replies.iter().filter(|reply| *reply >> 32 == 18);
    assert!(decided.count() >= 16 && over.count() >= 16, "{replies:X?}");
    // The original needs more stack than that, so the plain desk answers outside.
    assert!(agrees(&batch));
}
