//! Batches through the safe interface.

use vierskof::{
    BATCH_REQUESTS, Entry, Levels, REQUEST_WORDS, Refusal, Replies, Reply, Request, SHEET_WORDS,
    SheetList, evaluate, evaluate_batch, evaluate_batch_by_levels,
};

/// What is written where nothing may be.
const STOOD: u32 = 0x5A5A_5A5A;
const STOOD_REPLY: u64 = 0x5A5A_5A5A_5A5A_5A5A;

/// Request 10's sheets: a Grant on fact 5; an Any of a Grant on facts 0 or 1 and a Grant on fact 2; an All with a Deny.
const GRANT: [u32; 3] = [0x8800_0003, 0, 0x2000_0005];
const ANY: [u32; 9] = [
    0xA000_0002,
    0x8000_0001,
    0,
    0x5000_0002,
    0x2000_0000,
    0x2000_0001,
    0x8000_0002,
    0,
    0x2000_0002,
];
const ALL: [u32; 4] = [0x9000_0003, 0x6000_0001, 0x7000_0000, 0x6000_0002];

/// Its records.
const BY_GRANT: [u32; 5] = [0xE000_7001, 0x4005_0000, 0xC000_0003, 1, 0x0005_0000];
const BY_ANY: [u32; 6] = [
    0xE000_9003,
    0x0000_4001,
    0x0002_0000,
    0xC000_0001,
    1,
    0x0001_0000,
];
const BY_ALL: [u32; 4] = [0xE000_3000, 0xD000_0000, 0, 0];

/// The register; sheet 7 is withdrawn for group 7, and effective from day 500 on for group 8.
fn register() -> Vec<u32> {
    let entry = |(group, number, day)| Entry {
        group,
        number,
        day,
        withdrawn: group == 7,
    };
    let first = [(1, 7, 0), (2, 9, 0), (3, 3, 0), (4, 4, 0)];
    let others = [(5, 5, 0), (6, 6, 0), (7, 7, 0), (8, 7, 500)];
    let entries = first.into_iter().chain(others);
    entries
        .flat_map(|entry_of| entry(entry_of).words())
        .collect()
}

/// The list of sheets; that of 7 comes again, as one that would be refused, and 4 and 5 are faulty.
fn sheets() -> Vec<u32> {
    let mut words = [0; 64];
    let mut list = SheetList::new(&mut words);
    for (number, sheet) in [
        (7, &GRANT[..]),
        (9, &ANY),
        (7, &[0]),
        (3, &ALL),
        (4, &[]),
        (5, &[0x6000_0001; 2]),
    ] {
        list.push(number, sheet).expect("room");
    }
    list.words().to_vec()
}

const A: Request<'_> = of(1, &[0x00, 0x10]);
const B: Request<'_> = of(2, &[0x10]);
const C: Request<'_> = of(3, &[]);

const fn of(group: u8, facts: &[u8]) -> Request<'_> {
    Request {
        group,
        day: 10,
        facts,
    }
}

const fn decided(record: &[u32], nodes: u16) -> Reply<'_> {
    Reply::Decided { record, nodes }
}

const fn refused(refusal: Refusal) -> Reply<'static> {
    Reply::Refused(refusal)
}

fn flat(requests: &[Request<'_>]) -> Vec<u32> {
    requests.iter().flat_map(Request::words).collect()
}

/// The replies, and nothing changed after them and after the records.
#[track_caller]
fn replies(requests: &[Request<'_>], allowance: u16, room: usize, expected: &[Reply<'_>]) {
    let mut places = vec![STOOD_REPLY; requests.len() + 2];
    let mut out = vec![STOOD; room];
    let words = flat(requests);
    let (register, sheets) = (register(), sheets());
    let told = evaluate_batch(&register, &sheets, &words, allowance, &mut places, &mut out);
    let told = told.expect("a batch");
    assert_eq!(told.len(), requests.len());
    assert_eq!(told.collect::<Vec<_>>(), expected);
    let record = |reply: &Reply<'_>| match reply {
        Reply::Decided { record, .. } => record.len(),
        Reply::None | Reply::Refused(_) => 0,
    };
    let used: usize = expected.iter().map(record).sum();
    assert!(out[used..].iter().all(|word| *word == STOOD));
    assert_eq!(places[requests.len()..], [STOOD_REPLY; 2]);
}

#[test]
fn the_worked_batches() {
    let over = refused(Refusal::Allowance);
    replies(&[], 0, 0, &[]);
    replies(&[A], 2, 8, &[decided(&BY_GRANT, 2)]);
    replies(&[A], 1, 8, &[over]);
    let three = [A, B, C];
    let a = decided(&BY_GRANT, 2);
    replies(&three, 5, 16, &[a, over, decided(&BY_ALL, 3)]);
    replies(&three, 10, 20, &[a, decided(&BY_ANY, 7), over]);
    let no_room = refused(Refusal::Room);
    replies(&three, 65_535, 9, &[a, no_room, decided(&BY_ALL, 3)]);
    // The inner Any ends at its first arm.
    let first = [0xE000_9002, 0x4000_0002, 0xC000_0001, 1, 0];
    replies(&[of(2, &[0x40])], 6, 5, &[decided(&first, 6)]);
    replies(&[of(2, &[0x40])], 5, 5, &[over]);
}

#[test]
fn a_request_has_its_causes_in_their_order() {
    // No entry, one that is withdrawn, one that is not yet effective, and a sheet that wasn't handed over: before the table is read.
    let long = [0xFF; 300];
    let on = |group, day| Request {
        day,
        ..of(group, &long)
    };
    let none = [on(9, 10), on(7, 10), on(8, 499), on(6, 10)];
    replies(&none, 9, 9, &[Reply::None; 4]);
    // From its first day on a sheet is in force.
    for (group, day) in [(1, 0), (8, 500)] {
        let first = Request { group, day, ..A };
        replies(&[first], 2, 8, &[decided(&BY_GRANT, 2)]);
    }
    let long = [0; 257];
    let causes = [
        (4, &long[..], Refusal::Length),
        (5, &long, Refusal::TableLength),
        (1, &long, Refusal::TableLength),
        (5, &[0x03], Refusal::TableField),
        (1, &[0x80], Refusal::UnknownFact),
        (5, &[], Refusal::WordsAfterTree),
        (1, &[], Refusal::Allowance),
    ];
    for (group, facts, refusal) in causes {
        replies(&[of(group, facts)], 0, 0, &[refused(refusal)]);
    }
    replies(&[A], 2, 4, &[refused(Refusal::Room)]);
    // The whole table of 256 bytes.
    let mut facts = [0; 256];
    facts[1] = 0x10;
    replies(&[of(1, &facts)], 2, 5, &[decided(&BY_GRANT, 2)]);
}

#[test]
fn refused_requests_take_nothing() {
    let faulty = of(5, &[]);
    let requests = [faulty, A, B, A, faulty, A];
    let a = decided(&BY_GRANT, 2);
    let (over, after) = (
        refused(Refusal::Allowance),
        refused(Refusal::WordsAfterTree),
    );
    replies(&requests, 4, 64, &[after, a, over, a, after, over]);
    replies(&requests, 6, 64, &[after, a, over, a, after, a]);
    let full = refused(Refusal::Room);
    replies(&requests, 99, 10, &[after, a, full, a, after, full]);
}

/// The batch itself, refused: nothing changes.
#[track_caller]
fn turned_back(refusal: Refusal, [register, sheets, requests]: [&[u32]; 3], places: usize) {
    let mut replies = vec![STOOD_REPLY; places];
    let mut out = [STOOD; 32];
    let told = evaluate_batch(register, sheets, requests, 9, &mut replies, &mut out);
    assert_eq!(told.map(Iterator::count), Err(refusal));
    assert_eq!(replies, vec![STOOD_REPLY; places]);
    assert_eq!(out, [STOOD; 32]);
}

#[test]
fn a_batch_has_its_causes_in_their_order() {
    let (register, sheets) = (register(), sheets());
    let (odd, early) = (&register[1..], &sheets[..sheets.len() - 1]);
    let requests = flat(&[A; BATCH_REQUESTS + 1]);
    let whole = &requests[..BATCH_REQUESTS * REQUEST_WORDS];
    turned_back(Refusal::Length, [odd, early, &requests], 0);
    turned_back(Refusal::Length, [odd, early, &requests[..65]], 0);
    turned_back(Refusal::Length, [odd, early, &whole[1..]], 0);
    turned_back(Refusal::Register, [odd, early, whole], 0);
    turned_back(Refusal::WordsEnd, [&register, early, whole], 0);
    turned_back(Refusal::Room, [&register, &sheets, whole], 63);
    // A list that ends with a lead whose words are missing.
    let lead = [&sheets[..], &[0x0008_0001]].concat();
    turned_back(Refusal::WordsEnd, [&register, &lead, &[]], 0);
    let (mut places, mut out) = ([0; 64], [0; 32]);
    let told = evaluate_batch(&register, &sheets, whole, 128, &mut places, &mut out);
    let told: Vec<Reply<'_>> = told.expect("64 requests").collect();
    let most = [decided(&BY_GRANT, 2); 6];
    assert_eq!((&told[..6], told.len()), (&most[..], 64));
    assert!(
        told[6..]
            .iter()
            .all(|reply| *reply == refused(Refusal::Room))
    );
}

/// Each is what the direct call answers into what is left of the output.
#[test]
fn decided_as_by_a_direct_call() {
    let requests = [A, B, C, of(2, &[0x44]), of(1, &[])];
    let words = flat(&requests);
    let (mut places, mut out) = ([0; 5], [0; 64]);
    let (register, sheets) = (register(), sheets());
    let told = evaluate_batch(&register, &sheets, &words, 999, &mut places, &mut out);
    let by = [
        (7, &GRANT[..]),
        (9, &ANY),
        (3, &ALL),
        (9, &ANY),
        (7, &GRANT),
    ];
    for ((reply, request), (number, sheet)) in told.expect("a batch").zip(requests).zip(by) {
        let mut out = [0; 16];
        let direct = evaluate(sheet, number, request.facts, &mut out).expect("accepted");
        let Reply::Decided { record, nodes } = reply else {
            panic!("{request:?} is decided");
        };
        assert_eq!(record, direct);
        assert!((1..=sheet.len()).contains(&usize::from(nodes)));
    }
}

#[test]
fn by_levels() {
    let sheet = [0x9000_0002, 0x6000_0001, 0x6000_0002];
    let register = register();
    let words = flat(&[A, A]);
    let mut list = [0; 4];
    let mut sheets = SheetList::new(&mut list);
    sheets.push(7, &sheet).expect("room");
    let (mut places, mut out) = ([0; 2], [0; 8]);
    let three = Levels::chain(3).expect("a chain");
    let told = evaluate_batch_by_levels(
        &three,
        &register,
        sheets.words(),
        &words,
        5,
        &mut places,
        &mut out,
    );
    let record = [0xE000_7000, 0xC000_0001, 0];
    let expected = [decided(&record, 3), refused(Refusal::Allowance)];
    assert!(told.expect("a batch").eq(expected));
    let two = Levels::chain(2).expect("a chain");
    let told = evaluate_batch_by_levels(
        &two,
        &register,
        sheets.words(),
        &words,
        5,
        &mut places,
        &mut out,
    );
    let told: Replies<'_> = told.expect("a batch");
    assert!(told.eq([refused(Refusal::Field); 2]));
}

#[test]
fn words_of_a_request() {
    let all: Vec<u8> = (0..=255).collect();
    for length in [0, 1, 3, 4, 255, 256] {
        let request = Request {
            group: 255,
            day: u32::MAX,
            facts: &all[..length],
        };
        let words = request.words();
        assert_eq!(words[0] as usize, 255 << 24 | length);
        assert_eq!(words[1], u32::MAX);
        let bytes = words[2..].iter().flat_map(|word| word.to_be_bytes());
        let due = all[..length].iter().copied().chain([0; 256]);
        assert!(bytes.eq(due.take(256)));
    }
    for (length, field) in [(257, 257), ((1 << 24) - 1, 0xFF_FFFF), (1 << 24, 0xFF_FFFF)] {
        let facts = vec![0x11; length];
        assert_eq!(of(0, &facts).words()[0], field);
        assert_eq!(of(0, &facts).words()[65], 0x1111_1111);
    }
}

#[test]
fn lists_of_sheets() {
    let mut words = [STOOD; 6];
    let mut list = SheetList::new(&mut words);
    assert_eq!(list.words(), []);
    list.push(7, &GRANT).expect("room");
    // Neither the lead of a sheet nor its words are written where both don't fit.
    assert_eq!(list.push(9, &ANY), Err(Refusal::Room));
    assert_eq!(list.words().len(), 4);
    list.push(u16::MAX, &[]).expect("room");
    list.push(0, &[]).expect("room");
    assert_eq!(list.push(0, &[]), Err(Refusal::Room));
    assert_eq!(list.words()[4..], [0xFFFF_0000, 0]);
    let mut words = vec![0; 1 << 17];
    let mut list = SheetList::new(&mut words);
    let long = vec![0; 1 << 16];
    assert_eq!(list.push(1, &long), Err(Refusal::Length));
    list.push(1, &long[1..]).expect("room");
    // Too long for a sheet, which is said when it decides.
    assert!(list.words().len() > SHEET_WORDS);
    let told = |facts: &[u8]| {
        let register = [0x0100_0001, 0];
        let request = of(1, facts).words();
        let mut places = [0];
        let told = evaluate_batch(&register, list.words(), &request, 9, &mut places, &mut []);
        told.expect("a batch").next() == Some(refused(Refusal::Length))
    };
    assert!(told(&[]) && told(&[0; 257]));
}
