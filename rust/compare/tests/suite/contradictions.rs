//! Tables that contradict what a record consulted: request 7's worked cases, and chains whose tables agree or differ in one fact.

use compare::case::Call::{self, CompleteResidual, NarrowResidual, NarrowResidualInOrder};
#[cfg(feature = "proved")]
use compare::case::Case;
use compare::generate::chains::Chain;
use compare::generate::grow::Alphabet;
use compare::generate::numbers::SHEETS;
use compare::generate::rng::Rng;
use compare::narrow::Order;
use compare::reference;
use compare::refusal::Refusal;
use compare::words::read;
use compare::words::table::{fields, pack};
use compare::words::tree::Seen;

use super::{bytes, words, written_under};

const NARROWINGS: [Call; 2] = [NarrowResidual, NarrowResidualInOrder];

/// Fact 5 was Present, fact 6 is asked; of sheet 7.
const PENDING: &str = "F0007001 40050000 80000001 00000000 20000006";
const RESOLVED: &str = "E0007001 40050000 C0000003 00000001 00050000";

#[track_caller]
fn narrows(number: u32, given: &str, table: &str, record: &str) {
    for call in NARROWINGS {
        let found = written_under(number, call, &words(given), &bytes(table), 16_384);
        assert_eq!(found, (0, words(record)), "{call:?} {given}, {table}");
    }
}

#[track_caller]
fn refuses(number: u32, given: &str, table: &str, room: usize, refusal: u8) {
    for call in NARROWINGS {
        let (found, _) = written_under(number, call, &words(given), &bytes(table), room);
        assert_eq!(found, refusal, "{call:?} {given}, {table}");
    }
}

#[test]
fn a_pending_record_is_turned_back() {
    let entered = "E0007002 40050006 D4000001 00000000 00000001 00060000";
    let silent = "E0007002 4005C006 D4000001 00000000 00000001 00060000";
    for table in ["00 10", "00 20"] {
        narrows(7, PENDING, table, entered);
    }
    for table in ["00", ""] {
        narrows(7, PENDING, table, silent);
    }
    narrows(7, PENDING, "00 18", PENDING);
    // After 3 and 16, before 11.
    for room in [0, 2, 16] {
        refuses(7, PENDING, "00 00", room, 17);
        refuses(8, PENDING, "00 00", room, 16);
        refuses(7, PENDING, "00 03", room, 3);
    }
    refuses(7, &format!("{PENDING} 00000000"), "00 00", 16, 10);
    refuses(7, PENDING, "00 10", 2, 11);
    let completed = written_under(7, CompleteResidual, &words(PENDING), &[0, 0], 16);
    assert_eq!(completed, (0, words(entered)));
}

#[test]
fn a_resolved_record_is_turned_back() {
    for table in ["00 10", "00 20", "00", ""] {
        narrows(7, RESOLVED, table, RESOLVED);
    }
    for room in [2, 16] {
        refuses(7, RESOLVED, "00 00", room, 17);
    }
    let completed = written_under(7, CompleteResidual, &words(RESOLVED), &[0, 0], 16);
    assert_eq!(completed, (0, words(RESOLVED)));
}

#[test]
fn every_entry_counts() {
    // Fact 5 Present and Absent.
    let both = "F0000002 40050005 80000001 00000000 20000006";
    refuses(0, both, "00 10", 16, 17);
    refuses(0, both, "00 00", 16, 17);
    let record = "E0000002 40050006 D4000001 00000000 00000001 00060000";
    narrows(0, both, "00 20", record);
    // The last entry of an odd list.
    let odd = "F0000003 40054007 00080000 80000001 00000000 20000006";
    refuses(0, odd, "00 19 40", 16, 17);
    narrows(0, odd, "00 19 00", odd);
    // An entry that is Unknown, and one that is silent.
    let unknown = "F0000001 80050000 80000001 00000000 20000006";
    let record = "E0000002 80050006 D4000001 00000000 00000001 00060000";
    for table in ["00 10", "00 00"] {
        narrows(0, unknown, table, record);
    }
    let silent =
        "F0000001 C0050000 A0000002 D4000002 00000000 00000001 00050000 80000001 00000000 20000000";
    let record = "E0000002 C0054000 C0000001 00000001 00000000";
    narrows(0, silent, "40 10", record);
}

/// The greatest lead: number 65,535 and 4,095 entries, each fact Present but for the last entry, of fact 1,022, which is Absent.
fn greatest(lead: u32, tree: &[u32]) -> Vec<u32> {
    let entry = |at: u32| {
        if at == 4_094 {
            1_022
        } else {
            0x4000 | at % 1_024
        }
    };
    let pair = |at: u32| entry(2 * at) << 16 | if at == 2_047 { 0 } else { entry(2 * at + 1) };
    let entries: Vec<u32> = (0..2_048).map(pair).collect();
    [&[lead], &entries[..], tree].concat()
}

#[test]
fn the_greatest_lead() {
    let unknown = vec![0xAA; 256];
    // Fact 1,022 is Present, and all others are Unknown.
    let against = [&unknown[..255], &[0xA6]].concat();
    for record in [
        greatest(0xFFFF_FFFF, &[0x6000_0001]),
        greatest(0xEFFF_FFFF, &[0xC000_0001, 0]),
    ] {
        for (call, table, due) in [
            (NarrowResidual, &unknown, 0),
            (NarrowResidualInOrder, &unknown, 0),
            (NarrowResidual, &against, 17),
            (NarrowResidualInOrder, &against, 17),
            (CompleteResidual, &vec![0; 256], 0),
        ] {
            let (refusal, found) = written_under(65_535, call, &record, table, 16_384);
            assert_eq!(refusal, due, "{call:?}");
            let lead = found.first().map(|lead| lead >> 12 & 0xFFFF);
            assert_eq!(lead, (due == 0).then_some(0xFFFF), "{call:?}");
            #[cfg(feature = "proved")]
            assert!(compare::proved::agrees(&Case {
                call,
                table: table.clone(),
                words: record.clone(),
                number: 65_535,
                room: 16_384,
            }));
        }
    }
}

/// The table with the fact as this field says. What it didn't enter before is Unknown.
fn with(table: &[u8], fact: u16, field: u8) -> Vec<u8> {
    let fact = usize::from(fact);
    let mut read: Vec<u8> = fields(table).collect();
    read.resize(read.len().max(fact / 4 * 4 + 4), 2);
    read[fact] = field;
    pack(&read)
}

/// The fields of the facts that a record has as Absent or Present, each as its first entry says.
fn entered(record: &[u32]) -> Vec<(u16, u8)> {
    let record = read::record(record).expect("a record");
    let field = |seen| match seen {
        Seen::Absent => Some(0),
        Seen::Present => Some(1),
        Seen::Unknown | Seen::Silent => None,
    };
    let entries = record.consulted().iter();
    entries
        .filter_map(|(fact, seen)| Some((*fact, field(*seen)?)))
        .collect()
}

/// Of the narrowings of a chain, of which every other is in sheet order, none is answered 17; and with one fact the other way round exactly those are after
/// which the fact has been consulted. How many were.
fn flipped(chain: &Chain) -> usize {
    let (room, number) = (chain.room(), u32::from(chain.number));
    let orders = [Order::PermitsFirst, Order::SheetOrder];
    let mut turn = 0;
    let records = chain.records_by(|| {
        turn += 1;
        orders[turn % 2]
    });
    let Some(last) = records.last() else {
        return 0;
    };
    let mut met = 0;
    for (fact, field) in entered(last) {
        for (record, table) in records.iter().zip(&chain.narrowings) {
            let other = with(table, fact, 1 - field);
            let consulted = entered(record).contains(&(fact, field));
            for order in orders {
                let (_, narrow) = reference::pair(order);
                let refused = narrow(record, number, &other, room);
                let against = refused == Err(Refusal::Contradiction);
                assert_eq!(against, consulted, "fact {fact}: {chain:X?}");
                #[cfg(feature = "proved")]
                assert_eq!(by_proved(order, record, chain, &other), refused);
            }
            met += usize::from(consulted);
        }
    }
    met
}

/// What the proved narrowing gives.
#[cfg(feature = "proved")]
fn by_proved(
    order: Order,
    record: &[u32],
    chain: &Chain,
    table: &[u8],
) -> Result<Vec<u32>, Refusal> {
    let (_, narrow) = compare::proved::pair(order);
    let mut out = vec![0; chain.room()];
    let narrowed = narrow(record, chain.number, table, &mut out);
    narrowed
        .map(<[u32]>::to_vec)
        .map_err(|refusal| match refusal {
            vierskof::Refusal::Contradiction => Refusal::Contradiction,
            other => panic!("{other}: {chain:X?}"),
        })
}

#[test]
fn one_flipped_fact() {
    let mut rng = Rng::new(7);
    let mut met = 0;
    for _ in 0..5_000 {
        let alphabet = Alphabet::draw(&mut rng);
        let words = rng.between(1, 60);
        met += flipped(&Chain::draw(&mut rng, &alphabet, words).under(rng.pick(&SHEETS)));
    }
    assert!(met > 1_000, "{met}");
}

/// No call of a chain whose tables agree is answered 17: every narrowing is accepted, and so is one with the known table after each. By the proved calls, too,
/// where they are linked.
#[test]
fn agreeing_chains_never_meet_it() {
    let mut rng = Rng::new(8);
    let mut narrowings = 0;
    for _ in 0..100_000 {
        let alphabet = Alphabet::draw(&mut rng);
        let words = rng.between(1, 24);
        let chain = Chain::draw(&mut rng, &alphabet, words).under(rng.pick(&SHEETS));
        let order = rng.pick(&[Order::PermitsFirst, Order::SheetOrder]);
        let tables = chain.narrowings.iter().chain([&chain.known]);
        for (record, table) in chain.records(order).iter().zip(tables) {
            let (_, narrow) = reference::pair(order);
            let narrowed = narrow(record, chain.number.into(), table, chain.room());
            assert!(narrowed.is_ok(), "{chain:X?}");
            #[cfg(feature = "proved")]
            assert_eq!(by_proved(order, record, &chain, table), narrowed);
            narrowings += 1;
        }
    }
    assert!(narrowings > 100_000, "{narrowings}");
}
