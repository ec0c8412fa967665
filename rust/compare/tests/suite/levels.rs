//! Request 14's outcome tables: the worked cases, acceptance by order, and calls and chains by drawn lattices.

use compare::case::Call::{
    self, CompleteResidual, Evaluate, NarrowResidual, NarrowResidualInOrder, PartialEvaluate,
    PartialEvaluateInOrder,
};
use compare::case::{Answer, Case};
use compare::generate::levels::{
    CALLS, chain, chain_by, damaged, draw, four_products, lattice, m3, n5, table_of,
};
use compare::generate::rng::Rng;
use compare::generate::{cases, tables};
use compare::levels::{ByLevels, Given, Tally, by_levels};
use compare::narrow::Order;
use compare::products::Products;
use compare::reference;
use compare::refusal::Refusal;
use compare::words::read;

use super::stages::{decided, settled};
use super::{bytes, words};

const SEED: u64 = 20_261_120;

/// Fact 5 Unknown and 6 Present, and both Present.
const SOME: &str = "00 24";
const KNOWN: &str = "00 14";
/// S: level 1 on fact 5, level 2 on fact 6, level 3; and what its reduction leaves.
const S: &str = "A0000003 80000001 00000000 20000005 80000002 00000000 20000006 60000003";
const S_PENDING: &str = "F0000001 40060000 A0000003 C0000002 00000001 00060000 C0000003 00000000 80000001 00000000 20000005";

fn given(count: u32, text: &str) -> Given {
    let bytes = bytes(text);
    Given { count, bytes }
}

fn l2() -> Given {
    given(2, "00 00 00 01 00 01 01 01")
}

fn c3() -> Given {
    given(3, "00 00 00 00 01 01 00 01 02 00 01 02 01 01 02 02 02 02")
}

/// The request's table, which the generator's has to be but for the numbers of its levels.
fn worked_m3() -> Given {
    given(
        5,
        "00 00 00 00 00 00 01 00 00 01 00 00 02 00 02 00 00 00 03 03 00 01 02 03 04 \
         00 01 02 03 04 01 01 04 04 04 02 04 02 04 04 03 04 04 03 04 04 04 04 04 04",
    )
}

fn worked_n5() -> Given {
    given(
        5,
        "00 00 00 00 00 00 01 01 00 01 00 01 02 00 02 00 00 00 03 03 00 01 02 03 04 \
         00 01 02 03 04 01 01 02 04 04 02 02 02 04 04 03 04 04 03 04 04 04 04 04 04",
    )
}

/// The number of a call's refusal, or 0 and the record that it writes; the proved call has to answer the same.
#[track_caller]
fn called(levels: &Given, call: Call, given: &str, table: &str, room: usize) -> (u8, Vec<u32>) {
    let by = ByLevels {
        levels: levels.clone(),
        case: Case {
            call,
            table: bytes(table),
            words: words(given),
            number: 0,
            room,
        },
    };
    #[cfg(feature = "proved")]
    assert!(compare::proved::levels::agrees(&by), "{}", by.line());
    match by.answer() {
        Ok(Answer::Record(record)) => (0, record),
        Ok(other) => panic!("{other:?} is no record"),
        Err(refusal) => (refusal.number(), Vec::new()),
    }
}

#[track_caller]
fn writes(levels: &Given, call: Call, given: &str, table: &str, record: &str) {
    let found = called(levels, call, given, table, 100);
    assert_eq!(found, (0, words(record)), "{levels:?} {call:?} {given}");
}

/// Evaluated with an empty table, to a permit of this outcome and nothing else.
#[track_caller]
fn permits(levels: &Given, sheet: &str, outcome: u16) {
    let record = format!("E0000000 C000{outcome:04X} 00000000");
    writes(levels, Evaluate, sheet, "", &record);
}

#[track_caller]
fn refuses(levels: &Given, call: Call, given: &str, table: &str, number: u8) {
    let (found, _) = called(levels, call, given, table, 100);
    assert_eq!(found, number, "{levels:?} {call:?} {given}");
}

#[test]
fn accepted_tables() {
    let dual = given(2, "00 01 01 01 00 00 00 01");
    let one = given(1, "00 00");
    for table in [one, l2(), dual, c3(), worked_m3(), worked_n5(), chain(16)] {
        permits(&table, "60000000", 0);
    }
    permits(&chain(16), "6000000F", 15);
    refuses(&chain(16), Evaluate, "60000010", "", 8);
}

#[test]
fn refused_tables() {
    let l2 = "00 00 00 01 00 01 01 01";
    let refused = [
        given(0, ""),
        given(0, "00 00"),
        given(1, ""),
        given(2, &l2[..20]),
        given(2, &format!("{l2} 01")),
        given(1, l2),
        given(1, "00 01"),
        given(1, "01 00"),
        // no absorption; the meet twice; not commutative; not associative
        given(2, "00 00 00 01 00 01 01 00"),
        given(2, "00 00 00 01 00 00 00 01"),
        given(2, "00 00 01 01 00 01 01 01"),
        given(3, "00 00 02 00 01 01 02 01 02 00 01 00 01 01 02 00 02 02"),
        given(2, "00 00 00 00 00 00 00 00"),
        given(2, "00 00 00 01 00 01 01 02"),
        given(2, "00 00 00 01 00 01 01 FF"),
        given(u32::MAX, "00 00"),
        given(1 << 16 | 1, "00 00"),
        given(1 << 31 | 1, "00 00"),
        chain(17),
    ];
    for table in &refused {
        for call in CALLS {
            // Before 1, 2, 3, the words' causes and 11, and of a Resolved record.
            for (words, facts, room) in [
                ("60000000", "", 100),
                ("", "", 100),
                ("60000000", "03", 100),
                ("00000000", "", 0),
                ("E0000000 C0000000 00000000", "", 100),
            ] {
                let found = called(table, call, words, facts, room);
                assert_eq!(found, (21, Vec::new()), "{table:?} {words}");
            }
        }
    }
    refuses(&c3(), Evaluate, "", "", 1);
    let long = "00 ".repeat(257);
    let found = called(&refused[0], Evaluate, "60000000", &long, 100);
    assert_eq!(found.0, 21);
    assert_eq!(called(&c3(), Evaluate, "60000001", "", 2).0, 11);
}

#[test]
fn outcomes_are_folded_by_the_table() {
    let (all, any) = ("90000002 60000001 60000002", "A0000002 60000001 60000002");
    permits(&c3(), all, 1);
    permits(&c3(), any, 2);
    permits(&worked_m3(), all, 0);
    permits(&worked_m3(), any, 4);
    let dual = given(2, "00 01 01 01 00 00 00 01");
    permits(&dual, "90000002 60000000 60000001", 1);
    permits(&dual, "A0000002 60000000 60000001", 0);
    // Not distributive.
    permits(
        &worked_n5(),
        "90000002 A0000002 60000001 60000003 60000002",
        2,
    );
    permits(
        &worked_n5(),
        "A0000002 60000001 90000002 60000003 60000002",
        1,
    );
    let ten: String = [2, 1, 0, 1, 2, 1, 0, 1, 2, 1]
        .map(|level| format!(" 6000000{level}"))
        .concat();
    permits(&chain(4), &format!("A000000A{ten}"), 2);
    super::writes(Evaluate, all, "", "E0000000 C0000000 00000000");
    super::writes(Evaluate, any, "", "E0000000 C0000003 00000000");
    super::writes(
        Evaluate,
        &format!("A000000A{ten}"),
        "",
        "E0000000 C0000003 00000000",
    );
    let united = "80100001 00000000 07000000 00000000 80200002 00000000 08070000 00000000";
    let joined = "E0000000 C0200004 00000000 07080000";
    writes(
        &worked_m3(),
        Evaluate,
        &format!("A0000002 {united}"),
        "",
        joined,
    );
    permits(&worked_m3(), &format!("90000002 {united}"), 0);
    for empty in ["90000000", "A0000000"] {
        let deny = "E0000000 D0000000 00000000 00000000";
        writes(&c3(), Evaluate, empty, "", deny);
    }
}

#[test]
fn what_is_no_level_is_8_where_it_stands() {
    let l2 = &l2();
    permits(l2, "60000001", 1);
    for (sheet, number) in [
        ("60000002", 8),
        ("6000FFFF", 8),
        ("80000002", 8),
        ("80000001", 6),
        ("80000002 00000001 00000000", 8),
        ("80200001 00000000 07400000 00000000", 8),
        ("A0000002 00000000 60000002", 5),
        ("90000002 60000001 60000002 60000000", 8),
        ("B0000000 60000001 60000002", 8),
        ("60000001 60000002", 10),
    ] {
        for call in [Evaluate, PartialEvaluate, PartialEvaluateInOrder] {
            refuses(l2, call, sheet, "", number);
        }
        let record = format!("F0000000 {sheet}");
        for call in [NarrowResidual, NarrowResidualInOrder, CompleteResidual] {
            refuses(l2, call, &record, "", number);
        }
    }
    let deep = format!("{}60000002", "90000001 ".repeat(32));
    refuses(l2, Evaluate, &deep, "", 7);
    let one = &given(1, "00 00");
    for call in [NarrowResidual, NarrowResidualInOrder, CompleteResidual] {
        let same = |levels, record| writes(levels, call, record, "", record);
        refuses(l2, call, "E0000000 C0000002 00000000", "", 8);
        refuses(l2, call, "E0000000 C0000002", "", 8);
        refuses(l2, call, "E0000000 D4000002 00000000 00000000", "", 8);
        same(l2, "E0000000 D4000001 00000000 00000000");
        same(l2, "E0000000 D0000000 00000000 00000000");
        same(one, "E0000000 D0000000 00000000 00000000");
        refuses(one, call, "E0000000 D0000001 00000000 00000000", "", 8);
        same(&worked_m3(), "E0000000 C0000004 00000000");
        refuses(&chain(4), call, "E0000000 C0000004 00000000", "", 8);
        refuses(l2, call, "F0000000 80000002 00000000 20000005", "", 8);
    }
}

#[test]
fn stages_by_a_table() {
    let m3 = &worked_m3();
    writes(
        m3,
        Evaluate,
        S,
        KNOWN,
        "E0000002 40054006 C0000004 00000000",
    );
    writes(m3, PartialEvaluate, S, SOME, S_PENDING);
    let in_order = "F0000001 40060000 A0000003 80000001 00000000 20000005 C0000002 00000001 00060000 C0000003 00000000";
    writes(m3, PartialEvaluateInOrder, S, SOME, in_order);
    for pending in [S_PENDING, in_order] {
        for call in [CompleteResidual, NarrowResidual, NarrowResidualInOrder] {
            writes(
                m3,
                call,
                pending,
                KNOWN,
                "E0000002 40064005 C0000004 00000000",
            );
            refuses(&c3(), call, pending, KNOWN, 8);
        }
        // A completion with another table, or with none, is promised nothing.
        let plain = "E0000002 40064005 C0000003 00000000";
        super::writes(CompleteResidual, pending, KNOWN, plain);
    }
    let silent = "E0000002 4006C005 C0000004 00000000";
    writes(m3, NarrowResidual, S_PENDING, "80", silent);
    let h = "90000002 80100001 00000000 07000000 20000005 60000001";
    let met = "E0000001 40050000 C0100001 00000001 07000000 00050000";
    writes(&c3(), Evaluate, h, "00 10", met);
    let pending = "F0000000 90000002 C0000001 00000000 80100001 00000000 07000000 20000005";
    writes(&c3(), PartialEvaluate, h, "00 20", pending);
    writes(
        &c3(),
        CompleteResidual,
        pending,
        "00 10",
        "E0000001 40050000 C0000001 00000000",
    );
    let denied = "E0000001 00050000 DC000002 00000000 00000001 00050000";
    writes(
        &c3(),
        Evaluate,
        "88000002 00000000 20000005",
        "00 00",
        denied,
    );
}

/// Which tables of few levels are accepted: every table of two, those of three whose operations commute and are idempotent, and damaged ones. Proved calls tell
/// the same.
#[test]
fn small_tables() {
    let all = |count: u32, length: u32, most: u32| {
        (0..most.pow(length)).map(move |number| {
            let digit = |place| u8::try_from(number / most.pow(place) % most).expect("a digit");
            let bytes = (0..length).map(digit).collect();
            Given { count, bytes }
        })
    };
    let judged = |tables: &mut dyn Iterator<Item = Given>| {
        let accepted = |table: &Given| {
            let accepted = table.accepted().is_ok();
            #[cfg(feature = "proved")]
            assert_eq!(
                compare::proved::levels::levels(table).is_some(),
                accepted,
                "{table:?}"
            );
            assert_eq!(accepted, lawful(table), "{table:?}");
            accepted
        };
        tables.filter(accepted).count()
    };
    assert_eq!(judged(&mut all(1, 2, 2)), 1);
    assert_eq!(judged(&mut all(2, 8, 3)), 2);
    let digits = |number: usize| [number % 3, number / 3 % 3, number / 9];
    let of = |[low, middle, high]: [usize; 3]| {
        move |one: usize, other: usize| match one + other {
            _ if one == other => one,
            1 => low,
            2 => middle,
            _ => high,
        }
    };
    let mut of_three = (0..729).map(|number| {
        let (meet, join) = (digits(number % 27), digits(number / 27));
        table_of(3, of(meet), of(join))
    });
    assert_eq!(judged(&mut of_three), 6);
    let mut rng = Rng::new(SEED);
    let drawn: Vec<Given> = (0..4_000).map(|_| lattice(&mut rng)).collect();
    assert_eq!(judged(&mut drawn.iter().cloned()), drawn.len());
    let mut damage = drawn.iter().map(|table| damaged(&mut rng, table));
    let whole = judged(&mut damage);
    assert!((100..1_000).contains(&whole), "{whole}");
}

/// The request's own words for what is accepted.
fn lawful(table: &Given) -> bool {
    let Given { count, bytes } = table;
    let count = *count as usize;
    if !(1..=16).contains(&count) || bytes.len() != 2 * count * count {
        return false;
    }
    let bytes: Vec<usize> = bytes.iter().copied().map(usize::from).collect();
    if bytes.iter().any(|byte| *byte >= count) {
        return false;
    }
    let meet = |one: usize, other: usize| bytes[one * count + other];
    let join = |one: usize, other: usize| bytes[count * count + one * count + other];
    let pairs = || (0..count).flat_map(|one| (0..count).map(move |other| (one, other)));
    pairs().all(|(a, b)| {
        meet(a, b) == meet(b, a)
            && join(a, b) == join(b, a)
            && meet(a, join(a, b)) == a
            && join(a, meet(a, b)) == a
            && (0..count).all(|c| {
                meet(meet(a, b), c) == meet(a, meet(b, c))
                    && join(join(a, b), c) == join(a, join(b, c))
            })
    })
}

/// Lattices of each number of levels, M3 and N5 among them, those that distribute and those that don't.
#[test]
fn drawn_lattices() {
    let mut rng = Rng::new(SEED);
    let mut counts = [0; 17];
    let mut bent = 0;
    for _ in 0..4_000 {
        let table = lattice(&mut rng);
        let count = table.count as usize;
        counts[count] += 1;
        let ordered = table.accepted().expect("a lattice");
        let levels = || 0..u16::try_from(count).expect("few levels");
        let distributes = levels().all(|a| {
            levels().all(|b| {
                levels().all(|c| {
                    ordered.meet(a, ordered.join(b, c))
                        == ordered.join(ordered.meet(a, b), ordered.meet(a, c))
                })
            })
        });
        bent += usize::from(!distributes);
    }
    assert!(counts[1..].iter().all(|count| *count > 10), "{counts:?}");
    assert!((500..3_500).contains(&bent), "{bent}");
    for table in [m3(), n5(), worked_m3(), worked_n5()] {
        assert!(table.accepted().is_ok());
    }
}

/// Drawn calls by accepted and damaged tables.
#[test]
fn drawn_calls() {
    let cases = draw(SEED, 30_000);
    let mut tally = Tally::default();
    for by in &cases {
        tally.add(by);
        #[cfg(feature = "proved")]
        assert!(compare::proved::levels::agrees(by), "{}", by.line());
    }
    assert!(tally.accepted > 15_000, "{tally}");
    assert!(tally.unlike_sets > 3_500, "{tally}");
    assert!(tally.no_level > 200, "{tally}");
    assert!((700..2_000).contains(&tally.no_table), "{tally}");
    assert!(tally.levels.iter().all(|count| *count > 100), "{tally}");
}

/// Chains by one table: what demand 3 promises holds of the original's calls, and of the comparison's own, by it.
#[test]
fn chains_by_one_table() {
    let mut rng = Rng::new(SEED);
    for _ in 0..3_000 {
        let (table, chain) = chain_by(&mut rng);
        let order = rng.pick(&[Order::PermitsFirst, Order::SheetOrder]);
        let (room, number) = (chain.room(), u32::from(chain.number));
        let checked = by_levels(&table, || {
            let sitting = reference::evaluate(&chain.sheet, number, &chain.known, room);
            let sitting = sitting.expect("room for it");
            let unknown = tables::unknown(&chain.facts);
            let mut accepted: Vec<&[u8]> = vec![&chain.reduction];
            for (stage, record) in chain.records(order).iter().enumerate() {
                if stage > 0 {
                    accepted.push(&chain.narrowings[stage - 1]);
                }
                assert!(settled(record, &accepted), "{table:?} {chain:X?}");
                let (_, narrow) = reference::pair(order);
                let same = narrow(record, number, &unknown, room);
                assert_eq!(same.as_ref(), Ok(record), "{table:?} {chain:X?}");
                let completed = reference::complete_residual(record, number, &chain.known, room);
                let completed = completed.expect("room for it");
                let (one, other) = (decided(&completed), decided(&sitting));
                assert_eq!(one, other, "{table:?} {chain:X?}");
            }
        });
        assert_eq!(checked, Ok(()));
        #[cfg(feature = "proved")]
        for orders in [
            &[Order::PermitsFirst][..],
            &[Order::SheetOrder],
            &[Order::PermitsFirst, Order::SheetOrder],
        ] {
            let ends =
                compare::proved::levels::ends_as_one_sitting(&mut rng, &table, &chain, orders);
            assert!(ends, "{table:?} {chain:X?}");
        }
    }
}

/// Two completions by one table that read the required facts alike.
#[test]
fn completions_by_one_table_depend_on_required_facts() {
    let mut rng = Rng::new(SEED);
    let mut accepted = 0;
    for by in draw(SEED + 1, 10_000) {
        if by.case.call != CompleteResidual {
            continue;
        }
        let required = reference::required_residual_facts(&by.case.words);
        let required: Vec<u16> = required.unwrap_or_default().facts().collect();
        let answers = tables::alike(&mut rng, &required).map(|table| {
            let case = Case {
                table,
                ..by.case.clone()
            };
            let by = ByLevels { case, ..by.clone() };
            #[cfg(feature = "proved")]
            assert!(compare::proved::levels::agrees(&by), "{}", by.line());
            by.answer()
        });
        assert_eq!(answers[0], answers[1], "{}", by.line());
        accepted += usize::from(answers[0].is_ok());
    }
    assert!(accepted > 800, "{accepted}");
}

/// By the levels that four products are, calls answer as by sets of products, where no outcome has a fifth.
#[test]
fn four_products_are_sixteen_levels() {
    let levels = four_products();
    let mut few = 0;
    for case in cases::draw(SEED, 20_000, &CALLS) {
        let plain = case.answer();
        let by = ByLevels {
            levels: levels.clone(),
            case,
        };
        if by.answer() == Err(Refusal::Field) && plain != Err(Refusal::Field) {
            continue;
        }
        assert_eq!(by.answer(), plain, "{}", by.line());
        #[cfg(feature = "proved")]
        assert!(compare::proved::levels::agrees(&by), "{}", by.line());
        few += usize::from(plain.is_ok());
    }
    assert!(few > 5_000, "{few}");
}

/// Within a call by a table the original has that table's operations, and outside of it sets of products, also after a call that was turned back.
#[test]
fn a_table_is_given_to_its_call_alone() {
    use gatekeep::Lattice;

    let meets = || Products(1).meet(&Products(2));
    assert_eq!(meets(), Products(0));
    assert_eq!(by_levels(&c3(), meets), Ok(Products(1)));
    let inner = by_levels(&c3(), || (by_levels(&worked_m3(), meets), meets()));
    assert_eq!(inner, Ok((Ok(Products(0)), Products(1))));
    assert_eq!(by_levels(&chain(17), meets), Err(Refusal::OutcomeTable));
    assert_eq!(meets(), Products(0));
    let ends = by_levels(&c3(), || std::panic::catch_unwind(Products::top).is_err());
    assert_eq!(ends, Ok(true));
    let long = by_levels(&c3(), || read::sheet(&[0x6000_0003]).map(|_| ()));
    assert_eq!(long, Ok(Err(Refusal::Field)));
    assert!(read::sheet(&[0x6000_0003]).is_ok());
}
