//! The tight form: the comparison's own calls on worked runs, and the proved calls against them.

use compare::refusal::Refusal;
use compare::tight::{Kind, Packing, Unpacking};

use super::{bytes, words};

/// Words and their tight form.
const ROWS: [(Kind, &str, &str); 16] = [
    (Kind::Sheet, "60000001", "60 00 10"),
    (Kind::Sheet, "70000000", "70"),
    (Kind::Sheet, "90000000", "90 00"),
    (
        Kind::Sheet,
        "88000003 00000000 20000005",
        "88 00 00 30 80 50",
    ),
    (
        Kind::Sheet,
        "80300001 80078001 07073F00 00000000",
        "80 30 00 18 00 78 00 11 C7 FC 00",
    ),
    (
        Kind::Sheet,
        "90000002 80100001 00000000 07000000 20000005 60000001",
        "90 02 80 10 00 10 72 01 58 00 04",
    ),
    (
        Kind::Sheet,
        "B0000000 80000001 00000000 40000002 30000000 20000000 200003FF 70000000",
        "B8 00 00 01 10 00 8C 80 02 FF DC",
    ),
    (
        Kind::Record,
        "E0000000 C0000001 00000000",
        "E0 00 00 00 C0 00 00 20 00",
    ),
    (
        Kind::Record,
        "E0000001 40050000 C0000003 00000001 00050000",
        "E0 00 00 01 40 5C 00 00 06 00 10 14",
    ),
    (
        Kind::Record,
        "E0007001 40050000 C0000003 00000001 00050000",
        "E0 00 70 01 40 5C 00 00 06 00 10 14",
    ),
    (
        Kind::Record,
        "E0000001 C0050000 DC000003 00000000 00000001 00050000",
        "E0 00 00 01 C0 5D C0 00 C0 01 01 40",
    ),
    (
        Kind::Record,
        "F0000000 88000003 00000000 20000005",
        "F0 00 00 00 88 00 00 30 80 50",
    ),
    (Kind::Record, "F0000000 70000000", "F0 00 00 00 70"),
    (
        Kind::Record,
        "E0000000 C020FFFF 80040002 07070000 000503FF",
        "E0 00 00 00 C0 5F FF F0 00 80 04 38 E0 2F FE",
    ),
    (
        Kind::Record,
        "E0000000 D8000000 00008009 00000001 00050000",
        "E0 00 00 00 D9 00 12 00 20 28",
    ),
    (
        Kind::Record,
        "FFFFF003 C3FF4000 82AA0000 B0000000 90000000 A0000000",
        "FF FF F0 03 FF F4 00 AA AB 90 00 A0 00",
    ),
];

/// Bytes that are turned back, whatever the room.
const REFUSED: [(Kind, &str, u8); 25] = [
    (Kind::Sheet, "", 19),
    (Kind::Sheet, "84", 19),
    (Kind::Sheet, "84 00", 19),
    (Kind::Sheet, "84 10", 8),
    (Kind::Sheet, "8C 10", 8),
    (Kind::Sheet, "50", 5),
    (Kind::Sheet, "C0", 5),
    (Kind::Sheet, "D0", 5),
    (Kind::Sheet, "E0", 5),
    (Kind::Sheet, "F0", 5),
    (Kind::Sheet, "71", 20),
    (Kind::Sheet, "78", 20),
    (Kind::Sheet, "70 00", 20),
    (Kind::Sheet, "78 00", 20),
    (Kind::Sheet, "60 00 11", 20),
    (Kind::Sheet, "60 00", 19),
    (Kind::Sheet, "A0 01", 19),
    (Kind::Record, "", 19),
    (Kind::Record, "D0", 5),
    (Kind::Record, "E0", 19),
    (Kind::Record, "E0 00 00 00", 19),
    (Kind::Record, "E0 00 00 00 70", 5),
    (Kind::Record, "E0 00 00 00 E0", 5),
    (Kind::Record, "F0 00 00 00 E0", 5),
    (Kind::Record, "F0 00 00 01 40", 19),
];

/// Words that are turned back.
const REFUSED_WORDS: [(Kind, &str, u8); 14] = [
    (Kind::Sheet, "", 1),
    (Kind::Record, "", 1),
    (Kind::Sheet, "50000000", 5),
    (Kind::Sheet, "C0000000 00000000", 5),
    (Kind::Sheet, "E0000000", 5),
    (Kind::Record, "70000000", 5),
    (Kind::Record, "E0000000 70000000", 5),
    (Kind::Sheet, "90000001", 6),
    (Kind::Sheet, "84100001", 8),
    (Kind::Sheet, "70000001", 8),
    (Kind::Sheet, "80200001 00000000 07080001 00000000", 8),
    (Kind::Record, "E0000000 D0000001 00000000 00000000", 8),
    (
        Kind::Record,
        "E0000001 44050000 C0000003 00000001 00050000",
        8,
    ),
    (Kind::Sheet, "70000000 00000000", 10),
];

fn packing(kind: Kind, words: Vec<u32>, room: usize) -> Packing {
    Packing { kind, words, room }
}

fn unpacking(kind: Kind, bytes: Vec<u8>, room: usize) -> Unpacking {
    Unpacking { kind, bytes, room }
}

/// The number of a refusal, or 0.
fn number<T>(answer: &Result<T, Refusal>) -> u8 {
    answer
        .as_ref()
        .map_or_else(|refusal| refusal.number(), |_| 0)
}

#[test]
fn worked_rows() {
    for (kind, given, form) in ROWS {
        let (given, form) = (words(given), bytes(form));
        let packed = packing(kind, given.clone(), form.len()).answer();
        assert_eq!(packed, Ok(form.clone()), "{given:08X?}");
        let unpacked = unpacking(kind, form, given.len()).answer();
        assert_eq!(unpacked, Ok(given.clone()), "{given:08X?}");
    }
}

#[test]
fn worked_refusals() {
    for (kind, form, cause) in REFUSED {
        for room in [0, 70_000] {
            let answer = unpacking(kind, bytes(form), room).answer();
            assert_eq!(number(&answer), cause, "{kind:?} {form}");
        }
    }
    for (kind, given, cause) in REFUSED_WORDS {
        for room in [0, 70_000] {
            let answer = packing(kind, words(given), room).answer();
            assert_eq!(number(&answer), cause, "{kind:?} {given}");
        }
    }
}

#[cfg(feature = "proved")]
mod proved {
    use compare::generate::grow::{Alphabet, Grower};
    use compare::generate::rng::Rng;
    use compare::generate::tight::{packings, unpackings};
    use compare::proved::{packs, unpacks};
    use compare::tight::{Kind, TIGHT_BYTES, record, residual};
    use compare::words::tree::{Condition, Record, Residual, Tree};
    use compare::words::{LEVELS, RECORD_WORDS, SHEET_WORDS};
    use compare::words::{read, write};

    use super::super::{bytes, words};
    use super::{REFUSED, REFUSED_WORDS, ROWS, number, packing, unpacking};

    const SEED: u64 = 20_261_117;

    /// The proved call agrees, and is refused by this number, or accepts.
    #[track_caller]
    fn unpacked(kind: Kind, form: Vec<u8>, room: usize, expected: u8) {
        let case = unpacking(kind, form, room);
        assert_eq!(number(&case.answer()), expected, "{case:X?}");
        assert!(unpacks(&case), "{case:X?}");
    }

    #[track_caller]
    fn packed(kind: Kind, given: Vec<u32>, room: usize, expected: u8) {
        let case = packing(kind, given, room);
        assert_eq!(number(&case.answer()), expected, "{case:X?}");
        assert!(packs(&case), "{case:X?}");
    }

    /// Accepted words: both calls agree on them and on their form, with every room around its length.
    #[track_caller]
    fn both_ways(kind: Kind, given: &[u32]) {
        let form = packing(kind, given.to_vec(), 4 * given.len()).answer();
        let form = form.expect("accepted words");
        for room in [0, form.len() - 1, form.len(), form.len() + 1] {
            let cause = if room < form.len() { 11 } else { 0 };
            packed(kind, given.to_vec(), room, cause);
        }
        for room in [0, given.len() - 1, given.len(), given.len() + 1] {
            let cause = if room < given.len() { 11 } else { 0 };
            unpacked(kind, form.clone(), room, cause);
        }
    }

    #[test]
    fn worked_rows_agree() {
        for (kind, given, _) in ROWS {
            both_ways(kind, &words(given));
        }
        for (kind, form, cause) in REFUSED {
            for room in [0, 8] {
                unpacked(kind, bytes(form), room, cause);
            }
        }
        for (kind, given, cause) in REFUSED_WORDS {
            for room in [0, 64] {
                packed(kind, words(given), room, cause);
            }
        }
    }

    /// The word with a field at each of its ends, `at` bits from the left.
    fn ends(words: &[u32], place: usize, at: u32, width: u32) -> [Vec<u32>; 2] {
        let most = (1 << width) - 1;
        [0, most].map(|value| {
            let mut words = words.to_vec();
            let shift = 32 - at - width;
            words[place] = words[place] & !(most << shift) | value << shift;
            words
        })
    }

    /// Both ends of fields, and of each two of them together.
    fn all_ends(words: &[u32], fields: &[(usize, u32, u32)]) -> Vec<Vec<u32>> {
        let start = vec![words.to_vec()];
        fields.iter().fold(start, |found, (place, at, width)| {
            let turned = |words: &Vec<u32>| ends(words, *place, *at, *width);
            found.iter().flat_map(turned).collect()
        })
    }

    #[test]
    fn each_kind_with_every_field_at_its_ends() {
        // A label or reason that is absent is 0.
        let named = |word: usize, at: u32| {
            move |words: &Vec<u32>| match words[word] << at >> 16 {
                0 => true,
                half => half >> 15 == 1,
            }
        };
        let grant = &[0x8000_0000, 0, 0x2000_0000];
        let fields = [
            (0, 4, 1),
            (0, 16, 16),
            (1, 0, 1),
            (1, 1, 15),
            (1, 16, 1),
            (1, 17, 15),
        ];
        let grants = all_ends(grant, &[&fields[..], &[(2, 22, 10)]].concat());
        let grants = grants.into_iter().filter(named(1, 0)).filter(named(1, 16));
        let mut sheets: Vec<Vec<u32>> = grants.collect();
        assert_eq!(sheets.len(), 2 * 2 * 3 * 3 * 2);
        sheets.extend(all_ends(&[0x6000_0000], &[(0, 16, 16)]));
        sheets.push(vec![0x7000_0000]);
        for list in [0x9000_0000, 0xA000_0000] {
            sheets.push(vec![list]);
            sheets.push([&[list | 0xFFF], &[0x7000_0000; 4_095][..]].concat());
        }
        for list in [0x4000_0000, 0x5000_0000] {
            sheets.push(vec![0x8000_0000, 0, list]);
            let full = [&[0x8000_0000, 0, list | 0xFFD], &[0x1000_0000; 4_093][..]].concat();
            sheets.push(full);
        }
        for leaf in [0x0000_0000, 0x1000_0000] {
            sheets.push(vec![0x8000_0000, 0, leaf]);
            sheets.push(vec![0x8000_0000, 0, 0x3000_0000, leaf]);
        }
        sheets.push(vec![0xB000_0000, 0x6000_FFFF, 0x7000_0000]);
        for (count, obligation) in [
            (1, 0),
            (1, 63),
            (3, 63),
            (4, 63),
            (5, 63),
            (64, 0),
            (64, 63),
        ] {
            sheets.push(owing(0x8800_FFFF, count, obligation, &[0x2000_03FF]));
        }
        for sheet in &sheets {
            both_ways(Kind::Sheet, sheet);
        }

        let mut trees = Vec::new();
        let permits = all_ends(&[0xC000_0000, 0], &[(0, 16, 16), (1, 0, 1), (1, 1, 15)]);
        trees.extend(permits.into_iter().filter(named(1, 0)));
        for (count, obligation) in [
            (1, 0),
            (1, 63),
            (64, 63),
            (65, 7),
            (126, 1),
            (127, 0),
            (127, 63),
        ] {
            trees.push(owing(0xC000_0001, count, obligation, &[]));
        }
        for fact in [0, 0x3FF] {
            for facts in [1, 2, 3, 4_094, 4_095] {
                trees.push(naming(&[0xC000_FFFF, facts], facts, fact));
                trees.push(naming(&[0xDC00_FFFF, 0xFFFF_FFFF, facts], facts, fact));
            }
        }
        let denies = all_ends(&[0xD000_0000, 0, 0], &[&[(0, 5, 1)], &fields[..]].concat());
        let absent_is_0 = |words: &Vec<u32>| words[0] & 0x0400_FFFF != 0x0000_FFFF;
        let denies = denies.into_iter().filter(absent_is_0);
        trees.extend(denies.filter(named(1, 0)).filter(named(1, 16)));
        for tree in &trees {
            for lead in [0xE000_0000, 0xEFFF_F000, 0xF000_0000, 0xFFFF_F000] {
                both_ways(Kind::Record, &[&[lead], tree.as_slice()].concat());
            }
        }
        for (entries, entry) in [1, 2, 3, 4_095].into_iter().flat_map(|entries| {
            [0x0000, 0x03FF, 0x4000, 0x8000, 0xC000, 0xC3FF].map(|entry| (entries, entry))
        }) {
            let consulted = naming(&[0xF000_0000 | entries], entries, entry);
            both_ways(Kind::Record, &[&consulted[..], &[0x7000_0000]].concat());
        }
    }

    /// A node 8 or 12 with so many obligations, all the same, and what follows them.
    fn owing(lead: u32, count: usize, obligation: u8, rest: &[u32]) -> Vec<u32> {
        let held = u32::try_from(count).expect("few") << 20;
        let mut list = vec![obligation; count];
        list.resize(count.next_multiple_of(4), 0);
        let list = list.as_chunks().0.iter().copied().map(u32::from_be_bytes);
        [&[lead | held, 0], &list.collect::<Vec<u32>>()[..], rest].concat()
    }

    /// Words before a list of so many facts or entries, all the same.
    fn naming(before: &[u32], count: u32, field: u32) -> Vec<u32> {
        let pair = field << 16 | field;
        let pairs = vec![pair; count as usize / 2];
        let odd = if count % 2 == 1 {
            &[field << 16][..]
        } else {
            &[]
        };
        [before, &pairs, odd].concat()
    }

    #[test]
    fn all_runs_of_up_to_two_bytes() {
        let mut met = [0; 21];
        for kind in Kind::ALL {
            for length in 0..=2_u32 {
                for run in 0..1_u32 << (8 * length) {
                    let form = run.to_be_bytes()[4 - length as usize..].to_vec();
                    let case = unpacking(kind, form, 3);
                    assert!(unpacks(&case), "{case:X?}");
                    met[usize::from(number(&case.answer()))] += 1;
                }
            }
        }
        // Accepted are a Deny, an empty All and Any, and an OrElse of two denies; 63 counts are too great, of a grant on top and of one in an OrElse.
        for (cause, count) in [(0, 4), (8, 63 * 2 * (16 + 1)), (11, 0)] {
            assert_eq!(met[cause], count, "{cause}");
        }
        assert!(
            [5, 19, 20].into_iter().all(|cause| met[cause] > 1_000),
            "{met:?}"
        );
    }

    /// Runs with every kind of node and every field in use, sheets and records.
    const RICH: [(Kind, &str); 6] = [
        (
            Kind::Sheet,
            "B0000000 90000002 8830A5C3 9234ABCD 073F2A00 40000003 30000000 2000015A 10000000 00000000 60005A3C A0000001 70000000",
        ),
        (
            Kind::Sheet,
            "A0000003 88000003 00000000 50000002 200003FF 30000000 20000000 8050F00F FFFF0000 01020304 05000000 10000000 B0000000 70000000 60008001",
        ),
        (
            Kind::Record,
            "FABCD003 42AAC3FF 80010000 90000003 C030F0F0 91230003 3F011500 00050155 02AA0000 DC00CDEF 8001FFFF 00000002 03FF0001 8000000F 00008123 200000FF",
        ),
        (Kind::Record, "E0007001 40050000 C0000003 00000001 00050000"),
        (
            Kind::Record,
            "EFFFF002 C0054006 D8000000 00008009 00000003 00050006 03FF0000",
        ),
        (
            Kind::Record,
            "F0001000 B0000000 A0000002 D4000001 80000000 00000000 70000000 C4100003 80010001 07070707 07070707 07070707 07070707 07070707 07070707 07070707 07070707 07070707 07070707 07070707 07070707 07070707 07070707 07070707 07070707 3F000000 03FF0000",
        ),
    ];

    #[test]
    fn every_bit_of_rich_runs_flipped_and_every_prefix() {
        let mut met = [0; 21];
        for (kind, given) in RICH {
            let given = words(given);
            both_ways(kind, &given);
            let form = packing(kind, given.clone(), 4 * given.len()).answer();
            let form = form.expect("accepted words");
            let mut agrees = |kind, form: Vec<u8>| {
                let case = unpacking(kind, form, given.len() + 4_096);
                assert!(unpacks(&case), "{case:X?}");
                met[usize::from(number(&case.answer()))] += 1;
            };
            for bit in 0..8 * form.len() {
                let mut flipped = form.clone();
                flipped[bit / 8] ^= 0x80 >> (bit % 8);
                agrees(kind, flipped);
            }
            for length in 0..form.len() {
                agrees(kind, form[..length].to_vec());
            }
            for other in Kind::ALL {
                for next in [0x00, 0x01, 0x80, 0xFF] {
                    agrees(other, [&form[..], &[next]].concat());
                }
            }
            // And of the words.
            for bit in 0..32 * given.len() {
                let mut flipped = given.clone();
                flipped[bit / 32] ^= 1 << (bit % 32);
                let case = packing(kind, flipped, 4 * given.len());
                assert!(packs(&case), "{case:X?}");
            }
            for length in 0..given.len() {
                let case = packing(kind, given[..length].to_vec(), 4 * given.len());
                assert!(packs(&case), "{case:X?}");
            }
        }
        for (cause, least) in [(0, 500), (5, 50), (8, 3), (19, 300), (20, 20)] {
            assert!(met[cause] >= least, "{cause}: {met:?}");
        }
    }

    /// So many nodes down, the last ones conditions if there is a grant.
    fn tall(policies: usize, conditions: usize) -> Residual {
        let bottom = if conditions > 0 {
            let condition =
                (1..conditions).fold(Condition::Never, |below, _| Condition::Not(Box::new(below)));
            let Ok(Tree::Grant(mut grant)) = read::sheet(&[0x8000_0001, 0, 0]) else {
                panic!("a grant");
            };
            grant.condition = condition;
            Tree::Grant(grant)
        } else {
            Tree::Deny
        };
        (1..policies).fold(bottom, |below, _| Tree::All(vec![below]))
    }

    #[test]
    fn levels_31_to_33() {
        for nodes in LEVELS - 1..=LEVELS + 1 {
            let cause = if nodes > LEVELS { 7 } else { 0 };
            for conditions in [0, 1, 2, 15, nodes - 1] {
                let tree = tall(nodes - conditions, conditions);
                let given = write::tree(&tree);
                packed(Kind::Sheet, given.clone(), 4_096, cause);
                let form = residual(&tree);
                unpacked(Kind::Sheet, form.clone(), 64, cause);
                unpacked(Kind::Sheet, form[..form.len() - 1].to_vec(), 64, 19);
                let pending = [&[0xF000_0000], given.as_slice()].concat();
                packed(Kind::Record, pending, 4_096, cause);
                let tree = Record::Pending {
                    consulted: Vec::new(),
                    residual: tree,
                };
                unpacked(Kind::Record, record(7, &tree), 64, cause);
            }
        }
        // The 33rd node: its kind first, then its level, and its fields not at all.
        let above = [&[0x80, 0x00, 0x00, 0x10][..], &[0xCC; 15]].concat();
        for (last, cause) in [
            (0xC0, 7),
            (0xC4, 7),
            (0xC8, 7),
            (0xCC, 7),
            (0xD0, 7),
            (0xD4, 7),
        ] {
            unpacked(Kind::Sheet, [&above[..], &[last]].concat(), 64, cause);
        }
        for last in [0xD8, 0xDC, 0xE0, 0xFC] {
            unpacked(Kind::Sheet, [&above[..], &[last]].concat(), 64, 5);
        }
        unpacked(Kind::Sheet, above, 64, 19);
        let lists = [0x90, 0x01].repeat(LEVELS);
        for (last, cause) in [
            (0x70, 7),
            (0x80, 7),
            (0x60, 7),
            (0x00, 5),
            (0xC0, 5),
            (0xF0, 5),
        ] {
            unpacked(Kind::Sheet, [&lists[..], &[last]].concat(), 64, cause);
            let lead = [0xF0, 0x00, 0x00, 0x00];
            let cause = if last == 0xC0 { 7 } else { cause };
            unpacked(
                Kind::Record,
                [&lead[..], &lists, &[last]].concat(),
                64,
                cause,
            );
        }
    }

    #[test]
    fn the_most_words_and_one_more() {
        let mut rng = Rng::new(SEED);
        let alphabet = Alphabet::wide(&mut rng);
        let room = 2 * RECORD_WORDS;
        for words in SHEET_WORDS - 1..=SHEET_WORDS + 1 {
            let tree = Grower::of_sheets(&mut rng, &alphabet).exactly(words);
            let given = write::tree(&tree);
            assert_eq!(given.len(), words);
            let over = words > SHEET_WORDS;
            packed(Kind::Sheet, given, room, u8::from(over));
            let form = residual(&tree);
            unpacked(Kind::Sheet, form.clone(), room, if over { 11 } else { 0 });
            unpacked(Kind::Sheet, form.clone(), words - 1, 11);
            unpacked(Kind::Sheet, [&form[..], &[0]].concat(), room, 20);
            unpacked(Kind::Sheet, form[..form.len() - 1].to_vec(), room, 19);
        }
        for words in RECORD_WORDS - 1..=RECORD_WORDS + 1 {
            let tree = Record::Pending {
                consulted: Vec::new(),
                residual: Grower::of_records(&mut rng, &alphabet).exactly(words - 1),
            };
            let given = write::record(&tree);
            assert_eq!(given.len(), words);
            let over = words > RECORD_WORDS;
            packed(Kind::Record, given, 2 * TIGHT_BYTES, u8::from(over));
            let form = record(0, &tree);
            unpacked(Kind::Record, form.clone(), room, if over { 11 } else { 0 });
            unpacked(Kind::Record, form.clone(), words - 1, 11);
            unpacked(Kind::Record, [&form[..], &[0]].concat(), room, 20);
            unpacked(Kind::Record, form[..form.len() - 1].to_vec(), room, 19);
        }
    }

    /// Nodes of half a byte: 4,096 words in 2,050 bytes, and with one word more.
    #[test]
    fn a_fault_after_the_last_word_comes_before_11() {
        let denies = [&[0x9F, 0xFF][..], &[0x77; 2_047], &[0x70]].concat();
        assert_eq!(denies.len(), 2_050);
        unpacked(Kind::Sheet, denies.clone(), SHEET_WORDS, 0);
        let more = [&[0xB7], denies.as_slice()].concat();
        unpacked(Kind::Sheet, more.clone(), 5_000, 11);
        unpacked(Kind::Sheet, [more.as_slice(), &[0x00]].concat(), 5_000, 20);
        unpacked(Kind::Sheet, more[..more.len() - 1].to_vec(), 5_000, 19);
        let with_last = |last: u8| [&more[..more.len() - 1], &[last]].concat();
        unpacked(Kind::Sheet, with_last(0x50), 5_000, 5);
        unpacked(Kind::Sheet, with_last(0x71), 5_000, 20);
        unpacked(Kind::Sheet, with_last(0x60), 5_000, 19);
    }

    #[test]
    fn bytes_at_the_limit() {
        for kind in Kind::ALL {
            unpacked(kind, vec![0x00; TIGHT_BYTES], 0, 5);
            unpacked(kind, vec![0x00; TIGHT_BYTES + 1], 0, 1);
        }
        // A whole tree of the most bytes: 32 lists of denies, four bits a node.
        let full = |nodes: usize| {
            let denies = |count: usize| Tree::All(vec![Tree::Deny; count]);
            let mut arms = vec![denies(4_092); 31];
            arms.push(denies(nodes - 4 - 31 * 4_096 - 4));
            residual(&Tree::Any(arms))
        };
        let most = full(2 * TIGHT_BYTES);
        assert_eq!(most.len(), TIGHT_BYTES);
        unpacked(Kind::Sheet, most, 2 * TIGHT_BYTES, 11);
        let filled = full(2 * TIGHT_BYTES - 1);
        assert_eq!(filled.len(), TIGHT_BYTES);
        let with_last = |last: u8| [&filled[..TIGHT_BYTES - 1], &[last]].concat();
        unpacked(Kind::Sheet, with_last(0x70), 2 * TIGHT_BYTES, 11);
        unpacked(Kind::Sheet, with_last(0x71), 2 * TIGHT_BYTES, 20);
        unpacked(Kind::Sheet, full(2 * TIGHT_BYTES + 1), 2 * TIGHT_BYTES, 1);
    }

    /// The longest forms that are accepted, and the longest beside their words.
    #[test]
    fn the_longest_forms() {
        let mut sheet = vec![0xA000_0555];
        sheet.extend([0x8000_0001, 0x8001_8001, 0x4000_0000].repeat(1_365));
        let form = packing(Kind::Sheet, sheet.clone(), TIGHT_BYTES).answer();
        assert_eq!(form.map(|form| form.len()), Ok(12_970));
        both_ways(Kind::Sheet, &sheet);
        let mut record = vec![0xF000_0000, 0xA000_0002];
        for _ in 0..2 {
            record.push(0xA000_0FFF);
            record.extend([0xC000_0001, 0x8001_0000].repeat(4_095));
        }
        assert_eq!(record.len(), RECORD_WORDS);
        let form = packing(Kind::Record, record.clone(), TIGHT_BYTES).answer();
        assert_eq!(form.map(|form| form.len()), Ok(56_317));
        both_ways(Kind::Record, &record);
    }

    #[test]
    fn every_room_up_to_the_length() {
        for (kind, given) in RICH {
            let given = words(given);
            let form = packing(kind, given.clone(), 4 * given.len()).answer();
            let form = form.expect("accepted words");
            for room in 0..=form.len() + 2 {
                let cause = if room < form.len() { 11 } else { 0 };
                packed(kind, given.clone(), room, cause);
            }
            for room in 0..=given.len() + 2 {
                let cause = if room < given.len() { 11 } else { 0 };
                unpacked(kind, form.clone(), room, cause);
            }
        }
    }

    #[test]
    fn drawn_and_damaged_words_and_bytes() {
        let (mut packed, mut unpacked) = ([0; 21], [0; 21]);
        for case in packings(SEED, 40_000) {
            assert!(packs(&case), "{case:X?}");
            packed[usize::from(number(&case.answer()))] += 1;
        }
        for case in unpackings(SEED, 80_000) {
            assert!(unpacks(&case), "{case:X?}");
            unpacked[usize::from(number(&case.answer()))] += 1;
        }
        let met = |numbers: &[usize], counts: [usize; 21], least: usize| {
            let others = (0..21).filter(|cause| !numbers.contains(cause));
            assert!(others.map(|cause| counts[cause]).all(|count| count == 0));
            let counts = numbers.iter().map(|cause| counts[*cause]);
            assert!(counts.min() >= Some(least), "{numbers:?}");
        };
        assert!(packed[0] > 20_000 && unpacked[0] > 30_000);
        met(&[0, 1, 5, 6, 7, 8, 10, 11], packed, 50);
        met(&[0, 1, 5, 7, 8, 11, 19, 20], unpacked, 30);
    }
}
