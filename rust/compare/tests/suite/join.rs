//! The proved join against the comparison's own.

use compare::generate::joins::draw;
use compare::join::Join;
use compare::proved::joins;
use compare::refusal::Refusal;

const SEED: u64 = 20_261_117;

#[track_caller]
fn agrees(join: &Join) {
    assert!(joins(join), "differs: {}", join.line());
}

#[test]
fn drawn_pairs_agree_and_meet_every_answer() {
    let drawn = draw(SEED, 100_000);
    drawn.iter().for_each(agrees);
    let answers: Vec<_> = drawn.iter().map(Join::answer).collect();
    assert!(answers.iter().filter(|answer| answer.is_ok()).count() > 30_000);
    let causes = [
        Refusal::TableLength,
        Refusal::TableField,
        Refusal::Clash,
        Refusal::Room,
    ];
    for cause in causes {
        let refused = answers.iter().filter(|answer| **answer == Err(cause));
        assert!(refused.count() > 1_000, "{cause:?}");
    }
    let uneven = |join: &&Join| join.one.len() != join.two.len() && join.answer().is_ok();
    assert!(drawn.iter().filter(uneven).count() > 5_000);
}

#[test]
fn all_pairs_of_bytes_agree() {
    for one in 0..=u8::MAX {
        for two in 0..=u8::MAX {
            let (one, two) = (vec![one], vec![two]);
            agrees(&Join { one, two, room: 1 });
        }
    }
}

#[test]
fn every_room_up_to_the_length_agrees() {
    for bytes in [0, 1, 2, 15, 16, 17, 255, 256] {
        for room in 0..=bytes + 1 {
            let (one, two) = (vec![0xA6; bytes], vec![0x66; bytes / 2]);
            agrees(&Join { one, two, room });
            let (one, two) = (vec![0x9A; bytes], vec![0x59; bytes]);
            agrees(&Join { one, two, room });
        }
    }
}

/// A fact alone, and a table that has ended before it: both groupings of three, by the proved call and by the comparison's own.
#[test]
fn all_triples_of_one_field_are_grouped_either_way() {
    let tables: [&[u8]; 4] = [&[], &[0x00], &[0x40], &[0x80]];
    let proved = |one: &[u8], two: &[u8]| {
        let mut out = [0; 256];
        let joined = vierskof::join_tables(one, two, &mut out);
        joined
            .map(<[u8]>::to_vec)
            .map_err(vierskof::Refusal::number)
    };
    let own = |one: &[u8], two: &[u8]| {
        let (one, two) = (one.to_vec(), two.to_vec());
        let joined = Join {
            one,
            two,
            room: 256,
        }
        .answer();
        joined.map_err(|refusal| u32::from(refusal.number()))
    };
    for a in tables {
        for b in tables {
            for c in tables {
                let left = proved(a, b).and_then(|joined| proved(&joined, c));
                let right = proved(b, c).and_then(|joined| proved(a, &joined));
                assert_eq!(left, right, "{a:X?} {b:X?} {c:X?}");
                let judged = own(a, b).and_then(|joined| own(&joined, c));
                assert_eq!(left, judged, "{a:X?} {b:X?} {c:X?}");
                let judged = own(b, c).and_then(|joined| own(a, &joined));
                assert_eq!(right, judged, "{a:X?} {b:X?} {c:X?}");
            }
        }
    }
}
