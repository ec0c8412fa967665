//! Pairs of tables for a join.

use super::rng::Rng;
use crate::join::Join;
use crate::words::TABLE_BYTES;
use crate::words::table::pack;

/// This many joins.
pub fn draw(seed: u64, count: usize) -> Vec<Join> {
    let mut rng = Rng::new(seed);
    (0..count).map(|_| pair(&mut rng)).collect()
}

/// What two relays know of one story, each with gaps of its own; most are then left as they are, others are damaged.
fn pair(rng: &mut Rng) -> Join {
    let (long, short) = lengths(rng);
    let story: Vec<u8> = (0..4 * long).map(|_| rng.pick(&[0, 1])).collect();
    let gaps = rng.pick(&[10, 50, 90]);
    let mut longer = relay(rng, &story, gaps);
    let mut shorter = relay(rng, &story[..4 * short], gaps);
    // Past the shorter one's end only what isn't Present can be joined.
    let clash_past_end = rng.percent(10);
    for field in &mut longer[4 * short..] {
        if *field == 1 && !(clash_past_end && rng.percent(20)) {
            *field = rng.pick(&[0, 2]);
        }
    }
    if rng.percent(15) && short > 0 {
        let fact = rng.below(4 * short);
        let reading = rng.pick(&[0, 1]);
        (longer[fact], shorter[fact]) = (reading, 1 - reading);
    }
    for fields in [&mut longer, &mut shorter] {
        if rng.percent(6) && !fields.is_empty() {
            let fact = rng.below(fields.len());
            fields[fact] = 3;
        }
    }
    let (mut longer, mut shorter) = (pack(&longer), pack(&shorter));
    for table in [&mut longer, &mut shorter] {
        if rng.percent(2) {
            table.resize(TABLE_BYTES + rng.between(1, 2), 0);
        }
    }
    let room = room(rng, longer.len().max(shorter.len()));
    if rng.percent(50) {
        (longer, shorter) = (shorter, longer);
    }
    Join {
        one: longer,
        two: shorter,
        room,
    }
}

/// The lengths of the two, the longer first.
fn lengths(rng: &mut Rng) -> (usize, usize) {
    let mut length = || match rng.below(10) {
        0 => rng.pick(&[0, 255, 256]),
        1..=3 => rng.between(0, TABLE_BYTES),
        _ => rng.between(0, 12),
    };
    let (one, two) = (length(), length());
    let two = if rng.percent(40) { one } else { two };
    (one.max(two), one.min(two))
}

/// The story with gaps, this many in a hundred.
fn relay(rng: &mut Rng, story: &[u8], gaps: usize) -> Vec<u8> {
    let reading = |reading: &u8| if rng.percent(gaps) { 2 } else { *reading };
    story.iter().map(reading).collect()
}

/// Mostly enough, and otherwise any room up to the length.
fn room(rng: &mut Rng, length: usize) -> usize {
    if rng.percent(70) {
        length + rng.below(3)
    } else {
        rng.between(0, length)
    }
}
