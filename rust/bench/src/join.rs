//! The proved join beside a plain Rust loop over the same masks.

use std::hint::black_box;

use compare::join::Join;
use compare::proved::joins;
use compare::words::TABLE_BYTES;

use crate::timing::by_turns;

/// Tables of so many bytes: nanoseconds of the proved call and of the plain loops.
pub fn timed(bytes: usize) -> [f64; 2] {
    let (one, two) = (vec![0x99; bytes], vec![0x66; bytes]);
    let join = Join {
        one: one.clone(),
        two: two.clone(),
        room: TABLE_BYTES,
    };
    assert!(joins(&join), "a join of {bytes} bytes differs");
    let (mut written, mut plainly) = ([0; TABLE_BYTES], [0; TABLE_BYTES]);
    let mut proved = || {
        let joined = vierskof::join_tables(black_box(&one), black_box(&two), &mut written);
        black_box(joined).expect("accepted");
    };
    let mut by_loops = || {
        let joined = plain(black_box(&one), black_box(&two), &mut plainly);
        black_box(joined).expect("accepted");
    };
    by_turns([&mut proved, &mut by_loops])
}

/// Two tables of one length: a pass to judge and a pass to write.
fn plain<'o>(one: &[u8], two: &[u8], out: &'o mut [u8]) -> Option<&'o [u8]> {
    let three = |byte: u8| byte & byte >> 1 & 0x55;
    let bytes = one.len();
    let out = out.get_mut(..bytes)?;
    let (mut faults, mut clashes) = (0, 0);
    for (a, b) in one.iter().zip(two) {
        faults |= three(*a) | three(*b);
        clashes |= three(a ^ b ^ 0xAA);
    }
    if bytes > TABLE_BYTES || bytes != two.len() || faults != 0 || clashes != 0 {
        return None;
    }
    for ((out, a), b) in out.iter_mut().zip(one).zip(two) {
        *out = a & b | (a | b) & 0x55;
    }
    Some(out)
}
