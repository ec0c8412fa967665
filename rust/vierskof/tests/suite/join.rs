//! Two tables joined: what is answered, and what is left in the output.

use vierskof::{Refusal, join_tables};

/// What the call answers into an output of `room` bytes. No byte changes past the result, and none where the call is refused.
fn joined(one: &[u8], two: &[u8], room: usize) -> Result<Vec<u8>, Refusal> {
    let mut out = vec![0xA5; room];
    let found = join_tables(one, two, &mut out).map(<[u8]>::to_vec);
    let written = found.as_ref().map_or(0, Vec::len);
    assert!(out[written..].iter().all(|byte| *byte == 0xA5));
    found.inspect(|bytes| assert_eq!(out[..written], bytes[..]))
}

#[test]
fn unknown_yields_and_equal_readings_stay() {
    assert_eq!(
        joined(&[0x10, 0x80], &[0x90, 0x40], 2),
        Ok(vec![0x10, 0x40])
    );
    assert_eq!(joined(&[0x99], &[0x66], 3), Ok(vec![0x55]));
    assert_eq!(joined(&[0xAA], &[0xAA], 1), Ok(vec![0xAA]));
    assert_eq!(joined(&[], &[], 0), Ok(vec![]));
}

#[test]
fn past_its_end_a_table_reads_absent() {
    assert_eq!(joined(&[0xAA, 0x80], &[0x64], 2), Ok(vec![0x64, 0x00]));
    assert_eq!(joined(&[0x00, 0x00], &[], 4), Ok(vec![0x00, 0x00]));
    assert_eq!(joined(&[0x00, 0x10], &[0x00], 2), Err(Refusal::Clash));
    assert_eq!(joined(&[0x00], &[0x00, 0x10], 2), Err(Refusal::Clash));
    let long = [0xAA; 256];
    assert_eq!(
        joined(&long, &[0x55; 255], 256).map(|table| table[255]),
        Ok(0x00)
    );
}

#[test]
fn causes_come_in_their_order() {
    assert_eq!(joined(&[0xFF], &[0x00; 257], 0), Err(Refusal::TableLength));
    assert_eq!(joined(&[0x00; 257], &[0xFF], 0), Err(Refusal::TableLength));
    assert_eq!(joined(&[0x40], &[0x03], 1), Err(Refusal::TableField));
    assert_eq!(
        joined(&[0x40, 0x00], &[0x00, 0xC0], 2),
        Err(Refusal::TableField)
    );
    assert_eq!(joined(&[0x40], &[0x00], 0), Err(Refusal::Clash));
    assert_eq!(joined(&[0x40], &[0x80], 0), Err(Refusal::Room));
    assert_eq!(joined(&[0x80; 256], &[0x80], 255), Err(Refusal::Room));
    assert_eq!(Refusal::Clash.number(), 14);
}
