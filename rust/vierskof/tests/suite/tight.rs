//! Sheets and records packed and unpacked: what is answered, and what is left in the output.

use vierskof::{
    RECORD_WORDS, Refusal, SHEET_WORDS, TIGHT_BYTES, pack_record, pack_sheet, tight_room,
    unpack_record, unpack_sheet,
};

type Pack = for<'o> fn(&[u32], &'o mut [u8]) -> Result<&'o [u8], Refusal>;
type Unpack = for<'o> fn(&[u8], &'o mut [u32]) -> Result<&'o [u32], Refusal>;

type Calls = (Pack, Unpack);

/// The two calls on sheets, and those on records.
const SHEET: Calls = (pack_sheet, unpack_sheet);
const RECORD: Calls = (pack_record, unpack_record);

/// What packing answers into an output of `room` bytes. No byte changes past the result, and none where the call is refused.
fn packed(pack: Pack, words: &[u32], room: usize) -> Result<Vec<u8>, Refusal> {
    let mut out = vec![0xA5; room];
    let found = pack(words, &mut out).map(<[u8]>::to_vec);
    let written = found.as_ref().map_or(0, Vec::len);
    assert!(out[written..].iter().all(|byte| *byte == 0xA5));
    found.inspect(|bytes| assert_eq!(out[..written], bytes[..]))
}

/// The same of unpacking into an output of `room` words.
fn unpacked(unpack: Unpack, bytes: &[u8], room: usize) -> Result<Vec<u32>, Refusal> {
    let mut out = vec![0xA5A5_A5A5; room];
    let found = unpack(bytes, &mut out).map(<[u32]>::to_vec);
    let written = found.as_ref().map_or(0, Vec::len);
    assert!(out[written..].iter().all(|word| *word == 0xA5A5_A5A5));
    found.inspect(|words| assert_eq!(out[..written], words[..]))
}

#[test]
fn worked_forms_go_there_and_back_with_just_enough_room() {
    let rows: [(Calls, &[u32], &[u8]); 6] = [
        (SHEET, &[0x6000_0001], &[0x60, 0x00, 0x10]),
        (SHEET, &[0x7000_0000], &[0x70]),
        (
            SHEET,
            &[0x8800_0003, 0, 0x2000_0005],
            &[0x88, 0x00, 0x00, 0x30, 0x80, 0x50],
        ),
        (
            RECORD,
            &[0xE000_7001, 0x4005_0000, 0xC000_0003, 1, 0x0005_0000],
            &[
                0xE0, 0x00, 0x70, 0x01, 0x40, 0x5C, 0x00, 0x00, 0x06, 0x00, 0x10, 0x14,
            ],
        ),
        (
            RECORD,
            &[0xE000_0000, 0xD800_0000, 0x0000_8009, 1, 0x0005_0000],
            &[0xE0, 0x00, 0x00, 0x00, 0xD9, 0x00, 0x12, 0x00, 0x20, 0x28],
        ),
        (
            RECORD,
            &[0xF000_0000, 0x7000_0000],
            &[0xF0, 0x00, 0x00, 0x00, 0x70],
        ),
    ];
    for ((pack, unpack), words, bytes) in rows {
        for more in [0, 1, 9] {
            assert_eq!(packed(pack, words, bytes.len() + more), Ok(bytes.to_vec()));
            assert_eq!(
                unpacked(unpack, bytes, words.len() + more),
                Ok(words.to_vec())
            );
        }
        for room in 0..bytes.len() {
            assert_eq!(packed(pack, words, room), Err(Refusal::Room));
        }
        for room in 0..words.len() {
            assert_eq!(unpacked(unpack, bytes, room), Err(Refusal::Room));
        }
        assert!(bytes.len() <= tight_room(words.len()));
    }
}

#[test]
fn packing_is_refused_as_words_are() {
    let refused = |(pack, _): Calls, words: &[u32]| packed(pack, words, 64).unwrap_err();
    assert_eq!(refused(SHEET, &[]), Refusal::Length);
    assert_eq!(
        refused(SHEET, &vec![0x7000_0000; SHEET_WORDS + 1]),
        Refusal::Length
    );
    assert_eq!(
        refused(RECORD, &vec![0xF000_0000; RECORD_WORDS + 1]),
        Refusal::Length
    );
    assert_eq!(refused(SHEET, &[0xE000_0000]), Refusal::Kind);
    assert_eq!(refused(RECORD, &[0x7000_0000]), Refusal::Kind);
    assert_eq!(refused(SHEET, &[0x9000_0001]), Refusal::WordsEnd);
    assert_eq!(refused(SHEET, &[0x9000_0001; 33]), Refusal::Level);
    assert_eq!(refused(SHEET, &[0x8410_0001]), Refusal::Field);
    assert_eq!(refused(SHEET, &[0x7000_0000; 2]), Refusal::WordsAfterTree);
}

#[test]
fn unpacking_has_its_causes_in_their_order() {
    let refused = |(_, unpack): Calls, bytes: &[u8]| unpacked(unpack, bytes, 8).unwrap_err();
    assert_eq!(refused(SHEET, &vec![0; TIGHT_BYTES + 1]), Refusal::Length);
    assert_eq!(refused(SHEET, &vec![0; TIGHT_BYTES]), Refusal::Kind);
    for calls in [SHEET, RECORD] {
        assert_eq!(refused(calls, &[]), Refusal::BitsEnd);
    }
    assert_eq!(refused(SHEET, &[0x84]), Refusal::BitsEnd);
    assert_eq!(refused(SHEET, &[0x84, 0x10]), Refusal::Field);
    assert_eq!(refused(SHEET, &[0x84, 0x00]), Refusal::BitsEnd);
    assert_eq!(refused(SHEET, &[0xC0]), Refusal::Kind);
    assert_eq!(refused(RECORD, &[0xE0, 0, 0, 0, 0x70]), Refusal::Kind);
    let levels = |last: u8| [&[0x80, 0, 0, 0x10][..], &[0xCC; 15], &[last]].concat();
    assert_eq!(refused(SHEET, &levels(0xC4)), Refusal::Level);
    assert_eq!(refused(SHEET, &levels(0xD8)), Refusal::Kind);
    assert_eq!(refused(SHEET, &[0x71]), Refusal::Filler);
    assert_eq!(refused(SHEET, &[0x70, 0x00]), Refusal::Filler);
    // 4,097 words: there is no room for them anywhere, but what follows is told first.
    let long = [&[0xB7, 0x9F, 0xFF][..], &[0x77; 2_047], &[0x70]].concat();
    assert_eq!(unpacked(unpack_sheet, &long, 5_000), Err(Refusal::Room));
    let longer = [long.as_slice(), &[0x00]].concat();
    assert_eq!(unpacked(unpack_sheet, &longer, 5_000), Err(Refusal::Filler));
    let most = unpacked(unpack_sheet, &long[1..], SHEET_WORDS);
    assert_eq!(most.map(|words| words.len()), Ok(SHEET_WORDS));
}
