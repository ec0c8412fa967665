//! Text, hexadecimal and binary: which is told from the bytes, and that they agree.

use command::form::Form;

use super::{accepted, answer, failure};

const TEXT: &str = "# Raw stage.\ngrant 0003 hidden\n  has 5\n";
const HEX: &str = "88000003 00000000 20000005\n";
const BINARY: &[u8] = b"\x88\x00\x00\x03\x00\x00\x00\x00\x20\x00\x00\x05";
const INPUTS: [(&str, &[u8]); 3] = [
    ("text", TEXT.as_bytes()),
    ("hex", HEX.as_bytes()),
    ("binary", BINARY),
];

#[test]
fn forms_agree() {
    let text = answer("show", TEXT);
    for (name, input) in INPUTS {
        for from in [String::new(), format!(" --from {name}")] {
            assert_eq!(answer(&format!("show{from}"), input), text);
            assert_eq!(answer(&format!("assemble{from}"), input), HEX);
            assert_eq!(
                accepted(&format!("assemble{from} --to binary"), input),
                BINARY
            );
            assert_eq!(answer(&format!("assemble{from} --to text"), input), text);
            assert_eq!(answer(&format!("show{from} --to hex"), input), HEX);
            assert_eq!(answer(&format!("required{from}"), input), "5\n");
            let record = answer(&format!("evaluate{from} --facts 5=present --to hex"), input);
            assert_eq!(record, "E0000001 40050000 C0000003 00000001 00050000\n");
        }
    }
}

#[test]
fn hexadecimal_words() {
    for text in [
        "88000003,00000000,20000005",
        "88000003\r\n00000000,\n\n20000005",
        " 88000003 00000000 20000005",
    ] {
        assert_eq!(answer("assemble", text), HEX);
    }
    assert_eq!(
        answer("assemble", "e0000000 c000ffff 00000000"),
        "E0000000 C000FFFF 00000000\n"
    );
    let message = failure(2, "assemble", "88000003\n0000000 20000005");
    assert_eq!(
        message,
        "error: standard input: line 2: found `0000000`, but a word of eight hexadecimal digits is due\n"
    );
    let message = failure(2, "show --from hex", TEXT);
    assert!(message.contains("line 2: found `grant`"), "{message}");
    for text in [
        "0x88000003 0x00000000 0X20000005",
        "8800_0003 0000_0000 0x2000_0005",
        "# Raw stage.\n88000003 # the grant\n00000000\n# and\n20000005#",
    ] {
        assert_eq!(answer("assemble", text), HEX);
        assert_eq!(answer("assemble --from hex", text), HEX);
    }
    for word in ["0x", "0x8800003", "0x0x88000003", "_", "8800_003"] {
        let message = failure(2, "assemble --from hex", word);
        let said = format!("line 1: found `{word}`, but a word of eight hexadecimal digits is due");
        assert!(message.contains(&said), "{message}");
    }
    let record = answer("evaluate --table-hex 0x00_10", TEXT);
    assert_eq!(record, answer("evaluate --table-hex 0010", TEXT));
    let long = "any\n".to_owned() + &"  deny\n".repeat(8);
    let rows =
        "A0000008 70000000 70000000 70000000 70000000 70000000 70000000 70000000\n70000000\n";
    assert_eq!(answer("assemble", long), rows);
}

#[test]
fn binary_words() {
    let message = failure(2, "show", &BINARY[..11]);
    assert_eq!(
        message,
        "error: standard input: 11 bytes are no whole binary words of four bytes\n"
    );
    assert_eq!(
        failure(1, "show", &BINARY[..8]),
        "refused 6: the words end before the record or tree is complete (after word 2, the last)\n"
    );
    assert!(failure(2, "show --from text", b"any\n\xFF").contains("no text"));
}

#[test]
fn the_form_is_told_from_the_bytes() {
    for (bytes, form) in [
        (&b""[..], Form::Hex),
        (b" \r\n", Form::Hex),
        (b"60000001", Form::Hex),
        (b"deny", Form::Text),
        (b"# 60000001", Form::Hex),
        (b"# deny\n60000001", Form::Hex),
        (b"# 60000001\ndeny", Form::Text),
        (b"0x6000_0001", Form::Hex),
        (b"\xEF\xBB\xBF60000001", Form::Hex),
        (b"\xEF\xBB\xBFdeny", Form::Text),
        (b"0xdeny", Form::Text),
        ("deny # für alle".as_bytes(), Form::Text),
        (b"deny\x00", Form::Binary),
        (b"deny\xFF", Form::Binary),
        (b"`\x00\x00\x01", Form::Binary),
        // The numbers of a record's sheet and of its entries may leave no byte of 0.
        (
            b"\xEF\xBF\xB0\x20\x41\x41\x41\x41\xC2\xB0\x41\x41\xC3\x80\x0C\x0C\x03\x03",
            Form::Binary,
        ),
    ] {
        assert_eq!(Form::of(bytes), form, "{bytes:?}");
    }
}

#[test]
fn a_byte_order_mark_is_passed_over() {
    for (name, input) in &INPUTS[..2] {
        let marked = [b"\xEF\xBB\xBF", *input].concat();
        for from in [String::new(), format!(" --from {name}")] {
            assert_eq!(answer(&format!("assemble{from}"), &marked), HEX);
        }
    }
    // Of two marks the second is told.
    assert!(failure(2, "show", "\u{FEFF}\u{FEFF}deny").contains("line 1: found `\\u{feff}deny`"));
}

#[test]
fn texts_that_look_like_binary_words_are_told() {
    let utf16 = |text: &str, bytes: fn(u16) -> [u8; 2]| {
        text.encode_utf16().flat_map(bytes).collect::<Vec<u8>>()
    };
    for text in [
        TEXT,
        HEX,
        "deny # f\u{fc}r alle",
        "\u{FEFF}grant 0003\n  has 5",
        "deny",
    ] {
        for bytes in [u16::to_le_bytes, u16::to_be_bytes] {
            for call in ["show", "evaluate", "narrow"] {
                let message = failure(2, call, utf16(text, bytes));
                let due = "error: standard input: a text in UTF-16, where UTF-8 is due\n";
                assert_eq!(message, due);
            }
        }
    }
    let told = |text: &str| failure(2, "show", text);
    assert_eq!(
        told("any\n  deny\0"),
        "error: standard input: a NUL in line 2 of a text\n"
    );
    assert_eq!(
        told("any\n  deny # \0"),
        "error: standard input: a NUL in line 2 of a text\n"
    );
    assert_eq!(
        told("any\n  deny\n\u{1b}[2J"),
        "error: standard input: a control character (\\u{1b}) in line 3 of a text\n"
    );
    let marked = utf16("\u{FEFF}deny", u16::to_le_bytes);
    assert!(failure(2, "show --from text", marked).contains("a text in UTF-16"));
    // What can be words is taken for words, and so is what is said to be.
    assert_eq!(answer("assemble", b"`\x00A\x00"), "60004100\n");
    let long = format!("evaluate --table-hex {}", "00".repeat(257));
    assert!(failure(1, &long, b"`\x00A\x00").starts_with("refused 2: "));
    assert!(failure(1, "narrow", b"`\x00A\x00").starts_with("refused 5: "));
    let message = failure(1, "show --from binary", utf16("deny", u16::to_le_bytes));
    assert!(message.starts_with("refused 8: "), "{message}");
    let message = failure(1, "show", b"`\x00\x00\x01`\x00\x00\x01");
    assert!(message.starts_with("refused 10: "), "{message}");
}
