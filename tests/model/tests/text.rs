//! Sheets in text at their edges, and there and back.

use model::edges::{sheets, texts};
use model::sheet::{decode, encode};
use model::text::{assemble, lines, list, normal, read};
use model::Refusal;

type Writer = fn(&[u8], &mut [u8]) -> Result<usize, Refusal>;

/// Holds a reader or a lister to what an input comes to, with buffers that are too short, just long enough and longer.
fn hold(writer: Writer, input: &[u8], answer: Result<&[u8], Refusal>) {
    let shown = String::from_utf8_lossy(&input[..input.len().min(60)]);
    let needs = answer.map_or(100, <[u8]>::len);
    for length in [0, needs.saturating_sub(1), needs, needs + 1, needs + 100] {
        let mut buffer = vec![0xa5; length];
        let written = writer(input, &mut buffer);
        let mut expected = vec![0xa5; length];
        match answer {
            Err(refusal) => assert_eq!(written, Err(refusal), "{shown:?}"),
            Ok(_) if length < needs => assert_eq!(written, Err(Refusal::new(8, 4)), "{shown:?}"),
            Ok(bytes) => {
                assert_eq!(written, Ok(needs), "{shown:?}");
                expected[..needs].copy_from_slice(bytes);
            }
        }
        assert!(buffer == expected, "{shown:?}: not these bytes in a buffer of {length}");
    }
}

#[test]
fn texts_at_the_edges() {
    for (text, answer) in texts() {
        let sheet = answer.map(|commands| encode(&commands));
        hold(assemble, &text, sheet.as_deref().map_err(|&refusal| refusal));
    }
}

#[test]
fn sheets_at_the_edges() {
    for (sheet, answer) in sheets() {
        hold(list, &sheet, answer.as_deref().map(str::as_bytes).map_err(|&refusal| refusal));
    }
}

#[test]
fn longest() {
    let sheets_of_texts = texts().into_iter().filter_map(|(_, answer)| Some(encode(&answer.ok()?).len()));
    let texts_of_sheets = sheets().into_iter().filter_map(|(_, answer)| Some(answer.ok()?.len()));
    assert_eq!((sheets_of_texts.max(), texts_of_sheets.max()), (Some(36_864), Some(106_496)));
}

/// No leading zeros, no minus before 0, a newline ending each line.
fn is_normal(text: &[u8]) -> bool {
    let is_normal_operand = |operand: &[u8]| match operand {
        [b'0'] => true,
        [b'-', digits @ ..] | digits => !digits.starts_with(b"0"),
    };
    let operands = lines(text).flat_map(|line| line.split(|&byte| byte == b' ').skip(1));
    (text.is_empty() || text.ends_with(b"\n")) && { operands }.all(is_normal_operand)
}

#[test]
fn there_and_back() {
    for (text, answer) in texts() {
        let Ok(commands) = answer else { continue };
        let again = normal(&commands);
        assert!(is_normal(again.as_bytes()));
        assert_eq!(read(again.as_bytes()), Ok(commands));
        // A text is the one normal text of its commands, or it is not normal.
        assert_eq!(again.as_bytes() == text, is_normal(&text));
    }
    for (sheet, answer) in sheets() {
        let Ok(text) = answer else { continue };
        assert_eq!(read(text.as_bytes()).ok(), decode(&sheet).ok());
    }
}
