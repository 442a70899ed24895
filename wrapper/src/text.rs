//! Sheets in text: one command a line, its name and each decimal operand after one space.

use crate::{sys, Refusal};

/// Bytes of the longest sheet.
pub const SHEET_LIMIT: usize = sys::SHEET_LIMIT;

/// Bytes of the longest listing.
pub const TEXT_LIMIT: usize = sys::TEXT_LIMIT;

/// The sheet of a text.
pub fn assemble(text: &str) -> Result<Vec<u8>, Refusal> {
    let mut sheet = vec![0; SHEET_LIMIT];
    let length = assemble_into(text.as_bytes(), &mut sheet)?;
    sheet.truncate(length);
    Ok(sheet)
}

/// Writes the sheet of a text to the buffer's start: its length, the rest being as it came.
pub fn assemble_into(text: &[u8], sheet: &mut [u8]) -> Result<usize, Refusal> {
    assemble_raw(text, sheet).assembled()
}

/// [`assemble_into`] with the answer's words as the C interface gives them.
pub fn assemble_raw(text: &[u8], sheet: &mut [u8]) -> sys::RawWritten {
    // SAFETY: each pointer and length is of one slice; the exclusive one cannot overlap the other.
    unsafe { sys::luvrodan_assemble(text.as_ptr(), text.len(), sheet.as_mut_ptr(), sheet.len()) }
}

/// The one normal text of a sheet: no leading zeros, no minus before 0, a newline at each line's end.
pub fn list(sheet: &[u8]) -> Result<String, Refusal> {
    let mut text = vec![0; TEXT_LIMIT];
    let length = list_into(sheet, &mut text)?;
    text.truncate(length);
    Ok(String::from_utf8(text).expect("names and operands are ASCII"))
}

/// Writes the normal text of a sheet to the buffer's start: its length, the rest being as it came.
pub fn list_into(sheet: &[u8], text: &mut [u8]) -> Result<usize, Refusal> {
    list_raw(sheet, text).listed()
}

/// [`list_into`] with the answer's words as the C interface gives them.
pub fn list_raw(sheet: &[u8], text: &mut [u8]) -> sys::RawWritten {
    // SAFETY: as in `assemble_raw`.
    unsafe { sys::luvrodan_list(sheet.as_ptr(), sheet.len(), text.as_mut_ptr(), text.len()) }
}
