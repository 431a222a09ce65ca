//! A board's table and sheet, opened: the table's line of the sheet's first line, and the reading; the moves of a sheet
//! between its two forms.

use crate::device::{find, table, Device, Listed};
use crate::refusal::Refusal;
use crate::sheet::{self, Form};

/// The most program words of a board that the programs take.
pub const OPENED_MAX: u16 = 8_192;
/// As many words as the largest reading of such a board has.
pub const READING_MAX: usize = OPENED_MAX as usize + 9;

/// A board whose files are sound.
pub struct Opened {
    pub d: Device,
    /// As the table has it.
    pub name: Vec<u8>,
    pub reading: Vec<u16>,
}

/// The table's line that a sheet's first line fits, whatever its size: 15, 14 for that line, 16.
pub fn line(text: &[u8], sheet: &[u8]) -> Result<Listed, u32> {
    // A malformed table is told before the sheet is looked at, whatever ID would be asked for.
    if table(text).is_none() {
        return Err(15);
    }
    let first = sheet::first_line(sheet).ok_or(14u32)?;
    find(text, first.id)
}

/// The same for the programs: 17 last, where the device is too large.
pub fn record(text: &[u8], sheet: &[u8]) -> Result<Listed, Refusal> {
    let listed = line(text, sheet)?;
    if listed.device.words > OPENED_MAX {
        return Err(17.into());
    }
    Ok(listed)
}

/// Device, name and reading: the above, then 14 for the rest of the sheet, 18 and 19.
pub fn board(text: &[u8], sheet: &[u8]) -> Result<Opened, Refusal> {
    let Listed { device: d, name } = record(text, sheet)?;
    let name = text[name].to_vec();
    let reading = sheet::judged(&d, &name, sheet)?;
    Ok(Opened { d, name, reading })
}

/// The table's line that the calls answer beside any number: the one that is found for the first line's ID, which reads
/// as 0 where that line is malformed; zeros where none is found.
pub fn answered(text: &[u8], sheet: &[u8]) -> Listed {
    let id = sheet::first_line(sheet).map_or(0, |first| first.id);
    find(text, id).unwrap_or(Listed::NONE)
}

/// Opens a board into a buffer of the largest reading that it may have: the number; the buffer changes only where that is 0.
pub fn open(text: &[u8], sheet: &[u8], buffer: &mut [u16]) -> u32 {
    match board(text, sheet) {
        Err(refusal) => refusal.number,
        Ok(Opened { reading, .. }) => {
            buffer[..reading.len()].copy_from_slice(&reading);
            0
        }
    }
}

/// A sheet moved to a form, for a device of any size: 15, 14 for line 1, 16, 14 for the rest, 18, 19.
pub fn moved_to(form: Form, text: &[u8], sheet: &[u8]) -> Result<Vec<u8>, u32> {
    let Listed { device, name } = line(text, sheet)?;
    sheet::in_form(form, &device, &text[name], sheet)
}

/// The moves as a call: the above, then 26; number and length.
pub fn move_into(form: Form, text: &[u8], sheet: &[u8], out: &mut [u8]) -> (u32, usize) {
    match moved_to(form, text, sheet) {
        Err(number) => (number, 0),
        Ok(new) => sheet::laid(&new, out),
    }
}
