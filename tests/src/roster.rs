//! The roster of serials: a text with one line for each slot, its reader and writer, and the look-up of a serial. A refusal is its
//! number and its line, counted from 1.

use std::collections::HashSet;

pub const BAD_CHARACTER: u8 = 30;
pub const BAD_LENGTH: u8 = 31;
pub const NO_LINE_FEED: u8 = 32;
pub const REPEATED: u8 = 33;
pub const PAST_LAST: u8 = 34;
pub const NO_ROOM: u8 = 35;

/// The most lines of a roster, and the most characters of a serial.
pub const MOST: usize = 257;
pub const LONGEST: usize = 20;

pub type Refusal = (u8, usize);

/// Every fault of every line is noted, and the first by line and then by number is given.
fn first_fault<'a>(lines: impl Iterator<Item = (&'a [u8], bool)>) -> Option<Refusal> {
    let mut faults = Vec::new();
    let mut earlier = HashSet::new();
    for (line, (serial, ended)) in (1..).zip(lines) {
        let character = |c: &u8| c.is_ascii_uppercase() || c.is_ascii_digit();
        let tests = [
            (PAST_LAST, line > MOST),
            (REPEATED, !earlier.insert(serial)),
            (NO_LINE_FEED, !ended),
            (BAD_LENGTH, !(1..=LONGEST).contains(&serial.len())),
            (BAD_CHARACTER, !serial.iter().all(character)),
        ];
        faults.extend(tests.into_iter().filter(|test| test.1).map(|(number, _)| (line, number)));
    }
    faults.into_iter().min().map(|(line, number)| (number, line))
}

/// The serials of a text in slot order. What stands after the last line feed is a line that is not ended.
pub fn read(text: &[u8]) -> Result<Vec<Vec<u8>>, Refusal> {
    let mut pieces: Vec<&[u8]> = text.split(|&c| c == b'\n').collect();
    let rest = pieces.pop().filter(|rest| !rest.is_empty());
    let lines = pieces.iter().map(|&serial| (serial, true)).chain(rest.map(|serial| (serial, false)));
    match first_fault(lines) {
        Some(refusal) => Err(refusal),
        None => Ok(pieces.iter().map(|serial| serial.to_vec()).collect()),
    }
}

/// Each serial with a line feed after it.
pub fn text(serials: &[Vec<u8>]) -> Vec<u8> {
    serials.iter().flat_map(|serial| serial.iter().chain(b"\n")).copied().collect()
}

/// The text of some serials, for an output with room for so many bytes.
pub fn write(serials: &[Vec<u8>], room: usize) -> Result<Vec<u8>, Refusal> {
    if let Some(refusal) = first_fault(serials.iter().map(|serial| (&serial[..], true))) {
        return Err(refusal);
    }
    let text = text(serials);
    if text.len() <= room {
        Ok(text)
    } else {
        Err((NO_ROOM, 0))
    }
}

/// The lowest slot that has the asked serial, whole.
pub fn find(roster: &[Vec<u8>], asked: &[u8]) -> Option<usize> {
    roster.iter().position(|serial| serial == asked)
}

/// The serials that bytes and the places of their ends lend. The first begins at place 0, each other one byte after the end before it;
/// one that ends before it begins is empty, and one that ends past the bytes ends with them.
pub fn lent(chars: &[u8], ends: &[usize]) -> Vec<Vec<u8>> {
    let mut begin = 0;
    let mut serial = |&end: &usize| {
        let serial = chars.iter().take(end).skip(begin).copied().collect();
        // no byte is at the greatest place
        begin = end.saturating_add(1);
        serial
    };
    ends.iter().map(&mut serial).collect()
}
