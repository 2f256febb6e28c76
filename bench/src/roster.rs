//! The reading of the longest roster: 257 serials of 20 characters.

use crate::measure::{middle, TURNS};
use outside::random::Random;
use outside::roster::{lent, read, text, LONGEST, MOST};
use outside::rosters::{characters, CHARACTERS};

#[link(name = "roster_calls", kind = "static")]
extern "C" {
    fn roster_read(text: *const u8, text_len: usize, ends: *mut [usize; MOST], value: *mut usize) -> u8;
}

/// Serials of the most characters that begin alike, as far as different serials can.
fn alike() -> Vec<Vec<u8>> {
    let last = |slot: usize| [slot / CHARACTERS.len(), slot % CHARACTERS.len()].map(|at| CHARACTERS[at]);
    (0..MOST).map(|slot| [&[b'A'; LONGEST - 2][..], &last(slot)].concat()).collect()
}

/// The slots of a roster, and where their serials end.
fn proved(text: &[u8]) -> (usize, [usize; MOST]) {
    let (mut ends, mut slots) = ([0; MOST], 0);
    assert_eq!(unsafe { roster_read(text.as_ptr(), text.len(), &mut ends, &mut slots) }, 0);
    (slots, ends)
}

pub fn print() {
    let mut random = Random::new(6);
    let any: Vec<Vec<u8>> = (0..MOST).map(|_| characters(&mut random, CHARACTERS, LONGEST)).collect();
    let rosters = [("of any characters", any), ("that differ in the last two characters alone", alike())];
    let texts = rosters.each_ref().map(|(_, serials)| text(serials));
    for ((name, serials), text) in rosters.iter().zip(&texts) {
        assert!(read(text).as_ref() == Ok(serials), "no roster; serials {name}");
        let (slots, ends) = proved(text);
        assert!(lent(text, &ends[..slots]) == *serials, "a reading is wrong; serials {name}");
    }
    let runs = texts.each_ref().map(|text| move || _ = proved(text));
    let seconds = middle(TURNS, &runs.each_ref().map(|run| run as &dyn Fn()));

    println!(
        "Readings of a roster with {MOST} lines of {LONGEST} characters; the middle one of {TURNS} turns, the two taking turns as above. Each serial"
    );
    println!("is compared with all before it. Each reading was first found equal to that of the independent implementation.");
    println!();
    println!("| serials | bytes | microseconds |");
    println!("|---|---|---|");
    for (((name, _), text), seconds) in rosters.iter().zip(&texts).zip(seconds) {
        println!("| {name} | {} | {:.3} |", text.len(), seconds * 1e6);
    }
}
