//! Rosters to try, and what can be wrong with them.

use std::collections::HashSet;

use crate::random::Random;
use crate::roster::{text, LONGEST};

pub const CHARACTERS: &[u8] = b"0123456789ABCDEFGHIJKLMNOPQRSTUVWXYZ";

/// Next to the characters that a serial has, and what a text may have in their place.
pub const BAD: [u8; 17] = [0, b'\t', b'\r', b' ', b'-', b'/', b':', b'@', b'[', b'_', b'a', b'z', 0x7f, 0x80, 0xb0, 0xc1, 0xff];

pub fn characters(random: &mut Random, kinds: &[u8], count: usize) -> Vec<u8> {
    (0..count).map(|_| random.pick(kinds)).collect()
}

/// So many different serials. Where they have two kinds of characters alone, many begin alike.
pub fn different(random: &mut Random, slots: usize) -> Vec<Vec<u8>> {
    let kinds = if random.once_in(2) { CHARACTERS } else { b"1Z" };
    let (mut serials, mut met) = (Vec::new(), HashSet::new());
    while serials.len() < slots {
        let length = random.within(1, LONGEST);
        let serial = characters(random, kinds, length);
        if met.insert(serial.clone()) {
            serials.push(serial);
        }
    }
    serials
}

/// So many serials, A0 and on.
pub fn numbered(slots: usize) -> Vec<Vec<u8>> {
    (0..slots).map(|slot| format!("A{slot}").into_bytes()).collect()
}

/// The first, a middle and the last of some places.
pub fn three(count: usize) -> [usize; 3] {
    [0, count / 2, count - 1]
}

#[derive(Clone, Copy, Debug)]
pub enum Damage {
    None,
    Bad,
    Empty,
    Long,
    Repeat,
}

pub const DAMAGES: [Damage; 5] = [Damage::None, Damage::Bad, Damage::Empty, Damage::Long, Damage::Repeat];

pub fn damage(random: &mut Random, serials: &mut [Vec<u8>], line: usize, kind: Damage) {
    match kind {
        Damage::None => {}
        Damage::Bad => {
            let place = random.within(0, serials[line].len());
            let bad = random.pick(&BAD);
            // a character is replaced where there is one, and else added
            let places = place..(place + 1).min(serials[line].len());
            serials[line].splice(places, [bad]);
        }
        Damage::Empty => serials[line].clear(),
        Damage::Long => {
            let length = random.pick(&[21, 21, 22, 40, 255, 256, 257, 276]);
            let more = characters(random, CHARACTERS, length - serials[line].len().min(length));
            serials[line].extend(more);
        }
        Damage::Repeat => {
            let other = random.within(0, serials.len() - 1);
            serials[line] = serials[other].clone();
        }
    }
}

/// The number of slots of a trial: few, or about the most.
fn any_slots(random: &mut Random) -> usize {
    match random.within(0, 19) {
        0 => random.within(253, 260),
        1 => random.pick(&[0, 60, 300]),
        _ => random.within(0, 14),
    }
}

/// Serials with some damage, mostly one or none.
pub fn any_serials(random: &mut Random) -> Vec<Vec<u8>> {
    let slots = any_slots(random);
    let mut serials = different(random, slots);
    let count = random.pick(&[0, 0, 1, 1, 1, 2, 3]);
    for _ in 0..if slots == 0 { 0 } else { count } {
        let line = if random.once_in(3) { slots - 1 } else { random.within(0, slots - 1) };
        let kind = random.pick(&DAMAGES);
        damage(random, &mut serials, line, kind);
    }
    serials
}

/// The text of such serials, cut or with a byte put in, taken out or altered; or any bytes.
pub fn any_text(random: &mut Random) -> Vec<u8> {
    let length = random.within(0, 60);
    match random.within(0, 19) {
        0 => return random.bytes(length),
        1 | 2 => return characters(random, b"1Z\n", length),
        3 => return characters(random, b"1A\n\n\r\0a ", length),
        _ => {}
    }
    let mut text = text(&any_serials(random));
    let place = random.within(0, text.len());
    let byte = if random.once_in(2) { random.number() as u8 } else { random.pick(b"\n\r\0Aa") };
    match random.within(0, 9) {
        0 => text.truncate(place),
        1 | 2 => {
            text.pop();
        }
        3 => text.insert(place, byte),
        4 if place < text.len() => {
            text.remove(place);
        }
        5 if place < text.len() => text[place] = byte,
        _ => {}
    }
    text
}
