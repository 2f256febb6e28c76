//! libroster_calls.a against the independent reader, writer and look-up: the same answers, and the same in every buffer that is lent.

use std::cell::RefCell;
use std::collections::BTreeMap;

use outside::random::{trials, Random};
use outside::roster::{self, text, Refusal, LONGEST, MOST};
use outside::rosters::{any_serials, any_text, characters, damage, different, numbered, three, BAD, CHARACTERS, DAMAGES};

#[link(name = "roster_calls", kind = "static")]
extern "C" {
    fn roster_read(text: *const u8, text_len: usize, ends: *mut [usize; MOST], value: *mut usize) -> u8;
    fn roster_write(
        chars: *const u8,
        chars_len: usize,
        ends: *const usize,
        slots: usize,
        out: *mut u8,
        room: usize,
        value: *mut usize,
    ) -> u8;
    fn roster_look_up(
        chars: *const u8,
        chars_len: usize,
        ends: *const usize,
        slots: usize,
        asked: *const u8,
        asked_len: usize,
        slot: *mut usize,
    ) -> bool;
}

/// What stands in the place of a value before a call: no slot, no line and no length.
const UNSET: usize = usize::MAX - 1000;

/// The numbers of lines to try: none, few, and those about the most.
const SIZES: [usize; 9] = [0, 1, 2, 11, 12, 255, 256, 257, 258];

// ---- the calls, each held to the independent implementation

/// Serials as they are lent: bytes, and where each serial ends.
#[derive(Clone, Debug)]
struct Lent {
    chars: Vec<u8>,
    ends: Vec<usize>,
}

/// What a call of the reader answers, and the ends after it.
fn proved_read(text: &[u8], mut ends: [usize; MOST]) -> ((u8, usize), [usize; MOST]) {
    let mut value = UNSET;
    let number = unsafe { roster_read(text.as_ptr(), text.len(), &mut ends, &mut value) };
    ((number, value), ends)
}

impl Lent {
    fn serials(&self) -> Vec<Vec<u8>> {
        roster::lent(&self.chars, &self.ends)
    }

    fn proved_write(&self, out: &mut [u8]) -> (u8, usize) {
        let Lent { chars, ends } = self;
        let mut value = UNSET;
        let number =
            unsafe { roster_write(chars.as_ptr(), chars.len(), ends.as_ptr(), ends.len(), out.as_mut_ptr(), out.len(), &mut value) };
        (number, value)
    }

    /// Writes into an output of so many bytes. What is written is read again, with the same serials.
    fn write(&self, room: usize) -> Result<Vec<u8>, Refusal> {
        let serials = self.serials();
        let wanted = roster::write(&serials, room);
        // bytes that no text has
        let mut expected: Vec<u8> = (0..room).map(|place| 0x80 | place as u8).collect();
        let mut out = expected.clone();
        let answer = self.proved_write(&mut out);
        match &wanted {
            Ok(text) => {
                assert_eq!(answer, (0, text.len()), "room {room}: {self:?}");
                expected[..text.len()].copy_from_slice(text);
                let (answer, ends) = proved_read(text, [0; MOST]);
                assert_eq!(answer, (0, serials.len()), "read again: {self:?}");
                assert_eq!(roster::lent(text, &ends[..serials.len()]), serials, "read again");
            }
            Err(refusal) => assert_eq!(answer, *refusal, "room {room}: {self:?}"),
        }
        assert!(out == expected, "another output; room {room}: {self:?}");
        wanted
    }

    /// Writes into outputs about as long as the text, and into none.
    fn write_in_each_room(&self) -> Vec<Result<Vec<u8>, Refusal>> {
        let length: usize = self.serials().iter().map(|serial| serial.len() + 1).sum();
        [0, length.saturating_sub(1), length, length + 1, length + 300].into_iter().map(|room| self.write(room)).collect()
    }

    fn find(&self, asked: &[u8]) -> Option<usize> {
        let Lent { chars, ends } = self;
        let mut slot = UNSET;
        let found =
            unsafe { roster_look_up(chars.as_ptr(), chars.len(), ends.as_ptr(), ends.len(), asked.as_ptr(), asked.len(), &mut slot) };
        let wanted = roster::find(&self.serials(), asked);
        assert_eq!((found, slot), (wanted.is_some(), wanted.unwrap_or(UNSET)), "{} in {self:?}", asked.escape_ascii());
        wanted
    }
}

/// Reads a text. One that is read is written again, with the same bytes.
fn read(text: &[u8]) -> Result<Vec<Vec<u8>>, Refusal> {
    let wanted = roster::read(text);
    // places that no text has
    let before = std::array::from_fn(|slot| usize::MAX - slot);
    let mut expected = before;
    let (answer, ends) = proved_read(text, before);
    match &wanted {
        Ok(serials) => {
            assert_eq!(answer, (0, serials.len()), "{}", text.escape_ascii());
            let feeds = (0..).zip(text).filter(|&(_, &c)| c == b'\n').map(|(place, _)| place);
            expected.iter_mut().zip(feeds).for_each(|(end, feed)| *end = feed);
            let lent = Lent { chars: text.to_vec(), ends: ends[..serials.len()].to_vec() };
            assert_eq!(lent.serials(), *serials, "{}", text.escape_ascii());
            let mut out = vec![0; text.len()];
            assert_eq!(lent.proved_write(&mut out), (0, text.len()), "written again: {}", text.escape_ascii());
            assert!(out == text, "written again: {}", text.escape_ascii());
        }
        Err(refusal) => assert_eq!(answer, *refusal, "{}", text.escape_ascii()),
    }
    assert!(ends == expected, "other ends: {}", text.escape_ascii());
    wanted
}

/// How often each number was answered.
#[derive(Default)]
struct Tally(RefCell<BTreeMap<u8, usize>>);

impl Tally {
    fn note<T>(&self, answer: &Result<T, Refusal>) {
        let number = answer.as_ref().err().map_or(0, |refusal| refusal.0);
        *self.0.borrow_mut().entry(number).or_default() += 1;
    }

    /// Each of these numbers was met so often, and no other.
    fn met(&self, numbers: &[u8], least: usize) {
        let tally = self.0.borrow();
        assert!(tally.keys().eq(numbers) && tally.values().all(|&count| count >= least), "{tally:?}");
    }
}

// ---- the words of the request, one by one

#[test]
fn readings_of_the_request() {
    let twenty = "ABCDEFGHIJ0123456789";
    let [most, past] = [MOST, MOST + 1].map(|lines| String::from_utf8(text(&numbered(lines))).expect("text"));
    let cases = [
        ("an empty text", "".into(), Ok(0)),
        ("one slot", "A\n".into(), Ok(1)),
        ("a serial of 20 characters", format!("{twenty}\n"), Ok(1)),
        ("the serials in slot order", "Z9\n1\nA\n".into(), Ok(3)),
        ("serials that begin alike", "1\n11\n111\n".into(), Ok(3)),
        ("257 lines", most.clone(), Ok(257)),
        ("a small letter", "A\nb\n".into(), Err((30, 2))),
        ("a space at the end", "A \n".into(), Err((30, 1))),
        ("a carriage return", "A\r\n".into(), Err((30, 1))),
        ("a carriage return alone", "\r\n".into(), Err((30, 1))),
        ("a NUL", "A\nA\0\n".into(), Err((30, 2))),
        ("a letter that is no capital letter of ASCII", "É\n".into(), Err((30, 1))),
        ("a byte order mark", "\u{feff}A\n".into(), Err((30, 1))),
        ("an empty line", "\n".into(), Err((31, 1))),
        ("an empty line at the end", "A\n\n".into(), Err((31, 2))),
        ("21 characters", format!("{twenty}A\n"), Err((31, 1))),
        ("no line feed", "A".into(), Err((32, 1))),
        ("no last line feed", "A\nB".into(), Err((32, 2))),
        ("the next line repeats", "A\nA\n".into(), Err((33, 2))),
        ("a far line repeats", "A\nB\nC\nA\n".into(), Err((33, 4))),
        ("258 lines", past.clone(), Err((34, 258))),
        ("overlong with a bad character", format!("{twenty}a\n"), Err((30, 1))),
        ("overlong, no line feed", format!("{twenty}A"), Err((31, 1))),
        ("a bad character, no line feed", "a".into(), Err((30, 1))),
        ("a repeated serial, no line feed", "A\nA".into(), Err((32, 2))),
        ("line 258, no line feed", past[..past.len() - 1].into(), Err((32, 258))),
        ("line 258 repeats", format!("{most}A0\n"), Err((33, 258))),
        ("line 258 is empty", format!("{most}\n"), Err((31, 258))),
        ("line 258 with a bad character", format!("{most}A-0\n"), Err((30, 258))),
        ("line 259 with a bad character", format!("{past}A-0\n"), Err((34, 258))),
        ("an empty line before a bad character", "\na\n".into(), Err((31, 1))),
        ("a repeated serial before a bad character", "A\nA\na\n".into(), Err((33, 2))),
        ("a repeated serial before an empty line", "A\nA\n\n".into(), Err((33, 2))),
        ("a repeated serial, later no line feed", "A\nA\nB".into(), Err((33, 2))),
        ("overlong, later a bad character", format!("{twenty}A\n\0\n"), Err((31, 1))),
    ];
    for (name, text, slots) in cases {
        assert_eq!(read(text.as_bytes()).map(|roster| roster.len()), slots, "{name}");
    }
}

/// Lends the serials with a line feed after each.
fn lend(serials: &[Vec<u8>]) -> Lent {
    let lengths = serials.iter().map(|serial| serial.len() + 1);
    let ends = lengths.scan(0, |next, length| {
        *next += length;
        Some(*next - 1)
    });
    Lent { chars: text(serials), ends: ends.collect() }
}

#[test]
fn writings_of_the_request() {
    let past = numbered(258);
    let long = vec![b'A'; 21];
    let bytes = |words: &[&str]| -> Vec<Vec<u8>> { words.iter().map(|word| word.as_bytes().to_vec()).collect() };
    let with = |serials: &[Vec<u8>], more: &[u8]| [serials, &[more.to_vec()]].concat();
    let cases = [
        ("no serials into no room", vec![], 0, Ok(0)),
        ("room enough", bytes(&["1", "11"]), 5, Ok(5)),
        ("a byte more than enough", bytes(&["1", "11"]), 6, Ok(5)),
        ("a byte less than enough", bytes(&["1", "11"]), 4, Err((35, 0))),
        ("no room", bytes(&["1"]), 0, Err((35, 0))),
        ("257 serials", numbered(257), 2000, Ok(1175)),
        ("a bad character", bytes(&["1", "a"]), 9, Err((30, 2))),
        ("a line feed", bytes(&["1", "1\n"]), 9, Err((30, 2))),
        ("an empty serial", bytes(&["1", "2", ""]), 9, Err((31, 3))),
        ("21 characters", vec![long.clone()], 99, Err((31, 1))),
        ("21 characters, one of them bad", vec![with(&[long], b"-").concat()], 99, Err((30, 1))),
        ("a repeated serial", bytes(&["1", "11", "1"]), 9, Err((33, 3))),
        ("258 serials", past.clone(), 2000, Err((34, 258))),
        ("serial 258 repeats", with(&past[..257], b"A0"), 2000, Err((33, 258))),
        ("serial 258 is empty", with(&past[..257], b""), 2000, Err((31, 258))),
        ("no room, and a bad character", bytes(&["1", "a"]), 0, Err((30, 2))),
        ("no room, and 258 serials", past, 0, Err((34, 258))),
    ];
    for (name, serials, room, length) in cases {
        assert_eq!(lend(&serials).write(room).map(|text| text.len()), length, "{name}");
    }
}

#[test]
fn look_ups_of_the_request() {
    let roster = lend(&[&b"11"[..], b"2", b"A11", b"2", b"", b"22"].map(<[u8]>::to_vec));
    let cases: [(&[u8], Option<usize>); 12] = [
        (b"11", Some(0)),
        (b"1", None),
        (b"111", None),
        (b"2", Some(1)),
        (b"22", Some(5)),
        (b"222", None),
        (b"A11", Some(2)),
        (b"A1", None),
        (b"A", None),
        (b"a11", None),
        (b"", Some(4)),
        (b"11\n", None),
    ];
    for (asked, slot) in cases {
        assert_eq!(roster.find(asked), slot, "{}", asked.escape_ascii());
    }
    assert_eq!(lend(&[b"1".to_vec()]).find(b"11"), None);
    assert_eq!(lend(&[]).find(b""), None);
}

/// A buffer of no bytes may have no place.
#[test]
fn nothing_at_no_place() {
    let (mut ends, mut value) = ([UNSET; MOST], UNSET);
    let (no_bytes, no_ends, no_room) = (std::ptr::null(), std::ptr::null(), std::ptr::null_mut());
    unsafe {
        assert_eq!(roster_read(no_bytes, 0, &mut ends, &mut value), 0);
        assert_eq!((ends, value), ([UNSET; MOST], 0));
        value = UNSET;
        assert_eq!(roster_write(no_bytes, 0, no_ends, 0, no_room, 0, &mut value), 0);
        assert_eq!(value, 0);
        assert!(!roster_look_up(no_bytes, 0, no_ends, 0, no_bytes, 0, &mut value));
        assert_eq!(value, 0);
        assert_eq!(roster_write(no_bytes, 0, [5].as_ptr(), 1, no_room, 0, &mut value), 31);
        assert_eq!(value, 1);
        assert!(roster_look_up(no_bytes, 0, [5, 5].as_ptr(), 2, no_bytes, 0, &mut value));
        assert_eq!(value, 0);
    }
}

// ---- the reader

#[test]
fn rosters_of_each_size() {
    for slots in SIZES {
        trials(20, |random| {
            let serials = different(random, slots);
            let expected = if slots <= MOST { Ok(serials.clone()) } else { Err((34, 258)) };
            assert_eq!(read(&text(&serials)), expected);
        });
    }
}

/// Serials with each byte in each of some places, and the line that has it.
fn each_byte(seed: u64, sizes: &[usize], mut test: impl FnMut(&mut Random, &[Vec<u8>], usize, u8)) {
    let mut random = Random::new(seed);
    for &slots in sizes {
        let mut serials = different(&mut random, slots);
        for line in three(slots) {
            for place in three(serials[line].len()) {
                let there = serials[line][place];
                for byte in 0..=255 {
                    serials[line][place] = byte;
                    test(&mut random, &serials, line + 1, byte);
                }
                serials[line][place] = there;
            }
        }
    }
}

/// A line feed makes two lines of one.
#[test]
fn every_byte_in_a_serial() {
    each_byte(1, &[1, 2, 12, 256, 257], |_, serials, line, byte| {
        let answer = read(&text(serials));
        if byte != b'\n' && !CHARACTERS.contains(&byte) {
            assert_eq!(answer, Err((30, line)));
        }
    });
}

#[test]
fn lines_of_each_length() {
    let mut random = Random::new(2);
    let tally = Tally::default();
    let lengths = (0..=24).chain([40, 41, 255, 256, 257, 276, 277, 1000, 4095, 4096, 4097, 65535, 65536, 65537, 65556, 65557]);
    for length in lengths {
        for slots in [1, 3, 257, 258] {
            for line in three(slots) {
                let mut serials = different(&mut random, slots);
                serials[line] = characters(&mut random, CHARACTERS, length);
                let whole = text(&serials);
                tally.note(&read(&whole));
                tally.note(&read(&whole[..whole.len() - 1]));
                for place in three(length.max(1)).into_iter().filter(|&place| place < length) {
                    let mut serials = serials.clone();
                    serials[line][place] = random.pick(&BAD);
                    assert_eq!(read(&text(&serials)), Err((30, line + 1)));
                }
            }
        }
    }
    tally.met(&[0, 31, 32, 33, 34], 1);
}

#[test]
fn empty_lines() {
    let mut random = Random::new(3);
    for count in 1..=300 {
        assert_eq!(read(&vec![b'\n'; count]), Err((31, 1)));
    }
    for slots in [1, 2, 12, 256, 257] {
        for line in [0, slots / 2, slots] {
            for count in [1, 2, 300] {
                let mut serials = different(&mut random, slots);
                serials.splice(line..line, vec![vec![]; count]);
                let whole = text(&serials);
                assert_eq!(read(&whole), Err((31, line + 1)));
                // where it was the last, the empty line goes with its line feed
                let last = line == slots && count == 1;
                assert_eq!(read(&whole[..whole.len() - 1]).err(), if last { None } else { Some((31, line + 1)) });
                serials[0].clear();
                assert_eq!(read(&text(&serials)), Err((31, 1)));
            }
        }
    }
}

#[test]
fn every_ending_of_a_text() {
    let mut random = Random::new(4);
    let tally = Tally::default();
    for slots in [0, 1, 2, 12, 257, 258] {
        let whole = text(&different(&mut random, slots));
        for length in whole.len().saturating_sub(50)..=whole.len() {
            for more in ["", "\n", "\n\n", "\r\n", "\0", "\0\n", " ", "-", "A\n\n", "A\n\nA", "\u{1a}", "\n\u{1a}"] {
                tally.note(&read(&[&whole[..length], more.as_bytes()].concat()));
            }
        }
        let returns: Vec<u8> = whole.iter().flat_map(|&c| if c == b'\n' { vec![b'\r', c] } else { vec![c] }).collect();
        assert_eq!(read(&returns), if slots == 0 { Ok(vec![]) } else { Err((30, 1)) });
    }
    tally.met(&[0, 30, 31, 32, 33, 34], 10);
}

#[test]
fn repeated_serials() {
    let mut random = Random::new(5);
    for slots in [2, 12, 257, 258] {
        let serials = different(&mut random, slots);
        let few = three(slots).into_iter().chain([1, slots - 2]).collect::<Vec<_>>();
        for later in (1..slots).filter(|later| slots == 12 || few.contains(later)) {
            for earlier in (0..later).filter(|earlier| slots == 12 || few.contains(earlier) || earlier + 1 == later) {
                let mut serials = serials.clone();
                serials[later] = serials[earlier].clone();
                assert_eq!(read(&text(&serials)), Err((33, later + 1)));
                let whole = text(&serials[..=later]);
                assert_eq!(read(&whole[..whole.len() - 1]), Err((32, later + 1)));
            }
        }
    }
    // each serial begins with the one before it, or with the one after it
    for kind in [b'1', b'Z'] {
        let mut serials: Vec<Vec<u8>> = (1..=LONGEST).map(|length| vec![kind; length]).collect();
        assert_eq!(read(&text(&serials)), Ok(serials.clone()));
        serials.reverse();
        assert_eq!(read(&text(&serials)), Ok(serials.clone()));
        for length in 1..=LONGEST {
            assert_eq!(read(&text(&[&serials[..], &[vec![kind; length]]].concat())), Err((33, 21)));
        }
    }
}

/// Two faults in two lines or in one, with the last line feed and without.
#[test]
fn two_faults() {
    let mut random = Random::new(6);
    let tally = Tally::default();
    for slots in [1, 2, 12, 256, 257, 258, 259, 300] {
        for (first, second) in three(slots).into_iter().flat_map(|line| three(slots).map(|other| (line, other))) {
            for (one, other) in DAMAGES.into_iter().flat_map(|one| DAMAGES.map(|other| (one, other))) {
                let mut serials = different(&mut random, slots);
                damage(&mut random, &mut serials, first, one);
                damage(&mut random, &mut serials, second, other);
                let whole = text(&serials);
                tally.note(&read(&whole));
                tally.note(&read(&whole[..whole.len() - 1]));
            }
        }
    }
    tally.met(&[0, 30, 31, 32, 33, 34], 50);
}

#[test]
fn twenty_thousand_texts() {
    let tally = Tally::default();
    trials(20_000, |random| tally.note(&read(&any_text(random))));
    tally.met(&[0, 30, 31, 32, 33, 34], 100);
}

// ---- the writer

/// Lends the serials with any byte after each, and any bytes after the last.
fn lend_between(random: &mut Random, serials: &[Vec<u8>]) -> Lent {
    let mut lent = lend(serials);
    for &end in &lent.ends {
        lent.chars[end] = random.number() as u8;
    }
    match random.within(0, 2) {
        0 => {
            lent.chars.pop();
        }
        1 => {
            let more = random.within(0, 30);
            lent.chars.extend(random.bytes(more));
        }
        _ => {}
    }
    lent
}

/// Puts an end anywhere, or adds one.
fn misplace(random: &mut Random, lent: &mut Lent) {
    let length = lent.chars.len();
    let place = match random.within(0, 5) {
        0 => random.pick(&[0, 1, length, length + 1, length.saturating_sub(1), length + 5000]),
        1 => random.pick(&[usize::MAX, usize::MAX - 1, 1 << 63, 1 << 32, u32::MAX as usize]),
        2 => random.number() as usize,
        _ => random.within(0, length),
    };
    let slots = lent.ends.len();
    let (slot, other) = (random.within(0, slots), random.within(0, slots));
    match random.within(0, 2) {
        0 if slot.max(other) < slots => lent.ends.swap(slot, other),
        1 if slot < slots => lent.ends[slot] = place,
        _ => lent.ends.insert(slot, place),
    }
}

#[test]
fn every_serial_in_each_room() {
    for slots in SIZES.into_iter().chain([300]) {
        trials(10, |random| {
            let serials = different(random, slots);
            let whole = text(&serials);
            let [none, short, exact, more, much] = &lend_between(random, &serials).write_in_each_room()[..] else { unreachable!() };
            if slots > MOST {
                assert!([none, short, exact, more, much].into_iter().all(|answer| *answer == Err((34, 258))));
            } else {
                assert!([exact, more, much].into_iter().all(|answer| *answer == Ok(whole.clone())));
                assert!(slots == 0 || [none, short].into_iter().all(|answer| *answer == Err((35, 0))));
            }
        });
    }
}

#[test]
fn every_byte_in_a_written_serial() {
    each_byte(7, &[1, 12, 257], |random, serials, line, byte| {
        let answer = lend_between(random, serials).write(5397);
        if !CHARACTERS.contains(&byte) {
            assert_eq!(answer, Err((30, line)));
        }
    });
}

#[test]
fn two_faults_to_be_written() {
    let mut random = Random::new(8);
    let tally = Tally::default();
    for slots in [1, 2, 12, 257, 258, 300] {
        for (first, second) in three(slots).into_iter().flat_map(|line| three(slots).map(|other| (line, other))) {
            for (one, other) in DAMAGES.into_iter().flat_map(|one| DAMAGES.map(|other| (one, other))) {
                let mut serials = different(&mut random, slots);
                damage(&mut random, &mut serials, first, one);
                damage(&mut random, &mut serials, second, other);
                let lent = lend_between(&mut random, &serials);
                assert_eq!(lent.serials(), serials);
                tally.note(&lent.write(random.pick(&[0, 5397])));
            }
        }
    }
    tally.met(&[0, 30, 31, 33, 34, 35], 20);
}

/// Ends that go back, that are past the bytes, and that are the same.
#[test]
fn odd_ends() {
    let ends_of: [&[usize]; 14] = [
        &[],
        &[0],
        &[1],
        &[6],
        &[7],
        &[usize::MAX],
        &[usize::MAX, 0],
        &[2, usize::MAX, usize::MAX],
        &[2, 1],
        &[2, 2],
        &[2, 4, 2],
        &[5, 0, 3],
        &[0, 2, 4, 6],
        &[usize::MAX; 300],
    ];
    for chars in [&b""[..], b"A", b"ABCDEF", b"AB\nAB\n", b"11\xff1\n1", b"ABCDEFGHIJKLMNOPQRSTUVWXYZ"] {
        for ends in ends_of {
            let lent = Lent { chars: chars.to_vec(), ends: ends.to_vec() };
            lent.write_in_each_room();
            for asked in [&b""[..], b"A", b"AB", b"11", b"1", b"ABCDEF", b"CDEF", chars] {
                lent.find(asked);
            }
        }
    }
    // overlapping serials: the second begins before the first has ended
    let lent = Lent { chars: b"ABCD".to_vec(), ends: vec![3, 0, 3] };
    assert_eq!(lent.serials(), [&b"ABC"[..], b"", b"BC"]);
}

#[test]
fn twenty_thousand_writes() {
    let tally = Tally::default();
    trials(20_000, |random| {
        let serials = any_serials(random);
        let mut lent = lend_between(random, &serials);
        for _ in 0..random.pick(&[0, 0, 0, 1, 2]) {
            misplace(random, &mut lent);
        }
        let length = text(&lent.serials()).len();
        let room = match random.within(0, 4) {
            0 => random.within(0, length),
            1 => length.saturating_sub(1),
            2 => length,
            _ => length + random.within(0, 40),
        };
        tally.note(&lent.write(room));
    });
    tally.met(&[0, 30, 31, 33, 34, 35], 100);
}

// ---- the look-up

/// Each serial, what it begins with, and longer ones that begin with it.
#[test]
fn every_serial_is_found_and_none_of_its_parts() {
    let mut random = Random::new(9);
    for slots in [1, 2, 12, 256, 257, 300] {
        let serials = different(&mut random, slots);
        let lent = lend_between(&mut random, &serials);
        for (slot, serial) in serials.iter().enumerate() {
            assert_eq!(lent.find(serial), Some(slot));
            for length in 0..serial.len() {
                lent.find(&serial[..length]);
            }
            for more in [&b"1"[..], b"Z", b"\n", b"\0", b"1111111111111111111111"] {
                lent.find(&[serial, more].concat());
            }
            let mut altered = serial.clone();
            *altered.last_mut().expect("a character") ^= 1;
            lent.find(&altered);
        }
        assert_eq!(lent.find(b""), None);
        assert_eq!(lent.find(&[b'1'; 5000]), None);
    }
}

/// The lowest slot is told, of serials that no reader took.
#[test]
fn serials_that_stand_in_many_slots() {
    trials(2_000, |random| {
        let slots = random.within(1, 20);
        let serials: Vec<Vec<u8>> = (0..slots)
            .map(|_| {
                let length = random.within(0, 3);
                characters(random, b"1\n", length)
            })
            .collect();
        let mut lent = lend_between(random, &serials);
        if random.once_in(2) {
            misplace(random, &mut lent);
        }
        for serial in lent.serials() {
            lent.find(&serial);
        }
        for asked in [&b""[..], b"1", b"11", b"111", b"1111"] {
            lent.find(asked);
        }
    });
}
