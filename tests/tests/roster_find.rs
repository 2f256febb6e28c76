//! The program roster_find against the independent reader and look-up.

use std::fs::{self, File};
use std::path::Path;
use std::time::Duration;

use outside::program::{run_into_file, run_with, Ending, Input};
use outside::random::{trials, Random};
use outside::roster::{self, text, LONGEST, MOST};
use outside::rosters::{any_text, characters, different, numbered, BAD, CHARACTERS};

const PROGRAM: &str = "roster_find";

/// What the program has to write for a roster's text and an asked serial.
fn expected(text: &[u8], asked: &[u8]) -> String {
    let reason = |number| match number {
        roster::BAD_CHARACTER => "a character that is not a capital letter or a digit",
        roster::BAD_LENGTH => "a serial that is empty or longer than 20 characters",
        roster::NO_LINE_FEED => "no line feed at the end",
        roster::REPEATED => "the serial of an earlier line",
        roster::PAST_LAST => "more than 257 lines",
        other => panic!("a reader does not refuse with {other}"),
    };
    match roster::read(text).map(|roster| roster::find(&roster, asked)) {
        Ok(Some(slot)) => format!("slot {slot}\n"),
        Ok(None) => "none\n".to_string(),
        Err((number, line)) => format!("refused {number} line {line}: {}\n", reason(number)),
    }
}

/// What the program wrote to standard output and to standard error before it ended by itself.
fn said(end: Ending) -> (String, String) {
    assert!(end.status.success(), "{PROGRAM} ended with {}", end.status);
    (String::from_utf8(end.output).expect("text"), end.errors)
}

fn answer(asked: &[u8], input: Input) -> String {
    let (output, errors) = said(run_with(PROGRAM, &[asked], input));
    assert_eq!(errors, "", "{}", asked.escape_ascii());
    output
}

fn whole(text: &[u8]) -> Input<'_> {
    Input::Pieces(vec![text], Duration::ZERO)
}

/// Asks for a serial, holds the answer to the independent implementation, and returns it.
fn find(text: &[u8], asked: &[u8]) -> String {
    let answer = answer(asked, whole(text));
    let shown = &text[..text.len().min(2000)];
    assert_eq!(answer, expected(text, asked), "{} in {}", asked.escape_ascii(), shown.escape_ascii());
    answer
}

/// The most serials, of the most characters.
fn longest() -> Vec<Vec<u8>> {
    let mut serials = numbered(MOST);
    serials.iter_mut().for_each(|serial| serial.resize(LONGEST, b'Z'));
    serials
}

#[test]
fn every_kind_of_answer() {
    let [most, past] = [MOST, MOST + 1].map(|lines| String::from_utf8(text(&numbered(lines))).expect("text"));
    let cases = [
        ("", "A", "none\n"),
        ("A\n", "A", "slot 0\n"),
        ("A\nB\n", "B", "slot 1\n"),
        ("11\n", "1", "none\n"),
        ("1\n", "11", "none\n"),
        ("11\n1\n", "1", "slot 1\n"),
        (&most, "A9", "slot 9\n"),
        (&most, "A10", "slot 10\n"),
        (&most, "A99", "slot 99\n"),
        (&most, "A100", "slot 100\n"),
        (&most, "A256", "slot 256\n"),
        (&most, "A257", "none\n"),
        ("A\nb\n", "A", "refused 30 line 2: a character that is not a capital letter or a digit\n"),
        ("A\r\n", "A", "refused 30 line 1: a character that is not a capital letter or a digit\n"),
        ("A\n\n", "A", "refused 31 line 2: a serial that is empty or longer than 20 characters\n"),
        ("AAAAAAAAAAAAAAAAAAAAA\n", "A", "refused 31 line 1: a serial that is empty or longer than 20 characters\n"),
        ("A", "A", "refused 32 line 1: no line feed at the end\n"),
        ("A\nB\nA\n", "A", "refused 33 line 3: the serial of an earlier line\n"),
        (&past, "A0", "refused 34 line 258: more than 257 lines\n"),
    ];
    for (text, asked, answer) in cases {
        assert_eq!(find(text.as_bytes(), asked.as_bytes()), answer);
    }
}

#[test]
fn any_rosters() {
    trials(200, |random| {
        let text = any_text(random);
        let some = random.within(0, LONGEST);
        // an argument ends before its first NUL
        let asked = match text.split(|&c| c == b'\n').nth(random.within(0, 12)) {
            Some(serial) if !serial.contains(&0) => serial.to_vec(),
            _ => characters(random, b"1Z", some),
        };
        find(&text, &asked);
    });
}

#[test]
fn every_slot() {
    let mut random = Random::new(1);
    let serials = different(&mut random, MOST);
    let text = text(&serials);
    for (slot, serial) in serials.iter().enumerate() {
        assert_eq!(find(&text, serial), format!("slot {slot}\n"));
    }
}

/// A serial of over 20 characters stands in no roster, though one may begin with a serial that does.
#[test]
fn arguments_of_each_length() {
    let longest = vec![b'7'; LONGEST];
    let text = text(&[b"7".to_vec(), longest.clone(), [b"8", &longest[1..]].concat()]);
    for length in [0, 1, 2, 19, 20, 21, 22, 23, 40, 41, 4096, 5000, 100_000] {
        let slot = match length {
            1 => "slot 0\n",
            20 => "slot 1\n",
            _ => "none\n",
        };
        assert_eq!(find(&text, &vec![b'7'; length]), slot, "{length} characters");
    }
    assert_eq!(find(&text, &[b"8", &longest[1..]].concat()), "slot 2\n");
    for odd in [&b"7\n"[..], b"\n", b" 7", b"7 ", b"7\r", b"-7", b"--", b"\xff", b"7\xc3\x89", b"a"] {
        assert_eq!(find(&text, odd), "none\n", "{}", odd.escape_ascii());
    }
    // a refused roster answers nothing about a serial
    for asked in [&b""[..], b"7", &[b'7'; 21]] {
        assert!(find(b"7\n7\n", asked).starts_with("refused 33 line 2"));
    }
}

#[test]
fn input_in_pieces_and_from_a_file() {
    let mut random = Random::new(2);
    let [full, few] = [text(&longest()), text(&different(&mut random, 12))];
    let unended = &full[..full.len() - 1];
    let more = [&full[..], &few].concat();
    let file = Path::new(env!("CARGO_TARGET_TMPDIR")).join("roster");
    for text in [&few[..], &full, unended, &more, &[]] {
        let last = text.split(|&c| c == b'\n').rfind(|serial| !serial.is_empty()).unwrap_or(b"A");
        for piece in [1, 21, 1000, 4095, 4096, 4097, 5397] {
            if text.len() / piece < 400 {
                let input = Input::Pieces(text.chunks(piece).collect(), Duration::from_millis(1));
                assert_eq!(answer(last, input), expected(text, last), "{} bytes in pieces of {piece}", text.len());
            }
        }
        fs::write(&file, text).expect("a file for the roster");
        let input = Input::File(File::open(&file).expect("the roster's file"));
        assert_eq!(answer(last, input), expected(text, last), "a file of {} bytes", text.len());
    }
}

/// A line that is too long has another fault where a bad character stands in it, however far behind.
#[test]
fn long_lines() {
    for lines in [0, 1, 256, 257] {
        let start = text(&numbered(lines));
        for length in [21, 4096, 70_000, 3_000_000] {
            for rest in [&b""[..], b"\n", b"\r\n", b"\nA\n", b"\n-\n", b"\0", b"a", b"\n\n"] {
                let long = [&start[..], &vec![b'A'; length], rest].concat();
                let number = if matches!(rest, b"\r\n" | b"\0" | b"a") { 30 } else { 31 };
                let answer = find(&long, b"A");
                assert!(answer.starts_with(&format!("refused {number} line {}:", lines + 1)), "{answer}");
            }
        }
    }
}

/// Inputs about as long as the longest roster, which has 5,397 bytes, and as what a program may keep of one.
#[test]
fn inputs_about_as_long_as_the_longest_roster() {
    let mut random = Random::new(3);
    let serials = longest();
    let full = text(&serials);
    assert_eq!(full.len(), 5397);
    for more in 0..=50 {
        let line = characters(&mut random, CHARACTERS, more);
        for rest in [&[][..], b"\n", &[random.pick(&BAD)], b"\n\n"] {
            find(&[&full[..], &line, rest].concat(), &serials[256]);
        }
    }
    for lines in [254, 255, 256] {
        let start = text(&serials[..lines]);
        for length in [0, 20, 21, 22, 40, 41, 42, 43, 62, 63, 64, 65, 84, 85] {
            for rest in [&b""[..], b"\n", b"-\n"] {
                find(&[&start[..], &vec![b'Q'; length], rest].concat(), &[b'Q'; LONGEST]);
            }
        }
    }
}

#[test]
fn more_lines_than_the_most() {
    for lines in [255, 256, 257, 258, 259, 300, 100_000] {
        let mut text = text(&numbered(lines));
        let answer = find(&text, b"A1");
        assert_eq!(answer.starts_with("refused 34 line 258:"), lines > MOST, "{lines} lines: {answer}");
        text.pop();
        find(&text, b"A1");
        text.extend(b"-\n");
        find(&text, b"A1");
    }
    // line 258 repeats a serial, which is the lower number
    let again = [&text(&numbered(MOST))[..], b"A1\n"].concat();
    assert!(find(&again, b"A1").starts_with("refused 33 line 258:"));
}

#[test]
fn other_numbers_of_arguments() {
    let usage = (String::new(), "usage: roster_find SERIAL <ROSTER\n".to_string());
    let words: [&[&[u8]]; 6] = [&[], &[b"A", b"A"], &[b"", b""], &[b"A", b""], &[b"A", b"B", b"C"], &[&b"A"[..]; 300]];
    for arguments in words {
        for text in [&b""[..], b"A\n", b"-\n"] {
            assert_eq!(said(run_with(PROGRAM, arguments, whole(text))), usage, "{} arguments", arguments.len());
        }
    }
    assert_eq!(said(run_with(PROGRAM, &[], Input::Closed)), usage);
}

/// No answer is given from a roster that could not be read.
#[test]
fn a_read_that_fails() {
    let failed = (String::new(), "roster_find: the roster could not be read\n".to_string());
    let folder = File::open(env!("CARGO_MANIFEST_DIR")).expect("this folder");
    assert_eq!(said(run_with(PROGRAM, &[b"A"], Input::File(folder))), failed);
    assert_eq!(said(run_with(PROGRAM, &[b"A"], Input::Closed)), failed);
}

/// An input without end is refused as soon as it can only be refused.
#[test]
fn an_input_without_end() {
    let zeros = File::open("/dev/zero").expect("a device that gives 00 without end");
    assert_eq!(answer(b"A", Input::File(zeros)), expected(&[0], b"A"));
}

/// The program ends even if nothing takes its answer, and says so; else it says nothing.
#[test]
fn a_write_that_fails_and_one_that_succeeds() {
    for (device, errors) in [("/dev/full", "roster_find: the answer could not be written whole\n"), ("/dev/null", "")] {
        let output = File::options().write(true).open(device).expect(device);
        let nothing = File::open("/dev/null").expect("an empty input");
        assert_eq!(said(run_into_file(PROGRAM, &[b"A"], nothing, output)), (String::new(), errors.to_string()), "{device}");
    }
}
