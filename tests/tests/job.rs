//! The program shelf_job: the tables of cases under job/, and random jobs against the independent
//! implementation.

use std::fs::{self, File};
use std::os::unix::process::ExitStatusExt;
use std::path::Path;
use std::time::Duration;

use outside::job::{self, Header, CHECK, ENCODE, LARGEST_STRIPE, REBUILD, REPAIR};
use outside::program::{self, ClosedPipe};
use outside::random::{trials, Random};
use outside::shapes::{BLOCKS, CHUNK, DISKS};

const PROGRAM: &str = "shelf_job";
const P: u16 = 256;
const Q: u16 = 257;
const NONE: u16 = 65535;
const SIGPIPE: i32 = 13;

struct Case {
    name: String,
    input: Vec<u8>,
    output: Vec<u8>,
}

/// Bytes in hex; 00*5 is five of them.
fn bytes(text: &str) -> Vec<u8> {
    let mut bytes = Vec::new();
    for word in text.split_whitespace() {
        let (byte, count) = word.split_once('*').unwrap_or((word, "1"));
        let byte = u8::from_str_radix(byte, 16).expect(word);
        bytes.resize(bytes.len() + count.parse::<usize>().expect(word), byte);
    }
    bytes
}

/// A case is three lines: a comment that names it, `in` and its bytes, `out` and its bytes.
fn cases() -> Vec<Case> {
    let mut cases = Vec::new();
    for entry in fs::read_dir(Path::new(env!("CARGO_MANIFEST_DIR")).join("job")).expect("the folder of cases") {
        let path = entry.expect("a file of cases").path();
        let (mut name, mut input) = (String::new(), None);
        for line in fs::read_to_string(&path).expect("a file of cases").lines() {
            if let Some(comment) = line.strip_prefix("# ") {
                name = format!("{}: {comment}", path.display());
            } else if let Some(rest) = line.strip_prefix("in ") {
                input = Some(bytes(rest));
            } else if let Some(rest) = line.strip_prefix("out ") {
                let input = input.take().unwrap_or_else(|| panic!("{name}: no input"));
                cases.push(Case { name: name.clone(), input, output: bytes(rest) });
            } else {
                assert_eq!(line, "", "{name}: not a line of a case");
            }
        }
        assert!(input.is_none(), "{name}: no output");
    }
    assert!(!cases.is_empty());
    cases
}

/// Fails with the names of the cases that are answered otherwise.
fn every_case(answer: impl Fn(&[u8]) -> Vec<u8>) {
    let wrong: Vec<String> = cases().into_iter().filter(|case| answer(&case.input) != case.output).map(|case| case.name).collect();
    assert!(wrong.is_empty(), "{} wrong answers:\n{}", wrong.len(), wrong.join("\n"));
}

#[test]
fn the_program_answers_every_case() {
    every_case(|input| program::run(PROGRAM, input));
}

#[test]
fn the_independent_implementation_answers_every_case() {
    every_case(job::answer);
}

/// The whole job is 20 bytes long.
#[test]
fn every_length_up_to_a_whole_job() {
    let whole = Header::new(ENCODE, 1, 2, NONE, NONE).with(&[5, 6, 0, 0, 0, 0]);
    for length in 0..=20 {
        let answer = program::run(PROGRAM, &whole[..length]);
        match length {
            0..=13 => assert_eq!(answer, [0x53, 0x52, 0x4a, 0, 1, 16], "{length} bytes"),
            14..=19 => assert_eq!(answer, [0x53, 0x52, 0x4a, 0, 1, 3], "{length} bytes"),
            _ => assert_eq!(answer, [0x53, 0x52, 0x4a, 0, 1, 0, 5, 6, 5, 6, 5, 6]),
        }
    }
}

/// A job as long as one that is not refused can be.
fn largest() -> Vec<u8> {
    Header::new(ENCODE, 13, 4096, NONE, NONE).with(&Random::new(1).bytes(61440))
}

#[test]
fn input_in_pieces() {
    let exchange = Header::new(REBUILD, 2, 1, 0, 1).with(&[0, 0, 0x81, 0x1c]);
    let largest = largest();
    for (job, piece) in [(&exchange, 1), (&exchange, 5), (&largest, 1000), (&largest, 4096), (&largest, 4097), (&largest, 30727)] {
        let answer = program::run_pieces(PROGRAM, job.chunks(piece), Duration::from_millis(2));
        assert_eq!(answer, job::answer(job), "pieces of {piece} bytes");
    }
}

/// Input that cannot be read is a job of no bytes.
#[test]
fn a_read_that_fails() {
    let folder = File::open(env!("CARGO_MANIFEST_DIR")).expect("this folder");
    assert_eq!(program::run_on_file(PROGRAM, folder), job::answer(&[]));
}

const NOT_WHOLE: &str = "shelf_job: the answer could not be written whole\n";

/// The program ends even if nothing takes its answer, and says so.
#[test]
fn a_write_that_fails() {
    let full = File::options().write(true).open("/dev/full").expect("a device that is always full");
    let nothing = File::open("/dev/null").expect("an empty input");
    let end = program::run_into_file(PROGRAM, &[], nothing, full);
    assert!(end.status.success(), "{}", end.status);
    assert_eq!(end.errors, NOT_WHOLE);
}

/// Where an answer is written whole, nothing else is.
#[test]
fn a_write_that_succeeds() {
    let null = File::options().write(true).open("/dev/null").expect("a device that takes everything");
    let nothing = File::open("/dev/null").expect("an empty input");
    let end = program::run_into_file(PROGRAM, &[], nothing, null);
    assert!(end.status.success(), "{}", end.status);
    assert_eq!(end.errors, "");
}

/// The signal of a closed pipe may end the program.
#[test]
fn a_reader_that_goes_away() {
    let status = program::run_unread(PROGRAM, &largest(), ClosedPipe::Signals).status;
    assert!(status.success() || status.signal() == Some(SIGPIPE), "{status}");
}

/// Where the signal is ignored, the program ends by itself and says what happened.
#[test]
fn a_reader_that_goes_away_without_a_signal() {
    let end = program::run_unread(PROGRAM, &largest(), ClosedPipe::IsIgnored);
    assert!(end.status.success(), "{}", end.status);
    assert_eq!(end.errors, NOT_WHOLE);
}

/// The largest block for which a job has room.
fn largest_block(n: u64) -> u64 {
    LARGEST_STRIPE / (n + 2)
}

/// A header of which the most likely damage is none; rarely its stripe is too long.
fn random_header(random: &mut Random) -> Header {
    let n = if random.once_in(20) { random.within(1, 255) } else { random.within(1, 12) };
    let fits = largest_block(n as u64) as usize;
    let b = match random.within(0, 99) {
        0 => random.within(1, fits),
        1 => random.within(fits, fits + 1),
        _ => random.within(1, 24.min(fits)),
    };
    let device = |random: &mut Random| match random.within(0, n + 2) {
        place if place < n => place as u16,
        place => [P, Q, NONE][place - n],
    };
    let command = random.pick(&[ENCODE, REBUILD, REBUILD, CHECK, REPAIR]);
    let (first, second) = if command == REBUILD { (device(random), device(random)) } else { (NONE, NONE) };
    Header::new(command, n as u16, b as u16, first, second)
}

/// A number near a border, or any.
fn random_number(random: &mut Random) -> u16 {
    match random.within(0, 1) {
        0 => random.pick(&[0, 1, 2, 14, 254, 255, 256, 257, 258, 4095, 4096, 4097, 20480, 20481, 65534, 65535]),
        _ => random.number() as u16,
    }
}

fn damage(random: &mut Random, header: &mut Header) {
    match random.within(0, 6) {
        0 => header.mark[random.within(0, 2)] ^= 1 << random.within(0, 7),
        1 => header.version = random_number(random),
        2 => header.command = random_number(random) as u8,
        3 => header.n = random_number(random),
        4 => header.b = random_number(random),
        5 => header.first = random_number(random),
        _ => header.second = random_number(random),
    }
}

/// A stripe for a check or a repair is encoded and then damaged in some columns, that for a repair often on one device alone.
fn random_bytes(random: &mut Random, header: &Header) -> Vec<u8> {
    let (n, b) = (u64::from(header.n), u64::from(header.b));
    let mut stripe = random.bytes(((n + 2) * b) as usize);
    if header.command == REPAIR && random.once_in(2) {
        encode_and_spoil(random, n, b, &mut stripe, 0);
        let device = random.within(0, n as usize + 1) as u64;
        spoil_device(random, b, &mut stripe, device);
    } else if [CHECK, REPAIR].contains(&header.command) && !random.once_in(4) {
        let count = random.within(0, 3);
        encode_and_spoil(random, n, b, &mut stripe, count);
    }
    stripe
}

/// Puts other bytes on some columns of one device.
fn spoil_device(random: &mut Random, b: u64, stripe: &mut [u8], device: u64) {
    let start = (device * b) as usize;
    for byte in &mut stripe[start..start + b as usize] {
        if random.once_in(3) {
            *byte ^= random.within(1, 255) as u8;
        }
    }
}

/// Encodes a stripe and puts other bytes, by chance the same, at so many places.
fn encode_and_spoil(random: &mut Random, n: u64, b: u64, stripe: &mut [u8], count: usize) {
    assert_eq!(outside::stripe::encode(n, b, stripe), 0);
    for _ in 0..count {
        let at = random.within(0, stripe.len() - 1);
        stripe[at] = random.number() as u8;
    }
}

/// Holds the program to the independent implementation.
fn compare(case: &str, job: &[u8]) {
    let (got, want) = (program::run(PROGRAM, job), job::answer(job));
    let start = |bytes: &[u8]| format!("{:02x?}", &bytes[..bytes.len().min(40)]);
    assert!(got == want, "{case}: the job {} is answered by {}, not by {}", start(job), start(&got), start(&want));
}

/// Every shape that a job has room for, and for each n the largest block of such and the next.
#[test]
fn every_shape() {
    let mut random = Random::new(2);
    for n in DISKS {
        let largest = largest_block(n);
        for b in BLOCKS.into_iter().filter(|&b| b < largest).chain([largest, largest + 1]) {
            let case = format!("n {n}, b {b}");
            let job = |command, first, second, stripe: &[u8]| Header::new(command, n as u16, b as u16, first, second).with(stripe);
            let mut stripe = random.bytes(((n + 2) * b) as usize);
            compare(&case, &job(ENCODE, NONE, NONE, &stripe));
            for (first, second) in [(n as u16 - 1, NONE), (P, Q), (0, Q)] {
                compare(&case, &job(REBUILD, first, second, &stripe));
            }
            for count in 0..=3 {
                encode_and_spoil(&mut random, n, b, &mut stripe, count);
                compare(&case, &job(CHECK, NONE, NONE, &stripe));
                compare(&case, &job(REPAIR, NONE, NONE, &stripe));
            }
            for device in [0, n - 1, n, n + 1] {
                encode_and_spoil(&mut random, n, b, &mut stripe, 0);
                spoil_device(&mut random, b, &mut stripe, device);
                compare(&case, &job(REPAIR, NONE, NONE, &stripe));
            }
        }
    }
}

/// One wrong byte in each column in turn, in chunks and in what is left.
#[test]
fn every_column_spoiled() {
    let mut random = Random::new(3);
    let n = 3;
    for b in [CHUNK - 1, CHUNK, CHUNK + 1, 2 * CHUNK + 2] {
        let mut stripe = random.bytes(((n + 2) * b) as usize);
        encode_and_spoil(&mut random, n, b, &mut stripe, 0);
        for column in 0..b {
            let at = (random.within(0, n as usize + 1) as u64 * b + column) as usize;
            stripe[at] ^= 0x40;
            for command in [CHECK, REPAIR] {
                let job = Header::new(command, n as u16, b as u16, NONE, NONE).with(&stripe);
                compare(&format!("b {b}, column {column}, command {command}"), &job);
            }
            stripe[at] ^= 0x40;
        }
    }
}

#[test]
fn ten_thousand_random_jobs() {
    trials(10_000, |random| {
        let mut header = random_header(random);
        let mut stripe = random_bytes(random, &header);
        while random.once_in(3) {
            damage(random, &mut header);
        }
        match random.within(0, 19) {
            0 => stripe.truncate(random.within(0, stripe.len())),
            1 => stripe.push(0),
            _ => {}
        }
        let mut job = header.with(&stripe);
        if random.once_in(40) {
            job.truncate(random.within(0, 20));
        }
        compare("a random job", &job);
    });
}
