//! The proved judge, asked through the program judge_run, against Gaussian elimination.

use outside::judge::{judge, Code, Finding, Judgement, Matrix};
use outside::program;
use outside::random::{trials, Random};

/// How many codes the program judges in one run.
const BATCH: usize = 64;
const ANSWER: usize = 7;

const IDENTITY: Matrix = [1, 2, 4, 8, 16, 32, 64, 128];

/// The table of source document 004: a number and the matrices X_1 to X_7.
const TABLE: &str = include_str!("../data/sets004.txt");

struct Case {
    name: String,
    count: usize,
    code: Code,
}

/// One matrix of the table, {(p0,..,p7),r,c}: a one in row j at column pj, and one more in row r at column c.
fn matrix(text: &str) -> Matrix {
    let numbers: Vec<usize> =
        text.split(|c: char| !c.is_ascii_digit()).filter(|word| !word.is_empty()).map(|word| word.parse().expect("a number")).collect();
    assert_eq!(numbers.len(), 10, "{text}");
    let mut m: Matrix = std::array::from_fn(|j| 1 << numbers[j]);
    m[numbers[8]] |= 1 << numbers[9];
    m
}

/// The sets of the table, each with X_0, the identity, before its seven.
fn sets() -> Vec<Case> {
    let set = |line: &str| {
        let mut fields = line.split('\t');
        let number = fields.next().expect("a number");
        let given: Vec<Matrix> = fields.map(matrix).collect();
        let mut code = [IDENTITY; 8];
        code[1..].copy_from_slice(&given);
        Case { name: format!("set {number}"), count: 8, code }
    };
    let sets: Vec<Case> = TABLE.lines().map(set).collect();
    assert_eq!(sets.len(), 48);
    sets
}

fn record(case: &Case) -> Vec<u8> {
    let mut bytes = vec![case.count as u8];
    bytes.extend(case.code.iter().flatten());
    bytes
}

fn read(answer: &[u8]) -> Result<Judgement, u8> {
    let [result, kind, i, j, high, low, minimal] = *answer else { panic!("an answer has seven bytes") };
    if result != 0 {
        assert_eq!(answer[1..], [0; ANSWER - 1], "a refusal brings no other news");
        return Err(result);
    }
    let finding = match (kind, i, j) {
        (0, 0, 0) => Finding::Fit,
        (1, i, 0) => Finding::Singular(i.into()),
        (2, i, j) => Finding::Pair(i.into(), j.into()),
        other => panic!("no finding: {other:?}"),
    };
    assert!(minimal < 2);
    Ok(Judgement { finding, ones: u16::from_be_bytes([high, low]).into(), minimal: minimal == 1 })
}

/// What the program answers to each case, which must be what the independent judge says.
fn ask(cases: &[Case]) -> Vec<Result<Judgement, u8>> {
    let mut judgements = Vec::new();
    for batch in cases.chunks(BATCH) {
        let output = program::run("judge_run", &batch.iter().flat_map(record).collect::<Vec<u8>>());
        assert_eq!(output.len(), ANSWER * batch.len());
        for (case, answer) in batch.iter().zip(output.chunks(ANSWER)) {
            let judgement = read(answer);
            assert_eq!(judgement, judge(&case.code, case.count), "{}: count {}, {:?}", case.name, case.count, case.code);
            judgements.push(judgement);
        }
    }
    judgements
}

#[test]
fn the_sets_of_the_table_are_fit_with_71_ones() {
    for judgement in ask(&sets()) {
        assert_eq!(judgement, Ok(Judgement { finding: Finding::Fit, ones: 71, minimal: true }));
    }
}

#[test]
fn small_codes_and_refusals() {
    let beside = |other: Matrix| {
        let mut code = [IDENTITY; 8];
        code[1] = other;
        code
    };
    let times_02 = [128, 1, 2 | 128, 4 | 128, 8 | 128, 16, 32, 64];
    let judged = |finding, ones, minimal| Ok(Judgement { finding, ones, minimal });
    let expected = [
        ("one identity", 1, [IDENTITY; 8], judged(Finding::Fit, 8, true)),
        ("two identities", 2, [IDENTITY; 8], judged(Finding::Pair(0, 1), 16, false)),
        ("zero beside the identity", 2, beside([0; 8]), judged(Finding::Singular(1), 8, false)),
        ("times 02 beside times 01", 2, beside(times_02), judged(Finding::Fit, 19, false)),
        ("ones everywhere", 8, [[255; 8]; 8], judged(Finding::Singular(0), 512, false)),
        ("no matrix", 0, [IDENTITY; 8], Err(8)),
        ("nine matrices", 9, [IDENTITY; 8], Err(8)),
        ("255 matrices", 255, [IDENTITY; 8], Err(8)),
    ];
    for (name, count, code, judgement) in expected {
        assert_eq!(ask(&[Case { name: name.to_string(), count, code }]), [judgement], "{name}");
    }
}

fn set_garbage(code: &mut Code, from: usize, random: &mut Random) {
    code.iter_mut().skip(from).for_each(|m| m.copy_from_slice(&random.bytes(8)));
}

/// A damaged set, or random matrices, with garbage in the places past the count.
fn damaged(sets: &[Case], random: &mut Random) -> Case {
    let mut code = sets[random.within(0, sets.len() - 1)].code;
    let mut count = random.within(1, 8);
    let name = match random.within(0, 5) {
        0 => "part of a set",
        1 | 2 => {
            code[random.within(0, count - 1)][random.within(0, 7)] ^= 1 << random.within(0, 7);
            "set with a bit flipped"
        }
        3 => {
            code[random.within(0, 7)] = code[random.within(0, 7)];
            "set with a matrix repeated"
        }
        4 => {
            set_garbage(&mut code, 0, random);
            "random matrices"
        }
        _ => {
            count = random.within(0, 255);
            "any count"
        }
    };
    set_garbage(&mut code, count.min(8), random);
    Case { name: name.to_string(), count, code }
}

#[test]
fn damaged_sets_and_random_codes() {
    let sets = sets();
    trials(9, |random| {
        let cases: Vec<Case> = (0..BATCH).map(|_| damaged(&sets, random)).collect();
        ask(&cases);
    });
}

#[test]
fn part_of_a_record() {
    assert_eq!(program::run("judge_run", &[]), []);
    assert_eq!(program::run("judge_run", &[1; 64]), []);
}
