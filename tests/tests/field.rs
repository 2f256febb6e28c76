//! The proved field, asked through the program field_calc, against shift and add.

use outside::{field, program};

/// How many records the program answers in one run.
const BATCH: usize = 6144;

struct Question {
    operation: u8,
    a: u8,
    b: u64,
    expected: Option<u8>,
}

/// An answer is two bytes: 01 and the value, or 00 00 for none.
fn answer_bytes(answer: Option<u8>) -> [u8; 2] {
    match answer {
        Some(value) => [1, value],
        None => [0, 0],
    }
}

/// Asks the program all questions, a batch at a time.
fn ask(questions: impl Iterator<Item = Question>) {
    let questions: Vec<Question> = questions.collect();
    for batch in questions.chunks(BATCH) {
        let mut input = Vec::new();
        for q in batch {
            input.extend([q.operation, q.a]);
            input.extend(q.b.to_be_bytes());
        }
        let answers = program::run("field_calc", &input);
        assert_eq!(answers.len(), 2 * batch.len());
        for (q, answer) in batch.iter().zip(answers.chunks(2)) {
            assert_eq!(answer, answer_bytes(q.expected), "operation {} on {:02x} and {:x}", q.operation, q.a, q.b);
        }
    }
}

fn every_pair(operation: u8, expected: fn(u8, u8) -> u8) {
    ask((0..=255).flat_map(|a| (0..=255).map(move |b| Question { operation, a, b: u64::from(b), expected: Some(expected(a, b)) })));
}

fn every_element(operation: u8, expected: fn(u8) -> Option<u8>) {
    ask((0..=255).map(|a| Question { operation, a, b: 0, expected: expected(a) }));
}

#[test]
fn every_sum() {
    every_pair(1, |a, b| a ^ b);
}

#[test]
fn every_product() {
    every_pair(2, field::product);
}

#[test]
fn powers() {
    let wide = 1u64 << 32;
    let exponents: Vec<u64> = (0..=600).chain(wide..=wide + 600).chain([u64::MAX - 1, u64::MAX]).collect();
    ask((0..=255).flat_map(|a| exponents.iter().map(move |&b| Question { operation: 3, a, b, expected: Some(field::power(a, b)) })));
}

#[test]
fn every_inverse() {
    every_element(4, field::inverse);
}

#[test]
fn every_logarithm() {
    every_element(5, field::logarithm);
}

#[test]
fn none_for_zero_alone() {
    for operation in [4, 5] {
        let input: Vec<u8> = (0..=255).flat_map(|a| [operation, a, 0, 0, 0, 0, 0, 0, 0, 0]).collect();
        let answers = program::run("field_calc", &input);
        assert_eq!(answers.len(), 512);
        assert_eq!(answers[..2], [0, 0]);
        assert!(answers[2..].chunks(2).all(|answer| answer[0] == 1), "operation {operation}");
    }
}

#[test]
fn every_double() {
    every_element(6, |a| Some(field::double(a)));
}

#[test]
fn unknown_operations_and_part_of_a_record() {
    ask([0, 7, 255].into_iter().map(|operation| Question { operation, a: 1, b: 1, expected: None }));
    assert_eq!(program::run("field_calc", &[]), []);
    assert_eq!(program::run("field_calc", &[2, 0x80, 0, 0, 0, 0, 0, 0, 0, 2, 1, 1, 1]), [0x01, 0x1d]);
}
