//! The answer to one job: bytes in, bytes out.

use crate::stripe::{self, bad_b, bad_devices, bad_length, bad_n, first, size, NONE};

pub const MARK: [u8; 3] = *b"SRJ";
pub const ENCODE: u8 = 1;
pub const REBUILD: u8 = 2;
pub const CHECK: u8 = 3;
pub const REPAIR: u8 = 4;

/// What the program's buffer holds of its input.
pub const CAPACITY: usize = 61455;
const HEADER: usize = 14;
/// The longest stripe that a job may have.
pub const LARGEST_STRIPE: u64 = 61440;

/// The header's fields, as a valid job has them.
#[derive(Clone, Copy)]
pub struct Header {
    pub mark: [u8; 3],
    pub version: u16,
    pub command: u8,
    pub n: u16,
    pub b: u16,
    pub first: u16,
    pub second: u16,
}

impl Header {
    pub fn new(command: u8, n: u16, b: u16, first: u16, second: u16) -> Header {
        Header { mark: MARK, version: 1, command, n, b, first, second }
    }

    pub fn with(&self, stripe: &[u8]) -> Vec<u8> {
        let mut job = self.mark.to_vec();
        job.extend(self.version.to_be_bytes());
        job.push(self.command);
        for field in [self.n, self.b, self.first, self.second] {
            job.extend(field.to_be_bytes());
        }
        job.extend(stripe);
        job
    }
}

pub fn answer(input: &[u8]) -> Vec<u8> {
    let job = &input[..input.len().min(CAPACITY)];
    match run(job) {
        Ok(output) => [&head(0), &output[..]].concat(),
        Err(refusal) => head(refusal).to_vec(),
    }
}

fn head(result: u8) -> [u8; 6] {
    [MARK[0], MARK[1], MARK[2], 0, 1, result]
}

fn run(job: &[u8]) -> Result<Vec<u8>, u8> {
    if job.len() < HEADER {
        return Err(16);
    }
    let (header, bytes) = job.split_at(HEADER);
    let number = |at: usize| u64::from(header[at]) << 8 | u64::from(header[at + 1]);
    let (command, n, b, one, two) = (header[5], number(6), number(8), number(10), number(12));
    let [bad_device, twice] = match command {
        REBUILD => bad_devices(n, one, two),
        _ => [(4, one != NONE || two != NONE), (5, false)],
    };
    let refusal = first(&[
        (17, header[..3] != MARK),
        (18, number(3) != 1),
        (19, ![ENCODE, REBUILD, CHECK, REPAIR].contains(&command)),
        bad_n(n),
        bad_b(b),
        (20, size(n, b) > u128::from(LARGEST_STRIPE)),
        bad_length(n, b, bytes.len()),
        bad_device,
        twice,
    ]);
    if refusal != 0 {
        return Err(refusal);
    }
    let mut bytes = bytes.to_vec();
    let result = match command {
        ENCODE => stripe::encode(n, b, &mut bytes),
        REBUILD => stripe::rebuild(n, b, &mut bytes, one, two),
        REPAIR => stripe::repair(n, b, &mut bytes),
        _ => return stripe::check(n, b, &bytes).map(|verdicts| report(&verdicts)),
    };
    match result {
        0 => Ok(bytes),
        _ => {
            assert_eq!((command, result), (REPAIR, 9), "the job's own tests cover the call's but for the stripe's bytes");
            Err(result)
        }
    }
}

/// The summary and the verdicts.
fn report(verdicts: &[u16]) -> Vec<u8> {
    [&stripe::summary(verdicts)].into_iter().chain(verdicts).flat_map(|number| number.to_be_bytes()).collect()
}

#[cfg(test)]
mod tests {
    use super::*;

    const NO_DEVICE: u16 = NONE as u16;

    #[test]
    fn the_whole_exchange() {
        let job = Header::new(REBUILD, 2, 1, 0, 1).with(&[0, 0, 0x81, 0x1c]);
        assert_eq!(answer(&job), [0x53, 0x52, 0x4a, 0, 1, 0, 0x01, 0x80, 0x81, 0x1c]);
    }

    #[test]
    fn a_check_gives_the_summary_and_the_verdicts() {
        let report = |stripe: &[u8]| answer(&Header::new(CHECK, 1, 3, NO_DEVICE, NO_DEVICE).with(stripe))[5..].to_vec();
        assert_eq!(report(&[5, 6, 7, 5, 6, 7, 5, 7, 8]), [0, 0, 2, 0, 0, 0, 2, 0, 2]);
        assert_eq!(report(&[5, 6, 7, 5, 6, 8, 5, 7, 7]), [0, 0, 4, 0, 0, 0, 2, 0, 1]);
    }

    #[test]
    fn a_repair_gives_the_stripe_or_is_refused_last() {
        let result = |header: Header, stripe: &[u8]| answer(&header.with(stripe))[5..].to_vec();
        let repair = Header::new(REPAIR, 3, 1, NO_DEVICE, NO_DEVICE);
        assert_eq!(result(repair, &[1, 2, 4, 7, 0x15]), [0, 1, 2, 4, 7, 0x15]);
        assert_eq!(result(repair, &[1, 2, 5, 7, 0x15]), [0, 1, 2, 4, 7, 0x15]);
        assert_eq!(result(repair, &[1, 2, 4, 6, 0x1d]), [9]);
        assert_eq!(result(Header { first: 0, ..repair }, &[1, 2, 4, 6, 0x1d]), [4]);
        assert_eq!(result(Header { second: 257, ..repair }, &[1, 2, 4, 6, 0x1d]), [4]);
        assert_eq!(result(Header { command: 5, ..repair }, &[1, 2, 4, 6, 0x1d]), [19]);
    }

    #[test]
    fn sizes_about_the_limits() {
        let result = |n, b, length| answer(&Header::new(ENCODE, n, b, NO_DEVICE, NO_DEVICE).with(&vec![0; length]))[5];
        assert_eq!(result(13, 4096, 61440), 0);
        assert_eq!(result(14, 4096, 65536), 20);
        assert_eq!(result(1, 4097, 3 * 4097), 0);
        assert_eq!(result(12, 4097, 57358), 0);
        assert_eq!(result(13, 4097, 61455), 20);
        assert_eq!(result(1, 20480, 61440), 0);
        assert_eq!(result(1, 20481, 61443), 20);
        assert_eq!(result(1, 65535, 0), 20);
        assert_eq!(result(1, 0, 0), 2);
        assert_eq!(result(13, 4096, 61441), 3);
        assert_eq!(result(256, 1, 258), 1);
    }
}
