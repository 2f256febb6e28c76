//! The plain table of a series: what the data must be after any calls, kept from their numbers and
//! bytes alone.

use crate::column::checks;
use crate::stripe::column;

pub struct Table {
    n: u64,
    b: u64,
    data: Vec<u8>,
    /// P* and Q* of each column at the start.
    start: Vec<[u8; 2]>,
}

impl Table {
    pub fn new(n: u64, b: u64, stripe: &[u8]) -> Table {
        let start = (0..b as usize).map(|i| checks(&column(b, stripe, i))).collect();
        Table { n, b, data: stripe[..(n * b) as usize].to_vec(), start }
    }

    pub fn accepted_write(&mut self, disk: u64, offset: u64, bytes: &[u8]) {
        let at = (disk * self.b + offset) as usize;
        self.data[at..at + bytes.len()].copy_from_slice(bytes);
    }

    /// The stripe that the series must have left: the table, with the P and Q of the table plus the
    /// P* and Q* of the start.
    pub fn stripe(&self) -> Vec<u8> {
        let block = self.b as usize;
        let mut expected = self.data.clone();
        expected.resize(expected.len() + 2 * block, 0);
        let end = self.n as usize * block;
        for i in 0..block {
            let [p, q] = checks(&column(self.b, &expected, i));
            expected[end + i] = p ^ self.start[i][0];
            expected[end + block + i] = q ^ self.start[i][1];
        }
        expected
    }
}

#[cfg(test)]
mod tests {
    use super::*;
    use crate::random::trials;
    use crate::stripe::write;

    #[test]
    fn writes_leave_what_the_table_says() {
        trials(200, |random| {
            let (n, b) = (random.within(1, 20) as u64, random.within(1, 40) as u64);
            let mut stripe = random.bytes(((n + 2) * b) as usize);
            let mut table = Table::new(n, b, &stripe);
            for _ in 0..20 {
                let disk = random.within(0, n as usize - 1) as u64;
                let offset = random.within(0, b as usize - 1);
                let count = random.within(1, b as usize - offset);
                let bytes = random.bytes(count);
                assert_eq!(write(n, b, &mut stripe, disk, offset as u64, &bytes), 0);
                table.accepted_write(disk, offset as u64, &bytes);
            }
            assert_eq!(stripe, table.stripe());
        });
    }
}
