//! The judge of bit-matrix codes, by Gaussian elimination over two elements. A matrix is eight row
//! bytes, and column c of a row is its bit of weight 2^c.

pub type Matrix = [u8; 8];

/// Eight places, of which a count says how many are judged.
pub type Code = [Matrix; 8];

#[derive(Clone, Copy, Debug, PartialEq, Eq)]
pub enum Finding {
    Fit,
    Singular(usize),
    Pair(usize, usize),
}

#[derive(Clone, Copy, Debug, PartialEq, Eq)]
pub struct Judgement {
    pub finding: Finding,
    pub ones: usize,
    /// Fit with 9k - 1 ones for k matrices.
    pub minimal: bool,
}

pub fn judge(code: &Code, count: usize) -> Result<Judgement, u8> {
    if count == 0 || count > 8 {
        return Err(8);
    }
    let used = &code[..count];
    let finding = find(used);
    let ones = used.iter().flatten().map(|row| (0..8).filter(|&c| entry(*row, c)).count()).sum();
    Ok(Judgement { finding, ones, minimal: finding == Finding::Fit && ones == 9 * count - 1 })
}

fn find(used: &[Matrix]) -> Finding {
    let pairs = || (0..used.len()).flat_map(|i| (i + 1..used.len()).map(move |j| (i, j)));
    if let Some(i) = used.iter().position(|m| rank(m) < 8) {
        Finding::Singular(i)
    } else if let Some((i, j)) = pairs().find(|&(i, j)| rank(&sum(&used[i], &used[j])) < 8) {
        Finding::Pair(i, j)
    } else {
        Finding::Fit
    }
}

fn sum(a: &Matrix, b: &Matrix) -> Matrix {
    std::array::from_fn(|r| a[r] ^ b[r])
}

fn entry(row: u8, column: usize) -> bool {
    row >> column & 1 == 1
}

/// The rank, by elimination column after column.
fn rank(m: &Matrix) -> usize {
    let mut rows = *m;
    let mut done = 0;
    for column in 0..8 {
        let Some(pivot) = (done..8).find(|&r| entry(rows[r], column)) else {
            continue;
        };
        rows.swap(done, pivot);
        let base = rows[done];
        for row in &mut rows[done + 1..] {
            if entry(*row, column) {
                *row ^= base;
            }
        }
        done += 1;
    }
    done
}
