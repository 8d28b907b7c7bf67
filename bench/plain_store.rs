// A journal in an image in plain Rust: the same cells, read where they lie.
pub const CELL: usize = 81;

pub type Mark = ((u64, u64), [u8; 32]);

// A sid and a kid, one behind the other.
pub type Pair = [u8; 32];

fn record(image: &[u8], i: usize) -> Option<&[u8]> {
    let cell = &image[i * CELL..(i + 1) * CELL];
    (cell[0] == 1).then_some(cell)
}

fn position(cell: &[u8]) -> (u64, u64) {
    let number = |at: usize| u64::from_be_bytes(cell[at..at + 8].try_into().unwrap());
    (number(33), number(41))
}

// The cell of a pair's highest record, the lowest such cell.
fn source(image: &[u8], pair: &[u8]) -> Option<usize> {
    let mut found: Option<(usize, (u64, u64))> = None;
    for i in 0..image.len() / CELL {
        let Some(cell) = record(image, i) else { continue };
        if cell[1..33] == *pair {
            let p = position(cell);
            if found.is_none_or(|f| f.1 < p) {
                found = Some((i, p));
            }
        }
    }
    found.map(|f| f.0)
}

fn is_free(image: &[u8], i: usize) -> bool {
    record(image, i).is_none_or(|cell| source(image, &cell[1..33]) != Some(i))
}

pub fn mark(image: &[u8], pair: &Pair) -> Option<Mark> {
    let cell = record(image, source(image, pair)?)?;
    Some((position(cell), cell[49..81].try_into().unwrap()))
}

pub fn raise(image: &mut [u8], pair: &Pair, new: &Mark) -> u8 {
    let high = mark(image, pair).map_or((0, 0), |m| m.0);
    if new.0 <= high {
        return 1;
    }
    let Some(i) = (0..image.len() / CELL).find(|i| is_free(image, *i)) else {
        return 2;
    };
    let cell = &mut image[i * CELL..(i + 1) * CELL];
    cell[0] = 1;
    cell[1..33].copy_from_slice(pair);
    cell[33..41].copy_from_slice(&new.0.0.to_be_bytes());
    cell[41..49].copy_from_slice(&new.0.1.to_be_bytes());
    cell[49..81].copy_from_slice(&new.1);
    4
}
