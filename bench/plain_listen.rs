// Listening in plain Rust: every question in its order, over a verdict sheet and a journal in an image.
use crate::plain_line;
use crate::plain_message::{self, Fields, Walk};
use crate::plain_sha256::Sha256;
use crate::plain_store::{self, Pair};

const ROW: usize = 82;

// The refusal's number, 0 for a release, 100 for quiet, 101 for a duplicate; the next place; the octets of a released message.
pub type Answer = (u8, usize, usize);

fn has_pin(sheet: &[u8], kid: &[u8], alg: u8) -> bool {
    sheet.chunks_exact(ROW).any(|row| row[0] == 0 && row[1..17] == *kid && row[17] == alg)
}

fn has_yes(sheet: &[u8], kid: &[u8], alg: u8, transcript: &[u8; 32], signature: &[u8]) -> bool {
    let mut hasher = Sha256::new();
    hasher.update(signature);
    let signature = hasher.finish();
    sheet
        .chunks_exact(ROW)
        .any(|row| row[0] == 1 && row[1..17] == *kid && row[17] == alg && row[18..50] == *transcript && row[50..82] == signature)
}

// The arguments by their keys: major and number, or a string's length.
fn arguments(f: &Fields) -> Result<[Option<(u8, u64)>; 4], u8> {
    let mut found = [None; 4];
    let mut w = Walk { octets: f.octets, place: f.args.start };
    let (_, entries) = w.head();
    for _ in 0..entries {
        let (0, key) = w.head() else { return Err(22) };
        let (major, n) = w.head();
        match major {
            2 | 3 => w.place += n as usize,
            4 | 5 | 7 => return Err(22),
            _ => {}
        }
        *found.get_mut(key as usize).ok_or(22)? = Some((major, n));
    }
    Ok(found)
}

fn unsigned(a: Option<(u8, u64)>, most: u64) -> bool {
    matches!(a, Some((0, n)) if n <= most)
}

fn signed(a: Option<(u8, u64)>, limit: u64) -> bool {
    matches!(a, Some((0, n)) if n <= limit) || matches!(a, Some((1, n)) if n < limit)
}

fn optional(a: Option<(u8, u64)>) -> bool {
    matches!(a, None | Some((0, _)))
}

fn track(a: Option<(u8, u64)>) -> bool {
    matches!(a, Some((0 | 2, _)))
}

// Questions 21 to 24.
fn command(f: &Fields, catalog: &[u64], suspect: bool) -> Result<(), u8> {
    if !matches!(f.kind, 0..=3 | 10..=14 | 20 | 30 | 31) {
        return Err(21);
    }
    if f.kind >= 30 {
        return Err(23);
    }
    let a = arguments(f)?;
    let none = |from: usize| a[from..].iter().all(|x| x.is_none());
    let span = match (a[2], a[3]) {
        (Some((_, early)), Some((_, late))) => early <= late,
        _ => true,
    };
    let right = match f.kind {
        0 => optional(a[0]) && none(1),
        1 => track(a[0]) && signed(a[1], 10) && optional(a[2]) && optional(a[3]) && span,
        2 => track(a[0]) && signed(a[1], 5) && none(2),
        3 => unsigned(a[0], u64::MAX) && none(1),
        10 => unsigned(a[0], 2) && none(1),
        11 => signed(a[0], 60_000) && none(1),
        12 => unsigned(a[0], 200) && !unsigned(a[0], 49) && none(1),
        20 => unsigned(a[0], 2) && unsigned(a[1], 2) && matches!(a[2], Some((3, _))) && none(3),
        _ => none(0),
    };
    if !right {
        return Err(22);
    }
    let listed = match (f.kind, a[0]) {
        (1 | 2, Some((0, n))) => catalog.contains(&n),
        (1 | 2, _) => false,
        _ => true,
    };
    if !listed || (suspect && f.kind != 0) {
        return Err(23);
    }
    if f.duo { Err(24) } else { Ok(()) }
}

// Questions 8 to 26 on a message.
fn judged(image: &mut [u8], sheet: &[u8], octets: &[u8], clock: u64, catalog: &[u64]) -> Result<(), u8> {
    let f = plain_message::read(octets)?;
    let alg = f.alg as u8;
    if !has_pin(sheet, f.kid, alg) {
        return Err(15);
    }
    if !f.signature_fits() {
        return Err(16);
    }
    let hash = f.transcript_hash();
    if !has_yes(sheet, f.kid, alg, &hash, f.signature) {
        return Err(17);
    }
    let pair: Pair = [f.sid, f.kid].concat().try_into().unwrap();
    let new = ((f.epoch, f.counter), hash);
    if let Some(mark) = plain_store::mark(image, &pair) {
        if mark == new {
            return Err(101);
        }
        if new.0 <= mark.0 {
            return Err(18);
        }
    }
    if let Some(exp) = f.exp {
        if clock as u128 > exp as u128 + 30 {
            return Err(19);
        }
        if exp as u128 > clock as u128 + 86_400 {
            return Err(20);
        }
    }
    command(&f, catalog, false)?;
    match plain_store::raise(image, &pair, &new) {
        4 => Ok(()),
        _ => Err(25),
    }
}

pub fn listen(image: &mut [u8], sheet: &[u8], burst: &[u8], count: usize, clock: u64, catalog: &[u64], work: &mut [u8]) -> Answer {
    let (number, next, length) = plain_line::hear(burst, count, work);
    if number != 0 {
        return (number, next, 0);
    }
    let size = length - 2;
    let answer = match judged(image, sheet, &work[..size], clock, catalog) {
        Ok(()) => (0, next, size),
        Err(number) => (number, next, 0),
    };
    for octet in &mut work[answer.2..] {
        *octet = 0;
    }
    answer
}
