// Times the proved reading of a message against a plain Rust program for the same work, in one run.
// Built by `make bench`: rustc -O, linked with the static library of the timing calls.
mod messages;
#[allow(dead_code)]
mod plain_message;
mod plain_sha256;
mod timer;

use messages::{Fill, array, bytes, map, message, message_with, number, text};
use plain_message::judged;
use std::hint::black_box;

unsafe extern "C" {
    fn timing_read_message(octets: *const u8, length: usize, digest: *mut u8) -> u8;
}

// 0 and the transcript's hash, or a refusal's number and zeros.
type Answer = (u8, [u8; 32]);

fn proved(octets: &[u8]) -> Answer {
    let mut digest = [0; 32];
    let answer = unsafe { timing_read_message(octets.as_ptr(), octets.len(), digest.as_mut_ptr()) };
    (answer, digest)
}

fn plain(octets: &[u8]) -> Answer {
    match judged(octets) {
        Ok(digest) => (0, digest),
        Err(n) => (n, [0; 32]),
    }
}

fn check(octets: &[u8]) -> u8 {
    let answer = plain(octets);
    let other = proved(octets);
    assert!(answer == other, "{} and {} for {octets:02x?}", answer.0, other.0);
    answer.0
}

// Damaged messages: both ways answer alike for each. The answers are counted.
fn compare() -> [usize; 17] {
    let mut seen = [0; 17];
    let mut note = |octets: &[u8]| seen[check(octets) as usize] += 1;
    let small = message_with(3, Some(map(&[(0, text("é東")), (1, array(&[number(1), vec![0xF5]])), (2, bytes(3))])));
    for n in 0..small.len() {
        note(&small[..n]);
        for octet in 0..=255 {
            let mut m = small.clone();
            m[n] = octet;
            note(&m);
            m.insert(n, octet);
            note(&m);
        }
        let mut m = small.clone();
        m.remove(n);
        note(&m);
    }
    let nested = |n: usize| (0..n).fold(map(&[]), |inner, _| map(&[(0, inner)]));
    let ones = |n: usize| vec![number(1); n];
    let keys = |n: u64| map(&(0..n).map(|k| (k, number(0))).collect::<Vec<_>>());
    let mut twice = map(&[(3, number(0)), (1, number(0)), (3, number(0))]);
    let ext = [
        nested(30), nested(31), nested(32), keys(64), keys(65), array(&ones(256)), array(&ones(257)), twice.clone(), bytes(2_048),
        map(&[(0, bytes(2_048))]), map(&[(0, bytes(2_049))]), map(&[(0, text(&"a".repeat(256)))]), map(&[(0, text(&"a".repeat(257)))]),
        map(&(0..4).map(|k| (k, array(&ones(240)))).collect::<Vec<_>>()),
        map(&(0..4).map(|k| (k, array(&ones(250)))).collect::<Vec<_>>()),
    ];
    for e in ext {
        note(&message_with(3, Some(e)));
    }
    twice.truncate(5);
    note(&message_with(3, Some(twice)));
    for alg in 1..=3 {
        note(&message(alg, 4_096 + 4_096 * (alg == 2) as usize, Fill::Bytes));
        for size in [4_097, 12_288, 12_289] {
            if alg != 2 || size > 8_500 {
                note(&message(alg, size, Fill::Bytes));
            }
        }
    }
    seen
}

fn main() {
    let seen = compare();
    println!("answers alike: {} messages, by answer {:?}", seen.iter().sum::<usize>(), seen);
    println!("{:<16} {:>8} {:>12} {:>12} {:>7}", "message", "octets", "plain us", "proved us", "ratio");
    let cases = [
        ("alg 3", 3, 0, Fill::Nothing),
        ("alg 1", 1, 0, Fill::Nothing),
        ("alg 2", 2, 0, Fill::Nothing),
        ("alg 3, bytes", 3, 4_096, Fill::Bytes),
        ("alg 3, ascii", 3, 4_096, Fill::Ascii),
        ("alg 3, text", 3, 4_096, Fill::Text),
        ("alg 3, numbers", 3, 4_096, Fill::Numbers),
        ("alg 2, bytes", 2, 12_288, Fill::Bytes),
        ("alg 2, ascii", 2, 12_288, Fill::Ascii),
        ("alg 2, text", 2, 12_288, Fill::Text),
        ("alg 2, numbers", 2, 12_288, Fill::Numbers),
    ];
    for (name, alg, size, fill) in cases {
        let octets = message(alg, size, fill);
        assert_eq!(check(&octets), 0, "{name}");
        let (a, b) = timer::medians(
            51,
            100,
            || {
                black_box(plain(black_box(&octets)));
            },
            || {
                black_box(proved(black_box(&octets)));
            },
        );
        println!("{:<16} {:>8} {:>12.2} {:>12.2} {:>7.2}", name, octets.len(), a, b, b / a);
    }
}
