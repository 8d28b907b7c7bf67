// Times the proved SHA-256 against a plain Rust program for the same work, in one run.
// Built by `make bench`: rustc -O, linked with the static library of the timing calls.
mod plain_sha256;
mod timer;

use plain_sha256::Sha256;
use std::hint::black_box;

unsafe extern "C" {
    fn timing_sha256(octets: *const u8, length: usize, out: *mut u8);
}

fn plain(octets: &[u8]) -> [u8; 32] {
    let mut hasher = Sha256::new();
    hasher.update(octets);
    hasher.finish()
}

fn proved(octets: &[u8]) -> [u8; 32] {
    let mut out = [0; 32];
    unsafe { timing_sha256(octets.as_ptr(), octets.len(), out.as_mut_ptr()) };
    out
}

fn main() {
    for n in 0..300 {
        let octets: Vec<u8> = (0..n).map(|i| (i * 7 + n) as u8).collect();
        assert_eq!(proved(&octets), plain(&octets), "{n} octets");
    }
    println!("{:<10} {:>8} {:>12} {:>12} {:>7}", "work", "octets", "plain us", "proved us", "ratio");
    for (n, calls) in [(64usize, 4_000), (4_096, 400), (12_288, 200), (1 << 20, 3)] {
        let octets: Vec<u8> = (0..n).map(|i| (i * 31 + (i >> 8)) as u8).collect();
        assert_eq!(proved(&octets), plain(&octets));
        let (a, b) = timer::medians(
            31,
            calls,
            || {
                black_box(plain(black_box(&octets)));
            },
            || {
                black_box(proved(black_box(&octets)));
            },
        );
        println!("{:<10} {:>8} {:>12.2} {:>12.2} {:>7.2}", "sha256", n, a, b, b / a);
    }
}
