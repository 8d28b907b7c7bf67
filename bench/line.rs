// Times the proved line layer against a plain Rust program for the same work, in one run.
// Built by `make bench`: rustc -O, linked with the static library of the C calls.
mod plain_line;

use std::hint::black_box;
use std::time::Instant;

#[repr(C)]
struct HeardFrame {
    answer: u8,
    next: usize,
    length: usize,
}

#[repr(C)]
struct WrittenBurst {
    answer: u8,
    count: usize,
}

unsafe extern "C" {
    fn owac_write_burst(message: *const u8, len: usize, burst: *mut u8, room: usize) -> WrittenBurst;
    fn owac_hear_frame(burst: *const u8, len: usize, count: usize, start: usize, work: *mut u8, room: usize) -> HeardFrame;
}

fn proved_write(message: &[u8], burst: &mut [u8]) -> (u8, usize) {
    let r = unsafe { owac_write_burst(message.as_ptr(), message.len(), burst.as_mut_ptr(), burst.len()) };
    (r.answer, r.count)
}

fn proved_hear(burst: &[u8], count: usize, work: &mut [u8]) -> (u8, usize, usize) {
    let r = unsafe { owac_hear_frame(burst.as_ptr(), burst.len(), count, 0, work.as_mut_ptr(), work.len()) };
    (r.answer, r.next, r.length)
}

// The median of some runs, in nanoseconds.
fn time(mut f: impl FnMut()) -> f64 {
    for _ in 0..20 {
        f();
    }
    let mut runs: Vec<u128> = (0..201)
        .map(|_| {
            let t = Instant::now();
            f();
            t.elapsed().as_nanos()
        })
        .collect();
    runs.sort();
    runs[runs.len() / 2] as f64
}

fn main() {
    println!("{:<10} {:>8} {:>12} {:>12} {:>7}", "work", "octets", "plain ns", "proved ns", "ratio");
    for n in [40usize, 400, 4_096, 12_288] {
        let mut seed = 7u32;
        let message: Vec<u8> = (0..n)
            .map(|_| {
                seed = seed.wrapping_mul(1_664_525).wrapping_add(1_013_904_223);
                (seed >> 24) as u8
            })
            .collect();
        let mut a = vec![0u8; 20_000];
        let mut b = vec![0u8; 20_000];
        let x = plain_line::write(&message, &mut a);
        let y = proved_write(&message, &mut b);
        let octets = x.1.div_ceil(8);
        assert_eq!(x, y);
        assert_eq!(&a[..octets - 1], &b[..octets - 1]);
        let mut w = vec![0u8; 16_500];
        let mut v = vec![0u8; 16_500];
        assert_eq!(plain_line::hear(&a, x.1, &mut w), proved_hear(&b, y.1, &mut v));
        assert_eq!(w, v);
        let plain = time(|| {
            black_box(plain_line::write(black_box(&message), &mut a));
        });
        let proved = time(|| {
            black_box(proved_write(black_box(&message), &mut b));
        });
        println!("{:<10} {:>8} {:>12.0} {:>12.0} {:>7.2}", "write", n, plain, proved, proved / plain);
        let plain = time(|| {
            black_box(plain_line::hear(black_box(&a), x.1, &mut w));
        });
        let proved = time(|| {
            black_box(proved_hear(black_box(&b), y.1, &mut v));
        });
        println!("{:<10} {:>8} {:>12.0} {:>12.0} {:>7.2}", "hear", n, plain, proved, proved / plain);
    }
}
