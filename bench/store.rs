// Times the proved journal in an image against a plain Rust program for the same work, in one run.
// Built by `make bench`: rustc -O, linked with the static library of the timing calls.
mod plain_store;
mod timer;

use plain_store::{CELL, Mark, Pair};
use std::hint::black_box;

#[repr(C)]
struct FoundMark {
    found: u8,
    epoch: u64,
    counter: u64,
}

unsafe extern "C" {
    fn timing_raise(
        image: *mut u8, length: usize, floor: u64, charge: u64, sid: *const u8, kid: *const u8, epoch: u64, counter: u64, hash: *const u8,
    ) -> u8;
    fn timing_mark(image: *mut u8, length: usize, sid: *const u8, kid: *const u8, hash: *mut u8) -> FoundMark;
}

fn proved_raise(image: &mut [u8], pair: &Pair, new: &Mark) -> u8 {
    let (sid, kid) = pair.split_at(16);
    let ((epoch, counter), hash) = new;
    unsafe { timing_raise(image.as_mut_ptr(), image.len(), 0, 1, sid.as_ptr(), kid.as_ptr(), *epoch, *counter, hash.as_ptr()) }
}

fn proved_mark(image: &mut [u8], pair: &Pair) -> Option<Mark> {
    let (sid, kid) = pair.split_at(16);
    let mut hash = [0; 32];
    let m = unsafe { timing_mark(image.as_mut_ptr(), image.len(), sid.as_ptr(), kid.as_ptr(), hash.as_mut_ptr()) };
    (m.found == 1).then_some(((m.epoch, m.counter), hash))
}

// Ids as a random generator makes them.
fn pair_of(i: usize) -> Pair {
    let mut pair = [0; 32];
    let mut seed = i as u64 + 1;
    for eight in pair.chunks_exact_mut(8) {
        seed = (seed ^ (seed >> 31)).wrapping_mul(0x9E37_79B9_7F4A_7C15);
        eight.copy_from_slice(&(seed ^ (seed >> 29)).to_le_bytes());
    }
    pair
}

fn put(image: &mut [u8], i: usize, pair: &Pair, mark: &Mark) {
    let cell = &mut image[i * CELL..(i + 1) * CELL];
    cell[0] = 1;
    cell[1..33].copy_from_slice(pair);
    cell[33..41].copy_from_slice(&mark.0.0.to_be_bytes());
    cell[41..49].copy_from_slice(&mark.0.1.to_be_bytes());
    cell[49..81].copy_from_slice(&mark.1);
}

// So many cells, of which the first `used` hold records: each of a pair of its own, but the last `older` of them, which hold older
// records of the first pairs. The first free cell is the first of these.
fn image_of(cells: usize, used: usize, older: usize) -> Vec<u8> {
    let mut image = vec![0u8; cells * CELL];
    for i in 0..used - older {
        put(&mut image, i, &pair_of(i), &((3, 100 + i as u64), [i as u8; 32]));
    }
    for i in 0..older {
        put(&mut image, used - older + i, &pair_of(i), &((2, 9), [1; 32]));
    }
    image
}

fn line(work: &str, cells: usize, times: (f64, f64)) {
    println!("{:<12} {:>8} {:>12.2} {:>12.2} {:>7.2}", work, cells, times.0, times.1, times.1 / times.0);
}

fn check(image: &[u8], pair: &Pair, new: &Mark, answer: u8) {
    let (mut a, mut b) = (image.to_vec(), image.to_vec());
    assert_eq!(plain_store::mark(&a, pair), proved_mark(&mut b, pair));
    assert_eq!(plain_store::raise(&mut a, pair, new), answer);
    assert_eq!(proved_raise(&mut b, pair, new), answer);
    assert!(a == b);
}

// Raising the same mark again is low, so the image is put back between two raises; that is one copy of a cell.
fn time_raise(image: &[u8], place: usize, pair: &Pair, new: &Mark, rounds: usize) -> (f64, f64) {
    let (mut a, mut b) = (image.to_vec(), image.to_vec());
    let old = &image[place * CELL..(place + 1) * CELL];
    timer::medians(
        rounds,
        1,
        || {
            black_box(plain_store::raise(black_box(&mut a), pair, new));
            a[place * CELL..(place + 1) * CELL].copy_from_slice(old);
        },
        || {
            black_box(proved_raise(black_box(&mut b), pair, new));
            b[place * CELL..(place + 1) * CELL].copy_from_slice(old);
        },
    )
}

fn main() {
    println!("{:<12} {:>8} {:>12} {:>12} {:>7}", "work", "cells", "plain us", "proved us", "ratio");
    for cells in [16usize, 256, 4_096] {
        let (used, older) = (cells / 2, cells / 16);
        let image = image_of(cells, used, older);
        let new = ((9, 1), [7; 32]);
        for i in [0, used - older - 1, cells] {
            check(&image, &pair_of(i), &new, 4);
        }
        check(&image, &pair_of(0), &((3, 100), [7; 32]), 1);
        let full = image_of(cells, cells, 0);
        check(&full, &pair_of(1), &new, 2);
        let rounds = if cells > 1_000 { 9 } else { 101 };
        let (a, mut b) = (image.clone(), image.clone());
        let pair = pair_of(used / 2);
        let times = timer::medians(
            101,
            10,
            || {
                black_box(plain_store::mark(black_box(&a), &pair));
            },
            || {
                black_box(proved_mark(black_box(&mut b), &pair));
            },
        );
        line("read mark", cells, times);
        line("raise", cells, time_raise(&image, used - older, &pair, &new, rounds));
        line("raise, full", cells, time_raise(&full, 0, &pair, &new, rounds));
    }
}
