// Times listening, from a burst to its answer, against a plain Rust program for the same work, in one run.
// Built by `make bench`: rustc -O, linked with the static library of the C calls.
#[allow(dead_code)]
mod messages;
#[allow(dead_code)]
mod plain_line;
mod plain_listen;
#[allow(dead_code)]
mod plain_message;
mod plain_sha256;
mod plain_store;
mod timer;

use messages::{Fill, bytes, head, map, message, number};
use plain_sha256::Sha256;
use std::hint::black_box;

#[repr(C)]
#[derive(Clone, Copy, Default)]
struct Optional {
    value: u64,
    given: u8,
}

#[repr(C)]
#[derive(Clone, Copy)]
struct Supply {
    charge: u64,
    last: Optional,
    floor: Optional,
    on: u8,
    leaves: u8,
}

#[repr(C)]
struct Listening {
    count: usize,
    start: usize,
    clock: u64,
    suspect: u8,
}

// The answer's first fields, and room for the rest.
#[repr(C)]
struct Answer {
    kind: u8,
    refusal: u8,
    next: usize,
    length: usize,
    rest: [u64; 32],
}

unsafe extern "C" {
    fn owac_listen_by_verdicts(
        image: *mut u8, image_length: usize, supply: *mut Supply, sheet: *const u8, sheet_length: usize, burst: *const u8, burst_length: usize,
        listening: *const Listening, catalog: *const u64, catalog_count: usize, work: *mut u8, work_length: usize, answer: *mut Answer,
    );
}

const CLOCK: u64 = 1_800_000_000;
const CATALOG: [u64; 3] = [7, 42, 4_711];
const WORK: usize = 16_500;

fn supply() -> Supply {
    Supply { charge: u64::MAX, last: Optional::default(), floor: Optional::default(), on: 1, leaves: 2 }
}

fn proved(image: &mut [u8], sheet: &[u8], burst: &[u8], count: usize, work: &mut [u8]) -> (u8, usize, usize) {
    let listening = Listening { count, start: 0, clock: CLOCK, suspect: 0 };
    let mut answer = Answer { kind: 0, refusal: 0, next: 0, length: 0, rest: [0; 32] };
    unsafe {
        owac_listen_by_verdicts(
            image.as_mut_ptr(), image.len(), &mut supply(), sheet.as_ptr(), sheet.len(), burst.as_ptr(), burst.len(), &listening,
            CATALOG.as_ptr(), CATALOG.len(), work.as_mut_ptr(), work.len(), &mut answer,
        )
    };
    let number = [100, 101, answer.refusal, 0][answer.kind as usize];
    (number, answer.next, answer.length)
}

fn plain(image: &mut [u8], sheet: &[u8], burst: &[u8], count: usize, work: &mut [u8]) -> (u8, usize, usize) {
    plain_listen::listen(image, sheet, burst, count, CLOCK, &CATALOG, work)
}

// A message of alg 3 with nothing optional.
fn small(kind: u64, args: Vec<u8>) -> Vec<u8> {
    map(&[
        (0, number(1)),
        (1, number(1)),
        (2, map(&[(0, number(7)), (1, number(1_000_000)), (2, bytes(16))])),
        (3, map(&[(0, number(kind)), (1, args)])),
        (4, map(&[(0, number(3)), (1, bytes(16)), (2, bytes(16))])),
    ])
}

fn digest(octets: &[u8]) -> [u8; 32] {
    let mut hasher = Sha256::new();
    hasher.update(octets);
    hasher.finish()
}

// A sheet of so many rows, the last two of which pass the message.
fn sheet_for(octets: &[u8], rows: usize) -> Vec<u8> {
    let Ok(f) = plain_message::read(octets) else { panic!("the message is not read") };
    let alg = [f.alg as u8];
    let mut sheet: Vec<u8> = (0..82 * (rows - 2)).map(|i| (i * 37 % 251) as u8).collect();
    sheet.extend([&[0u8][..], f.kid, &alg, &[0; 64]].concat());
    sheet.extend([&[1u8][..], f.kid, &alg, &f.transcript_hash(), &digest(f.signature)].concat());
    sheet
}

fn burst_of(octets: &[u8]) -> (Vec<u8>, usize) {
    let mut burst = vec![0; 20_000];
    let (answer, count) = plain_line::write(octets, &mut burst);
    assert_eq!(answer, 0);
    burst.truncate(count.div_ceil(8));
    (burst, count)
}

// Listens to one message in turn; the cell that was written is blanked again between two calls.
fn time(name: &str, octets: &[u8], rows: usize, cells: usize) {
    let sheet = sheet_for(octets, rows);
    let (burst, count) = burst_of(octets);
    let (mut a, mut b) = (vec![0u8; 81 * cells], vec![0u8; 81 * cells]);
    let (mut w, mut v) = (vec![0u8; WORK], vec![0u8; WORK]);
    let x = plain(&mut a, &sheet, &burst, count, &mut w);
    assert_eq!(x, proved(&mut b, &sheet, &burst, count, &mut v));
    assert!(x.0 == 0 && a == b && w == v, "{name}");
    assert_eq!(plain(&mut a, &sheet, &burst, count, &mut w).0, 101);
    assert_eq!(proved(&mut b, &sheet, &burst, count, &mut v).0, 101);
    let (p, q) = timer::medians(
        51,
        10,
        || {
            a[0] = 0;
            black_box(plain(&mut a, black_box(&sheet), black_box(&burst), count, &mut w));
        },
        || {
            b[0] = 0;
            black_box(proved(&mut b, black_box(&sheet), black_box(&burst), count, &mut v));
        },
    );
    println!("{:<16} {:>7} {:>6} {:>6} {:>11.1} {:>11.1} {:>7.2}", name, octets.len(), rows, cells, p, q, q / p);
}

// Damaged bursts and messages: both answer alike, and leave the same image and work buffer.
fn compare() -> usize {
    let octets = small(1, map(&[(0, number(42)), (1, head(1, 2))]));
    let sheet = sheet_for(&octets, 4);
    let mut calls = 0;
    let mut check = |burst: &[u8], count: usize| {
        let (mut a, mut b) = (vec![0u8; 243], vec![0u8; 243]);
        let (mut w, mut v) = (vec![1u8; WORK], vec![1u8; WORK]);
        let x = plain(&mut a, &sheet, burst, count, &mut w);
        let y = proved(&mut b, &sheet, burst, count, &mut v);
        assert!(x == y && a == b && w == v, "{x:?} {y:?}");
        calls += 1;
    };
    let (burst, count) = burst_of(&octets);
    for place in 0..count {
        let mut damaged = burst.clone();
        damaged[place / 8] ^= 1 << (place % 8);
        check(&damaged, count);
        check(&burst, place);
    }
    for place in 0..octets.len() {
        for octet in 0..=255 {
            let mut other = octets.clone();
            other[place] = octet;
            let (burst, count) = burst_of(&other);
            check(&burst, count);
        }
    }
    calls
}

fn main() {
    println!("answers alike: {} calls", compare());
    println!("{:<16} {:>7} {:>6} {:>6} {:>11} {:>11} {:>7}", "message", "octets", "rows", "cells", "plain us", "proved us", "ratio");
    let heartbeat = small(0, map(&[]));
    let queue = small(1, map(&[(0, number(42)), (1, head(1, 2))]));
    time("heartbeat", &heartbeat, 2, 16);
    time("queue", &queue, 2, 16);
    for size in [4_096, 12_288] {
        let alg = if size == 4_096 { 3 } else { 2 };
        time("queue, long", &message(alg, size, Fill::Bytes), 2, 16);
    }
    time("queue, text", &message(2, 12_288, Fill::Text), 2, 16);
    for rows in [64, 1_024] {
        time("queue, rows", &queue, rows, 16);
    }
    for cells in [256, 4_096] {
        time("queue, cells", &queue, 2, cells);
    }
}
