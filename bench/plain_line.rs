// The line in plain Rust: the same questions and the same buffers as the proved program.
fn register(octets: &[u8]) -> u16 {
    let mut r = 0xFFFFu16;
    for o in octets {
        r ^= *o as u16;
        for _ in 0..8 {
            r = if r & 1 == 1 { (r >> 1) ^ 0x8408 } else { r >> 1 };
        }
    }
    r
}

struct Sender<'a> {
    out: &'a mut [u8],
    at: usize,
    tone: bool,
    ones: u8,
}

impl Sender<'_> {
    fn put(&mut self, bit: bool) {
        self.tone = self.tone == bit;
        let mask = 1u8 << (self.at % 8);
        if self.tone {
            self.out[self.at / 8] |= mask;
        } else {
            self.out[self.at / 8] &= !mask;
        }
        self.at += 1;
    }

    fn put_stuffed(&mut self, octets: &[u8]) {
        for o in octets {
            for i in 0..8 {
                let bit = (o >> i) & 1 == 1;
                self.put(bit);
                self.ones = if bit { self.ones + 1 } else { 0 };
                if self.ones == 5 {
                    self.put(false);
                    self.ones = 0;
                }
            }
        }
    }

    fn put_flag(&mut self) {
        for i in 0..8 {
            self.put((0x7Eu8 >> i) & 1 == 1);
        }
    }
}

fn stuffed_bits(octets: &[u8], ones: &mut u8) -> usize {
    let mut n = 0;
    for o in octets {
        for i in 0..8 {
            n += 1;
            *ones = if (o >> i) & 1 == 1 { *ones + 1 } else { 0 };
            if *ones == 5 {
                n += 1;
                *ones = 0;
            }
        }
    }
    n
}

pub fn write(message: &[u8], out: &mut [u8]) -> (u8, usize) {
    if message.len() > 12_288 {
        return (27, 0);
    }
    let tail = (!register(message)).to_le_bytes();
    let mut ones = 0;
    let count = 264 + stuffed_bits(message, &mut ones) + stuffed_bits(&tail, &mut ones) + 8;
    if count.div_ceil(8) > out.len() {
        return (28, 0);
    }
    let mut s = Sender { out, at: 0, tone: true, ones: 0 };
    for _ in 0..33 {
        s.put_flag();
    }
    s.put_stuffed(message);
    s.put_stuffed(&tail);
    s.put_flag();
    while s.at % 8 != 0 {
        s.put(true);
    }
    (0, count)
}

pub fn hear(burst: &[u8], count: usize, work: &mut [u8]) -> (u8, usize, usize) {
    let answer = line(burst, count, work);
    let keep = if answer.0 == 0 { answer.2 } else { 0 };
    for o in &mut work[keep..] {
        *o = 0;
    }
    answer
}

fn line(burst: &[u8], count: usize, work: &mut [u8]) -> (u8, usize, usize) {
    if work.len() < 16_500 {
        return (1, 0, 0);
    }
    if count > 8 * burst.len() {
        return (2, 0, 0);
    }
    let mut last = true;
    let mut shift = 0u8; // the last eight bits, the newest highest
    let mut from = None;
    let mut ones = 0u32;
    let (mut octets, mut fill, mut part, mut bad) = (0usize, 0u32, 0u8, false);
    for k in 0..count {
        let tone = (burst[k / 8] >> (k % 8)) & 1 == 1;
        let bit = tone == last;
        last = tone;
        shift = (shift >> 1) | ((bit as u8) << 7);
        let start = from.unwrap_or(0);
        if shift == 0x7E && k >= start + 7 {
            if from.is_none() || k == start + 7 {
                from = Some(k + 1);
                (ones, octets, fill, part, bad) = (0, 0, 0, 0, false);
                continue;
            }
            let place = k - 7;
            // five 1s of the flag and its 0 came in, and the sixth 1 was taken for a fault
            if bad {
                return (5, place, 0);
            }
            if fill != 6 {
                return (6, place, 0);
            }
            if octets < 2 || register(&work[..octets]) != 0xF0B8 {
                return (7, place, 0);
            }
            return (0, place, octets);
        }
        if from.is_none() {
            continue;
        }
        if k - start >= 132_007 {
            return if k + 1 < count { (4, start + 132_000, 0) } else { (5, count, 0) };
        }
        if ones == 5 {
            ones = if bit { 6 } else { 0 };
            continue;
        }
        if ones >= 6 {
            bad = true;
            ones = if bit { ones } else { 0 };
            continue;
        }
        ones = if bit { ones + 1 } else { 0 };
        part |= (bit as u8) << fill;
        fill += 1;
        if fill == 8 {
            work[octets] = part;
            octets += 1;
            (fill, part) = (0, 0);
        }
    }
    match from {
        Some(b) if b < count => (5, count, 0),
        _ => (100, count, 0),
    }
}
