// Reading a message in plain Rust, by the same rules. Errors are the refusals' numbers.
use crate::plain_sha256::Sha256;
use std::ops::Range;

const MALFORMED: u8 = 8;
const INDEFINITE: u8 = 9;
const NOT_DETERMINISTIC: u8 = 10;
const SCHEMA: u8 = 11;

// One pass over all items: limits, text, equal keys, shortest heads, ascending keys, and how many strings are too long.
struct Items<'a> {
    octets: &'a [u8],
    place: usize,
    left: usize,
    deterministic: bool,
    long: usize,
}

impl Items<'_> {
    fn head(&mut self, allowed: bool) -> Result<(u8, u64), u8> {
        let first = *self.octets.get(self.place).ok_or(MALFORMED)?;
        let info = first & 31;
        if info == 31 {
            return Err(INDEFINITE);
        }
        if !allowed || self.left == 0 || info > 27 {
            return Err(MALFORMED);
        }
        self.left -= 1;
        self.place += 1;
        if info < 24 {
            return Ok((first >> 5, info as u64));
        }
        let size = 1usize << (info - 24);
        let octets = self.octets.get(self.place..self.place + size).ok_or(MALFORMED)?;
        let argument = octets.iter().fold(0u64, |n, o| n << 8 | *o as u64);
        self.place += size;
        let least = if size == 1 { 24 } else { 1u64 << (4 * size) };
        self.deterministic &= argument >= least;
        // a simple value in two octets is never taken
        Ok((if first >> 5 == 7 { 6 } else { first >> 5 }, argument))
    }

    fn string(&mut self, length: u64) -> Result<Range<usize>, u8> {
        if length > (self.octets.len() - self.place) as u64 {
            return Err(MALFORMED);
        }
        let start = self.place;
        self.place += length as usize;
        Ok(start..self.place)
    }

    fn item(&mut self, depth: usize, allowed: bool) -> Result<(), u8> {
        let (major, argument) = self.head(allowed)?;
        match major {
            0 | 1 => Ok(()),
            2 => {
                self.long += (argument > 2_048) as usize;
                self.string(argument).map(|_| ())
            }
            3 => {
                self.long += (argument > 256) as usize;
                let text = self.string(argument)?;
                std::str::from_utf8(&self.octets[text]).map(|_| ()).map_err(|_| MALFORMED)
            }
            4 if depth > 0 => {
                for i in 0..argument {
                    self.item(depth - 1, i < 256)?;
                }
                Ok(())
            }
            5 if depth > 0 => self.map(depth - 1, argument),
            7 if (20..=22).contains(&argument) => Ok(()),
            _ => Err(MALFORMED),
        }
    }

    fn map(&mut self, depth: usize, count: u64) -> Result<(), u8> {
        let octets = self.octets;
        let mut keys: [(u32, u32); 64] = [(0, 0); 64];
        let mut sorted = true;
        for i in 0..count as usize {
            let start = self.place;
            self.item(depth, i < 64)?;
            let key = &octets[start..self.place];
            let at = |k: (u32, u32)| &octets[k.0 as usize..k.1 as usize];
            if i > 0 && at(keys[i - 1]) >= key {
                sorted = false;
                self.deterministic = false;
            }
            if !sorted && keys[..i].iter().any(|k| at(*k) == key) {
                return Err(MALFORMED);
            }
            keys[i] = (start as u32, self.place as u32);
            self.item(depth, true)?;
        }
        Ok(())
    }
}

// A walk over octets that are known to be deterministic items.
pub struct Walk<'a> {
    pub octets: &'a [u8],
    pub place: usize,
}

impl<'a> Walk<'a> {
    pub fn head(&mut self) -> (u8, u64) {
        let first = self.octets[self.place];
        self.place += 1;
        if first & 31 < 24 {
            return (first >> 5, (first & 31) as u64);
        }
        let size = 1usize << ((first & 31) - 24);
        let argument = self.octets[self.place..self.place + size].iter().fold(0u64, |n, o| n << 8 | *o as u64);
        self.place += size;
        (first >> 5, argument)
    }

    fn typed(&mut self, major: u8) -> Result<u64, u8> {
        let (m, argument) = self.head();
        if m == major { Ok(argument) } else { Err(SCHEMA) }
    }

    fn unsigned(&mut self) -> Result<u64, u8> {
        self.typed(0)
    }

    fn bytes(&mut self) -> Result<&'a [u8], u8> {
        let length = self.typed(2)? as usize;
        self.place += length;
        Ok(&self.octets[self.place - length..self.place])
    }

    fn id(&mut self) -> Result<&'a [u8], u8> {
        let id = self.bytes()?;
        if id.len() == 16 { Ok(id) } else { Err(SCHEMA) }
    }

    fn context(&mut self) -> Result<&'a [u8], u8> {
        let octets = self.bytes()?;
        if octets.len() <= 32 { Ok(octets) } else { Err(SCHEMA) }
    }

    // Passes a whole map and tells its size.
    fn map(&mut self) -> Result<usize, u8> {
        let start = self.place;
        let mut due = 2 * self.typed(5)?;
        while due > 0 {
            due -= 1;
            match self.head() {
                (2 | 3, n) => self.place += n as usize,
                (4, n) => due += n,
                (5, n) => due += 2 * n,
                _ => {}
            }
        }
        Ok(self.place - start)
    }

    // The next entry of a map has this key.
    fn required(&mut self, left: &mut u64, key: u64) -> Result<(), u8> {
        if self.optional(left, key) { Ok(()) } else { Err(SCHEMA) }
    }

    fn optional(&mut self, left: &mut u64, key: u64) -> bool {
        let start = self.place;
        if *left > 0 && self.head() == (0, key) {
            *left -= 1;
            return true;
        }
        self.place = start;
        false
    }
}

pub struct Fields<'a> {
    pub octets: &'a [u8],
    profile: u64,
    pub epoch: u64,
    pub counter: u64,
    pub sid: &'a [u8],
    pub exp: Option<u64>,
    pub kind: u64,
    pub args: Range<usize>,
    pub duo: bool,
    auth: usize,
    pub alg: u64,
    pub kid: &'a [u8],
    entry: Range<usize>,
    pub signature: &'a [u8],
    ctx: Option<&'a [u8]>,
    meta: usize,
    echo: Option<&'a [u8]>,
}

fn ended(left: u64) -> Result<(), u8> {
    if left == 0 { Ok(()) } else { Err(SCHEMA) }
}

fn mid<'a>(w: &mut Walk<'a>) -> Result<(u64, u64, &'a [u8], Option<u64>), u8> {
    let mut left = w.typed(5)?;
    w.required(&mut left, 0)?;
    let epoch = w.unsigned()?;
    w.required(&mut left, 1)?;
    let counter = w.unsigned()?;
    w.required(&mut left, 2)?;
    let sid = w.id()?;
    let exp = if w.optional(&mut left, 3) { Some(w.unsigned()?) } else { None };
    ended(left)?;
    Ok((epoch, counter, sid, exp))
}

fn cmd(w: &mut Walk) -> Result<(u64, Range<usize>, bool), u8> {
    let mut left = w.typed(5)?;
    w.required(&mut left, 0)?;
    let kind = w.unsigned()?;
    w.required(&mut left, 1)?;
    let start = w.place;
    w.map()?;
    let args = start..w.place;
    let duo = w.optional(&mut left, 2);
    if duo {
        w.bytes()?;
    }
    ended(left)?;
    Ok((kind, args, duo))
}

fn fields(octets: &[u8]) -> Result<Fields<'_>, u8> {
    let mut w = Walk { octets, place: 0 };
    let mut top = w.typed(5)?;
    w.required(&mut top, 0)?;
    if w.unsigned()? != 1 {
        return Err(SCHEMA);
    }
    w.required(&mut top, 1)?;
    let profile = w.unsigned()?;
    w.required(&mut top, 2)?;
    let (epoch, counter, sid, exp) = mid(&mut w)?;
    w.required(&mut top, 3)?;
    let (kind, args, duo) = cmd(&mut w)?;
    w.required(&mut top, 4)?;
    let auth = w.place;
    let mut left = w.typed(5)?;
    w.required(&mut left, 0)?;
    let alg = w.unsigned()?;
    if !(1..=3).contains(&alg) {
        return Err(SCHEMA);
    }
    w.required(&mut left, 1)?;
    let kid = w.id()?;
    let start = w.place;
    w.required(&mut left, 2)?;
    let signature = w.bytes()?;
    let entry = start..w.place;
    let ctx = if w.optional(&mut left, 3) { Some(w.context()?) } else { None };
    ended(left)?;
    let mut meta = 0;
    let mut echo = None;
    if w.optional(&mut top, 5) {
        let start = w.place;
        let mut left = w.typed(5)?;
        if w.optional(&mut left, 0) {
            echo = Some(w.context()?);
        }
        ended(left)?;
        meta = w.place - start;
    }
    if w.optional(&mut top, 6) {
        w.map()?;
    }
    ended(top)?;
    Ok(Fields { octets, profile, epoch, counter, sid, exp, kind, args, duo, auth, alg, kid, entry, signature, ctx, meta, echo })
}

impl Fields<'_> {
    pub fn signature_fits(&self) -> bool {
        self.signature.len() == [3_309, 7_856, 16][self.alg as usize - 1]
    }

    // The hash of what is signed.
    pub fn transcript_hash(&self) -> [u8; 32] {
        let mut hasher = Sha256::new();
        hasher.update(&self.octets[..self.auth]);
        hasher.update(&[self.octets[self.auth] - 1]);
        hasher.update(&self.octets[self.auth + 1..self.entry.start]);
        hasher.update(&self.octets[self.entry.end..]);
        hasher.finish()
    }
}

// Questions 8 to 14.
pub fn read(octets: &[u8]) -> Result<Fields<'_>, u8> {
    let mut items = Items { octets, place: 0, left: 1_024, deterministic: true, long: 0 };
    items.item(32, true)?;
    if items.place != octets.len() {
        return Err(MALFORMED);
    }
    if !items.deterministic {
        return Err(NOT_DETERMINISTIC);
    }
    let f = fields(octets)?;
    if f.profile != 1 {
        return Err(12);
    }
    let most = if f.alg == 2 { 12_288 } else { 4_096 };
    let long = items.long - (f.signature.len() > 2_048) as usize;
    if octets.len() > most || f.args.len() > 1_024 || f.meta > 512 || long > 0 {
        return Err(13);
    }
    if f.echo.is_some() && f.echo != f.ctx {
        return Err(14);
    }
    Ok(f)
}

// The same, question 16, and the hash of what is signed.
pub fn judged(octets: &[u8]) -> Result<[u8; 32], u8> {
    let f = read(octets)?;
    if !f.signature_fits() {
        return Err(16);
    }
    Ok(f.transcript_hash())
}
