// Messages to read: items by hand, and whole messages of a given size.
pub fn head(major: u8, n: u64) -> Vec<u8> {
    let m = major << 5;
    match n {
        0..=23 => vec![m | n as u8],
        24..=0xFF => vec![m | 24, n as u8],
        0x100..=0xFFFF => [&[m | 25], &(n as u16).to_be_bytes()[..]].concat(),
        0x1_0000..=0xFFFF_FFFF => [&[m | 26], &(n as u32).to_be_bytes()[..]].concat(),
        _ => [&[m | 27], &n.to_be_bytes()[..]].concat(),
    }
}

pub fn number(n: u64) -> Vec<u8> {
    head(0, n)
}

pub fn bytes(n: usize) -> Vec<u8> {
    [head(2, n as u64), (0..n).map(|i| (i * 37 + n) as u8).collect()].concat()
}

pub fn text(s: &str) -> Vec<u8> {
    [head(3, s.len() as u64), s.as_bytes().to_vec()].concat()
}

pub fn array(items: &[Vec<u8>]) -> Vec<u8> {
    [head(4, items.len() as u64), items.concat()].concat()
}

pub fn map(entries: &[(u64, Vec<u8>)]) -> Vec<u8> {
    let inside: Vec<u8> = entries.iter().flat_map(|(k, v)| [number(*k), v.clone()].concat()).collect();
    [head(5, entries.len() as u64), inside].concat()
}

// What fills the ext map.
#[derive(Clone, Copy)]
pub enum Fill {
    Nothing,
    Bytes,
    Ascii,
    Text,
    Numbers,
}

fn filler(fill: Fill, size: usize) -> Vec<u8> {
    match fill {
        Fill::Nothing => number(0),
        Fill::Bytes => bytes(size.min(2_000)),
        Fill::Ascii => text(&"plain words ".repeat(21)[..size.min(250)]),
        Fill::Text => text(&"né à Köln, 東京 ".repeat(size.min(250) / 21)),
        Fill::Numbers => array(&vec![number(0x12_3456); (size / 5).min(200)]),
    }
}

pub fn message_with(alg: u64, ext: Option<Vec<u8>>) -> Vec<u8> {
    let signature = [3_309, 7_856, 16][alg as usize - 1];
    let mut top = vec![
        (0, number(1)),
        (1, number(1)),
        (2, map(&[(0, number(7)), (1, number(1_000_000)), (2, bytes(16)), (3, number(1_800_000_000))])),
        (3, map(&[(0, number(1)), (1, map(&[(0, number(4_711)), (1, head(1, 3)), (2, number(1_700_000_000))]))])),
        (4, map(&[(0, number(alg)), (1, bytes(16)), (2, bytes(signature)), (3, bytes(8))])),
        (5, map(&[(0, bytes(8))])),
    ];
    if let Some(ext) = ext {
        top.push((6, ext));
    }
    map(&top)
}

// A message of exactly so many octets: ext has one kind of values, and a byte string for the rest.
pub fn message(alg: u64, size: usize, fill: Fill) -> Vec<u8> {
    if let Fill::Nothing = fill {
        return message_with(alg, None);
    }
    let bare = message_with(alg, Some(map(&[]))).len();
    let mut entries = Vec::new();
    loop {
        let so_far = bare + map(&entries).len();
        if so_far + 300 > size {
            break;
        }
        entries.push((entries.len() as u64, filler(fill, size - so_far - 250)));
    }
    for first in 0..3 {
        for rest in 0..400 {
            let mut all = entries.clone();
            all.push((all.len() as u64, bytes(first)));
            all.push((all.len() as u64, bytes(rest)));
            let m = message_with(alg, Some(map(&all)));
            if m.len() == size {
                return m;
            }
        }
    }
    panic!("no message of {size} octets");
}
