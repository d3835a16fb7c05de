//! Damage to the bytes of a file, whatever they stand for.

use random::Random;

type File = Vec<u8>;

/// As many as a frame holds.
pub const MOST_BYTES: usize = 0xffff;
const TELLING: [u8; 12] = [0, 1, 2, 3, 0x0f, 0x10, 0x21, 0x7f, 0x80, 0x81, 0x8f, 0xff];

/// A few bytes, from none on.
pub fn by_lot(random: &mut Random) -> Vec<u8> {
    let any = random.percent(30);
    (0..random.below(13)).map(|_| if any { random.number() as u8 } else { random.pick(&TELLING) }).collect()
}

pub fn flip(bytes: &mut File, random: &mut Random) {
    for _ in 0..1 + random.below(3) {
        if !bytes.is_empty() {
            let at = random.below(bytes.len());
            bytes[at] ^= 1 << random.below(8);
        }
    }
}

/// Cut at any place, or behind its beginning, or before its last bytes.
pub fn cut(bytes: &mut File, random: &mut Random) {
    let length = bytes.len();
    let place = match random.below(4) {
        0 => random.below(12),
        1 => length.saturating_sub(1 + random.below(12)),
        _ => random.below(length + 1),
    };
    bytes.truncate(place);
}

/// One byte more, or several, or now and then very many.
pub fn lengthen(bytes: &mut File, random: &mut Random) {
    let more = match random.below(200) {
        0 => random.below(MOST_BYTES),
        1 => MOST_BYTES,
        2..20 => 6_000 + random.below(60),
        20..80 => 2 + random.below(40),
        _ => 1,
    };
    let byte = random.pick(&TELLING);
    let length = (bytes.len() + more).min(MOST_BYTES);
    bytes.resize(length, byte);
}

pub fn insert(bytes: &mut File, random: &mut Random) {
    let at = random.below(bytes.len() + 1);
    bytes.insert(at, random.pick(&TELLING));
}

pub fn remove(bytes: &mut File, random: &mut Random) {
    if !bytes.is_empty() {
        bytes.remove(random.below(bytes.len()));
    }
}

pub fn overwrite(bytes: &mut File, random: &mut Random) {
    if !bytes.is_empty() {
        let at = random.below(bytes.len());
        bytes[at] = random.pick(&TELLING);
    }
}
