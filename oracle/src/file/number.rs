//! Numbers in groups of seven bits, low group first, the top bit set when another group follows.

/// In the fewest groups.
pub fn put_number(out: &mut Vec<u8>, number: u32) {
    let mut left = number;
    while left > 0x7f {
        out.push((left & 0x7f) as u8 | 0x80);
        left >>= 7;
    }
    out.push(left as u8);
}
