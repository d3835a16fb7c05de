//! Lines to be refused: numbers beyond their limits, and lines that nobody can read.

use random::Random;

/// The line with one of its numbers at or past a limit, or with a label to be judged by 5.
pub fn beyond(line: &str, random: &mut Random) -> Vec<u8> {
    if line.starts_with('p') && random.percent(40) {
        return labelled(line, random);
    }
    let mut words: Vec<String> = line.split(' ').map(str::to_string).collect();
    let place = 1 + random.below(words.len() - 1);
    let far = [-999999, -6001, -6000, -5801, -5800, -1, 0, 2, 3, 7, 8, 1000, 1001, 5800, 5801, 6000, 6001, 999999];
    words[place] = random.pick(&far).to_string();
    words.join(" ").into_bytes()
}

fn labelled(line: &str, random: &mut Random) -> Vec<u8> {
    let words: Vec<&str> = line.split(' ').take(5).collect();
    let mut out = words.join(" ").into_bytes();
    out.push(b' ');
    match random.below(4) {
        0 => out.extend(vec![b'K'; 15 + random.below(4)]),
        1 => out.extend([b'K', random.pick(&[0, 9, 13, 31, 32, 33, 126, 127, 128, 255])]),
        2 => out.extend(b" K"),
        _ => out.resize(79 + random.below(4), b'K'),
    }
    out
}

pub fn unreadable(line: &str, random: &mut Random) -> Vec<u8> {
    let place = random.below(line.len() + 1);
    let mut out = line.as_bytes().to_vec();
    match random.below(10) {
        0 => out.clear(),
        1 => out.push(b' '),
        2 => out.insert(0, b' '),
        3 => out.insert(place, random.pick(b" +-.x\t\r\0")),
        4 => out.truncate(place),
        5 => out.resize(81 + random.below(100), random.pick(b" 0K")),
        6 => out[0] = random.pick(b"HVPDRMNaez0"),
        7 => out.extend(b" 5"),
        8 => out = b"n ".to_vec(),
        // Seven digits, or six that begin with zeros.
        _ => out = [b"h 0 0 ", random.pick(&[b"0000005", b"1000000"]).as_slice()].concat(),
    }
    out
}
