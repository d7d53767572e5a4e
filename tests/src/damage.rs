//! What spoils a file.

use reference::samples::{with_length, Xorshift};

/// A file with something wrong: bytes changed, lost or added, once or twice; its length field mostly follows.
/// Some files stay well formed and say something else.
pub fn damage(random: &mut Xorshift, bytes: &[u8]) -> Vec<u8> {
    let mut body = bytes[2..].to_vec();
    blow(random, &mut body);
    if random.one_in(4) {
        blow(random, &mut body);
    }
    let mut damaged = with_length(&body);
    if random.one_in(8) {
        wrong_length(random, &mut damaged);
    }
    damaged
}

fn blow(random: &mut Xorshift, body: &mut Vec<u8>) {
    let blow = random.below(8);
    if body.is_empty() || blow == 0 {
        let added = random.within(1..=5);
        body.extend((0..added).map(|_| random.within(0..=255)));
        return;
    }
    let at = place(random, body.len());
    match blow {
        1 => body.truncate(at),
        2 => _ = body.remove(at),
        3 => body.insert(at, random.within(0..=20)),
        _ => body[at] = other(random, body[at]),
    }
}

/// Half of the places are near the head, which is a small part of most tables.
fn place(random: &mut Xorshift, length: usize) -> usize {
    let near = if random.one_in(2) { 10 } else { length };
    random.below(near.min(length))
}

fn other(random: &mut Xorshift, byte: u8) -> u8 {
    let flipped = byte ^ 1 << random.below(8);
    let (small, any) = (random.within(0..=20), random.within(0..=255));
    let near = byte.wrapping_add(random.pick(&[1, 255]));
    random.pick(&[flipped, small, small, near, near, any, 255])
}

fn wrong_length(random: &mut Xorshift, bytes: &mut Vec<u8>) {
    match random.below(4) {
        0 => bytes[0] ^= random.within(1..=255),
        1 => bytes[1] ^= random.within(1..=255),
        2 => bytes.push(random.within(0..=255)),
        _ => bytes.truncate(random.below(bytes.len())),
    }
}
