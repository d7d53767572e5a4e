//! Samples for tests: sheet S, hexadecimal text, and seeded sheets, tables, lists and spoiled bytes.

use std::ops::RangeInclusive;

use crate::{read_sheet, Head, Sheet, SheetKind, Table, TableKind, Transition};

/// 01, "Examples to settle the reading": the bytes of sheet S.
pub const S: [u8; 30] = [
    0x00, 0x1C, 0x01, 0x04, 0x04, 0x08, 0x03, 0x01, 0x01, 0x01, 0x04, 0x00, 0x01, 0x02, 0x03, 0x04,
    0x04, 0x01, 0x04, 0x00, 0x01, 0x02, 0x03, 0x08, 0x08, 0x01, 0x03, 0x00, 0x01, 0x02,
];

/// What a stack modulus or an alignment may be.
pub const ALIGNMENTS: [u8; 5] = [1, 2, 4, 8, 16];

/// What a register width may be.
pub const WIDTHS: [u8; 4] = [1, 2, 4, 8];

/// 01, "Examples to settle the reading": sheet S with its kind double changed.
pub fn s_with_double(change: impl FnOnce(&mut SheetKind)) -> Vec<u8> {
    let mut sheet = read_sheet(&S).expect("S is a sheet");
    change(&mut sheet.kinds[2]);
    sheet.bytes()
}

/// 01, "Examples to settle the reading": kinds of one byte, each with one private register.
pub fn private_registers(kinds: u8) -> Sheet {
    let kind = |register| SheetKind {
        size: 1,
        alignment: 1,
        flags: 1,
        starts: vec![register],
    };
    let head = Head {
        registers: kinds,
        width: 1,
        modulus: 1,
        kinds,
    };
    Sheet {
        head,
        kinds: (0..kinds).map(kind).collect(),
    }
}

/// 01, "Examples to settle the reading": the table of P8 to P12 with its one transition.
pub fn one_step_table([form, a, b, next]: [u8; 4]) -> Table {
    Table {
        head: Head {
            registers: 1,
            width: 4,
            modulus: 4,
            kinds: 1,
        },
        kinds: vec![TableKind {
            size: 4,
            alignment: 4,
        }],
        rows: vec![vec![Transition { form, a, b, next }]],
    }
}

/// The bytes that hexadecimal text such as `00 1C` tells of; wrong text is a mistake in the test.
pub fn hex(text: &str) -> Vec<u8> {
    text.split_whitespace()
        .map(|byte| u8::from_str_radix(byte, 16).expect("two hexadecimal digits"))
        .collect()
}

/// Well-formed bytes: the length field, then what follows it.
pub fn with_length(body: &[u8]) -> Vec<u8> {
    let length = u16::try_from(body.len()).expect("the length field has two bytes");
    [&length.to_be_bytes(), body].concat()
}

/// A generator of the xorshift family; the same seed draws the same samples.
pub struct Xorshift(u64);

impl Xorshift {
    /// The generator that begins at a seed.
    pub fn new(seed: u64) -> Self {
        // Near seeds are spread apart, and 0 is left out because it would draw nothing but 0.
        let mut random = Xorshift(seed.wrapping_mul(0x9E37_79B9_7F4A_7C15).max(1));
        (0..8).for_each(|_| _ = random.draw());
        random
    }

    /// The next number of the sequence.
    pub fn draw(&mut self) -> u64 {
        self.0 ^= self.0 << 13;
        self.0 ^= self.0 >> 7;
        self.0 ^= self.0 << 17;
        self.0
    }

    /// A number from 0 to bound - 1.
    pub fn below(&mut self, bound: usize) -> usize {
        ((self.draw() >> 32) % bound as u64) as usize
    }

    /// A byte of a range.
    pub fn within(&mut self, range: RangeInclusive<u8>) -> u8 {
        range.start() + self.below(usize::from(range.end() - range.start()) + 1) as u8
    }

    /// One of some values.
    pub fn pick(&mut self, values: &[u8]) -> u8 {
        values[self.below(values.len())]
    }

    /// True once in so many times.
    pub fn one_in(&mut self, times: usize) -> bool {
        self.below(times) == 0
    }

    fn size(&mut self) -> u8 {
        let largest = self.pick(&[4, 8, 64]);
        self.within(1..=largest)
    }

    fn alignment(&mut self, head: &Head) -> u8 {
        let allowed = ALIGNMENTS
            .iter()
            .position(|&alignment| alignment == head.modulus);
        self.pick(&ALIGNMENTS[..=allowed.expect("A is an alignment")])
    }
}

/// The bounds of seeded sheets and tables.
#[derive(Debug, Clone, Copy)]
pub struct Most {
    pub registers: u8,
    pub kinds: u8,
    pub states: u8,
}

fn head(random: &mut Xorshift, most: Most) -> Head {
    Head {
        registers: random.within(0..=most.registers),
        width: random.pick(&WIDTHS),
        modulus: random.pick(&ALIGNMENTS),
        kinds: random.within(1..=most.kinds),
    }
}

/// A seeded sheet that is well formed; `most.states` plays no part.
pub fn sheet(random: &mut Xorshift, most: Most) -> Sheet {
    let head = head(random, most);
    let kinds = (0..head.kinds).map(|_| sheet_kind(random, &head)).collect();
    Sheet { head, kinds }
}

fn sheet_kind(random: &mut Xorshift, head: &Head) -> SheetKind {
    let (size, alignment) = (random.size(), random.alignment(head));
    let flags = random.pick(&[0, 1, 1, 1, 2, 3, 3]);
    let mut kind = SheetKind {
        size,
        alignment,
        flags,
        starts: Vec::new(),
    };
    if let Some(last) = head.registers.checked_sub(head.needed(size)) {
        let longest = random.pick(&[0, 1, 4, 16]);
        kind.starts = (0..random.within(0..=longest))
            .map(|_| random.within(0..=last))
            .collect();
    }
    kind
}

/// A seeded table that is well formed; some are clean, and some have faults of each number.
pub fn table(random: &mut Xorshift, most: Most) -> Table {
    let head = head(random, most);
    let kinds: Vec<_> = (0..head.kinds)
        .map(|_| TableKind {
            size: random.size(),
            alignment: random.alignment(&head),
        })
        .collect();
    let states = random.within(1..=most.states);
    // Tables of very different care, as equal care would leave some outcome rare.
    let care = [3, 10, 100][random.below(3)];
    let rows = (0..states)
        .map(|_| {
            kinds
                .iter()
                .map(|kind| transition(random, &head, kind, states, care))
                .collect()
        })
        .collect();
    Table { head, kinds, rows }
}

/// A transition; about once in `care` times it is drawn with no regard to the faults.
fn transition(
    random: &mut Xorshift,
    head: &Head,
    kind: &TableKind,
    states: u8,
    care: usize,
) -> Transition {
    let next = random.within(0..=states - 1);
    let needed = head.needed(kind.size);
    if random.one_in(care) {
        return careless(random, head, kind, next);
    }
    let (form, a, b) = if needed <= head.registers && random.one_in(3) {
        (1, random.within(0..=head.registers - needed), needed)
    } else {
        let last = head.modulus / kind.alignment - 1;
        (2, kind.alignment * random.within(0..=last), kind.size)
    };
    Transition { form, a, b, next }
}

fn careless(random: &mut Xorshift, head: &Head, kind: &TableKind, next: u8) -> Transition {
    let first = random.within(0..=head.registers);
    let residue = random.within(0..=head.modulus - 1);
    let (form, a, b, next) = match random.below(4) {
        0 => (0, 0, 0, 0),
        1 => (1, first, random.within(0..=head.registers - first), next),
        2 => (2, residue, random.size(), next),
        _ => (2, residue, kind.size, next),
    };
    Transition { form, a, b, next }
}

/// A seeded list of up to `longest` kinds below `kinds`.
pub fn list(random: &mut Xorshift, kinds: u8, longest: usize) -> Vec<u8> {
    (0..random.below(longest + 1))
        .map(|_| random.within(0..=kinds - 1))
        .collect()
}

/// Bytes of a sheet or a table with a part cut off, added or changed; the length field mostly follows.
pub fn spoil(random: &mut Xorshift, bytes: &[u8]) -> Vec<u8> {
    let mut body = bytes[2..].to_vec();
    match random.below(4) {
        0 => body.truncate(random.below(body.len())),
        1 => body.push(random.within(0..=255)),
        _ => {
            let at = random.below(body.len());
            let small = random.within(0..=20);
            body[at] = random.pick(&[small, small, 255]);
        }
    }
    let mut spoiled = with_length(&body);
    if random.one_in(8) {
        spoiled[1] ^= 1;
    }
    spoiled
}
