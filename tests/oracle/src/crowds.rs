//! Names made to cost the port's tables most: by its first key they share a
//! lane, a mark or a whole print, or by its last a lane.

use std::sync::OnceLock;

/// The factor of a print by a key.
fn factor(key: u64) -> u64 {
    2_654_435_761 + 24_000 * key
}

/// A print after a word more.
fn step(f: u64) -> impl Fn(u32, u32) -> u32 {
    move |h, w| {
        let n = u64::from(h.wrapping_add(w)) * f;
        ((n >> 32) as u32).wrapping_add(n as u32)
    }
}

/// The print that the port makes of a name by a key.
fn print_by(key: u64, name: &str) -> u32 {
    let fours = name.as_bytes().chunks_exact(4);
    let rest = fours.remainder().iter().map(|b| (*b).into());
    let words = fours.map(|c| u32::from_le_bytes([c[0], c[1], c[2], c[3]]));
    words.chain(rest).fold(0, step(factor(key)))
}

fn spread(key: u64, name: &str) -> u32 {
    print_by(key, name).wrapping_mul(2_654_435_769)
}

/// The one of the 63 lanes of a block that a name is on by a key.
fn lane_of_block(key: u64, name: &str) -> u32 {
    spread(key, name) / 65_536 % 63
}

/// Whether a name is on the first of the 63 lanes of a block by the first key.
fn first_of_block(name: &str) -> bool {
    lane_of_block(0, name) == 0
}

/// Whether a name is on the first of the 1,024 lanes of a table by the first key.
fn first_of_table(name: &str) -> bool {
    spread(0, name) >> 22 == 0
}

/// Whether a name is on the first of the 255 lanes of a roll by the first key.
fn first_of_roll(name: &str) -> bool {
    (spread(0, name) / 65_536).is_multiple_of(255)
}

/// Whether a variant has the first mark by the first key.
fn first_of_marks(name: &str) -> bool {
    (spread(0, name) >> 24).is_multiple_of(255)
}

fn those(start: &str, many: usize, shared: fn(&str) -> bool) -> Vec<String> {
    let names = (0..).map(|k: u32| format!("{start}{k:x}"));
    names.filter(|n| shared(n)).take(many).collect()
}

/// So many names that begin alike, on one lane of a block.
pub fn of_block(start: &str, many: usize) -> Vec<String> {
    those(start, many, first_of_block)
}

/// So many names that begin alike, on one lane of a table.
pub fn of_table(start: &str, many: usize) -> Vec<String> {
    those(start, many, first_of_table)
}

/// So many names that begin alike, on one lane of a roll of 255.
pub fn of_roll(start: &str, many: usize) -> Vec<String> {
    those(start, many, first_of_roll)
}

/// So many names that begin alike, of one mark.
pub fn of_mark(start: &str, many: usize) -> Vec<String> {
    those(start, many, first_of_marks)
}

/// A name on the lane of another by the last key of a block.
pub fn mate(of: &str) -> String {
    let mut names = (0..).map(|k: u32| format!("m{k:x}"));
    let lane = |name: &str| lane_of_block(7, name);
    names.find(|n| lane(n) == lane(of)).unwrap()
}

/// So many names of eight letters that have one print: the last four make up
/// for the first four.
pub fn of_one_print(many: usize) -> Vec<String> {
    let letter = |k: u32| char::from_digit(k % 32, 32).unwrap_or('0');
    let four = |k: u32| -> String { [15, 10, 5, 0].map(|n| letter(k >> n)).iter().collect() };
    let ending = |k: u32| {
        let rest = 0x6161_6161_u32.wrapping_sub(print_by(0, &four(k)));
        let name = String::from_utf8([four(k).as_bytes(), &rest.to_le_bytes()].concat()).ok()?;
        name.chars()
            .all(|c| c.is_ascii_alphanumeric())
            .then_some(name)
    };
    (0..1 << 20).filter_map(ending).take(many).collect()
}

/// Names of every kind, made once: plain ones, those of one lane of a block or
/// of a table, those of one mark, and those of one print.
pub fn pools() -> &'static [Vec<String>; 5] {
    static POOLS: OnceLock<[Vec<String>; 5]> = OnceLock::new();
    POOLS.get_or_init(|| {
        [
            (0..3_600).map(|k| format!("x{k}")).collect(),
            of_block("x", 3_600),
            of_table("x", 3_600),
            of_mark("x", 3_600),
            of_one_print(255),
        ]
    })
}
