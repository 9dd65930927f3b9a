//! What can be done to one item of an accepted document, and the answer
//! that is then due wherever the item alone decides it.

use crate::encode::*;

/// A replacement of some bytes of a document.
pub struct Patch {
    pub class: &'static str,
    pub from: usize,
    pub to: usize,
    pub with: Vec<u8>,
    /// The answer for the patched document, if it follows from the patch.
    pub due: Option<(u32, u64)>,
}

impl Patch {
    pub fn apply(&self, bytes: &[u8]) -> Vec<u8> {
        [&bytes[..self.from], &self.with, &bytes[self.to..]].concat()
    }

    /// Where a later place of the document stands after the patch; a place
    /// inside the patched bytes is gone.
    pub fn shifts(&self, place: usize) -> Option<usize> {
        let after = place.checked_sub(self.to)?;
        Some(self.from + self.with.len() + after)
    }
}

const ACCEPTED: Option<(u32, u64)> = Some((0, 0));

/// Bytes worth standing anywhere.
pub const TELLING: [u8; 44] = [
    0x00, 0x01, 0x02, 0x03, 0x04, 0x05, 0x0c, 0x0d, 0x0f, 0x10, 0x17, 0x18, 0x19, 0x1a, 0x1b, 0x1c,
    0x1f, 0x20, 0x40, 0x5f, 0x60, 0x61, 0x78, 0x7b, 0x7f, 0x80, 0x81, 0x82, 0x83, 0x84, 0x88, 0x8b,
    0x98, 0x99, 0x9b, 0x9f, 0xa0, 0xc0, 0xf4, 0xf5, 0xf6, 0xf7, 0xf8, 0xff,
];

/// Bytes just outside a name's alphabet, and outside a version string's.
const NOT_IN_NAMES: [u8; 15] = [
    0x00, 0x20, 0x2d, 0x2e, 0x2f, 0x3a, 0x40, 0x5b, 0x5e, 0x60, 0x7b, 0x7f, 0x80, 0xc3, 0xff,
];
const NOT_IN_VERSIONS: [u8; 7] = [0x00, 0x0a, 0x1f, 0x7f, 0x80, 0xc3, 0xff];

/// Arguments at the edges of the head widths.
const EDGES: [u64; 10] = [
    0,
    1,
    23,
    24,
    0xff,
    0x100,
    0xffff,
    0xffff_ffff,
    0x1_0000_0000,
    u64::MAX,
];

/// Every patch of the item with this index.
pub fn patches(doc: &Encoded, index: usize) -> Vec<Patch> {
    let mut spot = Spot {
        doc,
        item: doc.items[index],
        index,
        patches: Vec::new(),
    };
    spot.torn();
    spot.torn_heads();
    spot.torn_parts();
    spot.padded();
    spot.kinds();
    spot.counts();
    spot.cases();
    spot.over();
    spot.wrapped();
    spot.smudged();
    spot.within();
    spot.changed();
    spot.moved();
    spot.patches
}

struct Spot<'a> {
    doc: &'a Encoded,
    item: Item,
    index: usize,
    patches: Vec<Patch>,
}

impl Spot<'_> {
    /// A refusal at the item's start.
    fn here(&self, number: u32) -> Option<(u32, u64)> {
        Some((number, self.item.at as u64))
    }

    /// A refusal so many bytes after the item's start.
    fn after(&self, number: u32, bytes: usize) -> Option<(u32, u64)> {
        Some((number, (self.item.at + bytes) as u64))
    }

    fn patch(
        &mut self,
        class: &'static str,
        from: usize,
        to: usize,
        with: Vec<u8>,
        due: Option<(u32, u64)>,
    ) {
        self.patches.push(Patch {
            class,
            from,
            to,
            with,
            due,
        });
    }

    /// Other bytes for the item's head.
    fn head(&mut self, class: &'static str, with: Vec<u8>, due: Option<(u32, u64)>) {
        self.patch(class, self.item.at, self.item.head, with, due);
    }

    /// Other bytes for the item's own bytes.
    fn own(&mut self, class: &'static str, with: Vec<u8>, due: Option<(u32, u64)>) {
        self.patch(class, self.item.at, self.item.own, with, due);
    }

    /// These bytes at the item's start, and then the end.
    fn tail(&mut self, with: Vec<u8>, due: Option<(u32, u64)>) {
        self.patch("torn tail", self.item.at, self.doc.bytes.len(), with, due);
    }

    /// The end before the item, and anywhere in it.
    fn torn(&mut self) {
        let Item { at, own, .. } = self.item;
        for cut in at..own {
            if cut < at + 10 || cut + 2 > own {
                let due = self.here(2);
                self.patch("torn", cut, self.doc.bytes.len(), Vec::new(), due);
            }
        }
    }

    /// The document ends in or after a head: head faults and kind come first.
    fn torn_heads(&mut self) {
        let due = self.item.role.major();
        for major in 0..8 {
            for information in 28..32 {
                self.tail(vec![major << 5 | information], self.here(3));
            }
        }
        for major in 0..7 {
            for width in [1, 2, 4, 8] {
                let mut whole = wide_head(major, 1, width);
                self.tail(whole.clone(), self.here(3));
                whole.pop();
                self.tail(whole, self.here(2));
            }
            if major != due {
                self.tail(head(major, 0), self.here(4));
                self.tail(head(major, 24), self.here(4));
                self.tail(head(major, u64::MAX), self.here(4));
            }
        }
        for byte in [0xe0, 0xf3, 0xf7, 0xf8, 0xf9, 0xfa, 0xfb] {
            self.tail(vec![byte], self.here(4));
        }
    }

    /// The document ends after a sound head, by what the head is for.
    fn torn_parts(&mut self) {
        match self.item.role {
            Role::Record(fields) => {
                self.tail(head(ARRAY, fields), self.after(2, 1));
                self.tail(head(ARRAY, fields + 1), self.here(4));
            }
            Role::Choice(counts) => self.torn_choice(counts),
            Role::List(limit) => {
                let full = head(ARRAY, limit);
                let end = full.len();
                self.tail(full, self.after(2, end));
                self.tail(head(ARRAY, limit + 1), self.here(5));
            }
            Role::Name => {
                self.tail(head(TEXT, 0), self.here(5));
                self.torn_text(0x80);
            }
            Role::Version => self.torn_text(0x1f),
            Role::Word => self.tail(head(UNSIGNED, 1 << 32), self.here(5)),
            Role::IrVersion => self.tail(head(UNSIGNED, 2), self.here(9)),
            Role::Operator(cases) => self.tail(head(UNSIGNED, cases), self.here(4)),
            _ => (),
        }
    }

    /// Length before missing bytes, missing bytes before the alphabet.
    fn torn_text(&mut self, bad: u8) {
        self.tail(head(TEXT, 65), self.here(5));
        self.tail(head(TEXT, u64::MAX), self.here(5));
        self.tail(head(TEXT, 64), self.here(2));
        self.tail([head(TEXT, 2), vec![bad]].concat(), self.here(2));
        self.tail([head(TEXT, 1), vec![bad]].concat(), self.here(6));
        self.tail([head(TEXT, 2), vec![b'a', bad]].concat(), self.here(6));
    }

    /// Count 0, then the case item, then the count.
    fn torn_choice(&mut self, counts: &'static [u64]) {
        let array = |count: u64, rest: &[u8]| [&head(ARRAY, count), rest].concat();
        self.tail(array(0, &[]), self.here(4));
        self.tail(array(0, &[0x1c]), self.here(4));
        self.tail(array(9, &[]), self.after(2, 1));
        self.tail(array(u64::MAX, &[]), self.after(2, 9));
        self.tail(array(9, &[0x18]), self.after(2, 1));
        self.tail(array(9, &[0x1c]), self.after(3, 1));
        self.tail(array(9, &[0x18, 0x00]), self.after(3, 1));
        self.tail(array(9, &[0xf8]), self.after(4, 1));
        self.tail(array(9, &[0x61]), self.after(4, 1));
        self.tail(array(9, &[counts.len() as u8]), self.after(4, 1));
        self.tail(
            array(9, &head(UNSIGNED, counts.len() as u64 + 256)),
            self.after(4, 1),
        );
        for case in 0..counts.len() as u8 {
            self.tail(array(9, &[case]), self.here(4));
            self.tail(array(1 << 32, &[case]), self.here(4));
        }
    }

    /// Reserved information, and the same argument in a longer head.
    fn padded(&mut self) {
        let Item {
            at, head, argument, ..
        } = self.item;
        let major = self.item.role.major();
        for information in 28..32 {
            self.head("reserved", vec![major << 5 | information], self.here(3));
        }
        if self.doc.bytes[at] >= 0xe0 {
            return;
        }
        for width in [1, 2, 4, 8] {
            if at + 1 + width > head {
                self.head("padded", wide_head(major, argument, width), self.here(3));
            }
        }
    }

    /// Another major type with the same argument, and other simple values.
    fn kinds(&mut self) {
        let due = self.item.role.major();
        for major in 0..7 {
            if major != due {
                self.head("kind", head(major, self.item.argument), self.here(4));
            }
        }
        for byte in [0xe0, 0xf0, 0xf3, 0xf7, 0xf8, 0xf9, 0xfa, 0xfb] {
            self.head("kind", vec![byte], self.here(4));
        }
        if due != SIMPLE {
            self.head("kind", vec![FALSE], self.here(4));
            self.head("kind", vec![TRUE], self.here(4));
        }
        if !self.item.optional {
            self.head("null", vec![NULL], self.here(4));
        }
    }

    /// Another count than the struct's or the case's; another list length.
    fn counts(&mut self) {
        let now = self.item.argument;
        let near = [now.wrapping_sub(1), now + 1];
        for count in near.into_iter().chain(EDGES) {
            let with = head(ARRAY, count);
            match self.item.role {
                Role::Record(fields) if count != fields => {
                    self.head("count", with, self.here(4));
                }
                Role::Choice(_) if count == 0 || !self.item.absent && count != now => {
                    self.head("count", with, self.here(4));
                }
                Role::List(limit) if count <= limit && count != now => {
                    self.head("list length", with, None);
                }
                _ => (),
            }
        }
    }

    /// Other case numbers. A known case with another count is refused at the
    /// array; with the same count what follows decides.
    fn cases(&mut self) {
        let known = match self.item.role {
            Role::Case(counts) => counts.len() as u64,
            Role::Operator(cases) => cases,
            _ => return,
        };
        for case in EDGES.into_iter().chain([known, known + 1]) {
            if case >= known {
                self.head("case", head(UNSIGNED, case), self.here(4));
            }
        }
        for case in 0..known {
            let with = head(UNSIGNED, case);
            match self.item.role {
                Role::Case(counts) => self.known_case(counts, case, with),
                _ => self.head("within", with, ACCEPTED),
            }
        }
    }

    fn known_case(&mut self, counts: &'static [u64], case: u64, with: Vec<u8>) {
        let array = self.doc.items[self.index - 1];
        if case == self.item.argument {
            return;
        }
        if counts[case as usize] == array.argument {
            self.head("other case", with, None);
        } else {
            self.head("case", with, Some((4, array.at as u64)));
        }
    }

    /// One over the limit, and far over it.
    fn over(&mut self) {
        for edge in EDGES.into_iter().chain([2, 9, 17]) {
            match self.item.role {
                Role::List(limit) if edge > limit => {
                    self.head("outsize", head(ARRAY, edge), self.here(5));
                }
                Role::Word if edge > 0xffff_ffff => {
                    self.own("outsize", head(UNSIGNED, edge), self.here(5));
                }
                Role::IrVersion if edge > 1 => {
                    self.own("unborn", head(UNSIGNED, edge), self.here(9));
                }
                Role::Name | Role::Version if edge > 64 => {
                    self.own("outsize", head(TEXT, edge), self.here(5));
                }
                _ => (),
            }
        }
        if self.item.role.major() == TEXT {
            for length in [65, 66, 128, 255, 256] {
                self.own("outsize", text(length, b'a'), self.here(5));
            }
        }
        if self.item.role == Role::Name {
            self.own("outsize", text(0, b'a'), self.here(5));
        }
    }

    /// Arguments that are right but for a power of two.
    fn wrapped(&mut self) {
        let Item {
            role,
            argument,
            absent,
            ..
        } = self.item;
        for power in [8, 16, 32] {
            let value = argument + (1 << power);
            let (class, number) = match role {
                _ if absent => return,
                Role::Record(_) | Role::Choice(_) => ("count", 4),
                Role::Case(_) | Role::Operator(_) => ("case", 4),
                Role::List(_) | Role::Name | Role::Version => ("outsize", 5),
                Role::Word if power == 32 => ("outsize", 5),
                Role::IrVersion => ("unborn", 9),
                _ => continue,
            };
            self.head(class, head(role.major(), value), self.here(number));
        }
    }

    /// A byte outside the alphabet at the front, in the middle, at the end.
    fn smudged(&mut self) {
        let bad: &[u8] = match self.item.role {
            Role::Name => &NOT_IN_NAMES,
            Role::Version => &NOT_IN_VERSIONS,
            _ => return,
        };
        let length = (self.item.own - self.item.head).max(1);
        for &byte in bad {
            for place in [0, length / 2, length - 1] {
                let mut with = text(length, b'a');
                let front = with.len() - length;
                with[front + place] = byte;
                self.own("smudged", with, self.here(6));
            }
        }
        let mut longest = text(64, b'a');
        longest[65] = bad[bad.len() - 1];
        self.own("smudged", longest, self.here(6));
    }

    /// Other items that may stand here as well.
    fn within(&mut self) {
        let Item {
            at,
            end,
            role,
            optional,
            absent,
            ..
        } = self.item;
        if optional && !absent {
            self.patch("within", at, end, vec![NULL], ACCEPTED);
        }
        for length in [0, 1, 23, 24, 63, 64] {
            match role {
                Role::Name if length > 0 => {
                    for byte in *b"azAZ09_" {
                        self.own("within", text(length, byte), ACCEPTED);
                    }
                }
                Role::Version => {
                    for byte in *b" ~0." {
                        self.own("within", text(length, byte), ACCEPTED);
                    }
                }
                _ => (),
            }
        }
        for edge in EDGES {
            let allowed = match role {
                Role::Number => true,
                Role::Word => edge <= 0xffff_ffff,
                Role::IrVersion => edge <= 1,
                _ => false,
            };
            if allowed {
                self.own("within", head(UNSIGNED, edge), ACCEPTED);
            }
        }
        if role == Role::Bool {
            self.own("within", vec![FALSE], ACCEPTED);
            self.own("within", vec![TRUE], ACCEPTED);
        }
    }

    /// One of the item's own bytes replaced.
    fn changed(&mut self) {
        let Item { at, own, .. } = self.item;
        for place in at..own {
            if place < at + 10 || place + 1 == own {
                for byte in TELLING {
                    self.patch("changed byte", place, place + 1, vec![byte], None);
                }
            }
        }
    }

    /// The whole item left out, or there twice.
    fn moved(&mut self) {
        let Item { at, end, .. } = self.item;
        self.patch("moved item", at, end, Vec::new(), None);
        let again = self.doc.bytes[at..end].to_vec();
        self.patch("moved item", at, at, again, None);
    }
}

/// A text string of so many equal bytes.
fn text(length: usize, byte: u8) -> Vec<u8> {
    let mut bytes = head(TEXT, length as u64);
    bytes.resize(bytes.len() + length, byte);
    bytes
}
