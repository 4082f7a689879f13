//! The pure trie over an image of 32-byte cells in plain Rust: the peer of bench/trie/run.py. Words: `build COUNT` makes an image of
//! so many keys and prints the cells taken; `find COUNT LOOKUPS` looks keys up in it besides and prints how many were found.

use std::env;

const CONTENT: u32 = 0x8000_0000;

struct Image {
    words: Vec<u64>,
    used: u32,
    puts: u64,
}

/// Where a pointer stands: a half of a word.
#[derive(Clone, Copy)]
struct Home {
    word: usize,
    high: bool,
}

fn half(word: u64, high: bool) -> u32 {
    if high { (word >> 32) as u32 } else { word as u32 }
}

fn with_half(word: u64, high: bool, pointer: u32) -> u64 {
    if high {
        (word & 0xFFFF_FFFF) | (u64::from(pointer) << 32)
    } else {
        (word & !0xFFFF_FFFF) | u64::from(pointer)
    }
}

fn field(cell: u32, at: u32) -> Home {
    Home { word: (4 * cell + at / 2) as usize, high: at % 2 == 1 }
}

fn byte_of(word: u64, at: u32) -> u8 {
    (word >> (8 * at)) as u8
}

fn is_content(pointer: u32) -> bool {
    pointer & CONTENT != 0
}

fn sparse_count(word: u64) -> u32 {
    let order = word >> 48;
    1 + [6, 36, 216, 1296, 7776].iter().filter(|power| order >= **power).count() as u32
}

fn sparse_find(word: u64, byte: u8) -> Option<u32> {
    (0..sparse_count(word)).find(|slot| byte_of(word, *slot) == byte)
}

/// The word with the byte in the least free slot, and that slot.
fn sparse_add(word: u64, byte: u8) -> (u64, u32) {
    let slot = sparse_count(word);
    let order = word >> 48;
    let (mut low, mut power, mut rest) = (0, 1, order);
    let mut left = slot;
    while left > 0 && byte_of(word, (rest % 6) as u32) < byte {
        low += rest % 6 * power;
        power *= 6;
        rest /= 6;
        left -= 1;
    }
    let grown = low + u64::from(slot) * power + rest * power * 6;
    let bytes = (word & 0xFFFF_FFFF_FFFF & !(0xFF << (8 * slot))) | (u64::from(byte) << (8 * slot));
    (bytes | (grown << 48), slot)
}

impl Image {
    fn new(cells: usize) -> Image {
        Image { words: vec![0; 4 * cells], used: 1, puts: 0 }
    }

    fn read(&self, home: Home) -> u32 {
        half(self.words[home.word], home.high)
    }

    fn write(&mut self, home: Home, pointer: u32) {
        self.words[home.word] = with_half(self.words[home.word], home.high, pointer);
    }

    fn take(&mut self, cells: u32) -> u32 {
        let first = self.used;
        self.used += cells;
        first
    }

    fn record(&mut self, value: &[u8]) -> u32 {
        let cell = self.take((8 + value.len() as u32 + 31) / 32);
        let at = 4 * cell as usize;
        self.words[at] = (self.puts + 1) | ((value.len() as u64) << 32);
        for (i, piece) in value.chunks(8).enumerate() {
            let mut bytes = [0; 8];
            bytes[..piece.len()].copy_from_slice(piece);
            self.words[at + 1 + i] = u64::from_le_bytes(bytes);
        }
        !cell
    }

    fn chain_cell(&mut self, bytes: &[u8], tail: u32) -> u32 {
        let cell = self.take(1);
        self.fill_chain(cell, bytes, tail)
    }

    fn fill_chain(&mut self, cell: u32, bytes: &[u8], tail: u32) -> u32 {
        let mut full = [0; 32];
        full[28 - bytes.len()..28].copy_from_slice(bytes);
        full[28..].copy_from_slice(&tail.to_le_bytes());
        for (i, piece) in full.chunks(8).enumerate() {
            self.words[4 * cell as usize + i] = u64::from_le_bytes(piece.try_into().unwrap());
        }
        32 * cell + 28 - bytes.len() as u32
    }

    /// Chain cells from the first to the last; all but the first are full.
    fn chain(&mut self, bytes: &[u8], end: u32) -> u32 {
        let cells = (bytes.len() as u32 + 27) / 28;
        let first = self.take(cells);
        let mut child = end;
        let mut rest = bytes;
        for i in (0..cells).rev() {
            let cut = if i == 0 { 0 } else { rest.len() - 28 };
            child = self.fill_chain(first + i, &rest[cut..], child);
            rest = &rest[..cut];
        }
        child
    }

    fn sparse(&mut self, children: [(u8, u32); 2]) -> u32 {
        let [(a, p), (b, q)] = if children[0].0 < children[1].0 { children } else { [children[1], children[0]] };
        let cell = self.take(1) as usize;
        self.words[4 * cell] = with_half(u64::from(p), true, q);
        self.words[4 * cell + 3] = u64::from(a) | (u64::from(b) << 8) | (6 << 48);
        32 * cell as u32 + 0x1E
    }

    /// The chain cell of the bytes that were passed before a new node, or the node itself.
    fn over_passed(&mut self, entered: u32, at: u32, node: u32) -> u32 {
        if at == entered {
            return node;
        }
        let cell = entered / 32;
        let bytes: Vec<u8> = (entered % 32..at % 32).map(|o| byte_of(self.words[(4 * cell + o / 8) as usize], o % 8)).collect();
        self.chain_cell(&bytes, node)
    }

    fn prefix(&mut self, content: u32, node: u32) -> u32 {
        let cell = self.take(1);
        self.words[4 * cell as usize] = with_half(u64::from(content), true, node);
        32 * cell + 0x1F
    }

    fn split_node(&mut self, word: u64, old: [u32; 6], byte: u8, entry: u32) -> u32 {
        let mut children: Vec<(u8, u32)> = (0..6).map(|s| (byte_of(word, s), old[s as usize])).collect();
        children.push((byte, entry));
        children.sort_unstable();
        let top = self.take(1);
        let mut mids = [0u32; 4];
        for (b, _) in &children {
            if mids[usize::from(b >> 6)] == 0 {
                mids[usize::from(b >> 6)] = self.take(1);
            }
        }
        let mut leaves = [0u32; 32];
        for (b, _) in &children {
            let at = usize::from(b >> 3);
            if leaves[at] == 0 {
                leaves[at] = self.take(1);
                self.write(field(mids[at / 8], at as u32 % 8), 32 * leaves[at] + 0x1C);
            }
        }
        for (i, mid) in mids.iter().enumerate().filter(|(_, mid)| **mid != 0) {
            self.write(field(top, i as u32), 32 * mid + 0x1C);
        }
        for (b, p) in &children {
            self.write(field(leaves[usize::from(b >> 3)], u32::from(b & 7)), *p);
        }
        32 * top + 0x1C
    }

    fn put(&mut self, key: &[u8], value: &[u8]) {
        let record = self.record(value);
        self.link(key, record);
        self.puts += 1;
        self.words[0] = self.puts;
    }

    fn link(&mut self, key: &[u8], record: u32) {
        let mut home = Home { word: 1, high: false };
        let (mut taken, mut entered) = (0, self.read(home));
        let mut at = entered;
        loop {
            if at == 0 {
                let new = self.chain(&key[taken..], record);
                return self.write(home, new);
            }
            if is_content(at) {
                if taken == key.len() {
                    return self.write(home, record);
                }
                let node = self.chain(&key[taken..], record);
                let new = self.prefix(at, node);
                return self.write(home, new);
            }
            let cell = at / 32;
            let kind = at % 32;
            if kind == 0x1F {
                if taken == key.len() {
                    return self.write(field(cell, 0), record);
                }
                home = field(cell, 1);
                entered = self.read(home);
                at = entered;
                continue;
            }
            if taken == key.len() {
                let node = self.prefix(record, at);
                let new = self.over_passed(entered, at, node);
                return self.write(home, new);
            }
            let byte = key[taken];
            if kind < 28 {
                let old = byte_of(self.words[(4 * cell + kind / 8) as usize], kind % 8);
                let tail = self.read(field(cell, 7));
                if old == byte {
                    taken += 1;
                    if kind == 27 {
                        home = field(cell, 7);
                        entered = tail;
                        at = tail;
                    } else {
                        at += 1;
                    }
                    continue;
                }
                let rest = self.chain(&key[taken + 1..], record);
                let child = if kind == 27 { tail } else { at + 1 };
                let node = self.sparse([(old, child), (byte, rest)]);
                let new = self.over_passed(entered, at, node);
                return self.write(home, new);
            }
            if kind == 0x1E {
                let word = self.words[4 * cell as usize + 3];
                if let Some(slot) = sparse_find(word, byte) {
                    home = field(cell, slot);
                    entered = self.read(home);
                    at = entered;
                    taken += 1;
                    continue;
                }
                let rest = self.chain(&key[taken + 1..], record);
                if sparse_count(word) < 6 {
                    let (grown, slot) = sparse_add(word, byte);
                    self.write(field(cell, slot), rest);
                    self.words[4 * cell as usize + 3] = grown;
                    return;
                }
                let old = [0, 1, 2, 3, 4, 5].map(|s| self.read(field(cell, s)));
                let new = self.split_node(word, old, byte, rest);
                return self.write(home, new);
            }
            home = self.split_home(cell, byte, &key[taken + 1..], record);
            if home.word == 0 {
                return;
            }
            entered = self.read(home);
            at = entered;
            taken += 1;
        }
    }

    /// The home of a byte's child in a split node. Where the mid or leaf cell is missing it is made with the child, and the home is word 0.
    fn split_home(&mut self, top: u32, byte: u8, rest: &[u8], record: u32) -> Home {
        let b = u32::from(byte);
        let mid_home = field(top, b >> 6);
        let mid = self.read(mid_home);
        if mid != 0 {
            let leaf_home = field(mid / 32, b >> 3 & 7);
            let leaf = self.read(leaf_home);
            if leaf != 0 {
                return field(leaf / 32, b & 7);
            }
            let child = self.chain(rest, record);
            let leaf = self.take(1);
            self.write(field(leaf, b & 7), child);
            self.write(leaf_home, 32 * leaf + 0x1C);
        } else {
            let child = self.chain(rest, record);
            let mid = self.take(1);
            let leaf = self.take(1);
            self.write(field(mid, b >> 3 & 7), 32 * leaf + 0x1C);
            self.write(field(leaf, b & 7), child);
            self.write(mid_home, 32 * mid + 0x1C);
        }
        Home { word: 0, high: false }
    }

    fn lookup(&self, key: &[u8]) -> Option<(u32, u64)> {
        let (mut p, mut taken) = (half(self.words[1], false), 0);
        loop {
            if p == 0 {
                return None;
            }
            if is_content(p) {
                return (taken == key.len()).then(|| (!p, self.words[4 * !p as usize]));
            }
            let cell = p / 32;
            let kind = p % 32;
            if kind == 0x1F {
                p = half(self.words[4 * cell as usize], taken != key.len());
                continue;
            }
            let byte = *key.get(taken)?;
            taken += 1;
            if kind < 28 {
                if byte_of(self.words[(4 * cell + kind / 8) as usize], kind % 8) != byte {
                    return None;
                }
                p = if kind == 27 { half(self.words[4 * cell as usize + 3], true) } else { p + 1 };
            } else if kind == 0x1E {
                let slot = sparse_find(self.words[4 * cell as usize + 3], byte)?;
                p = self.read(field(cell, slot));
            } else {
                let b = u32::from(byte);
                let mid = self.read(field(cell, b >> 6));
                let leaf = if mid == 0 { 0 } else { self.read(field(mid / 32, b >> 3 & 7)) };
                p = if leaf == 0 { 0 } else { self.read(field(leaf / 32, b & 7)) };
            }
        }
    }
}

/// Key number i: a separator, a scrambled number, a terminator, as a partition string has them.
fn key_of(i: u32) -> [u8; 6] {
    let [a, b, c, d] = i.wrapping_mul(2_654_435_761).to_be_bytes();
    [0x40, a, b, c, d, 0x38]
}

fn main() {
    let words: Vec<String> = env::args().skip(1).collect();
    let number = |i: usize| words[i].parse::<u32>().unwrap();
    let count = number(1);
    let mut image = Image::new(count as usize * 3 + 32);
    for i in 0..count {
        image.put(&key_of(i), &i.to_be_bytes());
    }
    println!("cells {}", image.used);
    if words[0] == "find" {
        let found = (0..number(2)).filter(|i| image.lookup(&key_of(i % count)).is_some()).count();
        println!("found {found}");
    }
}
