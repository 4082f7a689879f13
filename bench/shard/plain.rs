//! A shard of cells that readers walk while one writer stores into them, in plain Rust: the peer of bench/shard/run.py. A put stores each word of its new
//! cells once, then the word that makes them reachable, then the count of the puts; all loads and stores are sequentially consistent, as the proved ones are.
//!
//! Words: `cells WORK COUNT LOOKUPS` for the shard, `release WORK COUNT LOOKUPS` for the same with release stores and acquire loads, and
//! `locked WORK COUNT LOOKUPS` for an ordered map behind a lock. WORK is `put`, `find` or `both`: so many puts by one writer, so many finds by one reader
//! after them, or the puts beside three readers that go on until they know of all of them. How long each took goes to standard error.

use std::collections::BTreeMap;
use std::env;
use std::sync::atomic::{AtomicU64, Ordering};
use std::sync::RwLock;
use std::thread;
use std::time::Instant;

const CONTENT: u32 = 0x8000_0000;
const READERS: usize = 3;

fn half(word: u64, high: bool) -> u32 {
    if high { (word >> 32) as u32 } else { word as u32 }
}

fn with_half(word: u64, high: bool, pointer: u32) -> u64 {
    if high {
        (word & 0xFFFF_FFFF) | (u64::from(pointer) << 32)
    } else {
        (word & !0xFFFF_FFFF) | u64::from(pointer)
    }
}

fn byte_of(word: u64, at: u32) -> u8 {
    (word >> (8 * at)) as u8
}

fn sparse_count(word: u64) -> u32 {
    let order = word >> 48;
    1 + [6, 36, 216, 1296, 7776].iter().filter(|power| order >= **power).count() as u32
}

fn sparse_find(word: u64, byte: u8) -> Option<u32> {
    (0..sparse_count(word)).find(|slot| byte_of(word, *slot) == byte)
}

/// The word with the byte in the least free slot, and that slot.
fn sparse_add(word: u64, byte: u8) -> (u64, u32) {
    let slot = sparse_count(word);
    let (mut low, mut power, mut rest) = (0, 1, word >> 48);
    let mut left = slot;
    while left > 0 && byte_of(word, (rest % 6) as u32) < byte {
        low += rest % 6 * power;
        power *= 6;
        rest /= 6;
        left -= 1;
    }
    let grown = low + u64::from(slot) * power + rest * power * 6;
    let bytes = (word & 0xFFFF_FFFF_FFFF & !(0xFF << (8 * slot))) | (u64::from(byte) << (8 * slot));
    (bytes | (grown << 48), slot)
}

/// Where a pointer stands: a half of a word.
#[derive(Clone, Copy)]
struct Home {
    word: usize,
    high: bool,
}

fn field(cell: u32, at: u32) -> Home {
    Home { word: (4 * cell + at / 2) as usize, high: at % 2 == 1 }
}

/// The words of a shard. `STRICT` chooses sequentially consistent steps.
struct Cells<const STRICT: bool> {
    words: Vec<AtomicU64>,
}

impl<const STRICT: bool> Cells<STRICT> {
    fn new(cells: usize) -> Self {
        Cells { words: (0..4 * cells).map(|_| AtomicU64::new(0)).collect() }
    }

    fn load(&self, word: usize) -> u64 {
        self.words[word].load(if STRICT { Ordering::SeqCst } else { Ordering::Acquire })
    }

    fn store(&self, word: usize, value: u64) {
        self.words[word].store(value, if STRICT { Ordering::SeqCst } else { Ordering::Release });
    }

    fn read(&self, home: Home) -> u32 {
        half(self.load(home.word), home.high)
    }

    /// The number and length of the key's record, and how many puts the answer stands for.
    fn find(&self, front: u64, key: &[u8]) -> (Option<u64>, u64) {
        let base = front.max(self.load(0));
        match self.walk(key) {
            Some(head) => (Some(head), base.max(u64::from(head as u32))),
            None => (None, base),
        }
    }

    fn walk(&self, key: &[u8]) -> Option<u64> {
        let (mut p, mut taken) = (half(self.load(1), false), 0);
        loop {
            if p == 0 {
                return None;
            }
            if p & CONTENT != 0 {
                return (taken == key.len()).then(|| self.load(4 * !p as usize));
            }
            let cell = p / 32;
            let kind = p % 32;
            if kind == 0x1F {
                p = half(self.load(4 * cell as usize), taken != key.len());
                continue;
            }
            let byte = *key.get(taken)?;
            taken += 1;
            if kind < 28 {
                if byte_of(self.load((4 * cell + kind / 8) as usize), kind % 8) != byte {
                    return None;
                }
                p = if kind == 27 { half(self.load(4 * cell as usize + 3), true) } else { p + 1 };
            } else if kind == 0x1E {
                let slot = sparse_find(self.load(4 * cell as usize + 3), byte)?;
                p = self.read(field(cell, slot));
            } else {
                let b = u32::from(byte);
                let mid = self.read(field(cell, b >> 6));
                let leaf = if mid == 0 { 0 } else { self.read(field(mid / 32, b >> 3 & 7)) };
                p = if leaf == 0 { 0 } else { self.read(field(leaf / 32, b & 7)) };
            }
        }
    }
}

/// The stores that make a put's new cells reachable: a free slot's, where there is one, and the publishing one.
struct Publish {
    slot: Option<(usize, u64)>,
    word: usize,
    value: u64,
}

struct Writer<'a, const STRICT: bool> {
    cells: &'a Cells<STRICT>,
    used: u32,
    puts: u32,
    /// The words of the put's new cells, in their order.
    new: Vec<u64>,
}

impl<'a, const STRICT: bool> Writer<'a, STRICT> {
    fn new(cells: &'a Cells<STRICT>) -> Self {
        Writer { cells, used: 1, puts: 0, new: Vec::new() }
    }

    /// The cell that is taken next.
    fn next(&self) -> u32 {
        self.used + self.new.len() as u32 / 4
    }

    fn put(&mut self, key: &[u8], value: &[u8]) -> bool {
        let cost = (8 + value.len() + 31) / 32 + (key.len() + 27) / 28 + 16;
        if self.used as usize + cost > self.cells.words.len() / 4 {
            return false;
        }
        self.new.clear();
        let record = !self.next();
        self.push_record(value);
        let publish = self.link(key, record);
        let first = 4 * self.used as usize;
        for (i, word) in self.new.iter().enumerate() {
            self.cells.store(first + i, *word);
        }
        if let Some((word, value)) = publish.slot {
            self.cells.store(word, value);
        }
        self.cells.store(publish.word, publish.value);
        self.used = self.next();
        self.puts += 1;
        self.cells.store(0, u64::from(self.puts));
        true
    }

    fn push_record(&mut self, value: &[u8]) {
        let cells = (8 + value.len() + 31) / 32;
        self.new.push(u64::from(self.puts + 1) | ((value.len() as u64) << 32));
        for piece in value.chunks(8) {
            let mut bytes = [0; 8];
            bytes[..piece.len()].copy_from_slice(piece);
            self.new.push(u64::from_le_bytes(bytes));
        }
        self.new.resize(4 * cells, 0);
    }

    fn push_chain_cell(&mut self, bytes: &[u8], tail: u32) {
        let mut full = [0; 32];
        full[28 - bytes.len()..28].copy_from_slice(bytes);
        full[28..].copy_from_slice(&tail.to_le_bytes());
        self.new.extend(full.chunks(8).map(|piece| u64::from_le_bytes(piece.try_into().unwrap())));
    }

    /// Chain cells from the first to the last; all but the first are full. Answers the pointer that enters them.
    fn chain(&mut self, bytes: &[u8], end: u32) -> u32 {
        if bytes.is_empty() {
            return end;
        }
        let first = self.next();
        let cells = (bytes.len() as u32 + 27) / 28;
        let (head, mut rest) = bytes.split_at(bytes.len() - 28 * (cells as usize - 1));
        self.push_chain_cell(head, if cells == 1 { end } else { 32 * (first + 1) });
        for i in 2..=cells {
            let (part, more) = rest.split_at(28);
            self.push_chain_cell(part, if i == cells { end } else { 32 * (first + i) });
            rest = more;
        }
        32 * first + 28 - head.len() as u32
    }

    /// A cell of so many pointers, and the pointer to it by the offset of its kind.
    fn push_cell(&mut self, words: [u64; 4], offset: u32) -> u32 {
        let cell = self.next();
        self.new.extend(words);
        32 * cell + offset
    }

    fn sparse(&mut self, children: [(u8, u32); 2]) -> u32 {
        let [(a, p), (b, q)] = if children[0].0 < children[1].0 { children } else { [children[1], children[0]] };
        self.push_cell([with_half(u64::from(p), true, q), 0, 0, u64::from(a) | (u64::from(b) << 8) | (6 << 48)], 0x1E)
    }

    fn prefix(&mut self, content: u32, node: u32) -> u32 {
        self.push_cell([with_half(u64::from(content), true, node), 0, 0, 0], 0x1F)
    }

    /// The chain cell of the bytes that were passed before a new node, or the node itself.
    fn over_passed(&mut self, entered: u32, at: u32, node: u32) -> u32 {
        if at == entered {
            return node;
        }
        let mut bytes = [0; 28];
        let passed = (at - entered) as usize;
        for (byte, offset) in bytes.iter_mut().zip(entered % 32..at % 32) {
            *byte = byte_of(self.cells.load((4 * (entered / 32) + offset / 8) as usize), offset % 8);
        }
        let cell = self.next();
        self.push_chain_cell(&bytes[..passed], node);
        32 * cell + 28 - passed as u32
    }

    /// The top cell, the mid cells and the leaf cells of seven children, each kind by ascending bits.
    fn split_node(&mut self, word: u64, old: [u32; 6], byte: u8, entry: u32) -> u32 {
        let mut children = [(0, 0); 7];
        for (slot, pointer) in old.iter().enumerate() {
            children[slot] = (byte_of(word, slot as u32), *pointer);
        }
        children[6] = (byte, entry);
        children.sort_unstable();
        let top = self.next();
        let mut cells = [[0u64; 4]; 15];
        let mut count = 1;
        for shift in [6, 3, 0] {
            let mut last = None;
            for (b, pointer) in children {
                let b = u32::from(b);
                let parent = self.parent_of(&cells, top, b, shift);
                let (word, high) = ((b >> shift & 7) as usize / 2, b >> shift & 1 == 1);
                let (word, high) = if shift == 6 { ((b >> 6) as usize / 2, b >> 6 & 1 == 1) } else { (word, high) };
                if shift == 0 {
                    cells[parent][word] = with_half(cells[parent][word], high, pointer);
                } else if last != Some(b >> shift) {
                    cells[parent][word] = with_half(cells[parent][word], high, 32 * (top + count) + 0x1C);
                    count += 1;
                    last = Some(b >> shift);
                }
            }
        }
        for cell in &cells[..count as usize] {
            self.new.extend(cell);
        }
        32 * top + 0x1C
    }

    /// The index among the new cells of the one in which the byte's pointer of this level stands.
    fn parent_of(&self, cells: &[[u64; 4]; 15], top: u32, b: u32, shift: u32) -> usize {
        let below = |cell: usize, at: u32| (half(cells[cell][at as usize / 2], at % 2 == 1) / 32 - top) as usize;
        match shift {
            6 => 0,
            3 => below(0, b >> 6),
            _ => below(below(0, b >> 6), b >> 3 & 7),
        }
    }

    /// The one store that puts the pointer into its home.
    fn publish(&self, home: Home, pointer: u32) -> Publish {
        Publish { slot: None, word: home.word, value: with_half(self.cells.load(home.word), home.high, pointer) }
    }

    fn link(&mut self, key: &[u8], record: u32) -> Publish {
        let mut home = Home { word: 1, high: false };
        let (mut taken, mut entered) = (0, self.cells.read(home));
        let mut at = entered;
        loop {
            if at == 0 {
                let new = self.chain(&key[taken..], record);
                return self.publish(home, new);
            }
            if at & CONTENT != 0 {
                if taken == key.len() {
                    return self.publish(home, record);
                }
                let node = self.chain(&key[taken..], record);
                let new = self.prefix(at, node);
                return self.publish(home, new);
            }
            let cell = at / 32;
            let kind = at % 32;
            if kind == 0x1F {
                if taken == key.len() {
                    return self.publish(field(cell, 0), record);
                }
                home = field(cell, 1);
                entered = self.cells.read(home);
                at = entered;
                continue;
            }
            if taken == key.len() {
                let node = self.prefix(record, at);
                let new = self.over_passed(entered, at, node);
                return self.publish(home, new);
            }
            let byte = key[taken];
            if kind < 28 {
                let old = byte_of(self.cells.load((4 * cell + kind / 8) as usize), kind % 8);
                let tail = self.cells.read(field(cell, 7));
                if old == byte {
                    taken += 1;
                    if kind == 27 {
                        home = field(cell, 7);
                        entered = tail;
                        at = tail;
                    } else {
                        at += 1;
                    }
                    continue;
                }
                let rest = self.chain(&key[taken + 1..], record);
                let child = if kind == 27 { tail } else { at + 1 };
                let node = self.sparse([(old, child), (byte, rest)]);
                let new = self.over_passed(entered, at, node);
                return self.publish(home, new);
            }
            if kind == 0x1E {
                let word = self.cells.load(4 * cell as usize + 3);
                if let Some(slot) = sparse_find(word, byte) {
                    home = field(cell, slot);
                    entered = self.cells.read(home);
                    at = entered;
                    taken += 1;
                    continue;
                }
                let rest = self.chain(&key[taken + 1..], record);
                if sparse_count(word) < 6 {
                    let (grown, slot) = sparse_add(word, byte);
                    let free = self.publish(field(cell, slot), rest);
                    return Publish { slot: Some((free.word, free.value)), word: 4 * cell as usize + 3, value: grown };
                }
                let old = [0, 1, 2, 3, 4, 5].map(|s| self.cells.read(field(cell, s)));
                let new = self.split_node(word, old, byte, rest);
                return self.publish(home, new);
            }
            match self.in_split(cell, byte, &key[taken + 1..], record) {
                Ok(publish) => return publish,
                Err(leaf) => home = leaf,
            }
            entered = self.cells.read(home);
            at = entered;
            taken += 1;
        }
    }

    /// The publishing store where the mid or leaf cell of the byte is missing, and else the byte's home.
    fn in_split(&mut self, top: u32, byte: u8, rest: &[u8], record: u32) -> Result<Publish, Home> {
        let b = u32::from(byte);
        let mid_home = field(top, b >> 6);
        let mid = self.cells.read(mid_home);
        let leaf_home = field(mid / 32, b >> 3 & 7);
        let leaf = if mid == 0 { 0 } else { self.cells.read(leaf_home) };
        if leaf != 0 {
            return Err(field(leaf / 32, b & 7));
        }
        let child = self.chain(rest, record);
        if mid != 0 {
            let leaf = self.push_split(b & 7, child);
            return Ok(self.publish(leaf_home, leaf));
        }
        let leaf = 32 * (self.next() + 1) + 0x1C;
        let mid = self.push_split(b >> 3 & 7, leaf);
        self.push_split(b & 7, child);
        Ok(self.publish(mid_home, mid))
    }

    fn push_split(&mut self, at: u32, pointer: u32) -> u32 {
        let mut words = [0; 4];
        words[at as usize / 2] = with_half(0, at % 2 == 1, pointer);
        self.push_cell(words, 0x1C)
    }
}

/// Key number i: a separator, a scrambled number, a terminator, as a partition string has them.
fn key_of(i: u32) -> [u8; 6] {
    let [a, b, c, d] = i.wrapping_mul(2_654_435_761).to_be_bytes();
    [0x40, a, b, c, d, 0x38]
}

/// A shard in one of the two forms: one writer, any number of readers.
trait Shard: Sync {
    /// Makes so many puts and answers how many were made.
    fn put_all(&self, count: u32) -> u64;

    /// Whether there is a value at the key, and how many puts the answer stands for.
    fn find(&self, front: u64, key: &[u8]) -> (bool, u64);
}

impl<const STRICT: bool> Shard for Cells<STRICT> {
    fn put_all(&self, count: u32) -> u64 {
        let mut writer = Writer::new(self);
        (0..count).filter(|i| writer.put(&key_of(*i), &i.to_be_bytes())).count() as u64
    }

    fn find(&self, front: u64, key: &[u8]) -> (bool, u64) {
        let (hit, at) = Cells::find(self, front, key);
        (hit.is_some(), at)
    }
}

impl Shard for RwLock<BTreeMap<Vec<u8>, Vec<u8>>> {
    fn put_all(&self, count: u32) -> u64 {
        for i in 0..count {
            self.write().unwrap().insert(key_of(i).to_vec(), i.to_be_bytes().to_vec());
        }
        u64::from(count)
    }

    fn find(&self, _front: u64, key: &[u8]) -> (bool, u64) {
        let map = self.read().unwrap();
        (map.contains_key(key), map.len() as u64)
    }
}

/// How many there were, and how long they took.
fn timed(work: impl FnOnce() -> u64) -> (u64, u128) {
    let start = Instant::now();
    (work(), start.elapsed().as_nanos())
}

/// Finds until the reader knows of all puts.
fn find_until_all(shard: &impl Shard, count: u32) -> u64 {
    let (mut finds, mut front) = (0u64, 0);
    while front < u64::from(count) {
        front = shard.find(front, &key_of(finds as u32 % count)).1;
        finds += 1;
    }
    finds
}

fn both(shard: &impl Shard, count: u32) -> ((u64, u128), (u64, u128)) {
    thread::scope(|s| {
        let readers: Vec<_> = (0..READERS).map(|_| s.spawn(|| timed(|| find_until_all(shard, count)))).collect();
        let puts = timed(|| shard.put_all(count));
        let found: Vec<_> = readers.into_iter().map(|reader| reader.join().unwrap()).collect();
        (puts, (found.iter().map(|x| x.0).sum(), found.iter().map(|x| x.1).max().unwrap_or(0)))
    })
}

fn run(shard: &impl Shard, work: &str, count: u32, lookups: u32) {
    if work == "both" {
        let (puts, finds) = both(shard, count);
        println!("puts {}", puts.0);
        eprintln!("puts {} ns {}", puts.0, puts.1);
        eprintln!("finds {} ns {}", finds.0, finds.1);
        return;
    }
    let puts = timed(|| shard.put_all(count));
    println!("puts {}", puts.0);
    eprintln!("puts {} ns {}", puts.0, puts.1);
    if work == "find" {
        let finds = timed(|| (0..lookups).filter(|i| shard.find(0, &key_of(i % count)).0).count() as u64);
        println!("finds {}", finds.0);
        eprintln!("finds {} ns {}", finds.0, finds.1);
    }
}

fn main() {
    let words: Vec<String> = env::args().skip(1).collect();
    let number = |i: usize| words[i].parse::<u32>().unwrap();
    let (count, lookups) = (number(2), number(3));
    let cells = 3 * count as usize + 1024;
    match words[0].as_str() {
        "locked" => run(&RwLock::new(BTreeMap::new()), &words[1], count, lookups),
        "release" => run(&Cells::<false>::new(cells), &words[1], count, lookups),
        _ => run(&Cells::<true>::new(cells), &words[1], count, lookups),
    }
}
