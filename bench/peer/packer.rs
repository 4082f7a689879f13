//! Tries packed into pages, in plain Rust: whole trees whose keys come in ascending order.

use super::nodes::{KINDS, PAGE, Shape, body};

/// A node with what stands below it.
#[derive(Default)]
pub struct Tree {
    payload: Vec<u8>,
    branches: Vec<(u8, Tree)>,
}

/// What the size of a node depends on.
struct Outline {
    payload: usize,
    children: usize,
    places: usize,
    greatest: u64,
}

fn holds(kind: (Shape, usize), o: &Outline) -> bool {
    let fits = kind.1 == 64 || o.greatest < 1 << kind.1;
    match kind.0 {
        Shape::Leaf => false,
        Shape::Short => o.children == 1 && o.payload == 0 && fits,
        Shape::Single => o.children == 1 && fits,
        Shape::Sparse => o.children <= 255 && fits,
        Shape::Dense => fits,
    }
}

fn chosen(o: &Outline) -> usize {
    if o.children == 0 {
        return 0;
    }
    (1..15).filter(|n| holds(KINDS[*n], o)).min_by_key(|n| body(KINDS[*n], o.children, o.places)).unwrap()
}

fn size(o: &Outline) -> usize {
    body(KINDS[chosen(o)], o.children, o.places) + o.payload
}

fn outline(payload: &[u8], bytes: impl DoubleEndedIterator<Item = u8> + ExactSizeIterator, greatest: u64) -> Outline {
    let children = bytes.len();
    let (mut first, mut last) = (0, 0);
    for (i, b) in bytes.enumerate() {
        if i == 0 {
            first = b;
        }
        last = b;
    }
    Outline { payload: payload.len(), children, places: usize::from(last) - usize::from(first) + 1, greatest }
}

fn put_row(out: &mut Vec<u8>, distances: impl Iterator<Item = u64>, width: usize) {
    let (mut held, mut bits) = (0u128, 0);
    for distance in distances {
        held = (held << width) | u128::from(distance);
        bits += width;
        while bits >= 8 {
            bits -= 8;
            out.push((held >> bits) as u8);
        }
    }
    if bits > 0 {
        out.push((held << (8 - bits)) as u8);
    }
}

fn encode(out: &mut Vec<u8>, payload: &[u8], children: &[(u8, u64)]) {
    let greatest = children.iter().map(|c| c.1).max().unwrap_or(0);
    let o = outline(payload, children.iter().map(|c| c.0), greatest);
    let number = chosen(&o);
    let (shape, width) = KINDS[number];
    let head = (number as u8) << 4;
    match shape {
        Shape::Leaf => out.push(head | payload.len() as u8),
        Shape::Short if width == 4 => out.extend([head | children[0].1 as u8, children[0].0]),
        Shape::Short => out.extend([head | (children[0].1 >> 8) as u8, children[0].1 as u8, children[0].0]),
        Shape::Single => {
            out.extend([head | payload.len() as u8, children[0].0]);
            put_row(out, children.iter().map(|c| c.1), width);
        }
        Shape::Sparse => {
            out.extend([head | payload.len() as u8, children.len() as u8]);
            out.extend(children.iter().map(|c| c.0));
            put_row(out, children.iter().map(|c| c.1), width);
        }
        Shape::Dense => {
            out.extend([head | payload.len() as u8, children[0].0, (o.places - 1) as u8]);
            let mut row = vec![0; o.places];
            for (b, distance) in children {
                row[usize::from(b - children[0].0)] = *distance;
            }
            put_row(out, row.into_iter(), width);
        }
    }
    out.extend_from_slice(payload);
}

/// Bytes that stand in a file from a position on.
pub struct Laid {
    start: u64,
    pub bytes: Vec<u8>,
}

impl Laid {
    /// None yet, from this position on.
    pub fn new(start: u64) -> Laid {
        Laid { start, bytes: Vec::new() }
    }

    /// Where the next byte will stand.
    pub fn end(&self) -> u64 {
        self.start + self.bytes.len() as u64
    }

    /// Goes on in the next page where so many bytes would cross into it.
    fn pad(&mut self, bytes: u64) {
        let used = self.end() % PAGE;
        if used + bytes > PAGE {
            self.bytes.resize(self.bytes.len() + (PAGE - used) as usize, 0);
        }
    }

    /// Appends a node whose children stand, and answers its position.
    fn close(&mut self, payload: &[u8], children: &[(u8, u64)]) -> u64 {
        let at = self.end();
        encode(&mut self.bytes, payload, &distances(at, children));
        at
    }
}

impl Tree {
    /// Adds a key above all keys before.
    pub fn add(&mut self, key: &[u8], payload: Vec<u8>) {
        let Some((b, rest)) = key.split_first() else {
            self.payload = payload;
            return;
        };
        if self.branches.last().map_or(true, |last| last.0 != *b) {
            self.branches.push((*b, Tree::default()));
        }
        self.branches.last_mut().unwrap().1.add(rest, payload);
    }

    fn weight(&self) -> u64 {
        let here = size(&outline(&self.payload, self.branches.iter().map(|b| b.0), 4095)) as u64;
        here + self.branches.iter().map(|b| b.1.weight()).sum::<u64>()
    }

    fn pack(&self, out: &mut Laid) -> u64 {
        let children: Vec<(u8, u64)> = self.branches.iter().map(|(b, t)| (*b, t.pack(out))).collect();
        out.close(&self.payload, &children)
    }

    /// Appends the trie, and answers where its root stands.
    pub fn lay(&self, out: &mut Laid) -> u64 {
        let weight = self.weight();
        if weight <= PAGE {
            out.pad(weight);
            return self.pack(out);
        }
        let children: Vec<(u8, u64)> = self.branches.iter().map(|(b, t)| (*b, t.lay(out))).collect();
        let mut node = Vec::new();
        encode(&mut node, &self.payload, &distances(out.end(), &children));
        out.pad(node.len() as u64);
        out.close(&self.payload, &children)
    }
}

fn distances(at: u64, children: &[(u8, u64)]) -> Vec<(u8, u64)> {
    children.iter().map(|(b, position)| (*b, at - position)).collect()
}
