//! Nodes of tries in pages, parsed in plain Rust.

use super::nodes::{KINDS, Shape, body};

fn bits(node: &[u8], at: usize, width: usize) -> u64 {
    let mut number = 0u128;
    let end = (at + width + 7) / 8;
    for byte in &node[at / 8..end] {
        number = (number << 8) | u128::from(*byte);
    }
    ((number >> (8 * end - at - width)) as u64) & (u64::MAX >> (64 - width))
}

/// A node that was parsed: the bytes from it on, its type and its number of places.
pub struct View<'a> {
    bytes: &'a [u8],
    shape: Shape,
    width: usize,
    places: usize,
}

/// Why no node begins there.
pub enum Refusal {
    PastPage,
    BadOrder,
    BadPointer,
    BadPayload,
}

impl View<'_> {
    fn first_bit(&self) -> usize {
        match self.shape {
            Shape::Short => 4,
            Shape::Sparse => 16 + 8 * self.places,
            Shape::Dense => 24,
            _ => 16,
        }
    }

    fn distance(&self, place: usize) -> u64 {
        bits(self.bytes, self.first_bit() + place * self.width, self.width)
    }

    pub fn payload_len(&self) -> usize {
        let low = usize::from(self.bytes[0] & 15);
        if self.shape == Shape::Short || low >= 8 { 0 } else { low }
    }

    fn body(&self) -> usize {
        match self.shape {
            Shape::Dense => 3 + (self.places * self.width + 7) / 8,
            _ => body((self.shape, self.width), self.places, self.places),
        }
    }

    pub fn payload(&self) -> &[u8] {
        &self.bytes[self.body()..self.body() + self.payload_len()]
    }

    fn byte(&self, place: usize) -> u8 {
        match self.shape {
            Shape::Short => self.bytes[(4 + self.width) / 8],
            Shape::Sparse => self.bytes[2 + place],
            Shape::Dense => self.bytes[1] + place as u8,
            _ => self.bytes[1],
        }
    }

    /// The children by ascending bytes, with their distances.
    pub fn children(&self) -> impl Iterator<Item = (u8, u64)> + '_ {
        (0..self.places).map(|place| (self.byte(place), self.distance(place))).filter(|child| child.1 > 0)
    }

    fn in_order(&self) -> bool {
        match self.shape {
            Shape::Sparse => self.places > 0 && self.bytes[2..2 + self.places].windows(2).all(|pair| pair[0] < pair[1]),
            Shape::Dense => usize::from(self.bytes[1]) + self.places <= 256,
            _ => true,
        }
    }

    fn points_back(&self, position: u64) -> bool {
        (0..self.places).all(|place| {
            let distance = self.distance(place);
            let inner = self.shape == Shape::Dense && place > 0 && place + 1 < self.places;
            (inner || distance > 0) && distance <= position
        })
    }

    fn payload_stands(&self) -> bool {
        let low = self.bytes[0] & 15;
        match self.shape {
            Shape::Leaf => low > 0 && low < 8,
            Shape::Short => true,
            _ => low < 8,
        }
    }

    /// The distance of the child under a byte.
    pub fn find(&self, byte: u8) -> Option<u64> {
        match self.shape {
            Shape::Leaf => None,
            Shape::Short => (self.bytes[(4 + self.width) / 8] == byte).then(|| self.distance(0)),
            Shape::Single => (self.bytes[1] == byte).then(|| self.distance(0)),
            Shape::Sparse => self.bytes[2..2 + self.places].binary_search(&byte).ok().map(|place| self.distance(place)),
            Shape::Dense => {
                let place = usize::from(byte.checked_sub(self.bytes[1])?);
                Some(place).filter(|place| *place < self.places).map(|place| self.distance(place)).filter(|distance| *distance > 0)
            }
        }
    }
}

/// The node that begins at a place of a page, with the refusals of the format in their order.
pub fn parse_node(page: &[u8], at: usize, position: u64) -> Result<View<'_>, Refusal> {
    let bytes = &page[at..];
    let (shape, width) = KINDS[usize::from(bytes[0] >> 4)];
    let byte = |i: usize| usize::from(bytes.get(i).copied().unwrap_or(0));
    let places = match shape {
        Shape::Leaf => 0,
        Shape::Short | Shape::Single => 1,
        Shape::Sparse => byte(1),
        Shape::Dense => byte(2) + 1,
    };
    let view = View { bytes, shape, width, places };
    if bytes.len() < view.body() + view.payload_len() {
        return Err(Refusal::PastPage);
    }
    if !view.in_order() {
        return Err(Refusal::BadOrder);
    }
    if !view.points_back(position) {
        return Err(Refusal::BadPointer);
    }
    if !view.payload_stands() {
        return Err(Refusal::BadPayload);
    }
    Ok(view)
}
