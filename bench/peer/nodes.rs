//! The types of the nodes of tries in pages, for the plain peers that write such tries and those that read them.

/// The bytes of a page.
pub const PAGE: u64 = 4096;

/// Shape, width of a distance in bits: one row a type.
pub const KINDS: [(Shape, usize); 16] = [
    (Shape::Leaf, 0),
    (Shape::Short, 4),
    (Shape::Single, 8),
    (Shape::Short, 12),
    (Shape::Single, 16),
    (Shape::Sparse, 8),
    (Shape::Sparse, 12),
    (Shape::Sparse, 16),
    (Shape::Sparse, 24),
    (Shape::Sparse, 40),
    (Shape::Dense, 12),
    (Shape::Dense, 16),
    (Shape::Dense, 24),
    (Shape::Dense, 32),
    (Shape::Dense, 40),
    (Shape::Dense, 64),
];

#[derive(Clone, Copy, PartialEq)]
pub enum Shape {
    Leaf,
    Short,
    Single,
    Sparse,
    Dense,
}

/// The bytes of a node without its payload.
pub fn body(kind: (Shape, usize), children: usize, places: usize) -> usize {
    match kind.0 {
        Shape::Leaf => 1,
        Shape::Short => (4 + kind.1) / 8 + 1,
        Shape::Single => 2 + kind.1 / 8,
        Shape::Sparse => 2 + children + (children * kind.1 + 7) / 8,
        Shape::Dense => 3 + (places * kind.1 + 7) / 8,
    }
}
