//! Tries in pages in plain Rust: the peer of the proved packer and parser, of the same design. Words: `pack COUNT` packs so many ascending keys of 6 to 20
//! bytes and prints the length and the root; `find COUNT` finds each of them in the bytes besides and prints how many were found.

// Finds go by single bytes, and take no payload.
#[allow(dead_code)]
#[path = "../peer/node_view.rs"]
mod node_view;
#[path = "../peer/nodes.rs"]
mod nodes;
#[path = "../peer/packer.rs"]
mod packer;

use node_view::{View, parse_node};
use nodes::PAGE;
use packer::{Laid, Tree};
use std::env;

fn node_at(file: &[u8], position: u64) -> Option<View<'_>> {
    let start = (position / PAGE * PAGE) as usize;
    let page = &file[start..file.len().min(start + PAGE as usize)];
    parse_node(page, (position % PAGE) as usize, position).ok()
}

fn find(file: &[u8], root: u64, key: &[u8]) -> bool {
    let mut at = root;
    for byte in key {
        match node_at(file, at).and_then(|node| node.find(*byte)) {
            Some(distance) => at -= distance,
            None => return false,
        }
    }
    node_at(file, at).is_some_and(|node| node.payload_len() > 0)
}

/// Key number i: ascending, of 6 to 20 bytes.
fn key_of(i: u32) -> Vec<u8> {
    let mut key = vec![0x40];
    key.extend((i * 20_011).to_be_bytes());
    key.extend((0..i % 15).map(|n| (i.wrapping_mul(31).wrapping_add(n * 7)) as u8));
    key.push(0x38);
    key
}

fn payload_of(i: u32) -> Vec<u8> {
    let bytes = i.to_be_bytes();
    let zeros = bytes.iter().take_while(|b| **b == 0).count().min(3);
    bytes[zeros..].to_vec()
}

fn main() {
    let words: Vec<String> = env::args().skip(1).collect();
    let count: u32 = words[1].parse().unwrap();
    let mut tree = Tree::default();
    for i in 0..count {
        tree.add(&key_of(i), payload_of(i));
    }
    let mut laid = Laid::new(0);
    let root = tree.lay(&mut laid);
    let file = laid.bytes;
    println!("length {} root {root}", file.len());
    if words[0] == "find" {
        let found = (0..count).filter(|i| find(&file, root, &key_of(*i))).count();
        println!("found {found}");
    }
}
