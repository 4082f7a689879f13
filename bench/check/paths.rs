//! The paths of a trie in an index file, one after the other, read in pages of which the last 64 are kept.

use crate::node_view::parse_node;
use crate::nodes::PAGE;
use crate::peer::Ending;
use crate::{Part, damaged, store_fault};
use std::fs::File;
use std::os::unix::fs::FileExt;

const KEPT: usize = 64;

/// An index file.
pub struct Index {
    file: File,
    part: Part,
    pub length: u64,
    pages: Vec<(u64, Vec<u8>)>,
}

/// A node on the way to the newest path: its children that are still to come, the last of them first, and how long the path to it is.
struct Step {
    children: Vec<(u8, u64)>,
    depth: usize,
}

/// A walk over the paths of the trie at a root.
pub struct Paths {
    steps: Vec<Step>,
    pub path: Vec<u8>,
    pub node: u64,
    pub payload: Vec<u8>,
    root: Option<u64>,
}

impl Index {
    pub fn open(part: Part) -> Result<Index, Ending> {
        let file = File::open(part.file()).map_err(store_fault)?;
        let length = file.metadata().map_err(store_fault)?.len();
        Ok(Index { file, part, length, pages: vec![(u64::MAX, Vec::new()); KEPT] })
    }

    /// Up to so many bytes from a place on; less where the file ends.
    pub fn bytes(&mut self, at: u64, count: usize) -> Result<Vec<u8>, Ending> {
        let mut bytes = vec![0; count.min(self.length.saturating_sub(at) as usize)];
        self.file.read_exact_at(&mut bytes, at).map_err(store_fault)?;
        Ok(bytes)
    }

    fn page(&mut self, number: u64) -> Result<&[u8], Ending> {
        let slot = number as usize % KEPT;
        if self.pages[slot].0 != number {
            let bytes = self.bytes(number * PAGE, PAGE as usize)?;
            self.pages[slot] = (number, bytes);
        }
        Ok(&self.pages[slot].1)
    }
}

impl Paths {
    pub fn new(root: u64) -> Paths {
        Paths { steps: Vec::new(), path: Vec::new(), node: 0, payload: Vec::new(), root: Some(root) }
    }

    /// Goes to a node, and answers whether a path ends there.
    fn enter(&mut self, index: &mut Index, at: u64) -> Result<bool, Ending> {
        let part = index.part;
        let page = index.page(at / PAGE)?;
        let place = (at % PAGE) as usize;
        if place >= page.len() {
            return Err(damaged(part, at));
        }
        let view = parse_node(page, place, at).map_err(|_| damaged(part, at))?;
        let mut children: Vec<(u8, u64)> = view.children().map(|(byte, distance)| (byte, at - distance)).collect();
        children.reverse();
        self.node = at;
        self.payload.clear();
        self.payload.extend_from_slice(view.payload());
        self.steps.push(Step { children, depth: self.path.len() });
        Ok(!self.payload.is_empty())
    }

    /// Goes to the next path, where there is one.
    pub fn advance(&mut self, index: &mut Index) -> Result<bool, Ending> {
        if let Some(root) = self.root.take() {
            if self.enter(index, root)? {
                return Ok(true);
            }
        }
        while let Some(step) = self.steps.last_mut() {
            let depth = step.depth;
            match step.children.pop() {
                None => drop(self.steps.pop()),
                Some((byte, at)) => {
                    self.path.truncate(depth);
                    self.path.push(byte);
                    if self.enter(index, at)? {
                        return Ok(true);
                    }
                }
            }
        }
        Ok(false)
    }
}
