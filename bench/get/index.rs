//! Searches in the tries of index files.

use crate::cursor::Pages;
use crate::damaged;
use crate::node_view::{View, parse_node};
use crate::peer::Ending;

/// An index file and its name in texts of damage.
pub struct Index {
    pages: Pages,
    name: &'static str,
}

/// The number in so many bytes, signed by their first bit.
fn signed(bytes: &[u8]) -> i64 {
    let first = if bytes.first().is_some_and(|byte| *byte >= 0x80) { -1 } else { 0 };
    bytes.iter().fold(first, |number, byte| number << 8 | i64::from(*byte))
}

fn number(bytes: &[u8]) -> u64 {
    bytes.iter().fold(0, |number, byte| number << 8 | u64::from(*byte))
}

/// What stands in the footer of Partitions.db.
pub struct Footer {
    pub partitions: u64,
    pub root: u64,
}

/// An entry of Rows.db.
pub struct Entry {
    pub string: Vec<u8>,
    pub data_at: u64,
    pub root: u64,
}

/// Where a search came to: the payload of the node, and the nearest subtree behind it.
pub struct Reached {
    pub payload: Option<i64>,
    pub behind: Option<u64>,
}

impl Index {
    pub fn open(file: &str, name: &'static str) -> Result<Index, Ending> {
        Ok(Index { pages: Pages::open(file)?, name })
    }

    fn node(&mut self, at: u64) -> Result<View<'_>, Ending> {
        let name = self.name;
        let (page, place) = self.pages.page(at)?;
        if place >= page.len() {
            return Err(damaged(name, at));
        }
        parse_node(page, place, at).map_err(|_| damaged(name, at))
    }

    pub fn footer(&mut self) -> Result<Footer, Ending> {
        let length = self.pages.length();
        let at = length.saturating_sub(24);
        let tail = self.pages.bytes(at, 24)?;
        if tail.len() < 24 || number(&tail[..8]) > at {
            return Err(damaged(self.name, at));
        }
        Ok(Footer { partitions: number(&tail[8..16]), root: number(&tail[16..]) })
    }

    pub fn entry(&mut self, at: u64) -> Result<Entry, Ending> {
        let length = number(&self.pages.bytes(at, 2)?) as usize;
        let bytes = self.pages.bytes(at + 2, length + 20)?;
        let (string, numbers) = bytes.split_at_checked(length).ok_or_else(|| damaged(self.name, at))?;
        if numbers.len() < 20 {
            return Err(damaged(self.name, at));
        }
        Ok(Entry { string: string.to_vec(), data_at: number(&numbers[..8]), root: number(&numbers[8..16]) })
    }

    /// The payload on the way of a key; none where the way ends before one.
    pub fn find(&mut self, root: u64, key: &[u8]) -> Result<Option<i64>, Ending> {
        let mut at = root;
        for byte in key {
            let node = self.node(at)?;
            if node.payload_len() > 0 {
                break;
            }
            match node.find(*byte) {
                Some(distance) => at -= distance,
                None => return Ok(None),
            }
        }
        let node = self.node(at)?;
        Ok((node.payload_len() > 0).then(|| signed(node.payload())))
    }

    /// The same with the nearest subtree whose keys are above the key's way.
    pub fn reach(&mut self, root: u64, key: &[u8]) -> Result<Reached, Ending> {
        let (mut at, mut behind) = (root, None);
        for byte in key {
            let node = self.node(at)?;
            if node.payload_len() > 0 {
                return Ok(Reached { payload: Some(signed(node.payload())), behind });
            }
            if let Some((_, distance)) = node.children().find(|child| child.0 > *byte) {
                behind = Some(at - distance);
            }
            match node.find(*byte) {
                Some(distance) => at -= distance,
                None => return Ok(Reached { payload: None, behind }),
            }
        }
        let node = self.node(at)?;
        let payload = (node.payload_len() > 0).then(|| signed(node.payload()));
        Ok(Reached { payload, behind })
    }

    /// The payload of the least key of a subtree.
    pub fn least(&mut self, root: u64) -> Result<i64, Ending> {
        let mut at = root;
        loop {
            let node = self.node(at)?;
            if node.payload_len() > 0 {
                return Ok(signed(node.payload()));
            }
            at -= node.children().next().map_or(0, |child| child.1);
        }
    }

    /// The payload, without a sign, of the greatest key that isn't above this one.
    pub fn floor(&mut self, root: u64, key: &[u8]) -> Result<Option<u64>, Ending> {
        let (mut at, mut best, mut below) = (root, None, None);
        let mut bytes = key.iter();
        loop {
            let node = self.node(at)?;
            if node.payload_len() > 0 {
                (best, below) = (Some(number(node.payload())), None);
            }
            let Some(byte) = bytes.next() else { break };
            if let Some((_, distance)) = node.children().take_while(|child| child.0 < *byte).last() {
                (best, below) = (None, Some(at - distance));
            }
            match node.find(*byte) {
                Some(distance) => at -= distance,
                None => break,
            }
        }
        match below {
            Some(at) => self.greatest(at).map(Some),
            None => Ok(best),
        }
    }

    /// The payload, without a sign, of the greatest key of a subtree.
    fn greatest(&mut self, root: u64) -> Result<u64, Ending> {
        let mut at = root;
        loop {
            let node = self.node(at)?;
            match node.children().last() {
                Some((_, distance)) => at -= distance,
                None => return Ok(number(node.payload())),
            }
        }
    }
}
