//! Images that the proved writer lays down from as long a row as fits.

use images::rows::{self, Row};

pub const MOST_NODES: usize = 65_536;
pub const NODE_SIZE: usize = 512;

pub struct Written {
    pub nodes: usize,
    pub row: Row,
    pub image: Vec<u8>,
}

impl Written {
    pub fn of(nodes: usize) -> Written {
        let row = rows::longest(nodes);
        let mut image = vec![0; nodes * NODE_SIZE];
        let verdict = hfs_btree::write_tree(&row.bytes, &mut image);
        assert_eq!(verdict.number, 0, "the longest row fits");
        Written { nodes, row, image }
    }
}
