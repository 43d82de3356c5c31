//! The images of the bench that every format has.

use images::{bench, bench_plus, Edition, Format};

pub fn empty_tree(format: Format, total: u32) -> Vec<u8> {
    match format.edition {
        Edition::Hfs => bench::empty_tree(total),
        Edition::HfsPlus => bench_plus::empty_tree(format.node_size, total),
    }
}

pub fn l1(format: Format) -> Vec<u8> {
    match format.edition {
        Edition::Hfs => bench::l1(),
        Edition::HfsPlus => bench_plus::l1_in(format.node_size),
    }
}

pub fn leaf_with(format: Format, count: usize) -> Vec<u8> {
    match format.edition {
        Edition::Hfs => bench::leaf_with(count),
        Edition::HfsPlus => bench_plus::leaf_with(format.node_size, count),
    }
}

pub fn index_with(format: Format, count: usize) -> Vec<u8> {
    match format.edition {
        Edition::Hfs => bench::index_with(count),
        Edition::HfsPlus => bench_plus::index_with(format.node_size, count),
    }
}

pub fn map_node_linked_to_itself(format: Format) -> Vec<u8> {
    match format.edition {
        Edition::Hfs => bench::map_node_linked_to_itself(),
        Edition::HfsPlus => bench_plus::map_node_linked_to_itself(format.node_size),
    }
}
