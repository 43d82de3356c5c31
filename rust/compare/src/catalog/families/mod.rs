//! The catalogs that are compared, by kind.

mod any_bytes;
mod bench;
mod large;
mod lengths;
mod map_nodes;
mod other_trees;
mod single_bytes;
mod sound;
mod spoiled;

use super::comparison::CatalogComparison;

/// A kind of catalogs, with what makes and compares them from a seed.
pub struct CatalogFamily {
    pub name: &'static str,
    pub run: fn(&mut CatalogComparison, u64),
}

/// Every kind, those that take longest first.
pub const CATALOG_FAMILIES: [CatalogFamily; 13] = [
    CatalogFamily { name: "catalog_one_byte_any_value", run: single_bytes::any_value },
    CatalogFamily { name: "catalog_one_byte_some_values", run: single_bytes::some_values },
    CatalogFamily { name: "catalog_spoiled_by_the_table", run: spoiled::by_the_table },
    CatalogFamily { name: "catalog_spoiled_at_random", run: spoiled::at_random },
    CatalogFamily { name: "catalog_largest", run: large::largest },
    CatalogFamily { name: "catalog_large_spoiled", run: large::spoiled },
    CatalogFamily { name: "catalog_sound", run: sound::random },
    CatalogFamily { name: "catalog_deep", run: sound::deep },
    CatalogFamily { name: "catalog_lengths", run: lengths::lengths },
    CatalogFamily { name: "catalog_other_trees", run: other_trees::other_trees },
    CatalogFamily { name: "catalog_any_bytes", run: any_bytes::any_bytes },
    CatalogFamily { name: "catalog_needed_map_nodes", run: map_nodes::needed },
    CatalogFamily { name: "catalog_bench", run: bench::bench },
];
