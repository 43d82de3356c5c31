//! `check` of a sound tree counts as the reference does.

use crate::common::json::{self, number, object, text};
use crate::common::{options, run, sample, Ran};
use images::{samples, Format, Tree};
use reference::{editions, Verdict};

/// What a sound tree has.
struct Summary {
    nodes: u32,
    free: u32,
    depth: u32,
    leaf_records: u32,
}

/// The reference's verdict, and how many nodes it leaves a bit for.
fn checked(format: Format, image: &[u8]) -> (Verdict, u32) {
    let node_size = format.node_size as u32;
    let mut work = vec![0; editions::needed_work(node_size, image.len())];
    let verdict = match format.tree {
        Tree::Catalog => reference::catalog::check(image, &mut work),
        Tree::Extents => editions::check(format.edition_number(), node_size, image, &mut work),
    };
    (verdict, work.iter().map(|byte| byte.count_ones()).sum())
}

fn plural_end(count: u32) -> &'static str {
    match count {
        1 => "",
        _ => "s",
    }
}

fn assert_sound(format: Format, path: &str, summary: &Summary) {
    let Summary { nodes, free, depth, leaf_records } = *summary;
    let (nodes_end, records_end) = (plural_end(nodes), plural_end(leaf_records));
    let line = format!(
        "sound: {nodes} node{nodes_end}, {free} free, depth {depth}, \
         {leaf_records} leaf record{records_end}\n"
    );
    let words = [vec!["check".to_string(), path.to_string()], options(format)].concat();
    assert_eq!(run(&words), Ran { status: 0, out: line, err: String::new() }, "{path}");

    let Ran { status, out, err } = run([words, vec!["--json".to_string()]].concat());
    assert_eq!((status, &*err), (0, ""), "{path}");
    let expected = object([
        ("answer", text("sound")),
        ("number", number(0u32)),
        ("nodes", number(nodes)),
        ("free_nodes", number(free)),
        ("depth", number(depth)),
        ("leaf_records", number(leaf_records)),
    ]);
    assert_eq!(json::read(out.trim_end()), expected, "{path}");
}

/// Nodes in use, depth and leaf records as the reference has them.
fn summary(format: Format, image: &[u8]) -> Summary {
    let (verdict, in_use) = checked(format, image);
    assert_eq!(verdict, Verdict::SOUND);
    let mut work = vec![0; reference::needed_work(image.len())];
    let (records, depth) = match format.tree {
        Tree::Catalog => {
            let records = reference::catalog::leaf_records(image);
            let key = records[0].key;
            let lookup = reference::catalog::lookup(image, key.parent, key.name, &mut work);
            (records.len(), lookup.path_len)
        }
        Tree::Extents => {
            let records = reference::leaf_records(image);
            let key = records[0].key;
            let lookup = reference::lookup(image, key.file, key.fork, key.start, &mut work);
            (records.len(), lookup.path_len)
        }
    };
    let nodes = (image.len() / 512) as u32;
    Summary { nodes, free: nodes - in_use, depth: depth as u32, leaf_records: records as u32 }
}

#[test]
fn sound_samples() {
    let extents = ["l1", "two_leaves", "three_level", "written_two_level", "block_extents"];
    let catalogs =
        ["catalog_cartridge", "catalog_three_level", "block_catalog", "volume_catalog_mended"];
    let extents = extents.map(|name| (Format::HFS, name));
    for (format, name) in extents.into_iter().chain(catalogs.map(|name| (Format::CATALOG, name))) {
        let file = format!("{name}.img");
        let summary = summary(format, &sample(&file));
        assert_sound(format, &format!("samples/{file}"), &summary);
    }
}

#[test]
fn a_sound_sample_of_hfs_plus() {
    let built = samples::two_level_plus();
    assert!(sample("plus_4096_two_level.img") == built.image);
    let summary = Summary {
        nodes: built.total(),
        free: built.free.len() as u32,
        depth: built.depth() as u32,
        leaf_records: built.records.len() as u32,
    };
    assert_sound(built.format, "samples/plus_4096_two_level.img", &summary);
}
