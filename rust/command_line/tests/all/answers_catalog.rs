//! `find --catalog` and `salvage --catalog` answer as the reference does.

use crate::common::answer::{of_lookup, of_salvage, Expected};
use crate::common::json;
use crate::common::names::{decoded, hex};
use crate::common::{entry, run, sample};
use images::catalog::Key;
use reference::catalog::{leaf_records, lookup, salvage};

const NODE_SIZE: u32 = 512;

/// Up to so many keys of each catalog are asked for, each with others near it.
const MOST_KEYS: usize = 200;

const SAMPLES: [&str; 4] = [
    "catalog_cartridge.img",
    "catalog_three_level.img",
    "block_catalog.img",
    "volume_catalog_mended.img",
];

fn words_by_hex(command: &str, file: &str, key: &Key) -> Vec<String> {
    let name = format!("--name-hex={}", hex(&key.name));
    let file = format!("samples/{file}");
    [command, "--catalog", &name, &file, &key.parent.to_string()].map(str::to_string).into()
}

fn words_by_text(command: &str, file: &str, key: &Key) -> Vec<String> {
    let (file, name) = (format!("samples/{file}"), decoded(&key.name));
    // A name may begin with a dash.
    let words = [command, "--catalog", "--", &file, &key.parent.to_string(), &name];
    words.map(str::to_string).into()
}

/// No word of a command line can have the character 0.
fn can_be_text(key: &Key) -> bool {
    !key.name.contains(&0)
}

fn looked_up(image: &[u8], key: &Key) -> Expected {
    let mut work = vec![0; reference::needed_work(image.len())];
    let lookup = lookup(image, key.parent, &key.name, &mut work);
    of_lookup(&lookup, NODE_SIZE, |data| entry::shown(&image[data]))
}

fn salvaged(image: &[u8], key: &Key) -> Expected {
    let salvage = salvage(image, key.parent, &key.name);
    of_salvage(&salvage, NODE_SIZE, |data| entry::shown(&image[data]))
}

/// Keys from all of the leaf list.
fn keys(image: &[u8]) -> Vec<Key> {
    let records = leaf_records(image);
    let chosen = records.iter().step_by(records.len().div_ceil(MOST_KEYS).max(1));
    chosen.map(|record| Key::new(record.key.parent, record.key.name)).collect()
}

/// The next key up, the one that begins it, the same in another case, and the same of another parent.
fn beside(key: &Key) -> Vec<Key> {
    let last = key.name.last().copied().unwrap_or(0);
    let near = [
        key.twin(),
        key.next(),
        key.prefix(),
        key.with_last(last.wrapping_add(1)),
        key.with_last(last.wrapping_sub(1)),
    ];
    let parents = [key.parent.wrapping_add(1), key.parent.wrapping_sub(1)];
    let elsewhere = parents.map(|parent| Key { parent, ..key.clone() });
    near.into_iter().flatten().chain(elsewhere).collect()
}

#[test]
fn every_key_found_or_seen_by_text_and_hex() {
    for file in SAMPLES {
        let image = sample(file);
        for key in keys(&image) {
            let (found, seen) = (looked_up(&image, &key), salvaged(&image, &key));
            assert_eq!(found.status, 0, "{file} has {key:?}");
            found.assert_said(&words_by_hex("find", file, &key));
            seen.assert_said(&words_by_hex("salvage", file, &key));
            if can_be_text(&key) {
                found.assert_said(&words_by_text("find", file, &key));
                seen.assert_said(&words_by_text("salvage", file, &key));
            }
        }
    }
}

/// A salvage has no path, so that some of these keys are enough for it.
#[test]
fn keys_right_beside() {
    for file in SAMPLES {
        let image = sample(file);
        for (index, key) in keys(&image).iter().flat_map(beside).enumerate() {
            let words = match can_be_text(&key) {
                true => words_by_text,
                false => words_by_hex,
            };
            looked_up(&image, &key).assert_said(&words("find", file, &key));
            if index % 5 == 0 {
                salvaged(&image, &key).assert_said(&words("salvage", file, &key));
            }
        }
    }
}

/// By hand, from the bench: the directory Cartridge has the number 2, and a thread.
#[test]
fn the_words_by_hand() {
    let found = run(["find", "--catalog", "samples/catalog_cartridge.img", "2", ""]);
    let lines = "found at node 1, offset 100 (byte 612)\npath: 1\nkeys compared: 2\n\
                 kind: directory thread\nthread parent: 1\nthread name length: 9\nthread name: \"Cartridge\"\n";
    assert_eq!((found.status, &*found.out, &*found.err), (0, lines, ""));
    let seen = run(["salvage", "--catalog", "samples/catalog_cartridge.img", "2", ""]);
    let lines = "seen at node 1, offset 100 (byte 612)\n\
                 kind: directory thread\nthread parent: 1\nthread name length: 9\nthread name: \"Cartridge\"\n\
                 seen proves nothing: a freed node may hold an old record\n";
    assert_eq!((seen.status, &*seen.out, &*seen.err), (0, lines, ""));
}

/// 32 bytes are refused as number 11 before anything else.
#[test]
fn names_that_are_too_long() {
    let text = "n".repeat(32);
    for command in ["find", "salvage"] {
        let refused = run([command, "--catalog", "samples/catalog_cartridge.img", "2", &text]);
        assert_eq!(refused.status, 3);
        assert!(refused.out.starts_with("refused: number 11: "), "{}", refused.out);
        let words = [command, "--catalog", "samples/catalog_cartridge.img", "2", &text, "--json"];
        let object = json::read(run(words).out.trim_end());
        assert_eq!(object.field("answer"), &json::text("refused"));
        assert_eq!(object.field("number"), &json::number(11u32));
    }
}
