//! `block` on the sample volume: each block of a file begins with its own number.

use crate::common::answer::{place_fields, place_text};
use crate::common::json::{self, number, object, text, Value};
use crate::common::{extents, run, sample, scratch, Ran};
use reference::block::{Image, Mapping};
use std::fs;
use std::path::PathBuf;

const CATALOG: &str = "samples/volume_catalog_mended.img";

/// The name with 9A and 9F for two letters, as its file has it.
const BRIDGE: &str = "Höhen Brücke";
const BRIDGE_HEX: &str = "489a68656e2042729f636b65";

/// The volume and its two trees; the catalog is the mended one.
struct Volume {
    bytes: Vec<u8>,
    catalog: Vec<u8>,
    extents: Vec<u8>,
    extents_file: PathBuf,
}

impl Volume {
    /// With the extents file that `trees` cuts out.
    fn new(test: &str) -> Volume {
        let folder = scratch(test).join("trees");
        let words = ["trees", "samples/volume.img", folder.to_str().expect("the path is text")];
        assert_eq!(run(words).status, 0);
        let extents_file = folder.join("extents.img");
        Volume {
            bytes: sample("volume.img"),
            catalog: sample("volume_catalog_mended.img"),
            extents: fs::read(&extents_file).expect("the file is there"),
            extents_file,
        }
    }

    fn ask(&self, words: &[&str]) -> Ran {
        let extents = self.extents_file.to_str().expect("the path is text");
        run([&["block", CATALOG, extents], words].concat())
    }

    /// The 512 bytes of a volume block.
    fn block(&self, volume_block: u32) -> &[u8] {
        &self.bytes[2_048 + 512 * volume_block as usize..][..512]
    }

    fn mapping(&self, name: &[u8], fork: &str, block: u16) -> Mapping {
        let mut catalog_work = vec![0; reference::needed_work(self.catalog.len())];
        let mut extents_work = vec![0; reference::needed_work(self.extents.len())];
        let fork = match fork {
            "data" => 0x00,
            _ => 0xFF,
        };
        let (catalog, extents) = (&self.catalog, &self.extents);
        reference::block(
            catalog,
            &mut catalog_work,
            extents,
            &mut extents_work,
            2,
            name,
            fork,
            block,
        )
    }

    fn assert_covered(&self, name: &str, fork: &str, block: u16) -> u32 {
        let mapping = self.mapping(name.as_bytes(), fork, block);
        assert_eq!(mapping.number, 0, "{name} has block {block}");
        let words = ["2", name, fork, &block.to_string()].map(str::to_string);
        let words: Vec<&str> = words.iter().map(|word| &**word).collect();
        let Ran { status, out, err } = self.ask(&words);
        assert_eq!((status, &*out, &*err), (0, &*self.covered_text(&mapping), ""));
        let Ran { status, out, err } = self.ask(&[&words[..], &["--json"]].concat());
        assert_eq!((status, &*err), (0, ""));
        assert_eq!(json::read(out.trim_end()), self.covered_object(&mapping));
        mapping.volume_block
    }

    fn pairs(&self, mapping: &Mapping) -> Vec<[u32; 2]> {
        let image = match mapping.image {
            Image::Catalog => &self.catalog,
            Image::Extents => &self.extents,
        };
        extents::pairs(&image[mapping.part.clone()])
    }

    fn covered_text(&self, mapping: &Mapping) -> String {
        let record = match mapping.image {
            Image::Catalog => "the file's record in the catalog",
            Image::Extents => "an extents record",
        };
        format!(
            "volume block {}\ncovered by {record}: {}\nextents from byte {} on: {}\n",
            mapping.volume_block,
            place_text(mapping.place, 512),
            mapping.part.start,
            extents::shown(&self.pairs(mapping))
        )
    }

    fn covered_object(&self, mapping: &Mapping) -> Value {
        let image = match mapping.image {
            Image::Catalog => "catalog",
            Image::Extents => "extents",
        };
        let place = place_fields(mapping.place, 512);
        let fields = [
            ("answer", text("covered")),
            ("number", number(0u32)),
            ("volume_block", number(mapping.volume_block)),
            ("image", text(image)),
            ("extents_from", number(mapping.part.start as u64)),
            ("extents", extents::value(&self.pairs(mapping))),
        ];
        let place = place.iter().map(|(name, value)| (&**name, value.clone()));
        object(fields.into_iter().chain(place))
    }

    /// In words and for scripts there is no such thing, and the status is 1.
    fn assert_none(&self, words: &[&str], answer: &str, answer_number: u32) {
        let Ran { status, out, err } = self.ask(words);
        assert_eq!((status, out.lines().count(), &*err), (1, 1, ""), "{words:?}");
        assert!(out.starts_with(&format!("{answer}: ")), "{words:?}: {out}");
        let Ran { status, out, err } = self.ask(&[words, &["--json"]].concat());
        assert_eq!((status, &*err), (1, ""), "{words:?}");
        let object = json::read(out.trim_end());
        assert_eq!(object.field("answer"), &text(answer), "{words:?}");
        assert_eq!(object.field("number"), &number(answer_number), "{words:?}");
    }
}

#[test]
fn every_block_of_heights() {
    let volume = Volume::new("every_block_of_heights");
    let known = [(0, 26), (5, 39), (6, 45), (75, 286), (149, 163)];
    for block in 0..150 {
        let volume_block = volume.assert_covered("Heights", "data", block);
        let start = format!("block {block:04} of Heights\n");
        assert!(volume.block(volume_block).starts_with(start.as_bytes()), "{block}");
        if let Some((_, by_hand)) = known.iter().find(|(asked, _)| *asked == block) {
            assert_eq!(volume_block, *by_hand);
        }
    }
    volume.assert_none(&["2", "Heights", "data", "150"], "no such block", 17);
    volume.assert_none(&["2", "Heights", "data", "65535"], "no such block", 17);
    volume.assert_none(&["2", "Heights", "resource", "0"], "no such block", 17);
}

#[test]
fn every_block_of_a_resource_fork() {
    let volume = Volume::new("every_block_of_a_resource_fork");
    let name = "Levelling Sketches";
    let known = [(0, 173), (3, 185), (12, 233), (24, 281)];
    for block in 0..25 {
        let volume_block = volume.assert_covered(name, "resource", block);
        let start = format!("resource {block:04} of {name}\n");
        assert!(volume.block(volume_block).starts_with(start.as_bytes()), "{block}");
        if let Some((_, by_hand)) = known.iter().find(|(asked, _)| *asked == block) {
            assert_eq!(volume_block, *by_hand);
        }
    }
    volume.assert_none(&["2", name, "resource", "25"], "no such block", 17);
    volume.assert_none(&["2", name, "data", "1"], "no such block", 17);
}

#[test]
fn what_is_no_file() {
    let volume = Volume::new("what_is_no_file");
    volume.assert_none(&["2", "Register of 1995", "data", "0"], "no file", 24);
    volume.assert_none(&["2", "", "data", "0"], "no file", 24);
    volume.assert_none(&["2", "Depths", "data", "0"], "absent", 12);
    volume.assert_none(&["321", "Heights", "data", "0"], "absent", 12);
}

#[test]
fn a_name_in_another_case_or_by_its_bytes() {
    let volume = Volume::new("a_name_in_another_case_or_by_its_bytes");
    for block in ["0", "75", "149"] {
        let said = volume.ask(&["2", "Heights", "data", block]);
        assert_eq!(said.status, 0);
        assert_eq!(volume.ask(&["2", "hEIGHTS", "data", block]), said);
        let by_hex = ["--name-hex", "48656967687473", "2", "data", block];
        assert_eq!(volume.ask(&by_hex), said);
        let in_lower_case = ["--name-hex=68656967687473", "2", "data", block];
        assert_eq!(volume.ask(&in_lower_case), said);
    }
}

#[test]
fn a_name_with_letters_of_macroman() {
    let volume = Volume::new("a_name_with_letters_of_macroman");
    let said = volume.ask(&["2", BRIDGE, "data", "0"]);
    assert_eq!((said.status, &*said.err), (0, ""));
    assert_eq!(volume.ask(&["2", "data", "0", "--name-hex", BRIDGE_HEX]), said);
    let mapping = volume.mapping(b"H\x9Ahen Br\x9Fcke", "data", 0);
    assert_eq!(said.out, volume.covered_text(&mapping));
    assert!(volume.block(mapping.volume_block).starts_with(b"block 0000 of Hoehen Bruecke\n"));
    // The letter as two characters, as some systems write it, is none of MacRoman.
    let apart = volume.ask(&["2", "Ho\u{308}hen Bru\u{308}cke", "data", "0"]);
    assert_eq!((apart.status, &*apart.out, apart.err.lines().count()), (2, "", 1));
}
