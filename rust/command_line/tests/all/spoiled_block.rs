//! Does `block` name no block where one of its two trees has a fault?

use crate::common::{run, scratch, Ran};
use crate::spoiling::{
    assert_names_the_fault, assert_says_neither, fork_word, some_spoilings, spoiled, Given,
};
use images::spoil::Spoiling;
use images::volume::{samples, FileFork, Volume};
use images::{Format, Rng};
use std::ffi::OsString;
use std::fs;
use std::path::{Path, PathBuf};

/// Spoilings of each number in each tree.
const OF_EACH_NUMBER: usize = 4;

/// The two files, and a block of a fork to ask for.
struct Asked {
    catalog: PathBuf,
    extents: PathBuf,
    key: Vec<String>,
    fork: &'static str,
}

impl Asked {
    fn new(folder: &Path, FileFork { key, fork_byte, .. }: &FileFork, is_there: bool) -> Asked {
        let key = if is_there { key.words() } else { key.beside().words() };
        let [catalog, extents] = ["catalog.img", "extents.img"].map(|name| folder.join(name));
        Asked { catalog, extents, key, fork: fork_word(*fork_byte) }
    }

    fn run(&self, block: u32) -> [Ran; 2] {
        [None, Some("--json")].map(|json| {
            let mut words: Vec<OsString> = vec!["block".into()];
            words.extend([&self.catalog, &self.extents].map(Into::into));
            words.extend(self.key.iter().map(Into::into));
            words.extend([self.fork.to_string(), block.to_string()].map(Into::into));
            run(words.into_iter().chain(json.map(Into::into)))
        })
    }

    /// The answers of two sound trees.
    fn ask_sound(&self, is_there: bool) {
        let (status, said) = if is_there { (0, "volume") } else { (1, "absent") };
        for ran in self.run(0) {
            assert_eq!((ran.status, ran.err.as_str()), (status, ""), "{ran:?}");
            assert!(ran.out.contains(said), "{ran:?}");
        }
    }
}

/// A fork whose first block is covered.
fn chosen(rng: &mut Rng, volume: &Volume) -> FileFork {
    volume.forks[rng.index(volume.forks.len())].clone()
}

fn assert_refuses(asked: &Asked, tree: &str, format: Format, image: &[u8], spoiling: &Spoiling) {
    for block in [0, 65_535] {
        let both = asked.run(block);
        both.iter().for_each(|ran| assert_says_neither(ran, 3, &spoiling.name()));
        assert!(both[0].out.starts_with(&format!("refused: {tree} tree: fault ")), "{:?}", both[0]);
        let named = format!("{{\"answer\":\"refused\",\"image\":\"{tree}\",");
        assert!(both[1].out.starts_with(&named), "{:?}", both[1]);
        assert_names_the_fault(&both, format, image, spoiling);
    }
}

#[test]
fn one_tree_sound_and_the_other_not() {
    let folder = scratch("spoiled_block");
    let volume = samples::regular();
    let mut rng = Rng::new(11);
    let [catalog, extents] = ["catalog.img", "extents.img"].map(|name| folder.join(name));
    fs::write(&catalog, &volume.catalog.image).expect("a file");
    fs::write(&extents, &volume.extents.image).expect("a file");
    for is_there in [true, false] {
        Asked::new(&folder, &chosen(&mut rng, &volume), is_there).ask_sound(is_there);
    }
    for spoiling in some_spoilings(&mut rng, &volume.catalog, OF_EACH_NUMBER) {
        let asked = Asked::new(&folder, &chosen(&mut rng, &volume), rng.flip());
        let image = spoiled(&volume.catalog.image, &spoiling);
        fs::write(&catalog, &image).expect("a file");
        assert_refuses(&asked, "catalog", Format::CATALOG, &image, &spoiling);
    }
    fs::write(&catalog, &volume.catalog.image).expect("a file");
    for spoiling in some_spoilings(&mut rng, &volume.extents, OF_EACH_NUMBER) {
        let asked = Asked::new(&folder, &chosen(&mut rng, &volume), rng.flip());
        let image = spoiled(&volume.extents.image, &spoiling);
        fs::write(&extents, &image).expect("a file");
        assert_refuses(&asked, "extents", Format::HFS, &image, &spoiling);
    }
}
