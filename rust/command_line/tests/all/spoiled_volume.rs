//! Does `trees` cut nothing out of a volume whose extents tree has a fault?

use crate::common::{file_names, run, sample, scratch, Ran};
use crate::spoiling::{assert_names_the_fault, assert_says_neither, some_spoilings, spoiled};
use images::{build_with_records, Built, Format, Key, Plan, Record, Rng};
use std::ffi::OsStr;
use std::fs;
use std::ops::Range;
use std::path::Path;

/// Where the sample has its extents tree, all of it in one piece, and the length of it.
const EXTENTS: Range<usize> = 2_048..2_048 + 12 * 512;
const SIZE_AT: usize = 1_024 + 130;

/// Spoilings of each number.
const OF_EACH_NUMBER: usize = 12;

fn trees(folder: &Path, options: &[&str]) -> Ran {
    let [volume, out] = ["volume.img", "out"].map(|name| folder.join(name));
    let words = ["trees".as_ref(), volume.as_os_str(), out.as_os_str()];
    run(words.into_iter().chain(options.iter().map(OsStr::new)))
}

/// A tree of the generator with the records of the sample's own, in as many nodes.
fn same_records(folder: &Path) -> Built {
    let extents = folder.join("extents.img");
    fs::write(&extents, &sample("volume.img")[EXTENTS]).expect("a file");
    let listed = run(["list".as_ref(), extents.as_os_str()]);
    fs::remove_file(extents).expect("the file just made");
    let lines: Vec<&str> = listed.out.lines().collect();
    let records = lines[2..lines.len() - 1].iter().map(|line| record(line)).collect();
    let plan = Plan { map_nodes: 2, free_nodes: 5, ..Plan::untidy(12, &[1, 3]) };
    build_with_records(&plan, records)
}

fn record(line: &str) -> Record {
    let numbers: Vec<u32> =
        line.split(' ').map(|number| number.parse().expect("a number")).collect();
    let word = |&number: &u32| (number as u16).to_be_bytes();
    let data = numbers[3..].iter().flat_map(word).collect();
    Record { key: Key::new(numbers[0], numbers[1] as u8, numbers[2]), data }
}

/// Puts a volume with this extents tree into the folder; a longer one than it has room for is cut off.
fn put_volume(folder: &Path, extents: &[u8]) {
    let mut volume = sample("volume.img");
    let room = &mut volume[EXTENTS];
    let kept = extents.len().min(room.len());
    room[..kept].copy_from_slice(&extents[..kept]);
    volume[SIZE_AT..SIZE_AT + 4].copy_from_slice(&(extents.len() as u32).to_be_bytes());
    fs::write(folder.join("volume.img"), volume).expect("a file");
}

#[test]
fn nothing_is_cut_out_by_a_tree_with_a_fault() {
    let folder = scratch("spoiled_volume");
    let built = same_records(&folder);
    let mut rng = Rng::new(12);
    for spoiling in some_spoilings(&mut rng, &built, OF_EACH_NUMBER) {
        let image = spoiled(&built.image, &spoiling);
        put_volume(&folder, &image);
        let both = [&[][..], &["--json"]].map(|options| trees(&folder, options));
        for ran in &both {
            assert_says_neither(ran, 3, &spoiling.name());
            assert_eq!(file_names(&folder), ["volume.img"], "{}", spoiling.name());
        }
        // One that is too long has no pieces for its last bytes, and is refused for that.
        if image.len() <= EXTENTS.len() {
            assert!(both[0].out.starts_with("refused: extents tree: fault "), "{:?}", both[0]);
            assert_names_the_fault(&both, Format::HFS, &image, &spoiling);
        }
    }
}

#[test]
fn the_tree_alone_is_cut_out_as_it_is() {
    let folder = scratch("spoiled_volume_extents_only");
    let built = same_records(&folder);
    let mut rng = Rng::new(13);
    for spoiling in some_spoilings(&mut rng, &built, 1) {
        let image = spoiled(&built.image, &spoiling);
        if image.len() <= EXTENTS.len() {
            put_volume(&folder, &image);
            assert_says_neither(&trees(&folder, &["--extents-only"]), 0, &spoiling.name());
            assert_eq!(file_names(&folder.join("out")), ["extents.img"]);
            let cut = fs::read(folder.join("out/extents.img")).expect("a file");
            assert_eq!(cut, image, "{}", spoiling.name());
            fs::remove_dir_all(folder.join("out")).expect("the folder just made");
        }
    }
}

/// The sound tree of the generator leads to the same catalog as the sample's own.
#[test]
fn before_it_is_spoiled_both_are_cut_out() {
    let folder = scratch("unspoiled_volume");
    let built = same_records(&folder);
    let extents = [&built.image, &sample("volume.img")[EXTENTS]];
    let catalogs = extents.map(|extents| {
        put_volume(&folder, extents);
        let ran = trees(&folder, &[]);
        assert_eq!((ran.status, ran.err.as_str()), (0, ""), "{ran:?}");
        assert!(ran.out.starts_with("extents.img: sound, "), "{ran:?}");
        let cut = ["extents.img", "catalog.img"]
            .map(|name| fs::read(folder.join("out").join(name)).expect(name));
        fs::remove_dir_all(folder.join("out")).expect("the folder just made");
        assert_eq!(cut[0], extents);
        cut[1].clone()
    });
    assert_eq!(catalogs[0], catalogs[1]);
    assert_eq!(catalogs[0].len(), 102 * 512);
}
