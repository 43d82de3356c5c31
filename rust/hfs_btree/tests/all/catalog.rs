//! Small catalogs, with the answers that the rules have for them.

use hfs_btree::catalog::{
    needed_work, salvage, Answer, Data, Directory, Entry, Extent, File, Fork, Lookup, Place,
    Salvage, SalvageAnswer, Verdict,
};
use images::catalog::bench::{
    cartridge, cartridge_with_back_link_1, case_twins, empty_tree, full_leaf, index_with,
    leaf_with, two_leaves, two_leaves_with_pointer, two_names,
};
use images::catalog::Key;
use images::{bench, bench_plus};

/// With just the needed working bytes.
fn check(image: &[u8]) -> Verdict {
    hfs_btree::catalog::check(image, &mut vec![0xA5; needed_work(image.len())])
}

fn lookup(image: &[u8], parent: u32, name: &[u8]) -> Lookup {
    hfs_btree::catalog::lookup(image, parent, name, &mut vec![0xA5; needed_work(image.len())])
}

fn at(node: u32, offset: u32) -> Place {
    Place { node, offset }
}

fn verdict(number: u32, node: u32, offset: u32) -> Verdict {
    Verdict { number, place: at(node, offset) }
}

const SOUND: Verdict = Verdict { number: 0, place: Place { node: 0, offset: 0 } };

fn without_data(answer: Answer, compared: u32, nodes: &[u32]) -> Lookup {
    let mut path = [0; 8];
    path[..nodes.len()].copy_from_slice(nodes);
    Lookup { answer, compared, path, path_len: nodes.len() as u32, data: Data::NONE }
}

fn refused(number: u32, node: u32, offset: u32) -> Lookup {
    without_data(Answer::Refused { number, place: at(node, offset) }, 0, &[])
}

fn found_at(offset: u32) -> Answer {
    Answer::Found { place: at(1, offset) }
}

const NO_EXTENT: Extent = Extent { first_block: 0, block_count: 0 };
const NO_FORK: Fork =
    Fork { first_block: 0, logical_length: 0, physical_length: 0, first_extents: [NO_EXTENT; 3] };

fn root_directory() -> Entry {
    Entry::Directory(Directory {
        flags: 0,
        valence: 1,
        directory_id: 2,
        created: 0,
        modified: 0,
        backed_up: 0,
        finder_info: [0; 16],
        more_finder_info: [0; 16],
    })
}

fn heights() -> Entry {
    let extent = |(first_block, block_count)| Extent { first_block, block_count };
    Entry::File(File {
        flags: 0,
        file_type: 0,
        finder_info: [0; 16],
        file_id: 16,
        data_fork: Fork {
            first_block: 20,
            logical_length: 4_000,
            physical_length: 4_096,
            first_extents: [(20, 2), (30, 2), (40, 1)].map(extent),
        },
        resource_fork: NO_FORK,
        created: 0,
        modified: 0,
        backed_up: 0,
        more_finder_info: [0; 16],
        clump_size: 0,
    })
}

#[test]
fn three_records() {
    let image = cartridge();
    assert_eq!(check(&image), SOUND);
    // Of three keys the second is compared first, then one of the others.
    let directory = lookup(&image, 1, b"Cartridge");
    assert_eq!((directory.answer, directory.compared), (found_at(14), 2));
    assert_eq!((directory.path, directory.path_len), ([1, 0, 0, 0, 0, 0, 0, 0], 1));
    assert_eq!((directory.data.len(), directory.data.data_type()), (70, 1));
    assert_eq!(directory.data.entry(), Some(root_directory()));
    let file = lookup(&image, 2, b"Heights");
    assert_eq!((file.answer, file.compared), (found_at(154), 2));
    assert_eq!((file.data.len(), file.data.data_type()), (102, 2));
    assert_eq!(file.data.entry(), Some(heights()));
    let thread = lookup(&image, 2, b"");
    assert_eq!((thread.answer, thread.compared), (found_at(100), 2));
    assert_eq!((thread.data.len(), thread.data.data_type()), (46, 3));
    let Some(Entry::DirectoryThread(thread)) = thread.data.entry() else {
        panic!("{:?} is no thread of a directory", thread.data);
    };
    assert_eq!((thread.parent_id, thread.name()), (1, &b"Cartridge"[..]));
}

#[test]
fn names_in_any_case() {
    for name in [&b"heights"[..], b"HEIGHTS", b"hEIGHTs"] {
        assert_eq!(lookup(&cartridge(), 2, name), lookup(&cartridge(), 2, b"Heights"));
        assert_eq!(salvage(&cartridge(), 2, name), salvage(&cartridge(), 2, b"Heights"));
    }
    // A prefix is another name, and so is what it begins.
    for name in [&b"Height"[..], b"Heights\0", b"Heighty", b"heightr"] {
        assert_eq!(lookup(&cartridge(), 2, name).answer, Answer::Absent { node: 1 });
        assert_eq!(salvage(&cartridge(), 2, name).answer, SalvageAnswer::NotSeen);
    }
    assert_eq!(lookup(&cartridge(), 0x8000_0002, b"Heights").answer, Answer::Absent { node: 1 });
    assert_eq!(check(&case_twins([2, 3])), SOUND);
    assert_eq!(lookup(&case_twins([2, 3]), 3, b"Heights").answer, found_at(98));
    assert_eq!(check(&case_twins([2, 2])), verdict(6, 1, 98));
    // The top bit of a parent is no sign.
    assert_eq!(check(&case_twins([1, 0x8000_0000])), SOUND);
    assert_eq!(check(&case_twins([0x8000_0000, 1])), verdict(6, 1, 98));
}

#[test]
fn the_order_of_names() {
    // A name that begins another is below it; a to z weigh as A to Z, and less than the bytes between.
    let in_order: [[&[u8]; 2]; 6] =
        [[b"", b"\0"], [b"ab", b"abc"], [b"a", b"B"], [b"A", b"b"], [b"Z", b"["], [b"z", b"["]];
    for [low, high] in in_order {
        assert_eq!(check(&two_names([low, high])), SOUND, "{low:?} {high:?}");
        let second = 14 + ((7 + high.len() as u32).next_multiple_of(2) + 70);
        assert_eq!(check(&two_names([high, low])), verdict(6, 1, second), "{high:?} {low:?}");
    }
}

#[test]
fn long_names() {
    let image = cartridge();
    assert_eq!(lookup(&image, 2, &[b'n'; 31]).answer, Answer::Absent { node: 1 });
    let not_seen = Salvage { answer: SalvageAnswer::NotSeen, data: Data::NONE };
    assert_eq!(salvage(&image, 2, &[b'n'; 31]), not_seen);
    let answer = SalvageAnswer::Refused { number: 11, place: at(0, 0) };
    // Before a wrong length, too few working bytes and a fault of the image.
    for image in [&image[..], &cartridge_with_back_link_1(), &[0; 511], &[]] {
        for len in [32, 33, 255, 256, 287, 65_536] {
            let name = vec![b'n'; len];
            assert_eq!(hfs_btree::catalog::lookup(image, 2, &name, &mut []), refused(11, 0, 0));
            assert_eq!(salvage(image, 2, &name), Salvage { answer, data: Data::NONE });
        }
    }
}

#[test]
fn faults() {
    assert_eq!(check(&cartridge_with_back_link_1()), verdict(7, 1, 4));
    assert_eq!(lookup(&cartridge_with_back_link_1(), 2, b"Heights"), refused(7, 1, 4));
    let changed = |at: usize, byte: u8| {
        let mut image = cartridge();
        image[at] = byte;
        check(&image)
    };
    // The length byte counts the pad; types that there are not; a file of 70 bytes.
    assert_eq!(changed(512 + 100, 7), verdict(5, 1, 0));
    assert_eq!(changed(512 + 14 + 16, 0), verdict(5, 1, 0));
    assert_eq!(changed(512 + 14 + 16, 5), verdict(5, 1, 0));
    assert_eq!(changed(512 + 14 + 16, 2), verdict(5, 1, 0));
    // The reserved byte of the first key, and the pad of the second.
    assert_eq!(changed(512 + 14 + 1, 0xA5), SOUND);
    assert_eq!(changed(512 + 100 + 7, 0xA5), SOUND);
    // The key length of an extents tree.
    assert_eq!(changed(35, 7), verdict(2, 0, 0));
}

#[test]
fn the_other_tree_meant() {
    for image in [bench::l1(), bench::two_leaves(), bench::e1(), bench_plus::l1()] {
        assert_eq!(check(&image), verdict(2, 0, 0));
    }
    for image in [cartridge(), empty_tree(1)] {
        assert_eq!(hfs_btree::check(&image, &mut [0]).number, 2);
    }
    assert_eq!(check(&empty_tree(1)), SOUND);
    let absent = without_data(Answer::Absent { node: 0 }, 0, &[]);
    assert_eq!(lookup(&empty_tree(1), 2, b"Heights"), absent);
}

#[test]
fn full_nodes_and_one_record_more() {
    assert_eq!(check(&leaf_with(8)), SOUND);
    assert_eq!(check(&leaf_with(9)), verdict(5, 1, 0));
    assert_eq!(check(&index_with(11)), SOUND);
    assert_eq!(check(&index_with(12)), verdict(5, 1, 0));
    // Up to the offset words, and two bytes into them.
    assert_eq!(check(&full_leaf(7)), SOUND);
    assert_eq!(check(&full_leaf(8)), verdict(5, 1, 0));
    // Of 8 keys below all of them: 8, 4, 2, 1 are left; above all: 8, 3, 1.
    assert_eq!(lookup(&leaf_with(8), 0, b"").compared, 4);
    assert_eq!(lookup(&leaf_with(8), 24, b"").compared, 3);
    // Of 11 pointers below all of them: 11, 5, 2, 1 are left, and no leaf is read.
    assert_eq!(lookup(&index_with(11), 0, b""), without_data(Answer::Absent { node: 1 }, 4, &[1]));
}

#[test]
fn two_levels() {
    assert_eq!(check(&two_leaves()), SOUND);
    let found = lookup(&two_leaves(), 2, b"DOGS");
    // Two keys in the root and two in leaf 3: of two the later is compared first, and none is left.
    assert_eq!((found.compared, &found.path[..3]), (1 + 1, &[1, 3, 0][..]));
    // The key of cows takes 7 + 4 bytes and a pad, and its data 70.
    assert_eq!(found.answer, Answer::Found { place: at(3, 14 + 12 + 70) });
    let below = lookup(&two_leaves(), 2, b"Antlers");
    assert_eq!(below, without_data(Answer::Absent { node: 1 }, 2, &[1]));
}

#[test]
fn pointers() {
    let in_other_case = two_leaves_with_pointer(&Key::new(2, b"COWS"));
    assert_eq!(check(&in_other_case), SOUND);
    assert_eq!(lookup(&in_other_case, 2, b"cows"), lookup(&two_leaves(), 2, b"cows"));
    for other in [&b"cow"[..], b"cows\0", b"cowr", b"coxs"] {
        let image = two_leaves_with_pointer(&Key::new(2, other));
        assert_eq!(check(&image), verdict(6, 3, 14), "{other:?}");
    }
}

#[test]
fn salvages() {
    let answer = SalvageAnswer::Seen { place: at(1, 154) };
    let seen = salvage(&cartridge_with_back_link_1(), 2, b"HEIGHTS");
    assert_eq!((seen.answer, seen.data.entry()), (answer, Some(heights())));
    // A broken last node is left out.
    assert_eq!(salvage(&cartridge()[..1_023], 2, b"Heights").answer, SalvageAnswer::NotSeen);
    let too_long = vec![0; 33_554_433];
    let answer = SalvageAnswer::Refused { number: 1, place: at(0, 0) };
    assert_eq!(salvage(&too_long, 2, b"Heights"), Salvage { answer, data: Data::NONE });
    // Twins in one leaf are no leaf that counts.
    assert_eq!(salvage(&case_twins([2, 2]), 2, b"Heights").answer, SalvageAnswer::NotSeen);
}

#[test]
fn working_bytes() {
    let left = |image: &[u8], lent: &[u8]| {
        let mut work = lent.to_vec();
        let number = hfs_btree::catalog::check(image, &mut work).number;
        (number, work)
    };
    assert_eq!(left(&cartridge(), &[0x2A, 0x2B]), (0, vec![0xC0, 0x2B]));
    assert_eq!(left(&cartridge_with_back_link_1(), &[0x2A, 0x2B]), (7, vec![0x00, 0x2B]));
    assert_eq!(left(&cartridge(), &[]), (16, vec![]));
    assert_eq!(left(&[0; 511], &[0x2A]), (1, vec![0x2A]));
    let mut work = [0x2A, 0x2B];
    hfs_btree::catalog::lookup(&cartridge(), 2, &[0; 32], &mut work);
    assert_eq!(work, [0x2A, 0x2B]);
    hfs_btree::catalog::lookup(&cartridge(), 2, b"none", &mut work);
    assert_eq!(work, [0xC0, 0x2B]);
}
