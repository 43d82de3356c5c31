//! Catalogs written byte by byte, with the numbers and places that the request's words have for them.

use reference::catalog::{self, leaf_records, Key, WEIGHTS};
use reference::{Answer, Lookup, Place, SalvageAnswer, Verdict};

/// A header and one leaf: the root directory, its thread and one file.
const ROOT: (u32, &[u8]) = (1, b"Cartridge");
const THREAD: (u32, &[u8]) = (2, b"");
const FILE: (u32, &[u8]) = (2, b"Heights");

fn put(image: &mut [u8], at: usize, bytes: &[u8]) {
    image[at..at + bytes.len()].copy_from_slice(bytes);
}

/// Depth, root, leaf records, first and last leaf, node size 512, key length 37, total and free nodes.
fn header(depth: u8, records: u8, leaves: [u8; 2], total: u8, free: u8, bits: u8) -> Vec<u8> {
    let mut node = vec![0; 512];
    put(&mut node, 8, &[0x01, 0, 0, 3]);
    let root = u8::from(depth > 0);
    put(&mut node, 14, &[0, depth, 0, 0, 0, root, 0, 0, 0, records]);
    put(&mut node, 24, &[0, 0, 0, leaves[0], 0, 0, 0, leaves[1]]);
    put(&mut node, 32, &[0x02, 0x00, 0, 37, 0, 0, 0, total, 0, 0, 0, free]);
    node[0xF8] = bits;
    put(&mut node, 504, &[0x01, 0xF8, 0x00, 0xF8, 0x00, 0x78, 0x00, 0x0E]);
    node
}

/// A leaf whose records start at these offsets, the free space at the last of them.
fn leaf(offsets: &[u16], records: &[&[u8]]) -> Vec<u8> {
    let mut node = vec![0; 512];
    put(&mut node, 8, &[0xFF, 1, 0, records.len() as u8]);
    for (&at, record) in offsets.iter().zip(records) {
        put(&mut node, at.into(), record);
    }
    for (index, offset) in offsets.iter().enumerate() {
        put(&mut node, 510 - 2 * index, &offset.to_be_bytes());
    }
    node
}

/// A leaf key: its length is 6 plus the name length.
fn leaf_key(parent: u32, name: &[u8]) -> Vec<u8> {
    let n = name.len() as u8;
    let mut key = vec![6 + n, 0];
    key.extend(parent.to_be_bytes());
    key.push(n);
    key.extend(name);
    key
}

/// Data of which only the type is not zero.
fn data(data_type: u8) -> Vec<u8> {
    let size = [70, 102, 46, 46][usize::from(data_type) - 1];
    let mut data = vec![0; size];
    data[0] = data_type;
    data
}

fn one_leaf(records: u8, leaf: Vec<u8>) -> Vec<u8> {
    [header(1, records, [1, 1], 2, 0, 0xC0), leaf].concat()
}

/// Records at 14, 100 and 154, and the free space at 270.
///
/// The keys take 7 + 9, 7 + 0 with a pad, and 7 + 7 bytes, the data 70, 46 and 102.
fn cartridge() -> Vec<u8> {
    let root = [leaf_key(ROOT.0, ROOT.1), data(1)].concat();
    let thread = [leaf_key(THREAD.0, THREAD.1), vec![0], data(3)].concat();
    let file = [leaf_key(FILE.0, FILE.1), data(2)].concat();
    one_leaf(3, leaf(&[14, 100, 154, 270], &[&root, &thread, &file]))
}

fn check(image: &[u8]) -> (u32, u32, u32) {
    let Verdict { number, place } = catalog::check(image, &mut [0xA5; 2]);
    (number, place.node, place.offset)
}

fn lookup(image: &[u8], (parent, name): (u32, &[u8])) -> Lookup {
    catalog::lookup(image, parent, name, &mut [0xA5; 2])
}

const SOUND: (u32, u32, u32) = (0, 0, 0);

#[track_caller]
fn changed(patches: &[(usize, &[u8])], said: (u32, u32, u32)) {
    let mut image = cartridge();
    for (at, bytes) in patches {
        put(&mut image, *at, bytes);
    }
    assert_eq!(check(&image), said);
}

#[test]
fn three_records() {
    let image = cartridge();
    assert_eq!(check(&image), SOUND);
    for (asked, start, data) in
        [(ROOT, 14, 30..100), (THREAD, 100, 108..154), (FILE, 154, 168..270)]
    {
        let found = lookup(&image, asked);
        let place = Place { node: 1, offset: start };
        assert_eq!(found.answer, Answer::Found { place });
        assert_eq!(found.data, Some(512 + data.start..512 + data.end));
        assert_eq!((found.path, found.path_len), ([1, 0, 0, 0, 0, 0, 0, 0], 1));
        // Of three the second is compared first, then the first or the third.
        assert_eq!(found.compared, 2);
        let seen = catalog::salvage(&image, asked.0, asked.1);
        assert_eq!((seen.answer, seen.data), (SalvageAnswer::Seen { place }, found.data));
    }
    let listed: Vec<(u32, u32, u32, usize)> = leaf_records(&image)
        .iter()
        .map(|listed| (listed.node, listed.record, listed.start, listed.data.len()))
        .collect();
    assert_eq!(listed, [(1, 0, 14, 70), (1, 1, 100, 46), (1, 2, 154, 102)]);
}

#[test]
fn keys_that_are_not_there() {
    let image = cartridge();
    for asked in [(0, &b""[..]), (1, b""), (2, b"Height"), (2, b"Heights "), (3, b""), (1, b"cart")]
    {
        let absent = lookup(&image, asked);
        assert_eq!((absent.answer, absent.data), (Answer::Absent { node: 1 }, None), "{asked:?}");
    }
    let empty = header(0, 0, [0, 0], 1, 0, 0x80);
    assert_eq!(check(&empty), SOUND);
    let absent = lookup(&empty, FILE);
    assert_eq!((absent.answer, absent.path_len), (Answer::Absent { node: 0 }, 0));
}

#[test]
fn case_is_not_told_apart() {
    for name in [&b"HEIGHTS"[..], b"heights", b"hEiGhTs"] {
        assert_eq!(lookup(&cartridge(), (2, name)), lookup(&cartridge(), FILE));
    }
    // 8A and 80 are a with a diaeresis, small and capital.
    let image = |byte: u8| {
        let record = [leaf_key(2, &[byte]), data(1)].concat();
        one_leaf(1, leaf(&[14, 92], &[&record]))
    };
    assert_eq!(
        lookup(&image(0x8A), (2, &[0x80])).answer,
        lookup(&image(0x80), (2, &[0x80])).answer
    );
}

#[test]
fn names_above_31_bytes() {
    let refused = Answer::Refused { number: 11, place: Place { node: 0, offset: 0 } };
    // Before the length of the image and before too few working bytes.
    for image in [&cartridge()[..], &[0; 511], &[]] {
        let mut work = [0x2A];
        for len in [32, 255, 256, 256 + 7] {
            let said = catalog::lookup(image, 2, &vec![b'n'; len], &mut work[..0]);
            assert_eq!((said.answer, said.compared, said.path_len), (refused, 0, 0));
            catalog::lookup(image, 2, &vec![b'n'; len], &mut work);
            let said = catalog::salvage(image, 2, &vec![b'n'; len]).answer;
            let place = Place { node: 0, offset: 0 };
            assert_eq!(said, SalvageAnswer::Refused { number: 11, place });
        }
        assert_eq!(work, [0x2A]);
    }
    assert_eq!(lookup(&cartridge(), (2, &[b'n'; 31])).answer, Answer::Absent { node: 1 });
}

#[test]
fn header_key_length() {
    changed(&[(34, &[0, 7])], (2, 0, 0));
    changed(&[(34, &[0, 36])], (2, 0, 0));
    changed(&[(34, &[1, 37])], (2, 0, 0));
}

#[test]
fn leaf_keys() {
    let (first, thread, file) = (512 + 14, 512 + 100, 512 + 154);
    // The length byte is 6 plus the name length, so it counts neither itself nor a pad.
    changed(&[(thread, &[7])], (5, 1, 0));
    changed(&[(thread, &[5])], (5, 1, 0));
    changed(&[(file, &[14])], (5, 1, 0));
    changed(&[(first, &[37])], (5, 1, 0));
    // The name length alone.
    changed(&[(file + 6, &[6])], (5, 1, 0));
    changed(&[(file + 6, &[8])], (5, 1, 0));
    changed(&[(file + 6, &[0xFF])], (5, 1, 0));
    // The pad becomes a byte of the name, which is a key of its own.
    changed(&[(thread, &[7]), (thread + 6, &[1])], SOUND);
    // The reserved byte and the pad are not judged.
    changed(&[(first + 1, &[0xA5]), (thread + 1, &[0xA5]), (thread + 7, &[0xA5])], SOUND);
    // Another parent: out of order.
    changed(&[(first + 2, &[0, 0, 0, 2])], (6, 1, 100));
    changed(&[(first + 2, &[0x80, 0, 0, 0])], (6, 1, 100));
    changed(&[(file + 2, &[0x80, 0, 0, 0])], SOUND);
    changed(&[(file + 2, &[0, 0, 0, 1])], (6, 1, 154));
}

#[test]
fn types() {
    let (root, thread, file) = (512 + 30, 512 + 108, 512 + 168);
    for wrong in [0, 5, 0x81, 0xFF] {
        for at in [root, thread, file] {
            changed(&[(at, &[wrong])], (5, 1, 0));
        }
    }
    // A file of 70 bytes, a directory of 102, threads of other sizes.
    for wrong in [2, 3, 4] {
        changed(&[(root, &[wrong])], (5, 1, 0));
    }
    for wrong in [1, 3, 4] {
        changed(&[(file, &[wrong])], (5, 1, 0));
    }
    for wrong in [1, 2] {
        changed(&[(thread, &[wrong])], (5, 1, 0));
    }
    // Both threads have 46 bytes, and the byte after the type is reserved.
    changed(&[(thread, &[4])], SOUND);
    changed(&[(root + 1, &[2]), (file + 1, &[1]), (thread + 1, &[0xFF])], SOUND);
}

#[test]
fn offset_words() {
    // 270, 154, 100 and 14, from 504 on.
    for (at, wrong) in [(504, 272), (504, 268), (506, 156), (506, 153), (508, 98), (508, 101)] {
        changed(&[(512 + at, &u16::to_be_bytes(wrong))], (5, 1, 0));
    }
    changed(&[(512 + 510, &[0, 16])], (5, 1, 0));
    // Without the last record its offset is that of the free space, but the header counts it.
    changed(&[(512 + 10, &[0, 2])], (8, 0, 0));
    changed(&[(512 + 10, &[0, 4])], (5, 1, 0));
    changed(&[(512 + 10, &[0, 0])], (5, 1, 0));
}

#[test]
fn data_start_on_an_even_offset() {
    // Without the pad the thread's data start at 107, and the file at 153.
    let root = [leaf_key(ROOT.0, ROOT.1), data(1)].concat();
    let thread = [leaf_key(THREAD.0, THREAD.1), data(3)].concat();
    let file = [leaf_key(FILE.0, FILE.1), data(2)].concat();
    let image = one_leaf(3, leaf(&[14, 100, 153, 269], &[&root, &thread, &file]));
    assert_eq!(check(&image), (5, 1, 0));
    // A pad where the key takes an even number of bytes already.
    let root = [leaf_key(ROOT.0, ROOT.1), vec![0, 0], data(1)].concat();
    assert_eq!(check(&one_leaf(1, leaf(&[14, 102], &[&root]))), (5, 1, 0));
}

/// A leaf of threads whose names have these lengths, under parents from 16 on.
fn threads(names: &[usize]) -> Vec<u8> {
    let mut records = Vec::new();
    let mut offsets = vec![14];
    for (index, &length) in names.iter().enumerate() {
        let mut record = leaf_key(16 + index as u32, &vec![b'n'; length]);
        record.resize(record.len().next_multiple_of(2), 0);
        record.extend(data(4));
        offsets.push(offsets[index] + record.len() as u16);
        records.push(record);
    }
    // Records that do not fit are cut off where the node ends, and the offset words are written last.
    let mut node = vec![0; 1_024];
    put(&mut node, 8, &[0xFF, 1, 0, names.len() as u8]);
    for (&at, record) in offsets.iter().zip(&records) {
        put(&mut node, at.into(), record);
    }
    for (index, offset) in offsets.iter().enumerate() {
        put(&mut node, 510 - 2 * index, &offset.to_be_bytes());
    }
    node.truncate(512);
    one_leaf(names.len() as u8, node)
}

#[test]
fn how_many_records_a_leaf_holds() {
    for count in 1..=8 {
        assert_eq!(check(&threads(&vec![0; count])), SOUND, "{count} records");
    }
    // Nine of the smallest end at 500, their ten offset words start at 492.
    assert_eq!(check(&threads(&[0; 9])), (5, 1, 0));
    // Eight of 60 bytes end at 494, where their nine offset words start.
    assert_eq!(check(&threads(&[7; 8])), SOUND);
    assert_eq!(check(&threads(&[7, 7, 7, 7, 7, 7, 7, 8])), (5, 1, 0));
    assert_eq!(check(&threads(&[8, 7, 7, 7, 7, 7, 7, 7])), (5, 1, 0));
}

#[test]
fn name_of_32_bytes() {
    assert_eq!(check(&threads(&[31])), SOUND);
    assert_eq!(check(&threads(&[32])), (5, 1, 0));
    assert_eq!(check(&threads(&[0, 32, 0])), (5, 1, 0));
}

#[test]
fn the_order_of_names() {
    let two = |low: &[u8], high: &[u8]| {
        let record = |name: &[u8]| {
            let mut record = leaf_key(2, name);
            record.resize(record.len().next_multiple_of(2), 0);
            [record, data(3)].concat()
        };
        let (first, second) = (record(low), record(high));
        let starts = [14, 14 + first.len(), 14 + first.len() + second.len()];
        let said = check(&one_leaf(2, leaf(&starts.map(|at| at as u16), &[&first, &second])));
        (said, starts[1] as u32)
    };
    let ascending: [(&[u8], &[u8]); 11] = [
        (b"", b"\0"),
        (b"\0", b"\0\0"),
        (b"a", b"ab"),
        (b"A", b"ab"),
        (b"a", b"B"),
        (b"A", b"b"),
        (b"Z", b"["),
        (b"z", b"["),
        // The two weigh 48 and 49, the next two 4C and 57.
        (b"a", b"\xCB"),
        (b"\x81", b"b"),
        (b"\xFE", b"\xFF"),
    ];
    for (low, high) in ascending {
        assert_eq!(two(low, high).0, SOUND, "{low:?} {high:?}");
        let (said, second) = two(high, low);
        assert_eq!(said, (6, 1, second), "{high:?} {low:?}");
    }
    // The same weights, so the same key twice.
    for (name, twin) in [(&b"abc"[..], &b"ABC"[..]), (b"x", b"x"), (b"", b""), (b"\x80", b"\x8A")] {
        let (said, second) = two(name, twin);
        assert_eq!(said, (6, 1, second), "{name:?} {twin:?}");
    }
}

/// A root, node 1, over two leaves with one directory thread each.
fn two_leaves(pointers: [(u32, &[u8]); 2], keys: [(u32, &[u8]); 2]) -> Vec<u8> {
    let mut root = vec![0xA5; 512];
    put(&mut root, 0, &[0, 0, 0, 0, 0, 0, 0, 0, 0x00, 2, 0, 2, 0, 0]);
    for (index, (parent, name)) in pointers.into_iter().enumerate() {
        let at = 14 + 42 * index;
        let mut key = leaf_key(parent, name);
        key[0] = 37;
        put(&mut root, at, &key);
        put(&mut root, at + 38, &[0, 0, 0, 2 + index as u8]);
    }
    put(&mut root, 506, &[0, 98, 0, 56, 0, 14]);
    let leaves = keys.map(|(parent, name)| {
        let mut record = leaf_key(parent, name);
        record.resize(record.len().next_multiple_of(2), 0xA5);
        record.extend(data(3));
        leaf(&[14, 14 + record.len() as u16], &[&record])
    });
    let [mut left, mut right] = leaves;
    left[3] = 3;
    right[7] = 2;
    [header(2, 2, [2, 3], 4, 0, 0xF0), root, left, right].concat()
}

#[test]
fn index_records() {
    let keys: [(u32, &[u8]); 2] = [(2, b"bees"), (2, b"dogs")];
    let image = two_leaves(keys, keys);
    assert_eq!(check(&image), SOUND);
    let found = lookup(&image, (2, b"DOGS"));
    assert_eq!(found.answer, Answer::Found { place: Place { node: 3, offset: 14 } });
    // The later of two pointers, then the only key of the leaf.
    assert_eq!((found.compared, found.path, found.path_len), (2, [1, 3, 0, 0, 0, 0, 0, 0], 2));
    let below = lookup(&image, (2, b"apes"));
    assert_eq!((below.answer, below.compared), (Answer::Absent { node: 1 }, 2));
    // Lengths are 37 in every record, and a name has at most 31 bytes.
    for (at, wrong) in [(14, 36), (14, 38), (14, 10), (56, 36), (20, 32), (62, 0xFF)] {
        let mut image = two_leaves(keys, keys);
        image[512 + at] = wrong;
        assert_eq!(check(&image), (5, 1, 0), "{at} {wrong}");
    }
    // The child's number stands 38 bytes after the start of a record.
    let mut image = two_leaves(keys, keys);
    image[512 + 56 + 38 + 3] = 2;
    assert_eq!(check(&image), (4, 1, 56 + 38));
}

#[test]
fn pointers_and_first_keys() {
    let keys: [(u32, &[u8]); 2] = [(2, b"bees"), (2, b"dogs")];
    // The same key in another case.
    assert_eq!(check(&two_leaves([(2, b"BEES"), (2, b"dOgS")], keys)), SOUND);
    let wrong: [(u32, &[u8]); 5] =
        [(2, b"dog"), (2, b"dogs\0"), (2, b"dogr"), (2, b"dogt"), (3, b"dogs")];
    for pointer in wrong {
        assert_eq!(check(&two_leaves([keys[0], pointer], keys)), (6, 3, 14), "{pointer:?}");
    }
    assert_eq!(check(&two_leaves([(2, b"bee"), keys[1]], keys)), (6, 2, 14));
    // The pointers themselves: equal by weights, or the second below the first.
    assert_eq!(check(&two_leaves([(2, b"bees"), (2, b"BEES")], keys)), (6, 1, 56));
    assert_eq!(check(&two_leaves([(2, b"beest"), (2, b"BEES")], keys)), (6, 1, 56));
}

#[test]
fn twelve_index_records() {
    // They would end at 518, after the node.
    let keys: [(u32, &[u8]); 2] = [(2, b"bees"), (2, b"dogs")];
    let mut image = two_leaves(keys, keys);
    image[512 + 11] = 12;
    for record in 0..=12 {
        put(&mut image, 512 + 510 - 2 * record, &(14 + 42 * record as u16).to_be_bytes());
    }
    assert_eq!(check(&image), (5, 1, 0));
}

#[test]
fn weights() {
    assert_eq!(WEIGHTS.iter().map(|&weight| u32::from(weight)).sum::<u32>(), 32_420);
    let mut distinct = WEIGHTS.to_vec();
    distinct.sort_unstable();
    distinct.dedup();
    assert_eq!(distinct.len(), 216);
    for (small, capital) in (0x61..=0x7A).zip(0x41..=0x5A) {
        assert_eq!(WEIGHTS[small], WEIGHTS[capital]);
    }
    assert!(Key { parent: 1, name: b"z" } < Key { parent: 2, name: b"a" });
    assert!(Key { parent: 1, name: b"z" } < Key { parent: 1 << 31, name: b"a" });
}
