//! Small images of either edition, with the answers that the rules have for them.

use hfs_btree::editions::{
    needed_work, salvage, Answer, Data, Edition, Lookup, Place, Salvage, SalvageAnswer, Verdict,
};
use images::bench_plus::{
    e1, e1_with_free_1, e1_with_map_byte, index_with, l1_in, l1_with_back_link_1, l1_with_pad,
    leaf_with, map_node_linked_to_itself, two_full_leaves,
};
use images::by_hand::three_levels_by_hand_in;
use images::{Format, PLUS_NODE_SIZES};

const PLUS: Edition = Edition::HfsPlus;

/// Node sizes, with the leaf records and the index records that fit in a node of each.
const MOST_RECORDS: [(u32, u32, u32); 7] = [
    (512, 6, 27),
    (1_024, 12, 56),
    (2_048, 26, 112),
    (4_096, 52, 226),
    (8_192, 104, 454),
    (16_384, 209, 909),
    (32_768, 419, 1_819),
];

/// With just the needed working bytes.
fn check(edition: Edition, node_size: u32, image: &[u8]) -> Verdict {
    let mut work = vec![0xA5; needed_work(node_size, image.len())];
    hfs_btree::editions::check(edition, node_size, image, &mut work)
}

fn lookup(
    edition: Edition,
    node_size: u32,
    image: &[u8],
    (file, fork, start): (u32, u8, u32),
) -> Lookup {
    let mut work = vec![0xA5; needed_work(node_size, image.len())];
    hfs_btree::editions::lookup(edition, node_size, image, file, fork, start, &mut work)
}

fn at(node: u32, offset: u32) -> Place {
    Place { node, offset }
}

fn verdict(number: u32, node: u32, offset: u32) -> Verdict {
    Verdict { number, place: at(node, offset) }
}

const SOUND: Verdict = Verdict { number: 0, place: Place { node: 0, offset: 0 } };

fn without_data(answer: Answer, compared: u32, nodes: &[u32]) -> Lookup {
    let mut path = [0; 8];
    path[..nodes.len()].copy_from_slice(nodes);
    Lookup { answer, compared, path, path_len: nodes.len() as u32, data: Data::NONE }
}

fn refused(number: u32, node: u32, offset: u32) -> Lookup {
    without_data(Answer::Refused { number, place: at(node, offset) }, 0, &[])
}

/// Eight pairs of 32-bit numbers, of which only the first two are not 0.
fn first_pair(first_block: u32, block_count: u32) -> Data {
    let mut data = [0; 64];
    data[..4].copy_from_slice(&first_block.to_be_bytes());
    data[4..8].copy_from_slice(&block_count.to_be_bytes());
    Data::from(data)
}

#[test]
fn empty_trees() {
    assert_eq!(check(PLUS, 512, &e1()), SOUND);
    assert_eq!(check(PLUS, 512, &e1_with_map_byte(0x00)), verdict(9, 0, 0xF8));
    assert_eq!(check(PLUS, 512, &e1_with_map_byte(0xC0)), verdict(9, 0, 0xF8));
    assert_eq!(check(PLUS, 512, &e1_with_free_1()), verdict(10, 0, 0));
    let absent = without_data(Answer::Absent { node: 0 }, 0, &[]);
    assert_eq!(lookup(PLUS, 512, &e1(), (16, 0x00, 5)), absent);
}

#[test]
fn one_record_at_every_size() {
    for node_size in PLUS_NODE_SIZES {
        let (image, node_size) = (l1_in(node_size), node_size as u32);
        assert_eq!(check(PLUS, node_size, &image), SOUND, "{node_size}");
        let data = first_pair(100, 3);
        let found = Lookup { data, ..without_data(Answer::Found { place: at(1, 14) }, 1, &[1]) };
        assert_eq!(lookup(PLUS, node_size, &image, (16, 0x00, 5)), found, "{node_size}");
        // 65,541 has the low 16 bits of 5.
        let absent = without_data(Answer::Absent { node: 1 }, 1, &[1]);
        for asked in [(16, 0xFF, 5), (16, 0x00, 4), (16, 0x00, 65_541), (17, 0x00, 5)] {
            assert_eq!(lookup(PLUS, node_size, &image, asked), absent, "{node_size} {asked:?}");
        }
        assert_eq!(lookup(PLUS, node_size, &image, (16, 0x01, 5)), refused(11, 0, 0));
    }
}

#[test]
fn one_record_spoiled() {
    assert_eq!(check(PLUS, 512, &l1_with_back_link_1()), verdict(7, 1, 4));
    assert_eq!(lookup(PLUS, 512, &l1_with_back_link_1(), (16, 0x00, 5)), refused(7, 1, 4));
    // No rule judges the pad, byte 17 of the leaf; the fork stands before it.
    assert_eq!(check(PLUS, 512, &l1_with_pad(0xFF)), SOUND);
    let mut swapped = l1_with_pad(0x00);
    swapped[512 + 16] = 0x01;
    assert_eq!(check(PLUS, 512, &swapped), verdict(5, 1, 0));
    for node_size in PLUS_NODE_SIZES {
        let image = map_node_linked_to_itself(node_size);
        assert_eq!(check(PLUS, node_size as u32, &image), verdict(3, 1, 0), "{node_size}");
    }
}

#[test]
fn two_full_leaves_at_4096() {
    let image = two_full_leaves();
    assert_eq!((image.len(), check(PLUS, 4_096, &image)), (4 * 4_096, SOUND));
    // Of two pointers the second is compared first; of 52 records those of 27, 40, 47, 50 and 52.
    let answer = Answer::Found { place: at(3, 14 + 76 * 51) };
    let last = Lookup { data: Data::from([0; 64]), ..without_data(answer, 1 + 5, &[1, 3]) };
    assert_eq!(lookup(PLUS, 4_096, &image, (104, 0x00, 0)), last);
    let below_every_pointer = without_data(Answer::Absent { node: 1 }, 2, &[1]);
    assert_eq!(lookup(PLUS, 4_096, &image, (0, 0x00, 0)), below_every_pointer);
    let between = lookup(PLUS, 4_096, &image, (52, 0xFF, u32::MAX));
    assert_eq!(between.answer, Answer::Absent { node: 2 });
}

#[test]
fn full_leaves_and_one_record_more() {
    for (node_size, most, _) in MOST_RECORDS {
        let image = |count: u32| leaf_with(node_size as usize, count as usize);
        assert_eq!(check(PLUS, node_size, &image(most)), SOUND, "{node_size}");
        assert_eq!(check(PLUS, node_size, &image(most + 1)), verdict(5, 1, 0), "{node_size}");
        let last = lookup(PLUS, node_size, &image(most), (most, 0x00, 0));
        let place = at(1, 14 + 76 * (most - 1));
        assert_eq!((last.answer, &last.data[..]), (Answer::Found { place }, &[0; 64][..]));
        // Below every key, as many are compared as the count has binary digits.
        let below = lookup(PLUS, node_size, &image(most), (0, 0x00, 0));
        assert_eq!(below.compared, u32::BITS - most.leading_zeros(), "{node_size}");
    }
}

#[test]
fn full_index_nodes_and_one_record_more() {
    for (node_size, _, most) in MOST_RECORDS {
        let full = index_with(node_size as usize, most as usize);
        assert_eq!(check(PLUS, node_size, &full), SOUND, "{node_size}");
        let last = lookup(PLUS, node_size, &full, (most, 0x00, 0));
        let answer = Answer::Found { place: at(most + 1, 14) };
        assert_eq!((last.answer, last.path[..2].to_vec()), (answer, vec![1, most + 1]));
        drop(full);
        let too_many = index_with(node_size as usize, most as usize + 1);
        assert_eq!(check(PLUS, node_size, &too_many), verdict(5, 1, 0), "{node_size}");
    }
}

#[test]
fn salvages() {
    for node_size in PLUS_NODE_SIZES {
        let (image, node_size) = (l1_in(node_size), node_size as u32);
        let answer = SalvageAnswer::Seen { place: at(1, 14) };
        let seen = Salvage { answer, data: first_pair(100, 3) };
        assert_eq!(salvage(PLUS, node_size, &image, 16, 0x00, 5), seen, "{node_size}");
        let not_seen = Salvage { answer: SalvageAnswer::NotSeen, data: Data::NONE };
        assert_eq!(salvage(PLUS, node_size, &image, 16, 0x00, 65_541), not_seen);
        // A broken last node is left out.
        assert_eq!(salvage(PLUS, node_size, &image[..image.len() - 1], 16, 0x00, 5), not_seen);
        let answer = SalvageAnswer::Refused { number: 11, place: at(0, 0) };
        let refused = Salvage { answer, data: Data::NONE };
        assert_eq!(salvage(PLUS, node_size, &image, 16, 0x01, 5), refused);
    }
    let too_long = vec![0; 65_536 * 512 + 1];
    let answer = SalvageAnswer::Refused { number: 1, place: at(0, 0) };
    assert_eq!(salvage(PLUS, 512, &too_long, 16, 0x00, 5).answer, answer);
    assert_eq!(salvage(PLUS, 1_024, &too_long, 16, 0x00, 5).answer, SalvageAnswer::NotSeen);
}

#[test]
fn data_are_12_bytes_or_64() {
    for format in Format::all() {
        let image = three_levels_by_hand_in(format);
        let edition = if format == Format::HFS { Edition::Hfs } else { PLUS };
        let (node_size, len) = (format.node_size as u32, format.data_size());
        let found = lookup(edition, node_size, &image, (60, 0x00, 0));
        assert_eq!(&found.data[..], &vec![60; len][..], "{format:?}");
        assert!(found.data.whole()[len..].iter().all(|&byte| byte == 0), "{format:?}");
        assert_eq!(salvage(edition, node_size, &image, 60, 0x00, 0).data, found.data);
        let absent = lookup(edition, node_size, &image, (61, 0x00, 0));
        assert_eq!((absent.data.len(), absent.data.whole()), (0, &[0; 64]));
    }
}
