//! Which editions and node sizes there are, and what HFS says when it is asked for by its edition.

use hfs_btree::editions::{
    check, lookup, needed_work, salvage, Answer, Data, Edition, Place, SalvageAnswer, Verdict,
};
use images::{bench, bench_plus, PLUS_NODE_SIZES};

/// Editions and node sizes that are not listed.
const UNLISTED: [(u32, u32); 19] = [
    (1, 0),
    (1, 256),
    (1, 511),
    (1, 513),
    (1, 1_536),
    (1, 32_767),
    (1, 65_536),
    (1, u32::MAX),
    // A listed size with a higher bit set.
    (1, 65_536 + 512),
    (0, 0),
    (0, 511),
    (0, 1_024),
    (0, 4_096),
    (0, 65_536 + 512),
    (2, 512),
    (2, 4_096),
    (256, 512),
    (0x0100_0001, 4_096),
    (u32::MAX, 512),
];

const START: Place = Place { node: 0, offset: 0 };

#[test]
fn unlisted_forms_come_before_everything() {
    // A sound image, a wrong length and none at all; no bytes lent would be 16, and fork 01 is 11.
    let images = [bench::l1(), bench_plus::l1(), vec![0xA5; 1_000], Vec::new()];
    for (edition, node_size) in UNLISTED {
        for image in &images {
            for lent in [vec![], vec![0x5A; 3]] {
                let mut work = lent.clone();
                let verdict = check(edition, node_size, image, &mut work);
                assert_eq!(verdict, Verdict { number: 25, place: START }, "{edition} {node_size}");
                for fork in [0x00, 0x01] {
                    let said = lookup(edition, node_size, image, 16, fork, 5, &mut work);
                    assert_eq!(said.answer, Answer::Refused { number: 25, place: START });
                    assert_eq!((said.compared, said.path, said.path_len), (0, [0; 8], 0));
                    assert_eq!(said.data, Data::NONE);
                    let said = salvage(edition, node_size, image, 16, fork, 5);
                    assert_eq!(said.answer, SalvageAnswer::Refused { number: 25, place: START });
                    assert_eq!(said.data, Data::NONE);
                }
                assert_eq!(work, lent, "{edition} {node_size}");
            }
        }
    }
}

#[test]
fn unlisted_forms_come_before_an_image_that_is_too_long() {
    let too_long = vec![0; 65_537 * 512];
    for (edition, node_size) in UNLISTED {
        assert_eq!(check(edition, node_size, &too_long, &mut []).number, 25);
    }
}

#[test]
fn every_listed_form_is_read() {
    // An empty image has a wrong length where the form is listed.
    for node_size in PLUS_NODE_SIZES {
        assert_eq!(check(Edition::HfsPlus, node_size as u32, &[], &mut []).number, 1);
    }
    assert_eq!(check(Edition::Hfs, 512, &[], &mut []).number, 1);
}

#[test]
fn the_other_form_meant() {
    // The sizes in their headers are not those meant, or the key length is not.
    assert_eq!(check(Edition::HfsPlus, 512, &bench::l1(), &mut [0]).number, 2);
    assert_eq!(check(Edition::Hfs, 512, &bench_plus::l1(), &mut [0]).number, 2);
    assert_eq!(check(Edition::HfsPlus, 1_024, &bench_plus::l1(), &mut [0]).number, 2);
    assert_eq!(check(Edition::HfsPlus, 512, &bench_plus::l1_in(1_024), &mut [0]).number, 2);
}

#[test]
fn hfs_by_its_edition() {
    for image in [bench::l1(), bench::two_leaves(), bench::l1_with_back_link_1(), vec![0; 511]] {
        for lent in [vec![], vec![0x2A, 0x2B]] {
            let (mut by_edition, mut by_hfs) = (lent.clone(), lent);
            let said = check(Edition::Hfs, 512, &image, &mut by_edition);
            assert_eq!(said, hfs_btree::check(&image, &mut by_hfs));
            assert_eq!(by_edition, by_hfs);
            for (file, fork, start) in [(16, 0x00, 5), (16, 0xFF, 0), (16, 0x01, 5), (99, 0, 0)] {
                let asked = start.into();
                let said = lookup(Edition::Hfs, 512, &image, file, fork, asked, &mut by_edition);
                let hfs = hfs_btree::lookup(&image, file, fork, start, &mut by_hfs);
                assert_eq!((said.answer, said.compared), (hfs.answer, hfs.compared));
                assert_eq!((said.path, said.path_len), (hfs.path, hfs.path_len));
                assert_eq!((&said.data.whole()[..12], &by_edition), (&hfs.data[..], &by_hfs));
                let said = salvage(Edition::Hfs, 512, &image, file, fork, asked);
                let hfs = hfs_btree::salvage(&image, file, fork, start);
                assert_eq!((said.answer, &said.data.whole()[..12]), (hfs.answer, &hfs.data[..]));
            }
        }
    }
}

#[test]
fn start_blocks_above_65535_are_not_in_hfs() {
    // The low 16 bits of 65,541 are those of the one key there is.
    for start in [65_536, 65_541, 131_077, u32::MAX] {
        let said = lookup(Edition::Hfs, 512, &bench::l1(), 16, 0x00, start, &mut [0]);
        assert_eq!((said.answer, said.compared), (Answer::Absent { node: 1 }, 1), "{start}");
        assert_eq!((said.path, said.path_len), ([1, 0, 0, 0, 0, 0, 0, 0], 1));
        assert_eq!(said.data, Data::NONE);
        let said = salvage(Edition::Hfs, 512, &bench::l1(), 16, 0x00, start);
        assert_eq!((said.answer, said.data), (SalvageAnswer::NotSeen, Data::NONE));
        // What else is wrong comes first.
        let said = lookup(Edition::Hfs, 512, &bench::l1(), 16, 0x01, start, &mut [0]);
        assert_eq!(said.answer, Answer::Refused { number: 11, place: START });
        let said = lookup(Edition::Hfs, 512, &[0; 511], 16, 0x00, start, &mut [0]);
        assert_eq!(said.answer, Answer::Refused { number: 1, place: START });
    }
}

#[test]
fn working_bytes_by_node_size() {
    for (node_size, len, needed) in [(512, 9 * 512, 2), (4_096, 8 * 4_096, 1), (0, 512, 0)] {
        assert_eq!(needed_work(node_size, len), needed, "{node_size} {len}");
    }
    assert_eq!(needed_work(32_768, 65_536 * 32_768), 8_192);
    // Two nodes of 4,096 bytes: a byte is enough, and the next stays.
    let image = bench_plus::l1_in(4_096);
    let mut work = [0x2A, 0x2B];
    assert_eq!(check(Edition::HfsPlus, 4_096, &image, &mut work[..0]).number, 16);
    assert_eq!((check(Edition::HfsPlus, 4_096, &image, &mut work).number, work), (0, [0xC0, 0x2B]));
    assert_eq!(check(Edition::HfsPlus, 4_096, &image[1..], &mut work[..0]).number, 1);
}
