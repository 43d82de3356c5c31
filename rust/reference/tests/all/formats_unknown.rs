//! Editions and node sizes that there are not: 25 before everything, and nothing is touched.

use crate::formats::{refused, salvage_refused, verdict};
use images::{bench, bench_plus, samples};
use reference::editions::{check, lookup, needed_work, salvage};

const UNKNOWN: [(u32, u32); 27] = [
    // No size of HFS Plus.
    (1, 0),
    (1, 1),
    (1, 256),
    (1, 511),
    (1, 513),
    (1, 1_000),
    (1, 1_536),
    (1, 32_767),
    (1, 32_769),
    (1, 65_536),
    (1, 131_072),
    (1, 2_147_483_648),
    (1, u32::MAX),
    // A listed size with a higher bit set.
    (1, 65_536 + 512),
    (1, 65_536 + 4_096),
    // HFS has nodes of 512 bytes only.
    (0, 0),
    (0, 511),
    (0, 1_024),
    (0, 4_096),
    (0, 32_768),
    (0, 65_536 + 512),
    // No edition.
    (2, 512),
    (2, 4_096),
    (3, 512),
    (256, 512),
    (0x0100_0001, 4_096),
    (u32::MAX, 512),
];

/// Sound images, one of a wrong length, and none at all.
fn any_images() -> Vec<Vec<u8>> {
    vec![
        bench::l1(),
        bench_plus::l1(),
        bench_plus::l1_in(1_024),
        samples::two_level_plus().image,
        vec![0xA5; 1_000],
        Vec::new(),
    ]
}

#[test]
fn refused_before_everything_and_untouched() {
    let refusal = verdict(25, 0, 0);
    for image in any_images() {
        for (edition, node_size) in UNKNOWN {
            // No bytes lent would be 16, and fork 01 would be 11.
            for lent in [vec![], vec![0x5A; 1], vec![0x5A; 200]] {
                let mut work = lent.clone();
                assert_eq!(check(edition, node_size, &image, &mut work), refusal);
                for fork in [0x00, 0x01, 0xFF] {
                    let got = lookup(edition, node_size, &image, 16, fork, 5, &mut work);
                    assert_eq!(got, refused(refusal), "{edition} {node_size}");
                }
                assert_eq!(work, lent, "{edition} {node_size}");
            }
            for fork in [0x00, 0x01, 0xFF] {
                let got = salvage(edition, node_size, &image, 16, fork, 5);
                assert_eq!(got, salvage_refused(25), "{edition} {node_size}");
            }
        }
    }
}

#[test]
fn refused_before_an_image_that_is_too_long() {
    // 65,537 nodes of 512 bytes would be 1.
    let long = vec![0; 33_554_944];
    for (edition, node_size) in [(2, 512), (0, 1_024), (1, 513), (1, 65_536)] {
        let mut work = [];
        assert_eq!(check(edition, node_size, &long, &mut work), verdict(25, 0, 0));
        let got = lookup(edition, node_size, &long, 16, 0x01, 5, &mut work);
        assert_eq!(got, refused(verdict(25, 0, 0)));
        assert_eq!(salvage(edition, node_size, &long, 16, 0x01, 5), salvage_refused(25));
    }
}

#[test]
fn every_listed_size_of_each_edition_is_read() {
    // An empty image is 1 where the format is known, and fork 01 is 11.
    let known = [(0, 512)].into_iter().chain((9..=15).map(|power| (1, 1 << power)));
    for (edition, node_size) in known {
        assert_eq!(check(edition, node_size, &[], &mut []), verdict(1, 0, 0), "{node_size}");
        let got = lookup(edition, node_size, &[], 16, 0x01, 5, &mut []);
        assert_eq!(got, refused(verdict(11, 0, 0)), "{node_size}");
        assert_eq!(salvage(edition, node_size, &[], 16, 0x01, 5), salvage_refused(11));
    }
}

#[test]
fn needed_working_bytes() {
    let by_hand = [
        (512, 0, 0),
        (512, 512, 1),
        (512, 8 * 512, 1),
        (512, 9 * 512, 2),
        (4_096, 8 * 4_096, 1),
        (4_096, 9 * 4_096, 2),
        (4_096, 9 * 4_096 - 1, 1),
        (4_096, 33_554_432, 1_024),
        (32_768, 2_147_483_648, 8_192),
        (0, 512, 0),
    ];
    for (node_size, image_len, needed) in by_hand {
        assert_eq!(needed_work(node_size, image_len), needed, "{node_size} {image_len}");
    }
}
