//! What the listing program writes.

use images::{bench, build, samples, Built, Key, Plan};
use reference::listing;

/// The listing of a sound image, from what was built into it.
fn expected_listing(built: &Built) -> String {
    let mut lines =
        vec!["verdict 0 0 0".to_string(), "file fork start s1 n1 s2 n2 s3 n3".to_string()];
    for record in &built.records {
        let key = record.key;
        let mut fields = vec![key.file.to_string(), key.fork.to_string(), key.start.to_string()];
        for pair in 0..6 {
            let word =
                u32::from(record.data[2 * pair]) * 256 + u32::from(record.data[2 * pair + 1]);
            fields.push(word.to_string());
        }
        lines.push(fields.join(" "));
    }
    lines.push(format!("records {}", built.records.len()));
    lines.join("\n") + "\n"
}

#[test]
fn l1_verbatim() {
    let paper = "verdict 0 0 0\n\
                 file fork start s1 n1 s2 n2 s3 n3\n\
                 16 0 5 100 3 0 0 0 0\n\
                 records 1\n";
    assert_eq!(listing(&bench::l1()), paper);
}

#[test]
fn depth_0_has_the_header_and_no_records() {
    let expected = "verdict 0 0 0\nfile fork start s1 n1 s2 n2 s3 n3\nrecords 0\n";
    assert_eq!(listing(&bench::e1()), expected);
}

#[test]
fn unsound_images_have_only_the_verdict() {
    assert_eq!(listing(&[]), "verdict 1 0 0\n");
    assert_eq!(listing(&[0; 512]), "verdict 2 0 0\n");
    // All numbers are decimal; F8 is 248.
    assert_eq!(listing(&bench::e1_with_map_byte(0x00)), "verdict 9 0 248\n");
    assert_eq!(listing(&bench::e1_with_map_byte(0xC0)), "verdict 9 0 248\n");
    assert_eq!(listing(&bench::e1_with_free_1()), "verdict 10 0 0\n");
    assert_eq!(listing(&bench::l1_with_back_link_1()), "verdict 7 1 4\n");
    assert_eq!(listing(&bench::map_node_linked_to_itself()), "verdict 3 1 0\n");
    assert_eq!(listing(&bench::leaf_with(23)), "verdict 5 1 0\n");
    let pointer_below = bench::two_leaves_with_pointer(1, Key::new(16, 0x00, 6));
    assert_eq!(listing(&pointer_below), "verdict 6 3 14\n");
}

#[test]
fn input_of_65536_bytes_is_the_longest() {
    assert_eq!(listing(&vec![0; 65_536]), "verdict 2 0 0\n");
    assert_eq!(listing(&vec![0; 65_537]), "too long\n");
    assert_eq!(listing(&samples::three_level_large().image), "too long\n");
    let longest = samples::longest_listed();
    assert_eq!(longest.image.len(), 65_536);
    assert_eq!(listing(&longest.image), expected_listing(&longest));
}

#[test]
fn generated_trees_are_listed_in_leaf_order() {
    for depth in 0..=8 {
        let built = build(&Plan::random(depth as u64, depth, 12));
        assert_eq!(listing(&built.image), expected_listing(&built), "depth {depth}");
    }
}

#[test]
fn resource_forks_are_255() {
    let mut image = bench::l1();
    image[512 + 14 + 1] = 0xFF;
    let line = listing(&image).lines().nth(2).map(str::to_string);
    assert_eq!(line.as_deref(), Some("16 255 5 100 3 0 0 0 0"));
}
