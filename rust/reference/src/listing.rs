//! What the listing program writes for an input.

use crate::hfs_calls::check;
use crate::leaves::{leaf_records, LeafRecord};
use crate::verdict::Verdict;
use crate::work::needed_work;
use std::fmt::{self, Write};

const MOST_INPUT: usize = 65_536;

/// The whole output of the program for the bytes on its standard input.
pub fn listing(input: &[u8]) -> String {
    if input.len() > MOST_INPUT {
        return "too long\n".to_string();
    }
    let mut output = String::new();
    write_listing(&mut output, input).expect("writing to a string does not fail");
    output
}

fn write_listing(output: &mut String, image: &[u8]) -> fmt::Result {
    let verdict = check(image, &mut [0; needed_work(MOST_INPUT)]);
    let Verdict { number, place } = verdict;
    writeln!(output, "verdict {number} {} {}", place.node, place.offset)?;
    if verdict != Verdict::SOUND {
        return Ok(());
    }
    let records = leaf_records(image);
    writeln!(output, "file fork start s1 n1 s2 n2 s3 n3")?;
    for record in &records {
        write_record(output, record)?;
    }
    writeln!(output, "records {}", records.len())
}

fn write_record(output: &mut String, record: &LeafRecord) -> fmt::Result {
    let key = record.key;
    write!(output, "{} {} {}", key.file, key.fork, key.start)?;
    for word in record.data.chunks_exact(2) {
        write!(output, " {}", u16::from_be_bytes([word[0], word[1]]))?;
    }
    writeln!(output)
}
