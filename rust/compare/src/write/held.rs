//! What a written image has to hold, by the proved reader and by the reference's leaf list.

use super::question::WriteQuestion;
use super::tally::WriteTally;
use hfs_btree::{
    check, lookup, lookup_many, needed_work, packed, Answer, KeyResult, Place, Verdict,
};
use images::rows::{map_nodes, RECORD_SIZE};
use images::{Key, Rng};
use reference::leaf_records;

/// An image is asked for as many keys one by one as this many bytes have room for it, but not for fewer
/// than `LEAST_ASKED`.
const MOST_BYTES: usize = 4_000_000;
const LEAST_ASKED: usize = 2;

const SOUND: Verdict = Verdict { number: 0, place: Place { node: 0, offset: 0 } };

/// A record as it stands in a row: its key, and 12 bytes of data.
type RecordBytes = [u8; RECORD_SIZE];

/// Stops the run unless the image is sound, each key of the row is found where its record belongs, and the
/// leaf records are the row again.
pub fn assert_holds(question: &WriteQuestion, image: &[u8], rng: &mut Rng, tally: &mut WriteTally) {
    let (records, _) = question.row.as_chunks();
    let mut work = vec![0; needed_work(image.len())];
    question.same("check of the image", &check(image, &mut work), &SOUND);
    all_at_once(question, image, records, &mut work);
    for index in to_ask(rng, image, records.len()) {
        look_up(question, image, records, index, &mut work);
        tally.single_keys += 1;
    }
    let listed = leaf_records(image);
    question.same("number of leaf records", &listed.len(), &records.len());
    for (listed, record) in listed.iter().zip(records) {
        let key = Key::new(listed.key.file, listed.key.fork, listed.key.start.into());
        let listed = (key.bytes(), listed.data);
        question.same("leaf record", &listed, &split(record));
    }
    tally.records += records.len() as u64;
}

fn all_at_once(question: &WriteQuestion, image: &[u8], records: &[RecordBytes], work: &mut [u8]) {
    let packed_key = |record: &RecordBytes| {
        let (file, fork, start) = key_of(record);
        packed(file, fork, start)
    };
    let keys: Vec<u64> = records.iter().map(packed_key).collect();
    let mut results = vec![0; keys.len()];
    let said = lookup_many(image, &keys, &mut results, work);
    question.same("answer for all keys", &said, &SOUND);
    for (index, &result) in results.iter().enumerate() {
        let Place { node, offset } = place_of(image, index);
        let data_at = node as usize * 512 + offset as usize + 8;
        question.same("place of data", &KeyResult::from(result), &KeyResult::Found { data_at });
    }
}

fn look_up(
    question: &WriteQuestion,
    image: &[u8],
    records: &[RecordBytes],
    index: usize,
    work: &mut [u8],
) {
    let (file, fork, start) = key_of(&records[index]);
    let found = lookup(image, file, fork, start, work);
    let expected = Answer::Found { place: place_of(image, index) };
    question.same("lookup of a key", &found.answer, &expected);
    question.same("data of a key", &found.data[..], &records[index][8..]);
}

/// Every record, or as many as there is room for.
fn to_ask(rng: &mut Rng, image: &[u8], count: usize) -> Vec<usize> {
    let most = (MOST_BYTES / image.len()).max(LEAST_ASKED);
    if count <= most {
        return (0..count).collect();
    }
    let ends = [0, count - 1];
    ends.into_iter().chain((2..most).map(|_| rng.index(count))).collect()
}

/// After the header and the map nodes come the leaves, with 22 records each.
fn place_of(image: &[u8], index: usize) -> Place {
    let first_leaf = 1 + map_nodes(image.len() / 512);
    Place { node: (first_leaf + index / 22) as u32, offset: 14 + 20 * (index % 22) as u32 }
}

/// The key and the data of a record.
fn split(record: &RecordBytes) -> ([u8; 8], [u8; 12]) {
    let (mut key, mut data) = ([0; 8], [0; 12]);
    key.copy_from_slice(&record[..8]);
    data.copy_from_slice(&record[8..]);
    (key, data)
}

fn key_of(record: &RecordBytes) -> (u32, u8, u16) {
    let file = u32::from_be_bytes([record[2], record[3], record[4], record[5]]);
    (file, record[1], u16::from_be_bytes([record[6], record[7]]))
}
