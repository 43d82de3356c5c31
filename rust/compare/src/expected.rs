//! What the reference says, in the words of the proved reader.

use crate::form::Form;
use hfs_btree::editions::{Answer, Data, Lookup, Place, Salvage, SalvageAnswer, Verdict};
use images::Key;
use std::ops::Range;

pub fn check(form: Form, image: &[u8], work: &mut [u8]) -> Verdict {
    verdict(reference::editions::check(form.edition, form.node_size, image, work))
}

pub fn lookup(form: Form, image: &[u8], key: Key, work: &mut [u8]) -> Lookup {
    let Form { edition, node_size } = form;
    let Key { file, fork, start } = key;
    let said = reference::editions::lookup(edition, node_size, image, file, fork, start, work);
    let data = data(image, said.data.clone());
    looked_up(said, data)
}

/// The answer to a lookup, with its data in the proved reader's words.
pub fn looked_up<Data>(said: reference::Lookup, data: Data) -> hfs_btree::Lookup<Data> {
    let answer = match said.answer {
        reference::Answer::Found { place: said } => Answer::Found { place: place(said) },
        reference::Answer::Absent { node } => Answer::Absent { node },
        reference::Answer::Refused { number, place: said } => {
            Answer::Refused { number, place: place(said) }
        }
    };
    let reference::Lookup { compared, path, .. } = said;
    let path_len = said.path_len as u32;
    hfs_btree::Lookup { answer, compared, path, path_len, data }
}

/// The verdict, and the results as they are left.
pub fn lookup_many(
    image: &[u8],
    keys: &[u64],
    mut results: Vec<u32>,
    work: &mut [u8],
) -> (Verdict, Vec<u32>) {
    let said = reference::lookup_many(image, keys, &mut results, work);
    (verdict(said), results)
}

pub fn salvage(form: Form, image: &[u8], key: Key) -> Salvage {
    let Form { edition, node_size } = form;
    let Key { file, fork, start } = key;
    let said = reference::editions::salvage(edition, node_size, image, file, fork, start);
    let data = data(image, said.data.clone());
    salvaged(said, data)
}

/// The answer to a salvage, with its data in the proved reader's words.
pub fn salvaged<Data>(said: reference::Salvage, data: Data) -> hfs_btree::Salvage<Data> {
    let answer = match said.answer {
        reference::SalvageAnswer::Seen { place: said } => {
            SalvageAnswer::Seen { place: place(said) }
        }
        reference::SalvageAnswer::NotSeen => SalvageAnswer::NotSeen,
        reference::SalvageAnswer::Refused { number, place: said } => {
            SalvageAnswer::Refused { number, place: place(said) }
        }
    };
    hfs_btree::Salvage { answer, data }
}

pub fn verdict(said: reference::Verdict) -> Verdict {
    let reference::Verdict { number, place: said } = said;
    Verdict { number, place: place(said) }
}

fn place(said: reference::Place) -> Place {
    let reference::Place { node, offset } = said;
    Place { node, offset }
}

/// The proved reader copies the data where the reference says where they are.
fn data(image: &[u8], range: Option<Range<usize>>) -> Data {
    let Some(range) = range else {
        return Data::NONE;
    };
    let bytes = &image[range];
    match <[u8; 12]>::try_from(bytes) {
        Ok(of_hfs) => Data::from(of_hfs),
        Err(_) => Data::from(<[u8; 64]>::try_from(bytes).expect("data are 12 bytes or 64")),
    }
}
