//! What the calls for HFS alone say, in the words of those that are told the edition.

use hfs_btree::editions::{Data, Lookup, Salvage};
use images::Key;

/// Whether the key can be asked of them, whose start blocks have 16 bits.
pub fn can_ask(key: Key) -> bool {
    u16::try_from(key.start).is_ok()
}

pub fn lookup(image: &[u8], key: Key, work: &mut [u8]) -> Lookup {
    let said = hfs_btree::lookup(image, key.file, key.fork, key.start as u16, work);
    let hfs_btree::Lookup { answer, compared, path, path_len, data: bytes } = said;
    let is_found = matches!(answer, hfs_btree::Answer::Found { .. });
    Lookup { answer, compared, path, path_len, data: data(is_found, bytes) }
}

pub fn salvage(image: &[u8], key: Key) -> Salvage {
    let said = hfs_btree::salvage(image, key.file, key.fork, key.start as u16);
    let is_seen = matches!(said.answer, hfs_btree::SalvageAnswer::Seen { .. });
    Salvage { answer: said.answer, data: data(is_seen, said.data) }
}

/// Bytes that are not 0 where there are no data stay, so that they differ from none.
fn data(is_there: bool, bytes: [u8; 12]) -> Data {
    if is_there || bytes != [0; 12] {
        Data::from(bytes)
    } else {
        Data::NONE
    }
}
