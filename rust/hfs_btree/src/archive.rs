//! The calls into the archive; `include/hfs_btree.h` has the same for C.

extern "C" {
    fn hfs_check(image: *const u8, len: usize, work: *mut u8, work_len: usize, out: *mut [u32; 3]);
    fn hfs_lookup(
        image: *const u8,
        len: usize,
        file: u32,
        fork: u8,
        start: u16,
        work: *mut u8,
        work_len: usize,
        out: *mut [u32; 13],
        data: *mut [u8; 12],
    );
    fn hfs_lookup_many(
        image: *const u8,
        len: usize,
        keys: *const u64,
        keys_len: usize,
        results: *mut u32,
        results_len: usize,
        work: *mut u8,
        work_len: usize,
        out: *mut [u32; 3],
    );
    fn hfs_salvage(
        image: *const u8,
        len: usize,
        file: u32,
        fork: u8,
        start: u16,
        out: *mut [u32; 3],
        data: *mut [u8; 12],
    );
    fn hfs_extents_check(
        edition: u32,
        node_size: u32,
        image: *const u8,
        len: usize,
        work: *mut u8,
        work_len: usize,
        out: *mut [u32; 3],
    );
    fn hfs_extents_lookup(
        edition: u32,
        node_size: u32,
        image: *const u8,
        len: usize,
        file: u32,
        fork: u8,
        start: u32,
        work: *mut u8,
        work_len: usize,
        out: *mut [u32; 13],
        data: *mut [u8; 64],
    );
    fn hfs_extents_salvage(
        edition: u32,
        node_size: u32,
        image: *const u8,
        len: usize,
        file: u32,
        fork: u8,
        start: u32,
        out: *mut [u32; 3],
        data: *mut [u8; 64],
    );
    fn hfs_catalog_check(
        image: *const u8,
        len: usize,
        work: *mut u8,
        work_len: usize,
        out: *mut [u32; 3],
    );
    fn hfs_catalog_lookup(
        image: *const u8,
        len: usize,
        parent: u32,
        name: *const u8,
        name_len: usize,
        work: *mut u8,
        work_len: usize,
        out: *mut [u32; 15],
        data: *mut [u8; 102],
    );
    fn hfs_catalog_salvage(
        image: *const u8,
        len: usize,
        parent: u32,
        name: *const u8,
        name_len: usize,
        out: *mut [u32; 5],
        data: *mut [u8; 102],
    );
    fn hfs_block(
        catalog: *const u8,
        catalog_len: usize,
        catalog_work: *mut u8,
        catalog_work_len: usize,
        extents: *const u8,
        extents_len: usize,
        extents_work: *mut u8,
        extents_work_len: usize,
        parent: u32,
        name: *const u8,
        name_len: usize,
        fork: u8,
        block: u16,
        out: *mut [u32; 7],
        data: *mut [u8; 12],
    );
    fn hfs_write_tree(
        row: *const u8,
        row_len: usize,
        target: *mut u8,
        target_len: usize,
        out: *mut [u32; 3],
    );
}

// What a call does not write would show as a number that no answer has.
const UNWRITTEN: u32 = 0xDEAD_BEEF;
const UNWRITTEN_BYTE: u8 = 0xA5;

pub fn check(image: &[u8], work: &mut [u8]) -> [u32; 3] {
    let mut out = [UNWRITTEN; 3];
    let (bytes, len) = (image.as_ptr(), image.len());
    let (lent, lent_len) = (work.as_mut_ptr(), work.len());
    // SAFETY: the image is a live slice and only read, `work` is a live slice lent to write, and `out`
    // is an array of its own.
    unsafe { hfs_check(bytes, len, lent, lent_len, &mut out) };
    out
}

pub fn lookup(
    image: &[u8],
    file: u32,
    fork: u8,
    start: u16,
    work: &mut [u8],
) -> ([u32; 13], [u8; 12]) {
    let mut out = [UNWRITTEN; 13];
    let mut data = [UNWRITTEN_BYTE; 12];
    let (bytes, len) = (image.as_ptr(), image.len());
    let (lent, lent_len) = (work.as_mut_ptr(), work.len());
    // SAFETY: the image is a live slice and only read, `work` is a live slice lent to write, and `out`
    // and `data` are arrays of their own.
    unsafe { hfs_lookup(bytes, len, file, fork, start, lent, lent_len, &mut out, &mut data) };
    (out, data)
}

pub fn lookup_many(image: &[u8], keys: &[u64], results: &mut [u32], work: &mut [u8]) -> [u32; 3] {
    let mut out = [UNWRITTEN; 3];
    let (bytes, len) = (image.as_ptr(), image.len());
    let (asked, asked_len) = (keys.as_ptr(), keys.len());
    let (row, row_len) = (results.as_mut_ptr(), results.len());
    let (lent, lent_len) = (work.as_mut_ptr(), work.len());
    // SAFETY: the image and the keys are live slices and only read, `results` and `work` are live
    // slices lent to write, and `out` is an array of its own.
    unsafe {
        hfs_lookup_many(bytes, len, asked, asked_len, row, row_len, lent, lent_len, &mut out)
    };
    out
}

pub fn salvage(image: &[u8], file: u32, fork: u8, start: u16) -> ([u32; 3], [u8; 12]) {
    let mut out = [UNWRITTEN; 3];
    let mut data = [UNWRITTEN_BYTE; 12];
    let (bytes, len) = (image.as_ptr(), image.len());
    // SAFETY: the image is a live slice and only read, and `out` and `data` are arrays of their own.
    unsafe { hfs_salvage(bytes, len, file, fork, start, &mut out, &mut data) };
    (out, data)
}

pub fn extents_check(edition: u32, node_size: u32, image: &[u8], work: &mut [u8]) -> [u32; 3] {
    let mut out = [UNWRITTEN; 3];
    let (bytes, len) = (image.as_ptr(), image.len());
    let (lent, lent_len) = (work.as_mut_ptr(), work.len());
    // SAFETY: the image is a live slice and only read, `work` is a live slice lent to write, and `out`
    // is an array of its own.
    unsafe { hfs_extents_check(edition, node_size, bytes, len, lent, lent_len, &mut out) };
    out
}

pub fn extents_lookup(
    edition: u32,
    node_size: u32,
    image: &[u8],
    file: u32,
    fork: u8,
    start: u32,
    work: &mut [u8],
) -> ([u32; 13], [u8; 64]) {
    let mut out = [UNWRITTEN; 13];
    let mut data = [UNWRITTEN_BYTE; 64];
    let (bytes, len) = (image.as_ptr(), image.len());
    let (lent, lent_len) = (work.as_mut_ptr(), work.len());
    // SAFETY: the image is a live slice and only read, `work` is a live slice lent to write, and `out`
    // and `data` are arrays of their own.
    unsafe {
        hfs_extents_lookup(
            edition, node_size, bytes, len, file, fork, start, lent, lent_len, &mut out, &mut data,
        )
    };
    (out, data)
}

pub fn extents_salvage(
    edition: u32,
    node_size: u32,
    image: &[u8],
    file: u32,
    fork: u8,
    start: u32,
) -> ([u32; 3], [u8; 64]) {
    let mut out = [UNWRITTEN; 3];
    let mut data = [UNWRITTEN_BYTE; 64];
    let (bytes, len) = (image.as_ptr(), image.len());
    // SAFETY: the image is a live slice and only read, and `out` and `data` are arrays of their own.
    unsafe {
        hfs_extents_salvage(edition, node_size, bytes, len, file, fork, start, &mut out, &mut data)
    };
    (out, data)
}

pub fn catalog_check(image: &[u8], work: &mut [u8]) -> [u32; 3] {
    let mut out = [UNWRITTEN; 3];
    let (bytes, len) = (image.as_ptr(), image.len());
    let (lent, lent_len) = (work.as_mut_ptr(), work.len());
    // SAFETY: the image is a live slice and only read, `work` is a live slice lent to write, and `out`
    // is an array of its own.
    unsafe { hfs_catalog_check(bytes, len, lent, lent_len, &mut out) };
    out
}

pub fn catalog_lookup(
    image: &[u8],
    parent: u32,
    name: &[u8],
    work: &mut [u8],
) -> ([u32; 15], [u8; 102]) {
    let mut out = [UNWRITTEN; 15];
    let mut data = [UNWRITTEN_BYTE; 102];
    let (bytes, len) = (image.as_ptr(), image.len());
    let (asked, asked_len) = (name.as_ptr(), name.len());
    let (lent, lent_len) = (work.as_mut_ptr(), work.len());
    // SAFETY: the image and the name are live slices and only read, `work` is a live slice lent to
    // write, and `out` and `data` are arrays of their own.
    unsafe {
        hfs_catalog_lookup(
            bytes, len, parent, asked, asked_len, lent, lent_len, &mut out, &mut data,
        )
    };
    (out, data)
}

pub fn catalog_salvage(image: &[u8], parent: u32, name: &[u8]) -> ([u32; 5], [u8; 102]) {
    let mut out = [UNWRITTEN; 5];
    let mut data = [UNWRITTEN_BYTE; 102];
    let (bytes, len) = (image.as_ptr(), image.len());
    let (asked, asked_len) = (name.as_ptr(), name.len());
    // SAFETY: the image and the name are live slices and only read, and `out` and `data` are arrays of
    // their own.
    unsafe { hfs_catalog_salvage(bytes, len, parent, asked, asked_len, &mut out, &mut data) };
    (out, data)
}

/// Each image with the working bytes lent for it, then the catalog key, the fork byte and the file block.
pub fn block(
    (catalog, catalog_work): (&[u8], &mut [u8]),
    (extents, extents_work): (&[u8], &mut [u8]),
    (parent, name): (u32, &[u8]),
    fork: u8,
    block: u16,
) -> ([u32; 7], [u8; 12]) {
    let mut out = [UNWRITTEN; 7];
    let mut data = [UNWRITTEN_BYTE; 12];
    // SAFETY: both images and the name are live slices and only read, `catalog_work` and `extents_work`
    // are live slices lent to write, and `out` and `data` are arrays of their own.
    unsafe {
        hfs_block(
            catalog.as_ptr(),
            catalog.len(),
            catalog_work.as_mut_ptr(),
            catalog_work.len(),
            extents.as_ptr(),
            extents.len(),
            extents_work.as_mut_ptr(),
            extents_work.len(),
            parent,
            name.as_ptr(),
            name.len(),
            fork,
            block,
            &mut out,
            &mut data,
        )
    };
    (out, data)
}

pub fn write_tree(row: &[u8], target: &mut [u8]) -> [u32; 3] {
    let mut out = [UNWRITTEN; 3];
    let (records, records_len) = (row.as_ptr(), row.len());
    let (lent, lent_len) = (target.as_mut_ptr(), target.len());
    // SAFETY: the row is a live slice and only read, `target` is a live slice lent to write, and `out` is
    // an array of its own.
    unsafe { hfs_write_tree(records, records_len, lent, lent_len, &mut out) };
    out
}
