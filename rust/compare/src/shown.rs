//! How an image is shown on which two readers differ.

use std::{env, fs};

const MOST_SHOWN: usize = 2_048;
const MOST_WRITTEN: usize = 1 << 28;

/// A short image as hex digits; a longer one is written to a file of this name.
pub fn show(name: &str, image: &[u8]) -> String {
    let len = image.len();
    if len <= MOST_SHOWN {
        let digits: String = image.iter().map(|byte| format!("{byte:02x}")).collect();
        return format!("image of {len} bytes: {digits}");
    }
    if len > MOST_WRITTEN {
        return format!("image of {len} bytes, too long to write");
    }
    let name = format!("hfs_difference_{name}.img").replace([' ', ','], "_");
    let file = env::temp_dir().join(name);
    match fs::write(&file, image) {
        Ok(()) => format!("image of {len} bytes in {}", file.display()),
        Err(error) => format!("image of {len} bytes, not written: {error}"),
    }
}
