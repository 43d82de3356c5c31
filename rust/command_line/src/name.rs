//! Names of a catalog: from the command line, and to be shown.

use crate::mac_roman;
use crate::trouble::Trouble;
use std::ffi::OsStr;
use std::fmt;

/// The bytes of a name that is given as text. Of more than 31 the reader says what it says.
pub fn from_text(given: &OsStr) -> Result<Vec<u8>, Trouble> {
    let Some(text) = given.to_str() else {
        return Err(Trouble::usage("NAME is not UTF-8: give its bytes by --name-hex"));
    };
    let byte_of = |c: char| {
        let reason =
            || format!("NAME has {c:?}, which MacRoman has not: give its bytes by --name-hex");
        mac_roman::encode(c).ok_or_else(|| Trouble::usage(reason()))
    };
    text.chars().map(byte_of).collect()
}

/// The bytes of a name that is given as pairs of hexadecimal digits.
pub fn from_hex(given: &OsStr) -> Result<Vec<u8>, Trouble> {
    let digit = |&byte: &u8| char::from(byte).to_digit(16).map(|digit| digit as u8);
    let digits: Option<Vec<u8>> = given.as_encoded_bytes().iter().map(digit).collect();
    match digits {
        Some(digits) if digits.len() % 2 == 0 => {
            Ok(digits.chunks_exact(2).map(|pair| pair[0] << 4 | pair[1]).collect())
        }
        _ => Err(Trouble::usage("--name-hex takes two hexadecimal digits for each byte")),
    }
}

/// A name as text, for JSON.
pub fn text(name: &[u8]) -> String {
    name.iter().map(|&byte| mac_roman::decode(byte)).collect()
}

/// The bytes of a name, or any others, as hexadecimal digits.
pub fn hex(bytes: &[u8]) -> String {
    bytes.iter().map(|byte| format!("{byte:02x}")).collect()
}

/// A name in quotation marks; in it a quotation mark, a backslash or a control character is escaped.
pub struct Quoted<'a>(pub &'a [u8]);

impl fmt::Display for Quoted<'_> {
    fn fmt(&self, f: &mut fmt::Formatter<'_>) -> fmt::Result {
        write!(f, "\"")?;
        for &byte in self.0 {
            match byte {
                b'"' | b'\\' => write!(f, "\\{}", char::from(byte))?,
                0..=0x1F | 0x7F => write!(f, "\\x{byte:02x}")?,
                _ => write!(f, "{}", mac_roman::decode(byte))?,
            }
        }
        write!(f, "\"")
    }
}
