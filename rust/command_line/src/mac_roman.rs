//! MacRoman, the character set of names on an HFS volume.

/// The characters of the bytes 80 to FF. Byte DB is the currency sign, as it was until Mac OS 8.5.
const UPPER: &str = "ÄÅÇÉÑÖÜáàâäãåçéèêëíìîïñóòôöõúùûü†°¢£§•¶ß®©™´¨≠ÆØ∞±≤≥¥µ∂∑∏π∫ªºΩæø\
                     ¿¡¬√ƒ≈∆«»…\u{a0}ÀÃÕŒœ–—“”‘’÷◊ÿŸ⁄¤‹›ﬁﬂ‡·‚„‰ÂÊÁËÈÍÎÏÌÓÔ\u{f8ff}ÒÚÛÙıˆ˜¯˘˙˚¸˝˛ˇ";

/// The byte of a character, if it has one. The euro sign is taken too, which later systems have at DB.
pub fn encode(c: char) -> Option<u8> {
    match c {
        '\0'..='\x7F' => Some(c as u8),
        '€' => Some(0xDB),
        _ => UPPER.chars().position(|upper| upper == c).map(|at| 0x80 + at as u8),
    }
}

pub fn decode(byte: u8) -> char {
    match byte {
        0..=0x7F => byte.into(),
        _ => UPPER.chars().nth((byte - 0x80).into()).expect("there are 128 of them"),
    }
}

#[cfg(test)]
mod tests {
    use super::*;

    #[test]
    fn every_byte_is_its_own_character() {
        assert_eq!(UPPER.chars().count(), 128);
        for byte in 0..=0xFF {
            assert_eq!(encode(decode(byte)), Some(byte));
        }
    }

    /// Some of Apple's table, ROMAN.TXT as Unicode publishes it.
    #[test]
    fn as_published() {
        let known = [
            (0x80, 'Ä'),
            (0x8E, 'é'),
            (0x9A, 'ö'),
            (0x9F, 'ü'),
            (0xA7, 'ß'),
            (0xBD, 'Ω'),
            (0xCA, '\u{A0}'),
            (0xD0, '–'),
            (0xDE, 'ﬁ'),
            (0xE5, 'Â'),
            (0xF0, '\u{F8FF}'),
            (0xFF, 'ˇ'),
        ];
        for (byte, c) in known {
            assert_eq!((decode(byte), encode(c)), (c, Some(byte)));
        }
        assert_eq!((encode('€'), decode(0xDB)), (Some(0xDB), '¤'));
        assert_eq!(encode('\u{301}'), None);
    }
}
