//! Names as index files store them, in Java's modified UTF-8, for the command `columns`.
//!
//! A plain decoder in Rust: **it is not proved**. The library decodes no stored name: it compares its bytes with this form of the asked
//! one.

/// What stands at the front of a stored name.
#[derive(Clone, Copy, Debug, PartialEq, Eq)]
pub enum Piece {
    /// A character in modified form: zero as C0 80, a character above U+FFFF as two surrogates of three bytes each, any other as in
    /// UTF-8.
    Character(char),
    /// A byte with which no character begins, or whose character is cut, overlong or half a pair.
    Improper(u8),
}

/// The characters of a stored name, and the bytes that belong to none.
pub fn pieces(mut stored: &[u8]) -> impl Iterator<Item = Piece> + '_ {
    std::iter::from_fn(move || {
        let (piece, width) = match character(stored) {
            Some((character, width)) => (Piece::Character(character), width),
            None => (Piece::Improper(*stored.first()?), 1),
        };
        stored = &stored[width..];
        Some(piece)
    })
}

/// The name that is stored in these bytes; none if no name is.
pub fn decoded(stored: &[u8]) -> Option<String> {
    let characters = pieces(stored).map(|piece| match piece {
        Piece::Character(character) => Some(character),
        Piece::Improper(_) => None,
    });
    characters.collect()
}

/// The character that stands at the front, and how many bytes it takes.
fn character(stored: &[u8]) -> Option<(char, usize)> {
    let (first, width) = unit(stored)?;
    match char::from_u32(first) {
        Some(character) => Some((character, width)),
        // A surrogate: it counts as the first of a pair alone.
        None => {
            let (second, more) = unit(&stored[width..])?;
            let pair = char::decode_utf16([first as u16, second as u16]).next()?;
            Some((pair.ok()?, width + more))
        }
    }
}

/// The unit of UTF-16 that stands at the front in one to three bytes, as few as it can, and how many they are.
fn unit(stored: &[u8]) -> Option<(u32, usize)> {
    let six_bits = |at: usize| stored.get(at).filter(|byte| **byte >> 6 == 0b10).map(|byte| u32::from(byte & 0x3F));
    let first = u32::from(*stored.first()?);
    match first {
        0x01..=0x7F => Some((first, 1)),
        0xC0..=0xDF => {
            let unit = (first & 0x1F) << 6 | six_bits(1)?;
            // Zero alone is in two bytes what would fit one.
            (unit == 0 || unit >= 0x80).then_some((unit, 2))
        }
        0xE0..=0xEF => {
            let unit = (first & 0x0F) << 12 | six_bits(1)? << 6 | six_bits(2)?;
            (unit >= 0x800).then_some((unit, 3))
        }
        _ => None,
    }
}

#[cfg(test)]
mod tests {
    use super::*;
    use reference::names::modified;

    #[test]
    fn every_character_is_decoded() {
        for character in '\0'..=char::MAX {
            let (alone, between) = (character.to_string(), format!("{character}a{character}\0{character}"));
            assert_eq!(decoded(&modified(&alone)), Some(alone));
            assert_eq!(decoded(&modified(&between)), Some(between));
        }
        assert_eq!(decoded(b""), Some(String::new()));
        assert_eq!(decoded(b"\xED\xA0\xBD\xED\xB4\xA5"), Some("\u{1F525}".to_string()));
        assert_eq!(decoded(b"\xC0\x80"), Some("\0".to_string()));
    }

    /// Whatever is decoded is the modified form of what it is decoded to: of all names of two bytes, and of longer ones of bytes at which
    /// the form changes.
    #[test]
    fn nothing_else_is_decoded() {
        let check = |stored: &[u8]| {
            if let Some(name) = decoded(stored) {
                assert_eq!(modified(&name), stored);
            }
            let bytes = |piece| match piece {
                Piece::Character(character) => modified(&character.to_string()),
                Piece::Improper(byte) => vec![byte],
            };
            // No byte is lost.
            assert_eq!(pieces(stored).flat_map(bytes).collect::<Vec<_>>(), stored);
        };
        for first in 0..=255 {
            check(&[first]);
            for second in 0..=255 {
                check(&[first, second]);
                for third in [0x00, 0x41, 0x7F, 0x80, 0x8F, 0x90, 0x9F, 0xA0, 0xAF, 0xB0, 0xBF, 0xC0, 0xED, 0xFF] {
                    check(&[first, second, third]);
                    check(&[0xED, first, third, 0xED, second, third]);
                }
            }
        }
    }

    #[test]
    fn improper_names() {
        for stored in [
            &b"\0"[..],
            b"a\0",
            b"\xC0",
            b"\xC0\x81",
            b"\xC1\xBF",
            b"\xE0\x80\x80",
            b"\xE0\x9F\xBF",
            b"\x80",
            b"\xBF",
            // UTF-8's four bytes.
            b"\xF0\x9F\x94\xA5",
            b"\xFF",
            // A surrogate alone, and a pair in the wrong order.
            b"\xED\xA0\xBD",
            b"\xED\xB4\xA5",
            b"\xED\xA0\xBDa",
            b"\xED\xA0\xBD\xED\xA0\xBD",
            b"\xED\xB4\xA5\xED\xA0\xBD",
            b"\xED\xA0\xBD\xED\xB4",
        ] {
            assert_eq!(decoded(stored), None, "{stored:X?}");
        }
        let (character, improper) = (Piece::Character, Piece::Improper);
        let found: Vec<Piece> = pieces(b"a\xED\xA0\xBD\xED\xA0\xBD\xED\xB4\xA5\0").collect();
        let expected = [character('a'), improper(0xED), improper(0xA0), improper(0xBD), character('\u{1F525}'), improper(0)];
        assert_eq!(found, expected);
    }
}
