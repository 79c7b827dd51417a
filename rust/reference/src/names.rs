//! Names of columns and kinds. A caller gives them in standard UTF-8; an index file has them in modified UTF-8, as Java's
//! `DataOutput.writeUTF` stores them.

/// The name in modified UTF-8: each code unit of its UTF-16 form in one to three bytes, zero in two. So a character above U+FFFF is
/// two surrogates of three bytes each.
pub fn modified(name: &str) -> Vec<u8> {
    let mut out = Vec::with_capacity(name.len());
    for unit in name.encode_utf16() {
        let low = |shift: u16| 0x80 | (unit >> shift & 0x3F) as u8;
        match unit {
            0x0001..=0x007F => out.push(unit as u8),
            0x0000 | 0x0080..=0x07FF => out.extend([0xC0 | (unit >> 6) as u8, low(0)]),
            0x0800.. => out.extend([0xE0 | (unit >> 12) as u8, low(6), low(0)]),
        }
    }
    out
}

/// A form in which a name could be stored by mistake, character by character.
pub struct Improper {
    pub name: &'static str,
    character: fn(char) -> Vec<u8>,
}

/// The bytes of a surrogate in modified form.
const SURROGATE: usize = 3;

/// Forms that differ from the modified one for names with zero, with a character above U+FFFF, or with either.
pub const IMPROPER: [Improper; 6] = [
    Improper { name: "standard UTF-8", character: standard },
    Improper { name: "zero in one byte", character: |one| if one == '\0' { standard(one) } else { modified_of(one) } },
    Improper { name: "four bytes", character: |one| if has_surrogates(one) { standard(one) } else { modified_of(one) } },
    Improper { name: "surrogates swapped", character: |one| with_surrogates(one, |bytes| bytes.rotate_left(SURROGATE)) },
    Improper { name: "first surrogate alone", character: |one| with_surrogates(one, |bytes| bytes.truncate(SURROGATE)) },
    Improper { name: "second surrogate alone", character: |one| with_surrogates(one, |bytes| drop(bytes.drain(..SURROGATE))) },
];

impl Improper {
    /// The name in this form, or nothing where that is the modified form.
    pub fn of(&self, name: &str) -> Option<Vec<u8>> {
        let form: Vec<u8> = name.chars().flat_map(self.character).collect();
        (form != modified(name)).then_some(form)
    }
}

fn standard(character: char) -> Vec<u8> {
    character.to_string().into_bytes()
}

fn modified_of(character: char) -> Vec<u8> {
    modified(&character.to_string())
}

fn has_surrogates(character: char) -> bool {
    character > '\u{FFFF}'
}

/// The modified form of a character, changed if it has surrogates.
fn with_surrogates(character: char, change: impl Fn(&mut Vec<u8>)) -> Vec<u8> {
    let mut bytes = modified_of(character);
    if has_surrogates(character) {
        change(&mut bytes);
    }
    bytes
}

#[cfg(test)]
mod tests {
    use super::{modified, IMPROPER};

    /// The first and last character of each length, by the tables of Java's DataInput page: U+0001 to U+007F in one byte, zero and
    /// U+0080 to U+07FF in two, the others in three for each code unit.
    #[test]
    fn modified_forms() {
        for (name, bytes) in [
            ("", &[][..]),
            ("\u{0}", &[0xC0, 0x80]),
            ("\u{1}", &[0x01]),
            ("s", b"s"),
            ("\u{7F}", &[0x7F]),
            ("\u{80}", &[0xC2, 0x80]),
            ("\u{7FF}", &[0xDF, 0xBF]),
            ("\u{800}", &[0xE0, 0xA0, 0x80]),
            ("\u{D7FF}", &[0xED, 0x9F, 0xBF]),
            ("\u{E000}", &[0xEE, 0x80, 0x80]),
            ("\u{FFFF}", &[0xEF, 0xBF, 0xBF]),
            ("\u{10000}", &[0xED, 0xA0, 0x80, 0xED, 0xB0, 0x80]),
            ("\u{1F525}", &[0xED, 0xA0, 0xBD, 0xED, 0xB4, 0xA5]),
            ("\u{10FFFF}", &[0xED, 0xAF, 0xBF, 0xED, 0xBF, 0xBF]),
            ("a\u{0}\u{1F525}水", &[b'a', 0xC0, 0x80, 0xED, 0xA0, 0xBD, 0xED, 0xB4, 0xA5, 0xE6, 0xB0, 0xB4]),
        ] {
            assert_eq!(modified(name), bytes, "{name:?}");
        }
    }

    /// Every character but zero up to U+FFFF has its standard form; each other one has two bytes, or six.
    #[test]
    fn modified_form_of_each_character() {
        for character in '\u{0}'..=char::MAX {
            let name = character.to_string();
            let modified = modified(&name);
            match character {
                '\u{1}'..='\u{FFFF}' => assert_eq!(modified, name.as_bytes()),
                '\u{0}' => assert_eq!(modified.len(), 2),
                _ => {
                    assert_eq!(modified.len(), 6);
                    // Ten bits in each surrogate, of the character less 10000.
                    let bits = |at: usize| u32::from(modified[at] & 0x0F) << 6 | u32::from(modified[at + 1] & 0x3F);
                    assert_eq!((modified[0], modified[1] >> 4, modified[3], modified[4] >> 4), (0xED, 0xA, 0xED, 0xB));
                    assert_eq!(0x1_0000 + (bits(1) << 10 | bits(4)), u32::from(character));
                }
            }
        }
    }

    #[test]
    fn improper_forms() {
        let forms = |name: &str| IMPROPER.iter().map(|form| form.of(name)).collect::<Vec<_>>();
        let some = |bytes: &[u8]| Some(bytes.to_vec());
        assert_eq!(forms("Füllstand 水位"), vec![None; IMPROPER.len()]);
        assert_eq!(forms("a\0"), [some(b"a\0"), some(b"a\0"), None, None, None, None]);
        let four = [0xF0, 0x9F, 0x94, 0xA5, b'z'];
        let swapped = [0xED, 0xB4, 0xA5, 0xED, 0xA0, 0xBD, b'z'];
        let (first, second) = ([0xED, 0xA0, 0xBD, b'z'], [0xED, 0xB4, 0xA5, b'z']);
        assert_eq!(forms("\u{1F525}z"), [some(&four), None, some(&four), some(&swapped), some(&first), some(&second)]);
        let both = forms("\0\u{1F525}");
        assert_eq!(both[0], some(&[0x00, 0xF0, 0x9F, 0x94, 0xA5]));
        assert_eq!(both[1], some(&[0x00, 0xED, 0xA0, 0xBD, 0xED, 0xB4, 0xA5]));
        assert_eq!(both[2], some(&[0xC0, 0x80, 0xF0, 0x9F, 0x94, 0xA5]));
    }
}
