//! What the head of an index file lists, for the command `columns`.
//!
//! A plain reader in Rust: **it is not proved**, and no other command uses it. It lists what stands in the head, names and places
//! alike, whether or not there is an index at that place.

/// A column and the indexes on it.
#[derive(Clone, Debug, PartialEq, Eq)]
pub struct Column {
    /// As it stands there, modified UTF-8 or not.
    pub name: Vec<u8>,
    pub indexes: Vec<Index>,
}

#[derive(Clone, Debug, PartialEq, Eq)]
pub struct Index {
    pub kind: Vec<u8>,
    /// As it stands there; whether it lies in the file is not looked at.
    pub start: i32,
    pub length: i32,
}

const MAGIC: u64 = 1_493_475_289_347_502;
const VERSION: i32 = 1;

/// Magic, version and head length, with which every head begins, and behind them the column number and the redundant length.
const FIRST_FIELDS: usize = 16;
const SHORTEST_HEAD: usize = FIRST_FIELDS + 8;

/// The columns in the order of the head. The error says why the bytes are no head of an index file.
pub fn list(file: &[u8]) -> Result<Vec<Column>, String> {
    if file.len() < FIRST_FIELDS {
        return Err(format!("no index file: its first fields take {FIRST_FIELDS} bytes, and there are {}", file.len()));
    }
    let mut first = Fields { rest: file };
    if u64::from_be_bytes(first.array()?) != MAGIC {
        return Err("no index file: its magic differs".to_string());
    }
    let version = first.number()?;
    if version != VERSION {
        return Err(format!("an index file of version {version}, and {VERSION} is the one that can be listed"));
    }
    let length = first.number()?;
    let head = usize::try_from(length).ok().filter(|length| *length >= SHORTEST_HEAD).and_then(|length| file.get(..length));
    let head = head.ok_or_else(|| format!("the head's length is {length}, of a file of {} bytes", file.len()))?;

    let mut fields = Fields { rest: &head[FIRST_FIELDS..] };
    let mut columns = Vec::new();
    for _ in 0..fields.count("columns")? {
        let name = fields.name()?;
        let mut indexes = Vec::new();
        for _ in 0..fields.count("indexes on a column")? {
            indexes.push(Index { kind: fields.name()?, start: fields.number()?, length: fields.number()? });
        }
        columns.push(Column { name, indexes });
    }
    let redundant = fields.count("redundant bytes")?;
    if redundant != fields.rest.len() {
        return Err(format!("the head has {redundant} redundant bytes, and {} are left in it", fields.rest.len()));
    }
    Ok(columns)
}

/// The fields of a head, read from the front.
struct Fields<'a> {
    rest: &'a [u8],
}

impl<'a> Fields<'a> {
    fn take(&mut self, count: usize) -> Result<&'a [u8], String> {
        let (taken, rest) = self.rest.split_at_checked(count).ok_or("the head ends inside a field")?;
        self.rest = rest;
        Ok(taken)
    }

    fn array<const N: usize>(&mut self) -> Result<[u8; N], String> {
        Ok(self.take(N)?.try_into().expect("N bytes were taken"))
    }

    fn number(&mut self) -> Result<i32, String> {
        Ok(i32::from_be_bytes(self.array()?))
    }

    fn count(&mut self, what: &str) -> Result<usize, String> {
        let number = self.number()?;
        usize::try_from(number).map_err(|_| format!("the head has {number} {what}"))
    }

    fn name(&mut self) -> Result<Vec<u8>, String> {
        let length = u16::from_be_bytes(self.array()?);
        Ok(self.take(length.into())?.to_vec())
    }
}

#[cfg(test)]
mod tests {
    use super::*;
    use std::collections::BTreeSet;

    use crate::modified::decoded;
    use poddurance::raw;
    use reference::random::{self, Random};
    use reference::writer::{index_file_traced, FileLayout, IndexedColumn};

    /// The head of 01's 71 bytes, and its body.
    const FILE: &[u8; 71] =
        b"\0\x05NN\xD0\x1A\x35\xAE\0\0\0\x01\0\0\0\x2F\0\0\0\x01\0\x01s\0\0\0\x01\0\x06bitmap\0\0\0\x2F\0\0\0\x18\0\0\0\0\
        \x01\0\0\0\x03\0\0\0\x02\x01\xFF\xFF\xFF\xFD\x07\xFF\xFF\xFF\xFF\x09\xFF\xFF\xFF\xFE";

    fn changed(at: usize, bytes: &[u8]) -> Vec<u8> {
        let mut file = FILE.to_vec();
        file[at..at + bytes.len()].copy_from_slice(bytes);
        file
    }

    #[test]
    fn the_file_that_document_01_writes_out() {
        let index = Index { kind: b"bitmap".to_vec(), start: 47, length: 24 };
        let column = Column { name: b"s".to_vec(), indexes: vec![index] };
        assert_eq!(list(FILE), Ok(vec![column.clone()]));
        // Whether there is a body is not looked at.
        assert_eq!(list(&FILE[..47]), Ok(vec![column]));
        let places = |file: &[u8]| list(file).unwrap()[0].indexes.iter().map(|one| (one.start, one.length)).collect::<Vec<_>>();
        assert_eq!(places(&changed(35, &[0xFF; 8])), [(-1, -1)]);
    }

    #[test]
    fn what_is_no_head() {
        for (file, reason) in [
            (FILE[..15].to_vec(), "no index file: its first fields take 16 bytes, and there are 15"),
            (vec![], "no index file: its first fields take 16 bytes, and there are 0"),
            (changed(0, &[1]), "no index file: its magic differs"),
            (changed(11, &[2]), "an index file of version 2, and 1 is the one that can be listed"),
            (FILE[..46].to_vec(), "the head's length is 47, of a file of 46 bytes"),
            (changed(15, &[23]), "the head's length is 23, of a file of 71 bytes"),
            (changed(12, &[0xFF; 4]), "the head's length is -1, of a file of 71 bytes"),
            (changed(15, &[46]), "the head ends inside a field"),
            (changed(21, &[40]), "the head ends inside a field"),
            (changed(16, &[0xFF; 4]), "the head has -1 columns"),
            (changed(16, &[0x7F, 0xFF, 0xFF, 0xFF]), "the head ends inside a field"),
            (changed(23, &[0xFF; 4]), "the head has -1 indexes on a column"),
            (changed(43, &[0xFF; 4]), "the head has -1 redundant bytes"),
            (changed(46, &[1]), "the head has 1 redundant bytes, and 0 are left in it"),
            (changed(15, &[48]), "the head has 0 redundant bytes, and 1 are left in it"),
        ] {
            assert_eq!(list(&file), Err(reason.to_string()));
        }
    }

    /// An index that is listed once, by name, is one that the library finds, at the same place; a head that the library refuses for its
    /// form is refused here.
    #[test]
    fn lists_what_locate_finds() {
        // Longer than any name there, so that it is ABSENT from every head that is right in form.
        let nothing = vec![b'n'; 65_535];
        let (mut found, mut refused, mut improper) = (0, 0, 0);
        for seed in 0..2_000 {
            let random = &mut Random::new(seed);
            let (name, kind) = (random::name(random), random::name(random));
            let body = random.bytes(9);
            let (mut columns, layout) = random::index_file(random, &name, &kind, &body);
            // So far each name is stored in modified form.
            let proper: BTreeSet<Vec<u8>> =
                names_of(&columns).into_iter().flat_map(|(name, kinds)| [vec![name], kinds].concat()).collect();
            random::add_improper(random, &mut columns, &name, &kind);
            let traced = index_file_traced(&columns, &layout);
            let listed = list(&traced.bytes).unwrap();
            assert_eq!(names(&listed), names_of(&columns), "seed {seed}");
            for column in &listed {
                let once = listed.iter().filter(|other| other.name == column.name).count() == 1;
                for index in column.indexes.iter() {
                    let alone = column.indexes.iter().filter(|other| other.kind == index.kind).count() == 1;
                    let asked = [&column.name, &index.kind].map(|stored| {
                        let name = decoded(stored);
                        assert!(name.is_some() || !proper.contains(stored), "seed {seed}: {stored:X?} isn't decoded");
                        name
                    });
                    let [Some(asked), Some(kind)] = asked else {
                        // It can't be asked for.
                        improper += 1;
                        continue;
                    };
                    let (answer, start, length) = raw::locate(&[], &traced.bytes, asked.as_bytes(), kind.as_bytes());
                    if once && alone {
                        assert_ne!(answer, raw::ABSENT, "seed {seed}");
                        // Else it is HEAD, for a place that is not in the file.
                        if answer == raw::ACCEPTED {
                            assert_eq!((start as i64, length as i64), (index.start.into(), index.length.into()), "seed {seed}");
                            found += 1;
                        }
                    }
                }
            }
            let damaged = random::damage(random, &traced);
            let sound = raw::locate(&[], &damaged, &nothing, b"bitmap").0 == raw::ABSENT;
            assert_eq!(list(&damaged).is_ok(), sound, "seed {seed}");
            refused += usize::from(!sound);
        }
        let occurred = format!("{found} indexes found, {improper} with improper names, {refused} heads refused");
        assert!(found > 2_000 && improper > 500 && refused > 500, "{occurred}");
        assert_eq!(list(&index_file_traced(&[], &FileLayout::default()).bytes), Ok(vec![]));
    }

    type Names = (Vec<u8>, Vec<Vec<u8>>);

    fn names(columns: &[Column]) -> Vec<Names> {
        columns.iter().map(|one| (one.name.clone(), one.indexes.iter().map(|index| index.kind.clone()).collect())).collect()
    }

    fn names_of(columns: &[IndexedColumn]) -> Vec<Names> {
        columns.iter().map(|one| (one.name.clone(), one.indexes.iter().map(|index| index.kind.clone()).collect())).collect()
    }
}
