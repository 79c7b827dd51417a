//! The words of the command line.

use std::ffi::{OsStr, OsString};
use std::os::unix::ffi::OsStrExt;
use std::path::PathBuf;

use poddurance::{Edition, Question, Type, UnknownName};

use crate::calendar::Unit;
use crate::literal::{self, Form, Literal};

/// The kind of index that is read, and the one that is looked for where none is named.
pub const BITMAP: &str = "bitmap";

/// The commands, in the order of the help.
const COMMANDS: [&str; 7] = ["columns", "locate", "audit", "ask", "open", "lookup", "deletions"];

/// What is to be done, and how it is to be said.
#[derive(Debug, PartialEq, Eq)]
pub struct Job {
    pub command: Command,
    /// List the rows.
    pub rows: bool,
    /// Write JSON.
    pub json: bool,
}

#[derive(Debug, PartialEq, Eq)]
pub enum Command {
    Help,
    Version,
    Columns { file: Source },
    Locate { bytes: IndexBytes, column: String, kind: String },
    Audit { index: IndexOf },
    Ask { index: IndexOf, edition: Edition, question: Question, literals: Vec<Literal>, deletions: Option<Deletions> },
    Open { index: IndexOf },
    LookUp { index: IndexOf, edition: Edition, literals: Vec<Word>, deletions: Option<Deletions> },
    Deletions { deletions: Deletions, rows: u64 },
}

impl Command {
    /// How often standard input is named.
    fn inputs(&self) -> usize {
        let is_input = |source: &Source| usize::from(*source == Source::Input);
        let of_index = |bytes: &IndexBytes| bytes.embedded.as_ref().map_or(0, is_input) + is_input(&bytes.file);
        match self {
            Command::Help | Command::Version => 0,
            Command::Columns { file } => is_input(file),
            Command::Locate { bytes, .. } => of_index(bytes),
            Command::Audit { index } | Command::Open { index } => of_index(&index.bytes),
            Command::Ask { index, deletions, .. } | Command::LookUp { index, deletions, .. } => {
                of_index(&index.bytes) + deletions.as_ref().map_or(0, |deletions| is_input(&deletions.file))
            }
            Command::Deletions { deletions, .. } => is_input(&deletions.file),
        }
    }
}

/// Where bytes come from.
#[derive(Debug, PartialEq, Eq)]
pub enum Source {
    File(PathBuf),
    /// Standard input, written `-`; a file of that name is `./-`.
    Input,
}

impl From<OsString> for Source {
    fn from(word: OsString) -> Source {
        if word == "-" {
            Source::Input
        } else {
            Source::File(word.into())
        }
    }
}

/// The two buffers in which an index is looked for: the bytes that the manifest embeds if there are any, else the file's.
#[derive(Debug, PartialEq, Eq)]
pub struct IndexBytes {
    pub embedded: Option<Source>,
    pub file: Source,
}

/// The bitmap index on a column.
#[derive(Debug, PartialEq, Eq)]
pub struct IndexOf {
    pub bytes: IndexBytes,
    pub column: String,
    pub ty: Type,
    /// The data file's row count, if it is known.
    pub data_rows: Option<u64>,
}

/// A literal to look up, and the word by which the user knows it.
#[derive(Debug, PartialEq, Eq)]
pub struct Word {
    pub text: String,
    pub literal: Literal,
}

/// A bin of a deletion file.
#[derive(Debug, PartialEq, Eq)]
pub struct Deletions {
    pub file: Source,
    pub bin: u64,
    /// The first row of the window that it is read through, if it is.
    pub first: Option<u64>,
}

/// Reads the words behind the program's name. The error says what is wrong with them.
pub fn parse(words: impl IntoIterator<Item = OsString>) -> Result<Job, String> {
    let Words { places, options } = split(words)?;
    let (rows, json) = (options.rows, options.json);
    let command = match (options.help, options.version) {
        (true, _) => Command::Help,
        (false, true) => Command::Version,
        (false, false) => command(places, options)?,
    };
    if command.inputs() > 1 {
        return Err("standard input can be read once, and - is there twice".to_string());
    }
    Ok(Job { command, rows, json })
}

fn command(mut places: Places, options: Options) -> Result<Command, String> {
    let name = places.next(&format!("a command: {}", in_words(&COMMANDS, "or")))?;
    let name = name.to_string_lossy().into_owned();
    options.fit(&name)?;
    let Options { edition, millis, micros, stored, embedded, deletions, bin, first, row_count, .. } = options;
    let data_rows = row_count.map(|rows| number(&rows, "--row-count")).transpose()?;
    let first = first.map(|row| number(&row, "--first")).transpose()?;

    let command = match name.as_str() {
        "columns" => Command::Columns { file: places.source()? },
        "locate" => {
            let bytes = places.index_bytes(embedded)?;
            let column = places.text("COLUMN")?;
            let kind = if places.is_empty() { BITMAP.to_string() } else { places.text("KIND")? };
            Command::Locate { bytes, column, kind }
        }
        "audit" => Command::Audit { index: places.index(embedded, data_rows)? },
        "ask" => {
            let index = places.index(embedded, data_rows)?;
            let question = places.named("QUESTION", "is-not-null")?;
            let edition = edition_of(question, edition)?;
            let form = form(index.ty, millis, micros, stored)?;
            let mut literals = Vec::new();
            while !places.is_empty() {
                literals.push(places.literal(index.ty, form)?.literal);
            }
            Command::Ask { index, edition, question, literals, deletions: deletions_of(deletions, bin, first)? }
        }
        "open" => Command::Open { index: places.index(embedded, data_rows)? },
        "lookup" => {
            let index = places.index(embedded, data_rows)?;
            let edition = edition_of(Question::Equal, edition)?;
            let form = form(index.ty, millis, micros, stored)?;
            let mut literals = vec![places.literal(index.ty, form)?];
            while !places.is_empty() {
                literals.push(places.literal(index.ty, form)?);
            }
            Command::LookUp { index, edition, literals, deletions: deletions_of(deletions, bin, first)? }
        }
        "deletions" => {
            let file = places.source()?;
            let bin = number(&places.next("BIN")?, "BIN")?;
            let rows = number(&places.next("ROWS")?, "ROWS")?;
            Command::Deletions { deletions: Deletions { file, bin, first }, rows }
        }
        "help" => return Ok(Command::Help),
        other => return Err(format!("{other:?} is no command: {} are", in_words(&COMMANDS, "and"))),
    };
    places.end()?;
    Ok(command)
}

/// The bin whose rows are taken away, if there is one.
fn deletions_of(file: Option<OsString>, bin: Option<OsString>, first: Option<u64>) -> Result<Option<Deletions>, String> {
    match (file, bin, first) {
        (None, None, None) => Ok(None),
        (Some(file), Some(bin), first) => Ok(Some(Deletions { file: file.into(), bin: number(&bin, "--bin")?, first })),
        // A bin is of one data file, and the wrong one would take away the wrong rows, so none is assumed.
        (Some(_), None, _) => Err("--deletions needs --bin N, the number of the data file's bin".to_string()),
        (None, Some(_), _) => Err("--bin goes with --deletions FILE".to_string()),
        // Without deletions no row is read from a first one on, and the rows would be listed as if they were.
        (None, None, Some(_)) => Err("--first goes with --deletions FILE".to_string()),
    }
}

/// The edition by which a question is asked.
fn edition_of(question: Question, given: Option<OsString>) -> Result<Edition, String> {
    let given = given.map(|word| word.to_string_lossy().parse().map_err(|error: UnknownName| format!("--edition {error}")));
    match (given, question) {
        (Some(given), _) => given,
        // It decides whether null rows are in the answer; the wrong one draws a wrong graph, so none is assumed.
        (None, Question::NotEqual | Question::NotIn) => {
            Err(format!("{question} needs --edition 1 or 2: 1 chooses null rows too, for stored dashboards; 2 chooses none"))
        }
        // The library has to be handed one of the two. Which one makes no difference: it is proved that its answer to these
        // questions is the same in both.
        (None, Question::Equal | Question::In | Question::IsNull | Question::IsNotNull) => Ok(Edition::Second),
    }
}

/// How the literals of a type are written.
fn form(ty: Type, millis: bool, micros: bool, stored: bool) -> Result<Form, String> {
    let timestamp = matches!(ty, Type::Timestamp | Type::LocalZonedTimestamp);
    for (given, option) in [(millis, "--millis"), (micros, "--micros")] {
        if given && !timestamp {
            return Err(format!("{option} goes with the TIMESTAMP types, not with {ty}"));
        }
    }
    if stored && !timestamp && !matches!(ty, Type::Date | Type::Time) {
        return Err(format!("--stored goes with DATE, TIME and the TIMESTAMP types, not with {ty}"));
    }
    match (millis, micros, stored) {
        (false, false, false) => Ok(Form::Written(None)),
        (true, false, false) => Ok(Form::Written(Some(Unit::Milliseconds))),
        (false, true, false) => Ok(Form::Written(Some(Unit::Microseconds))),
        (false, false, true) => Ok(Form::Stored),
        _ => Err("of --millis, --micros and --stored one alone can be true of a column".to_string()),
    }
}

#[derive(Default)]
struct Options {
    help: bool,
    version: bool,
    rows: bool,
    json: bool,
    millis: bool,
    micros: bool,
    stored: bool,
    edition: Option<OsString>,
    embedded: Option<OsString>,
    deletions: Option<OsString>,
    bin: Option<OsString>,
    first: Option<OsString>,
    row_count: Option<OsString>,
}

impl Options {
    /// Whether each option that is given goes with the command; an unknown command is complained of elsewhere.
    fn fit(&self, command: &str) -> Result<(), String> {
        let questions: &[&str] = &["ask", "lookup"];
        for (given, option, commands) in [
            (self.rows, "--rows", &["ask", "lookup", "deletions"][..]),
            (self.embedded.is_some(), "--embedded", &["locate", "audit", "ask", "open", "lookup"]),
            (self.row_count.is_some(), "--row-count", &["audit", "ask", "open", "lookup"]),
            (self.edition.is_some(), "--edition", questions),
            (self.millis, "--millis", questions),
            (self.micros, "--micros", questions),
            (self.stored, "--stored", questions),
            (self.deletions.is_some(), "--deletions", questions),
            (self.bin.is_some(), "--bin", questions),
            (self.first.is_some(), "--first", &["ask", "lookup", "deletions"]),
        ] {
            if given && COMMANDS.contains(&command) && !commands.contains(&command) {
                return Err(format!("{option} goes with {} alone", in_words(commands, "and")));
            }
        }
        Ok(())
    }
}

/// As `locate, audit and ask`.
fn in_words(names: &[&str], before_last: &str) -> String {
    match names {
        [names @ .., last] if !names.is_empty() => format!("{} {before_last} {last}", names.join(", ")),
        _ => names.concat(),
    }
}

struct Words {
    places: Places,
    options: Options,
}

/// Parts the options from the other words. Only `-h` and words that begin with `--` are options, so that `-3` is a literal; behind
/// the word `--` there are none.
fn split(words: impl IntoIterator<Item = OsString>) -> Result<Words, String> {
    let mut words = words.into_iter();
    let mut places = Vec::new();
    let mut options = Options::default();
    while let Some(word) = words.next() {
        if word == "--" {
            places.extend(words);
            break;
        }
        if word == "-h" || word == "--help" {
            // Whatever else there is, right or wrong, isn't looked at.
            options.help = true;
            break;
        }
        if !word.as_bytes().starts_with(b"--") {
            places.push(word);
            continue;
        }
        let mut parts = word.as_bytes().splitn(2, |byte| *byte == b'=');
        let name = parts.next().unwrap_or_default();
        let value = parts.next().map(OsStr::from_bytes);
        match name {
            b"--help" => return Err("--help takes no value".to_string()),
            b"--version" => flag(&mut options.version, value, "--version")?,
            b"--rows" => flag(&mut options.rows, value, "--rows")?,
            b"--json" => flag(&mut options.json, value, "--json")?,
            b"--millis" => flag(&mut options.millis, value, "--millis")?,
            b"--micros" => flag(&mut options.micros, value, "--micros")?,
            b"--stored" => flag(&mut options.stored, value, "--stored")?,
            b"--edition" => valued(&mut options.edition, value, &mut words, "--edition", "1 or 2")?,
            b"--embedded" => valued(&mut options.embedded, value, &mut words, "--embedded", "FILE")?,
            b"--deletions" => valued(&mut options.deletions, value, &mut words, "--deletions", "FILE")?,
            b"--bin" => valued(&mut options.bin, value, &mut words, "--bin", "N")?,
            b"--first" => valued(&mut options.first, value, &mut words, "--first", "ROW")?,
            b"--row-count" => valued(&mut options.row_count, value, &mut words, "--row-count", "ROWS")?,
            _ => return Err(format!("{word:?} is no option; a literal that begins with -- goes behind the word --")),
        }
    }
    places.reverse();
    Ok(Words { places: Places(places), options })
}

fn flag(given: &mut bool, value: Option<&OsStr>, name: &str) -> Result<(), String> {
    if value.is_some() {
        return Err(format!("{name} takes no value"));
    }
    if std::mem::replace(given, true) {
        return Err(format!("{name} is there twice"));
    }
    Ok(())
}

fn valued(
    given: &mut Option<OsString>,
    value: Option<&OsStr>,
    words: &mut impl Iterator<Item = OsString>,
    name: &str,
    what: &str,
) -> Result<(), String> {
    let value = match value {
        Some(value) => value.to_os_string(),
        None => words.next().ok_or_else(|| format!("{name} needs {what}"))?,
    };
    if given.replace(value).is_some() {
        return Err(format!("{name} is there twice"));
    }
    Ok(())
}

/// The words that are no options, the next one last.
struct Places(Vec<OsString>);

impl Places {
    fn is_empty(&self) -> bool {
        self.0.is_empty()
    }

    fn next(&mut self, what: &str) -> Result<OsString, String> {
        self.0.pop().ok_or_else(|| format!("{what} is missing"))
    }

    /// A name that isn't UTF-8 the library would refuse as LITERAL. As a word it is wrong usage, as such a literal is, and that is said
    /// before a file is read.
    fn text(&mut self, what: &str) -> Result<String, String> {
        self.next(what)?.into_string().map_err(|word| format!("{what} {word:?} is not UTF-8"))
    }

    fn literal(&mut self, ty: Type, form: Form) -> Result<Word, String> {
        let text = self.text("LITERAL")?;
        let literal = literal::parse(&text, ty, form)?;
        Ok(Word { text, literal })
    }

    fn source(&mut self) -> Result<Source, String> {
        Ok(self.next("FILE")?.into())
    }

    fn index_bytes(&mut self, embedded: Option<OsString>) -> Result<IndexBytes, String> {
        Ok(IndexBytes { embedded: embedded.map(Source::from), file: self.source()? })
    }

    fn index(&mut self, embedded: Option<OsString>, data_rows: Option<u64>) -> Result<IndexOf, String> {
        let bytes = self.index_bytes(embedded)?;
        let column = self.text("COLUMN")?;
        let ty = self.named("TYPE", "local-zoned-timestamp")?;
        Ok(IndexOf { bytes, column, ty, data_rows })
    }

    /// A type or a question; the example is a name of several words.
    fn named<T>(&mut self, what: &str, example: &str) -> Result<T, String>
    where
        T: std::str::FromStr,
        T::Err: std::fmt::Display,
    {
        let name = self.text(what)?;
        name.parse().map_err(|error| format!("{what} {error}; it is one word, as {example}"))
    }

    fn end(&mut self) -> Result<(), String> {
        match self.0.pop() {
            Some(word) => Err(format!("{word:?} is one word too many")),
            None => Ok(()),
        }
    }
}

/// A count as the library takes it. Those over its limits are for the library to refuse.
fn number(word: &OsStr, what: &str) -> Result<u64, String> {
    let text = word.to_string_lossy();
    let digits = text.bytes().all(|byte| byte.is_ascii_digit());
    text.parse().ok().filter(|_| digits).ok_or_else(|| format!("{what} {text:?} is no whole number from 0 to {}", u64::MAX))
}

#[cfg(test)]
mod tests {
    use super::*;

    fn read(line: &[&str]) -> Result<Job, String> {
        parse(line.iter().map(OsString::from))
    }

    fn command(line: &[&str]) -> Command {
        read(line).unwrap().command
    }

    fn file(name: &str) -> Source {
        Source::File(name.into())
    }

    fn bytes() -> IndexBytes {
        IndexBytes { embedded: None, file: file("f") }
    }

    fn index(ty: Type, data_rows: Option<u64>) -> IndexOf {
        IndexOf { bytes: bytes(), column: "s".to_string(), ty, data_rows }
    }

    fn ask(literals: Vec<Literal>, deletions: Option<Deletions>) -> Command {
        let (edition, question) = (Edition::Second, Question::In);
        Command::Ask { index: index(Type::TinyInt, None), edition, question, literals, deletions }
    }

    #[test]
    fn commands() {
        assert_eq!(command(&["columns", "f"]), Command::Columns { file: file("f") });
        let locate = |kind: &str| Command::Locate { bytes: bytes(), column: "s".to_string(), kind: kind.to_string() };
        assert_eq!(command(&["locate", "f", "s"]), locate("bitmap"));
        assert_eq!(command(&["locate", "f", "s", "bloom-filter"]), locate("bloom-filter"));
        assert_eq!(command(&["audit", "f", "s", "int"]), Command::Audit { index: index(Type::Int, None) });
        let of_24 = Command::Audit { index: index(Type::Int, Some(24)) };
        assert_eq!(command(&["audit", "--row-count", "24", "f", "s", "int"]), of_24);
        let deletions = |first| Command::Deletions { deletions: Deletions { file: file("f"), bin: 2, first }, rows: 60 };
        assert_eq!(command(&["deletions", "f", "2", "60"]), deletions(None));
        // From row 0 on is another call than without a first row.
        assert_eq!(command(&["deletions", "f", "2", "60", "--first", "0"]), deletions(Some(0)));
        assert_eq!(command(&["deletions", "f", "--first=4294967296", "2", "60"]), deletions(Some(1 << 32)));
        assert_eq!(command(&["deletions", "f", "2", "60", "--first", "18446744073709551615"]), deletions(Some(u64::MAX)));
        assert_eq!(command(&["ask", "f", "s", "TINYINT", "IN"]), ask(vec![], None));
        assert_eq!(command(&["open", "f", "s", "int"]), Command::Open { index: index(Type::Int, None) });
        let of_24 = Command::Open { index: index(Type::Int, Some(24)) };
        assert_eq!(command(&["open", "f", "s", "int", "--row-count=24"]), of_24);
        for line in [
            &["--help"][..],
            &["-h"],
            &["help"],
            &["ask", "--help"],
            &["ask", "f", "-h", "s", "nothing"],
            &["--help", "--row"],
            &["-h", "--help"],
        ] {
            assert_eq!(command(line), Command::Help, "{line:?}");
        }
        assert_eq!(command(&["--version"]), Command::Version);
    }

    /// NOT EQUAL and NOT IN need an edition, and the other questions may have one.
    #[test]
    fn editions() {
        let asked = |question: &str, more: &[&str]| match read(&[&["ask", "f", "s", "int", question], more].concat()) {
            Ok(Job { command: Command::Ask { edition, .. }, .. }) => Ok(edition),
            Ok(other) => panic!("{other:?}"),
            Err(message) => Err(message),
        };
        for question in Question::ALL {
            for edition in Edition::ALL {
                let number = edition.to_string();
                assert_eq!(asked(question.name(), &["--edition", &number]), Ok(edition), "{question}");
                assert_eq!(asked(question.name(), &[&format!("--edition={number}")]), Ok(edition), "{question}");
            }
            let without = asked(question.name(), &[]);
            match question {
                Question::NotEqual | Question::NotIn => {
                    let message = "needs --edition 1 or 2: 1 chooses null rows too, for stored dashboards; 2 chooses none";
                    assert_eq!(without, Err(format!("{question} {message}")));
                }
                _ => assert!(without.is_ok(), "{question}"),
            }
            for word in ["0", "3", "", "-1", "+1", "01", "one", "1.0", "4294967297"] {
                let message = format!("--edition {word:?} is none of 1, 2");
                assert_eq!(asked(question.name(), &["--edition", word]), Err(message), "{question}");
            }
        }
        let line = ["ask", "f", "s", "int", "not-in", "--edition"].map(OsString::from);
        let line = line.into_iter().chain([OsStr::from_bytes(b"\xFF").to_os_string()]);
        assert_eq!(parse(line), Err("--edition \"\u{FFFD}\" is none of 1, 2".to_string()));
    }

    /// Each literal is kept as it was written, beside what it stands for.
    #[test]
    fn literals_to_look_up() {
        let word = |text: &str, literal| Word { text: text.to_string(), literal };
        let look_up = |ty, edition, literals, deletions| Command::LookUp { index: index(ty, None), edition, literals, deletions };
        let three = || vec![word("-3", Literal::Number(-3)), word("+7", Literal::Number(7)), word("7", Literal::Number(7))];
        assert_eq!(
            command(&["lookup", "f", "s", "TINYINT", "-3", "+7", "7"]),
            look_up(Type::TinyInt, Edition::Second, three(), None)
        );
        for edition in Edition::ALL {
            let number = edition.to_string();
            let line = ["lookup", "f", "s", "TINYINT", "-3", "--edition", &number, "+7", "7", "--deletions", "d", "--bin=3"];
            let deletions = |first| Some(Deletions { file: file("d"), bin: 3, first });
            assert_eq!(command(&line), look_up(Type::TinyInt, edition, three(), deletions(None)));
            let line = [&line[..], &["--first", "7"]].concat();
            assert_eq!(command(&line), look_up(Type::TinyInt, edition, three(), deletions(Some(7))));
        }
        // A word that names a question is a literal here.
        let strings = ["equal", "", "--rows"].map(|text| word(text, Literal::Text(text.to_string())));
        let line = ["lookup", "f", "s", "string", "equal", "", "--", "--rows"];
        assert_eq!(command(&line), look_up(Type::String, Edition::Second, strings.into(), None));
        for (form, number) in [("--millis", 1_000), ("--micros", 1_000_000)] {
            let second = vec![word("1970-01-01T00:00:01", Literal::Number(number))];
            let line = ["lookup", "f", "s", "timestamp", "1970-01-01T00:00:01", form];
            assert_eq!(command(&line), look_up(Type::Timestamp, Edition::Second, second, None));
        }
        let day = vec![word("19723", Literal::Number(19_723))];
        let line = ["lookup", "f", "s", "date", "19723", "--stored"];
        assert_eq!(command(&line), look_up(Type::Date, Edition::Second, day, None));
    }

    #[test]
    fn negative_literals_are_no_options() {
        let literals = vec![Literal::Number(-3), Literal::Number(7)];
        assert_eq!(command(&["ask", "f", "s", "TINYINT", "IN", "-3", "7"]), ask(literals, None));
    }

    #[test]
    fn behind_two_dashes_nothing_is_an_option() {
        let job = read(&["ask", "--json", "f", "s", "string", "in", "--", "--rows", "--", "-h"]).unwrap();
        assert!(job.json && !job.rows);
        let Command::Ask { literals, .. } = job.command else { panic!() };
        assert_eq!(literals, ["--rows", "--", "-h"].map(|text| Literal::Text(text.to_string())));
    }

    #[test]
    fn options_stand_anywhere() {
        let expected = |first| ask(vec![Literal::Number(7)], Some(Deletions { file: file("d"), bin: 3, first }));
        for (line, first) in [
            (&["ask", "f", "s", "TINYINT", "IN", "7", "--deletions", "d", "--bin", "3"][..], None),
            (&["--bin", "3", "ask", "f", "--deletions", "d", "s", "TINYINT", "IN", "7"], None),
            (&["ask", "f", "s", "TINYINT", "--deletions=d", "IN", "--bin=3", "7"], None),
            (&["--first", "9", "ask", "f", "s", "TINYINT", "--deletions=d", "IN", "--bin=3", "7"], Some(9)),
            (&["ask", "f", "s", "TINYINT", "--deletions=d", "IN", "--first=0", "--bin=3", "7"], Some(0)),
        ] {
            assert_eq!(command(line), expected(first));
        }
    }

    #[test]
    fn embedded_bytes_stand_beside_the_file() {
        let with = |embedded| IndexBytes { embedded: Some(embedded), file: file("f") };
        let locate = |bytes| Command::Locate { bytes, column: "s".to_string(), kind: "bitmap".to_string() };
        assert_eq!(command(&["locate", "f", "s", "--embedded", "e"]), locate(with(file("e"))));
        assert_eq!(command(&["locate", "--embedded=e", "f", "s"]), locate(with(file("e"))));
        assert_eq!(command(&["locate", "f", "s", "--embedded", "-"]), locate(with(Source::Input)));
        let index = IndexOf { bytes: with(file("e")), ..index(Type::Int, None) };
        assert_eq!(command(&["audit", "f", "s", "int", "--embedded", "e"]), Command::Audit { index });
        let Command::Ask { index, .. } = command(&["ask", "f", "s", "int", "in", "--embedded", "e"]) else { panic!() };
        assert_eq!(index.bytes, with(file("e")));
        let Command::Open { index } = command(&["open", "f", "s", "int", "--embedded", "e"]) else { panic!() };
        assert_eq!(index.bytes, with(file("e")));
        let Command::LookUp { index, .. } = command(&["lookup", "f", "s", "int", "7", "--embedded", "e"]) else { panic!() };
        assert_eq!(index.bytes, with(file("e")));
    }

    #[test]
    fn a_dash_is_standard_input_once() {
        assert_eq!(command(&["columns", "-"]), Command::Columns { file: Source::Input });
        assert_eq!(command(&["columns", "./-"]), Command::Columns { file: file("./-") });
        let deletions = Deletions { file: Source::Input, bin: 0, first: None };
        assert_eq!(command(&["deletions", "-", "0", "6"]), Command::Deletions { deletions, rows: 6 });
        for line in [
            &["locate", "-", "s", "--embedded", "-"][..],
            &["audit", "-", "s", "int", "--embedded", "-"],
            &["ask", "-", "s", "int", "in", "--deletions", "-", "--bin", "0"],
            &["ask", "f", "s", "int", "in", "--deletions", "-", "--bin", "0", "--embedded=-"],
            &["open", "-", "s", "int", "--embedded", "-"],
            &["lookup", "-", "s", "int", "7", "--deletions", "-", "--bin", "0"],
        ] {
            assert_eq!(read(line), Err("standard input can be read once, and - is there twice".to_string()), "{line:?}");
        }
        // A column and a literal may be called so.
        let Command::Ask { index, literals, .. } = command(&["ask", "-", "-", "string", "in", "-", "-"]) else { panic!() };
        assert_eq!((index.bytes.file, index.column.as_str(), literals.len()), (Source::Input, "-", 2));
    }

    #[test]
    fn forms_of_timestamps() {
        let literals = |more: &[&str]| match read(&[&["ask", "f", "s", "timestamp", "in"], more].concat()) {
            Ok(Job { command: Command::Ask { literals, .. }, .. }) => Ok(literals),
            Ok(other) => panic!("{other:?}"),
            Err(message) => Err(message),
        };
        let second = "1970-01-01T00:00:01";
        assert_eq!(literals(&[second, "--millis"]), Ok(vec![Literal::Number(1_000)]));
        assert_eq!(literals(&[second, "--micros"]), Ok(vec![Literal::Number(1_000_000)]));
        assert_eq!(literals(&["1000", "--stored"]), Ok(vec![Literal::Number(1_000)]));
        // Without literals no unit is needed.
        assert_eq!(literals(&[]), Ok(vec![]));
        for more in [&["--millis", "--micros"][..], &["--millis", "--stored"], &["--micros", "--stored"]] {
            let message = "of --millis, --micros and --stored one alone can be true of a column";
            assert_eq!(literals(more), Err(message.to_string()));
        }
    }

    #[test]
    fn wrong_usage() {
        for (line, message) in [
            (&[][..], "a command: columns, locate, audit, ask, open, lookup or deletions is missing"),
            (&["find"], "\"find\" is no command: columns, locate, audit, ask, open, lookup and deletions are"),
            (&["find", "--bin", "0"], "\"find\" is no command: columns, locate, audit, ask, open, lookup and deletions are"),
            (&["columns"], "FILE is missing"),
            (&["columns", "f", "s"], "\"s\" is one word too many"),
            (&["columns", "f", "--rows"], "--rows goes with ask, lookup and deletions alone"),
            (&["columns", "f", "--embedded", "e"], "--embedded goes with locate, audit, ask, open and lookup alone"),
            (&["deletions", "f", "0", "6", "--embedded", "e"], "--embedded goes with locate, audit, ask, open and lookup alone"),
            (&["locate", "f", "s", "--embedded"], "--embedded needs FILE"),
            (&["locate"], "FILE is missing"),
            (&["locate", "f"], "COLUMN is missing"),
            (&["locate", "f", "s", "k", "x"], "\"x\" is one word too many"),
            (&["locate", "f", "s", "--rows"], "--rows goes with ask, lookup and deletions alone"),
            (&["audit", "f", "s"], "TYPE is missing"),
            (&["audit", "f", "s", "int", "x"], "\"x\" is one word too many"),
            (&["audit", "f", "s", "int", "--rows"], "--rows goes with ask, lookup and deletions alone"),
            (&["audit", "f", "s", "int", "--micros"], "--micros goes with ask and lookup alone"),
            (&["audit", "f", "s", "int", "--stored"], "--stored goes with ask and lookup alone"),
            (&["columns", "f", "--edition", "1"], "--edition goes with ask and lookup alone"),
            (&["locate", "f", "s", "--edition", "1"], "--edition goes with ask and lookup alone"),
            (&["audit", "f", "s", "int", "--edition", "2"], "--edition goes with ask and lookup alone"),
            (&["deletions", "f", "0", "6", "--edition", "3"], "--edition goes with ask and lookup alone"),
            (&["audit", "f", "s", "int", "--row-count"], "--row-count needs ROWS"),
            (
                &["audit", "f", "s", "int", "--row-count", "x"],
                "--row-count \"x\" is no whole number from 0 to 18446744073709551615",
            ),
            (&["locate", "f", "s", "--row-count", "6"], "--row-count goes with audit, ask, open and lookup alone"),
            (&["deletions", "f", "0", "6", "--row-count", "6"], "--row-count goes with audit, ask, open and lookup alone"),
            (
                &["audit", "f", "s", "int", "--of", "6"],
                "\"--of\" is no option; a literal that begins with -- goes behind the word --",
            ),
            (&["audit", "--help=1"], "--help takes no value"),
            (&["open", "f", "s"], "TYPE is missing"),
            (&["open", "f", "s", "int", "7"], "\"7\" is one word too many"),
            (&["open", "f", "s", "int", "--rows"], "--rows goes with ask, lookup and deletions alone"),
            (&["open", "f", "s", "int", "--edition", "2"], "--edition goes with ask and lookup alone"),
            (&["open", "f", "s", "int", "--deletions", "d"], "--deletions goes with ask and lookup alone"),
            (&["open", "f", "s", "date", "--stored"], "--stored goes with ask and lookup alone"),
            (&["lookup", "f", "s"], "TYPE is missing"),
            (&["lookup", "f", "s", "int"], "LITERAL is missing"),
            (&["lookup", "f", "s", "int", "--rows"], "LITERAL is missing"),
            (
                &["lookup", "f", "s", "int", "7", "equal"],
                "\"equal\" is no INT: it takes whole numbers from -2147483648 to 2147483647",
            ),
            (&["lookup", "f", "s", "int", "7", "--edition", "3"], "--edition \"3\" is none of 1, 2"),
            (
                &["lookup", "f", "s", "int", "7", "--deletions", "d"],
                "--deletions needs --bin N, the number of the data file's bin",
            ),
            (&["lookup", "f", "s", "int", "7", "--bin", "0"], "--bin goes with --deletions FILE"),
            (
                &["lookup", "f", "s", "int", "7", "--stored"],
                "--stored goes with DATE, TIME and the TIMESTAMP types, not with INT",
            ),
            (
                &["ask", "f", "s", "int", "equal", "7", "--no-audit"],
                "\"--no-audit\" is no option; a literal that begins with -- goes behind the word --",
            ),
            (&["ask", "f", "s", "int"], "QUESTION is missing"),
            (&["ask", "f", "s", "int", "equal", "x"], "\"x\" is no INT: it takes whole numbers from -2147483648 to 2147483647"),
            (&["ask", "f", "s", "int", "equal", "7", "--micros"], "--micros goes with the TIMESTAMP types, not with INT"),
            (&["ask", "f", "s", "time", "in", "--millis"], "--millis goes with the TIMESTAMP types, not with TIME"),
            (&["ask", "f", "s", "int", "in", "--stored"], "--stored goes with DATE, TIME and the TIMESTAMP types, not with INT"),
            (&["ask", "f", "s", "int", "in", "--deletions", "d"], "--deletions needs --bin N, the number of the data file's bin"),
            (&["ask", "f", "s", "int", "in", "--bin", "0"], "--bin goes with --deletions FILE"),
            (&["ask", "f", "s", "int", "in", "--bin"], "--bin needs N"),
            (&["ask", "f", "s", "int", "in", "--deletions"], "--deletions needs FILE"),
            (&["ask", "--bin", "0", "--bin", "1"], "--bin is there twice"),
            (&["ask", "f", "s", "int", "not-in", "--edition"], "--edition needs 1 or 2"),
            (&["ask", "f", "s", "int", "not-in", "--edition", "1", "--edition", "1"], "--edition is there twice"),
            (&["ask", "f", "s", "int", "in", "--edition=1", "--edition=2"], "--edition is there twice"),
            (&["ask", "--json", "--json"], "--json is there twice"),
            (&["ask", "--json=1"], "--json takes no value"),
            (&["ask", "--row"], "\"--row\" is no option; a literal that begins with -- goes behind the word --"),
            (&["deletions", "f", "-1", "6"], "BIN \"-1\" is no whole number from 0 to 18446744073709551615"),
            (&["deletions", "f", "0", "+6"], "ROWS \"+6\" is no whole number from 0 to 18446744073709551615"),
            (&["deletions", "f", "0"], "ROWS is missing"),
            (&["deletions", "f", "0", "6", "--bin", "1"], "--bin goes with ask and lookup alone"),
            (&["deletions", "f", "0", "6", "--first"], "--first needs ROW"),
            (&["deletions", "f", "0", "6", "--first", "1", "--first", "1"], "--first is there twice"),
            (&["deletions", "f", "0", "6", "--first", "-1"], "--first \"-1\" is no whole number from 0 to 18446744073709551615"),
            (
                &["deletions", "f", "0", "6", "--first", "18446744073709551616"],
                "--first \"18446744073709551616\" is no whole number from 0 to 18446744073709551615",
            ),
            (&["ask", "f", "s", "int", "in", "--first", "0"], "--first goes with --deletions FILE"),
            (&["lookup", "f", "s", "int", "7", "--first", "0"], "--first goes with --deletions FILE"),
            (&["ask", "f", "s", "int", "in", "--first", "0", "--bin", "0"], "--bin goes with --deletions FILE"),
            (
                &["ask", "f", "s", "int", "in", "--first", "0", "--deletions", "d"],
                "--deletions needs --bin N, the number of the data file's bin",
            ),
            (&["columns", "f", "--first", "0"], "--first goes with ask, lookup and deletions alone"),
            (&["audit", "f", "s", "int", "--first", "0"], "--first goes with ask, lookup and deletions alone"),
            (&["open", "f", "s", "int", "--first", "0"], "--first goes with ask, lookup and deletions alone"),
        ] {
            assert_eq!(read(line), Err(message.to_string()), "{line:?}");
        }
        for line in [&["audit", "f", "s", "decimal"], &["audit", "f", "s", ""]] {
            let message = read(line).unwrap_err();
            assert!(message.starts_with("TYPE \"") && message.ends_with("; it is one word, as local-zoned-timestamp"));
        }
        assert!(read(&["ask", "f", "s", "int", "is", "null"]).unwrap_err().ends_with("; it is one word, as is-not-null"));
    }

    #[test]
    fn words_that_are_no_utf_8() {
        let bad = || OsStr::from_bytes(b"\xFF").to_os_string();
        let line = |words: [OsString; 3]| parse(words);
        assert!(line(["locate".into(), bad(), "s".into()]).is_ok()); // a file may have any name
        assert_eq!(line(["locate".into(), "f".into(), bad()]), Err("COLUMN \"\\xFF\" is not UTF-8".to_string()));
        let kind = ["locate".into(), "f".into(), "s".into(), bad()];
        assert_eq!(parse(kind), Err("KIND \"\\xFF\" is not UTF-8".to_string()));
    }
}
