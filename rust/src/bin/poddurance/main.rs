//! The command line: asks index files and deletion files, and says the answer in one line.

#![deny(missing_docs)]
#![forbid(unsafe_code)]

mod args;
mod calendar;
mod columns;
#[path = "../../commas.rs"]
mod commas;
mod literal;
mod modified;
mod output;

use std::fs::File;
use std::io::{self, BufWriter, Read, Write};
use std::process::ExitCode;

use poddurance::raw::{self, Fault};
use poddurance::{ask, ask_file, audit, locate, open, read_deletions, read_window, subtract_record};
use poddurance::{
    Deleted, Edition, Error, Literals, LookedUp, OpenedBody, Question, Record, RecordSubtracted, Refusal, RowField, LIMIT,
};

use args::{Command, Deletions, IndexBytes, IndexOf, Job, Source, Word, BITMAP};
use literal::Literal;
use output::{Lookup, Outcome, Part};

/// Wrong usage, a file that can't be read, or an answer that can't be written.
const FAILED: u8 = 2;

fn main() -> ExitCode {
    let job = match args::parse(std::env::args_os().skip(1)) {
        Ok(job) => job,
        Err(message) => return failed(&format!("{message}\nSee 'poddurance --help'.")),
    };
    match run(job) {
        Ok(status) => ExitCode::from(status),
        Err(message) => failed(&message),
    }
}

fn failed(message: &str) -> ExitCode {
    // With nowhere to say it, the exit status still does.
    let _ = writeln!(io::stderr(), "poddurance: {message}");
    ExitCode::from(FAILED)
}

fn run(job: Job) -> Result<u8, String> {
    let mut out = BufWriter::new(io::stdout().lock());
    let written = match job.command {
        Command::Help => out.write_all(include_bytes!("help.txt")).map(|()| 0),
        Command::Version => writeln!(out, "poddurance {}", env!("CARGO_PKG_VERSION")).map(|()| 0),
        command => {
            let outcome = carry_out(command, job.rows)?;
            let said = if job.json { outcome.write_json(job.rows, &mut out) } else { outcome.write_text(job.rows, &mut out) };
            said.map(|()| outcome.exit_status())
        }
    };
    // An answer that was cut short must not pass for one.
    written.and_then(|status| out.flush().map(|()| status)).map_err(|error| format!("can't write the answer: {error}"))
}

/// `list` says whether the rows will be listed.
fn carry_out(command: Command, list: bool) -> Result<Outcome, String> {
    Ok(match command {
        Command::Help | Command::Version => unreachable!("these have been answered"),
        Command::Columns { file } => listed(&read(&file)?),
        Command::Locate { bytes, column, kind } => place(&Buffers::read(&bytes)?, column, kind),
        Command::Audit { index } => audited(&Buffers::read(&index.bytes)?, &index),
        Command::Ask { index, edition, question, literals, deletions } => {
            match (asked(&Buffers::read(&index.bytes)?, &index, edition, question, &literals), deletions) {
                (Outcome::Answered { record, field, .. }, Some(deletions)) => left(field, record, &Bin::read(&deletions)?),
                (outcome, _) => outcome,
            }
        }
        Command::Open { index } => opened(&Buffers::read(&index.bytes)?, &index),
        Command::LookUp { index, edition, literals, deletions } => match open_index(&Buffers::read(&index.bytes)?, &index) {
            Ok((opened, field)) => {
                let bin = deletions.as_ref().map(Bin::read).transpose()?;
                let looked_up = looked_up(&opened, field, edition, &literals, bin.as_ref(), list);
                looked_up.map_or_else(|outcome| outcome, |lookups| Outcome::LookedUp { lookups })
            }
            Err(outcome) => outcome,
        },
        Command::Deletions { deletions, rows } => {
            let bin = Bin::read(&deletions)?;
            match bin.rows(rows) {
                Ok(deleted) => Outcome::Deleted { count: deleted.count(), rows, first: bin.first, field: deleted.into_field() },
                Err(refusal) => bin.refused(refusal, false),
            }
        }
    })
}

/// The two buffers in which an index is looked for.
struct Buffers {
    embedded: Vec<u8>,
    file: Vec<u8>,
}

impl Buffers {
    /// Where there are embedded bytes the library doesn't look at the file, and so it isn't read: there may be none.
    fn read(bytes: &IndexBytes) -> Result<Buffers, String> {
        let embedded = bytes.embedded.as_ref().map(read).transpose()?.unwrap_or_default();
        let file = if embedded.is_empty() { read(&bytes.file)? } else { Vec::new() };
        Ok(Buffers { embedded, file })
    }

    /// The body of the bitmap index on a column.
    fn locate(&self, column: &str) -> Result<Option<&[u8]>, Refusal> {
        locate(&self.embedded, &self.file, column, BITMAP)
    }
}

/// What the head lists. The one answer that isn't the library's.
fn listed(bytes: &[u8]) -> Outcome {
    if bytes.len() as u64 > LIMIT {
        return Outcome::NotListed { reason: format!("the file has more than {LIMIT} bytes") };
    }
    match columns::list(bytes) {
        Ok(columns) => Outcome::Listed { columns },
        Err(reason) => Outcome::NotListed { reason },
    }
}

/// Where the index is; its start is a number that only the raw call has.
fn place(buffers: &Buffers, column: String, kind: String) -> Outcome {
    match raw::locate(&buffers.embedded, &buffers.file, column.as_bytes(), kind.as_bytes()) {
        (raw::ACCEPTED, start, length) => Outcome::Found { column, kind, start, length },
        (raw::ABSENT, ..) => Outcome::Absent { column, kind },
        // What Locate refuses has no entry.
        (number, ..) => not_located(refusal_from(number, Fault::NONE), &column),
    }
}

/// What Locate refuses. LITERAL is of a name, and of which one the library says without a file.
fn not_located(refusal: Refusal, column: &str) -> Outcome {
    let part = match refusal {
        Refusal::Literal if locate(&[], &[], column, BITMAP) == Err(Refusal::Literal) => Part::Column,
        Refusal::Literal => Part::Kind,
        _ => Part::Index,
    };
    Outcome::Refused { refusal, part }
}

/// The body of the bitmap index on the column, or the outcome where there is none.
fn body_of<'a>(buffers: &'a Buffers, index: &IndexOf) -> Result<&'a [u8], Outcome> {
    match buffers.locate(&index.column) {
        Ok(Some(body)) => Ok(body),
        Ok(None) => Err(absent(index)),
        Err(refusal) => Err(not_located(refusal, &index.column)),
    }
}

/// Whether the bitmap index on the column gives each row one place.
fn audited(buffers: &Buffers, index: &IndexOf) -> Outcome {
    let body = match body_of(buffers, index) {
        Ok(body) => body,
        Err(outcome) => return outcome,
    };
    match audit(body, index.ty, RowField::for_body(body)) {
        Ok(audited) => differing(audited.rows(), index.data_rows).unwrap_or(Outcome::Accepted { rows: audited.rows() }),
        Err(error) => Outcome::Refused { refusal: refusal_of(error), part: Part::Index },
    }
}

/// Which rows the bitmap index on the column answers.
fn asked(buffers: &Buffers, index: &IndexOf, edition: Edition, question: Question, literals: &[Literal]) -> Outcome {
    let literals = match Literals::of(index.ty, literals) {
        Ok(literals) => literals,
        Err(refusal) => return Outcome::Refused { refusal, part: Part::Literals },
    };
    // The call wants a field of the index's row count, and who asks needn't know it. So the index is located beforehand, only to
    // make the field for the rows that its body claims. Whether it is there, and whether the claim is true, the call itself says.
    let located = buffers.locate(&index.column);
    let field = RowField::for_body(located.ok().flatten().unwrap_or_default());
    match ask_file(&buffers.embedded, &buffers.file, &index.column, BITMAP, edition, question, &literals, field) {
        Ok(Some(answer)) => {
            let (field, record) = answer.into_parts();
            differing(record.rows(), index.data_rows).unwrap_or(Outcome::Answered { record, removed: None, first: None, field })
        }
        Ok(None) => absent(index),
        Err(error) => match (located, refusal_of(error)) {
            (Err(_), refusal) => not_located(refusal, &index.column),
            (Ok(_), refusal) => {
                let of_literals = of_literals(refusal, edition, question, &literals);
                Outcome::Refused { refusal, part: if of_literals { Part::Literals } else { Part::Index } }
            }
        },
    }
}

/// Whether a refusal is of the literals: then a body of no bytes gets it too, since they are read before it.
fn of_literals(refusal: Refusal, edition: Edition, question: Question, literals: &Literals) -> bool {
    let empty = ask(&[], edition, question, literals, RowField::for_body(&[]));
    refusal != Refusal::Short && empty == Err(Error::Refused(refusal))
}

/// The bitmap index on the column, opened, with a field for its rows; or the outcome where it can't be.
fn open_index<'a>(buffers: &'a Buffers, index: &IndexOf) -> Result<(OpenedBody<'a>, RowField), Outcome> {
    let body = body_of(buffers, index)?;
    let (opened, field) = open(body, index.ty, RowField::for_body(body))
        .map_err(|error| Outcome::Refused { refusal: refusal_of(error), part: Part::IndexToOpen })?;
    match differing(opened.rows(), index.data_rows) {
        Some(outcome) => Err(outcome),
        None => Ok((opened, field)),
    }
}

/// What opening the bitmap index on the column comes to.
fn opened(buffers: &Buffers, index: &IndexOf) -> Outcome {
    match open_index(buffers, index) {
        Ok((opened, _)) => {
            Outcome::Opened { rows: opened.rows(), blocks: opened.blocks(), table_bytes: size_of_val(opened.table()) }
        }
        Err(outcome) => outcome,
    }
}

/// Each literal looked up in the opened index. Either all of them are answered or none is: a line printed before a refusal could pass for the
/// whole.
fn looked_up(
    opened: &OpenedBody,
    mut field: RowField,
    edition: Edition,
    literals: &[Word],
    bin: Option<&Bin>,
    list: bool,
) -> Result<Vec<Lookup>, Outcome> {
    // The index was accepted, and so a refusal is of the literal or of the deletions.
    let of_literal = |error| Outcome::Refused { refusal: refusal_of(error), part: Part::Literals };
    let deleted = bin.map(|bin| bin.rows(opened.rows()).map_err(|refusal| bin.refused(refusal, true))).transpose()?;
    let first = bin.and_then(|bin| bin.first);
    let mut lookups = Vec::new();
    for Word { text, literal } in literals {
        let literal = Literals::of(opened.ty(), [literal]).map_err(|refusal| of_literal(refusal.into()))?;
        let LookedUp { answer, compared } = opened.look_up(edition, &literal, field).map_err(of_literal)?;
        let (mut rows, mut record) = answer.into_parts();
        let mut removed = None;
        if let Some(deleted) = &deleted {
            let subtracted = take_away(&mut rows, deleted, record);
            (record, removed) = (subtracted.record, Some(subtracted.removed));
        }
        // Only rows that will be listed are kept: the field goes on to the next literal.
        lookups.push(Lookup { literal: text.clone(), record, removed, first, compared, rows: list.then(|| rows.clone()) });
        field = rows;
    }
    Ok(lookups)
}

fn absent(index: &IndexOf) -> Outcome {
    Outcome::Absent { column: index.column.clone(), kind: BITMAP.to_string() }
}

/// The outcome where an accepted index has another row count than the data file: it is of another one, or of the same before it
/// was written anew, and no answer of it counts.
fn differing(index_rows: u64, data_rows: Option<u64>) -> Option<Outcome> {
    let data_rows = data_rows.filter(|data_rows| *data_rows != index_rows)?;
    Some(Outcome::RowsDiffer { index_rows, data_rows })
}

/// A deletion file, which of its bins is the data file's, and the first row of the window that it is read through, if it is.
struct Bin {
    file: Vec<u8>,
    number: u64,
    first: Option<u64>,
}

impl Bin {
    fn read(deletions: &Deletions) -> Result<Bin, String> {
        Ok(Bin { file: read(&deletions.file)?, number: deletions.bin, first: deletions.first })
    }

    /// The rows that it lists of a data file with so many, or of so many from the first one on. Beside an index it is read where no row is
    /// chosen too: a refused one is never an answer.
    fn rows(&self, rows: u64) -> Result<Deleted, Refusal> {
        let Bin { file, number, first } = self;
        match (RowField::for_rows(rows), first) {
            (Ok(field), None) => read_deletions(file, *number, field),
            (Ok(field), Some(first)) => read_window(file, *number, *first, field),
            // There is no field for so many rows. The library says so as well, and needs no room for it.
            (Err(_), first) => {
                let (answer, _, fault) = match first {
                    None => raw::read_deletions(file, *number, rows, &mut []),
                    Some(first) => raw::read_window(file, *number, *first, rows, &mut []),
                };
                Err(refusal_from(answer, fault))
            }
        }
    }

    /// It is refused, beside an index that was accepted or by itself.
    fn refused(&self, refusal: Refusal, beside_index: bool) -> Outcome {
        let needs_window = refusal == Refusal::Magic && self.first.is_none() && self.is_64_bit();
        Outcome::Refused { refusal, part: Part::Deletions { beside_index, needs_window } }
    }

    /// Whether a bin whose magic is refused without a window is a 64-bit one: the library says so when it is to read no row through one.
    fn is_64_bit(&self) -> bool {
        raw::read_window(&self.file, self.number, 0, 0, &mut []).0 != Refusal::Magic.number()
    }
}

/// The rows that are left of an answer when those of the bin are taken away.
fn left(mut field: RowField, record: Record, bin: &Bin) -> Outcome {
    match bin.rows(record.rows()) {
        Ok(deleted) => {
            let RecordSubtracted { record, removed } = take_away(&mut field, &deleted, record);
            Outcome::Answered { record, removed: Some(removed), first: bin.first, field }
        }
        Err(refusal) => bin.refused(refusal, true),
    }
}

/// Takes the deleted rows, read for as many rows as the answer has, away from the answer's.
fn take_away(rows: &mut RowField, deleted: &Deleted, record: Record) -> RecordSubtracted {
    subtract_record(rows, deleted.field(), record).unwrap_or_else(|error| unreachable!("all are of one row count: {error}"))
}

fn refusal_of(error: Error) -> Refusal {
    error.refusal().unwrap_or_else(|| {
        unreachable!("each field is for the row count, and each literal of the type, it is used with: {error}")
    })
}

fn refusal_from(answer: u8, fault: Fault) -> Refusal {
    Refusal::from_raw(answer, fault).unwrap_or_else(|| unreachable!("{answer} is no refusal of the library"))
}

/// The bytes of a file or of standard input, and where they are over the limit just enough that the library finds them so.
fn read(source: &Source) -> Result<Vec<u8>, String> {
    let most = LIMIT + 1;
    let mut bytes = Vec::new();
    let read = match source {
        Source::Input => io::stdin().lock().take(most).read_to_end(&mut bytes),
        Source::File(path) => File::open(path).and_then(|file| {
            bytes.try_reserve_exact(file.metadata()?.len().min(most) as usize)?;
            file.take(most).read_to_end(&mut bytes)
        }),
    };
    match (read, source) {
        (Ok(_), _) => Ok(bytes),
        (Err(error), Source::Input) => Err(format!("can't read standard input: {error}")),
        (Err(error), Source::File(path)) => {
            Err(format!("can't read {}: {error}", output::escaped(path.as_os_str().as_encoded_bytes())))
        }
    }
}
