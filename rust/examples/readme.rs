//! The README's first example "From Rust", to be run in the repository's top folder; the test `readme` holds the two together.

use poddurance::{ask_file, read_deletions, subtract, subtract_record, Edition, Literals, Question, RowField, Type};

fn main() -> Result<(), Box<dyn std::error::Error>> {
    let index = std::fs::read("demo/pumps-v2.index")?;
    let deletions = std::fs::read("demo/pumps.deletions")?;
    let row_count = 24; // as the table's metadata has it

    let deleted = read_deletions(&deletions, 0, RowField::for_rows(row_count)?)?;
    let fault = Literals::of(Type::String, ["fault"])?;
    let field = RowField::for_rows(row_count)?;
    let rows = match ask_file(&[], &index, "state", "bitmap", Edition::Second, Question::Equal, &fault, field)? {
        Some(answer) => {
            let (mut rows, record) = answer.into_parts();
            let record = subtract_record(&mut rows, deleted.field(), record)?.record;
            println!("{record}"); // drawn from 2 of 24 rows
            println!("{} deleted, {} null", record.deleted(), record.nulls()); // 3 deleted, 0 null
            rows
        }
        None => {
            // No index: all rows but the deleted ones are to be read.
            let mut rows = RowField::all_of(row_count)?;
            subtract(&mut rows, deleted.field())?;
            rows
        }
    };
    println!("{:?}", rows.iter().collect::<Vec<_>>()); // [10, 16]
    Ok(())
}
