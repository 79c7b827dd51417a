//! The README's third example "From Rust", to be run in the repository's top folder; the test `readme` holds the two together.

use poddurance::{read_window, RowField};

fn main() -> Result<(), Box<dyn std::error::Error>> {
    let deletions = std::fs::read("demo/pumps-64.deletions")?;
    let first = 4_294_966_000;
    let deleted = read_window(&deletions, 1, first, RowField::for_rows(3_000)?)?;
    println!("{} of {} rows are deleted", deleted.count(), deleted.field().rows()); // 1000 of 3000 rows are deleted
    for rows in deleted.field().ranges() {
        println!("{} to {}", first + rows.start(), first + rows.end()); // 4294967000 to 4294967999
    }
    Ok(())
}
