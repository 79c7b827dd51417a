//! The README's second example "From Rust", to be run in the repository's top folder; the test `readme` holds the two together.

use poddurance::{locate, open, Edition, Literals, RowField, Type};

fn main() -> Result<(), Box<dyn std::error::Error>> {
    let index = std::fs::read("demo/pumps-v2.index")?;
    let Some(body) = locate(&[], &index, "state", "bitmap")? else {
        return Ok(()); // no index: all rows are to be read
    };
    let (opened, field) = open(body, Type::String, RowField::for_rows(24)?)?;
    println!("rows: {}, blocks: {}", opened.rows(), opened.blocks()); // rows: 24, blocks: 1

    let fault = opened.look_up(Edition::Second, &Literals::of(Type::String, ["fault"])?, field)?;
    println!("{}, compared with {} values", fault.answer.record(), fault.compared); // drawn from 3 of 24 rows, compared with 2 values

    let field = fault.answer.into_field(); // lent again; threads have a field each
    let idle = opened.look_up(Edition::Second, &Literals::of(Type::String, ["idle"])?, field)?;
    println!("{:?}", idle.answer.field().iter().collect::<Vec<_>>()); // [2, 5, 19, 22]
    Ok(())
}
