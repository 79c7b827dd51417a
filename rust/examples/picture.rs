//! Writes `docs/graph.svg` from the files of `demo/`. It is the same each time.

mod graph;
mod svg;

use std::{fs, io, path::Path};

fn main() -> io::Result<()> {
    let root = Path::new(env!("CARGO_MANIFEST_DIR")).join("..");
    let demo = |name: &str| fs::read(root.join("demo").join(name));
    let picture = graph::svg(&demo("pumps-v2.index")?, &demo("pumps-row-lost.index")?);
    fs::write(root.join("docs/graph.svg"), &picture)?;
    println!("docs/graph.svg: {} bytes", picture.len());
    Ok(())
}
