//! Links libpoddurance.a, and has it made first where it is missing or older than the sources.

#[path = "build/archive.rs"]
mod archive;

fn main() {
    archive::build_step("poddurance", |package| package.parent());
}
