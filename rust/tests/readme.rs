//! The README's commands and its examples in Rust and C are what runs, and print what stands beside them.

mod support;

use std::fs;
use std::path::{Path, PathBuf};
use std::process::{Command, Output};

use poddurance::Refusal;
use support::{say, shown};

fn root() -> PathBuf {
    Path::new(env!("CARGO_MANIFEST_DIR")).join("..").canonicalize().unwrap()
}

/// The lines of the README behind a heading, up to the next one.
fn section(heading: &str) -> Vec<String> {
    let readme = fs::read_to_string(root().join("README.md")).unwrap();
    let mut lines = readme.lines().skip_while(|line| *line != heading);
    assert!(lines.next().is_some(), "README.md has no heading {heading:?}");
    lines.take_while(|line| !line.starts_with("## ")).map(str::to_string).collect()
}

/// The first block of code of that language, and the lines behind it.
fn block(section: &[String], language: &str) -> (Vec<String>, Vec<String>) {
    let fence = format!("```{language}");
    let start = section.iter().position(|line| *line == fence).expect("the section has a block") + 1;
    let end = start + section[start..].iter().position(|line| line == "```").expect("the block ends");
    (section[start..end].to_vec(), section[end + 1..].to_vec())
}

/// What a program printed that ended well.
fn lines(output: Output) -> Vec<String> {
    assert!(output.status.success(), "{}: {}", output.status, String::from_utf8_lossy(&output.stderr));
    String::from_utf8(output.stdout).unwrap().lines().map(str::to_string).collect()
}

#[test]
fn commands_answer_as_shown() {
    let (shown, _) = shown(&fs::read_to_string(root().join("README.md")).unwrap());
    for one in &shown {
        one.check(&root());
    }
    // A sound file and a refused one at least: a reader of the README that finds nothing would pass too.
    assert!(
        shown.iter().any(|one| one.output.starts_with("keep: ")) && shown.iter().any(|one| one.output.starts_with("refused: "))
    );
    assert!(shown.iter().any(|one| one.words[0] == "open") && shown.iter().any(|one| one.words[0] == "lookup"));
    // A 64-bit bin with a first row and without.
    let of_64_bit_bins = || shown.iter().filter(|one| one.words.iter().any(|word| word == "demo/pumps-64.deletions"));
    for with_first in [true, false] {
        assert!(of_64_bit_bins().any(|one| one.words.iter().any(|word| word == "--first") == with_first));
    }
    // And one question on the column with null rows in both editions, with different answers.
    let in_edition = |number: &str| {
        let asked = shown.iter().find(|one| one.words.windows(2).any(|pair| pair == ["--edition", number]));
        let asked = asked.unwrap_or_else(|| panic!("no question in edition {number}"));
        let question: Vec<&String> = asked.words.iter().filter(|word| *word != number).collect();
        (question, &asked.output)
    };
    let (first, second) = (in_edition("1"), in_edition("2"));
    assert!(first.0 == second.0 && first.1 != second.1 && first.0.iter().any(|word| *word == "alarm"));
}

/// The table of refusals is the crate's: number, name, when it is given, and what it carries.
#[test]
fn refusals_are_those_of_the_crate() {
    let section = section("## Refusals");
    let table: Vec<&String> = section.iter().filter(|line| line.starts_with("| ")).skip(1).collect();
    let expected = Refusal::ALL.map(|refusal| {
        let carried: Vec<&str> = refusal.carried().map(|(name, _)| name).collect();
        let carried = if carried.is_empty() { String::new() } else { format!(" {}", carried.join(", ")) };
        format!("| {} | {} | {} |{carried} |", refusal.number(), refusal.name(), refusal.meaning())
    });
    assert_eq!(table, expected.iter().collect::<Vec<_>>());
}

#[test]
fn usage_is_that_of_the_help() {
    let usage = |text: Vec<String>| -> Vec<String> {
        // A command's second line begins with options.
        let trimmed = text.iter().map(|line| line.trim().to_string());
        trimmed.filter(|line| line.starts_with("poddurance ") || line.starts_with("[--")).collect()
    };
    let help = lines(Command::new(env!("CARGO_BIN_EXE_poddurance")).arg("--help").output().unwrap());
    let section = section("## The command line");
    assert_eq!(usage(section.clone()), usage(help.clone()));
    assert_eq!(usage(help).iter().filter(|line| line.starts_with("poddurance ")).count(), 7);
    // What isn't proved is called so.
    let text = section.join(" ");
    assert!(text.contains("`columns`") && text.contains("not proved"));
}

#[test]
fn rust_examples() {
    let (first, behind) = block(&section("## From Rust"), "rust");
    let (second, behind) = block(&behind, "rust");
    let (third, behind) = block(&behind, "rust");
    assert!(!behind.iter().any(|line| line == "```rust"), "a fourth example in Rust");
    rust_example(&first, "readme");
    rust_example(&second, "readme_lookup");
    rust_example(&third, "readme_window");
}

/// The example of that name is the block, what stands behind its first blank line in a main function, and prints what the block says.
fn rust_example(block: &[String], name: &str) {
    let blank = block.iter().position(|line| line.is_empty()).expect("the names come first");
    let (names, code) = block.split_at(blank);
    let main = ["fn main() -> Result<(), Box<dyn std::error::Error>> {".to_string()];
    let end = ["Ok(())", "}"].map(str::to_string);
    let parts = [names, &main, code, &end].concat();
    let example = fs::read_to_string(root().join("rust/examples").join(name).with_extension("rs")).unwrap();
    let bare = |lines: Vec<&str>| -> Vec<String> {
        let trimmed = lines.into_iter().map(str::trim);
        trimmed.filter(|line| !line.is_empty() && !line.starts_with("//!")).map(str::to_string).collect()
    };
    assert_eq!(bare(example.lines().collect()), bare(parts.iter().map(String::as_str).collect()));

    // Each printing line has its output as a comment.
    let printing = block.iter().filter(|line| line.trim_start().starts_with("println!"));
    let expected: Vec<&str> = printing.map(|line| line.split_once("); // ").expect("a comment with the output").1).collect();
    assert!(!expected.is_empty());
    let output = Command::new(env!("CARGO"))
        .args(["run", "--quiet", "--offline", "--manifest-path", "rust/Cargo.toml", "--example", name])
        .current_dir(root())
        .output()
        .unwrap();
    assert_eq!(lines(output), expected);
}

#[test]
fn c_examples() {
    if Command::new("cc").arg("--version").output().is_err() {
        return say("\nskipped: README's examples in C, since there is no C compiler 'cc'");
    }
    let (first, behind) = block(&section("## From C"), "c");
    c_example(&first, &behind, "example");
    let (second, behind) = block(&behind, "c");
    c_example(&second, &behind, "lookup");
    let (third, behind) = block(&behind, "c");
    c_example(&third, &behind, "window");
    assert!(!behind.iter().any(|line| line == "```c"), "a fourth example in C");
}

/// The block is the program of that name, and prints what is shown behind it.
fn c_example(block: &[String], behind: &[String], name: &str) {
    let mut shown = behind.iter().skip_while(|line| !line.ends_with(&format!("./{name}")));
    let command = shown.next().expect("the command that compiles and runs it").trim_start().trim_start_matches("$ ");
    let expected: Vec<&str> = shown.map_while(|line| line.strip_prefix("    ")).collect();
    assert!(!expected.is_empty());

    // The command is run as printed, in a folder that has the repository's headers and archive.
    let folder = Path::new(env!("CARGO_TARGET_TMPDIR")).join(format!("readme-c-{name}"));
    let _ = fs::remove_dir_all(&folder);
    // Copies, since rt refuses a repository with links in it.
    for file in ["include/poddurance.h", "target/staticlib/libpoddurance.a"] {
        let copy = folder.join(file);
        fs::create_dir_all(copy.parent().unwrap()).unwrap();
        fs::copy(root().join(file), copy).unwrap();
    }
    fs::write(folder.join(name).with_extension("c"), block.join("\n") + "\n").unwrap();
    let output = Command::new("sh").args(["-c", command]).current_dir(&folder).output().unwrap();
    assert_eq!(lines(output), expected);
}

/// README's count of lines that a reader must believe is what the script counts.
#[test]
fn believed_lines() {
    let output = Command::new("bash").arg(".ci/believed").current_dir(root()).output().unwrap();
    let counted = lines(output);
    let count =
        counted.iter().find_map(|line| line.strip_prefix("Meaning, Layout and Reading ")).expect("the script's last line");
    let readme = fs::read_to_string(root().join("README.md")).unwrap();
    assert!(readme.contains(&format!("`crates/*/specs/`: {count} lines of definitions")), "the script counts {count}");
}
