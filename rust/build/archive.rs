//! The build step of a package that links an archive: it has `tools/archive` make the archive first if it is missing or older than the
//! sources. With PODDURANCE_LIB_DIR set, an archive that was made elsewhere is linked, and neither `rt` nor the sources are looked at.

use std::collections::BTreeSet;
use std::env;
use std::fs::{self, File};
use std::io::{BufRead, BufReader, IsTerminal, Read, Write};
use std::os::unix::fs::{FileTypeExt, OpenOptionsExt};
use std::os::unix::process::parent_id;
use std::path::{Path, PathBuf};
use std::process::{exit, ChildStderr, ChildStdout, Command, Stdio};
use std::sync::mpsc::{self, Receiver, RecvTimeoutError, Sender};
use std::thread;
use std::time::{Duration, Instant, SystemTime};

const LIB_DIR: &str = "PODDURANCE_LIB_DIR";

/// Finds the repository's root from a package's folder.
type Root = fn(&Path) -> Option<&Path>;

/// The build step of the package that links the archive `name`, whose functions the crate `name`_c exports.
pub fn build_step(name: &'static str, root: Root) {
    if let Err(reason) = run(name, root) {
        eprintln!("{name}: {reason}");
        exit(1);
    }
}

fn run(name: &'static str, root: Root) -> Result<(), String> {
    check_target()?;
    println!("cargo:rerun-if-env-changed={LIB_DIR}");
    let folder = match env::var_os(LIB_DIR).filter(|folder| !folder.is_empty()) {
        Some(folder) => prebuilt(name, folder.into())?,
        None => made_here(name, root)?,
    };
    println!("cargo:rustc-link-search=native={}", folder.display());
    println!("cargo:rustc-link-lib=static={name}");
    Ok(())
}

/// The name of an archive's file, as `tools/archive` writes it.
fn file_name(name: &str) -> String {
    format!("lib{name}.a")
}

/// The archive holds machine code for one kind of machine; elsewhere the linker's message would say nothing.
fn check_target() -> Result<(), String> {
    let of = |name: &str| env::var(name).unwrap_or_default();
    let (machine, system) = (of("CARGO_CFG_TARGET_ARCH"), of("CARGO_CFG_TARGET_OS"));
    if (machine.as_str(), system.as_str()) != ("x86_64", "linux") {
        return Err(format!("rt lib makes an archive for x86-64 Linux alone, and this is {machine} {system}"));
    }
    Ok(())
}

/// The folder of an archive that was made elsewhere.
fn prebuilt(name: &str, folder: PathBuf) -> Result<PathBuf, String> {
    // A build script doesn't run where cargo was called, so that a path from there would lead elsewhere.
    if !folder.is_absolute() {
        return Err(format!("{LIB_DIR} is {}, and must be an absolute path", folder.display()));
    }
    let file_name = file_name(name);
    let archive = folder.join(&file_name);
    println!("cargo:rerun-if-changed={}", archive.display());
    if !archive.is_file() {
        return Err(format!("{LIB_DIR} is {}, and there is no {file_name} in it", folder.display()));
    }
    Ok(folder)
}

/// The folder of the repository's own archive, which is made first where it is missing or older than the sources.
fn made_here(name: &'static str, root: Root) -> Result<PathBuf, String> {
    let manifest = env::var_os("CARGO_MANIFEST_DIR").ok_or("cargo gives no CARGO_MANIFEST_DIR")?;
    let root = root(Path::new(&manifest)).ok_or("the crate stands in no repository")?;
    let folder = root.join("target").join("staticlib");
    let archive = folder.join(file_name(name));

    // The whole folder, so that a crate's first specs or proofs are noticed: cargo can't watch a folder that isn't there yet.
    for path in [&root.join("crates.txt"), &root.join("crates"), &archive] {
        println!("cargo:rerun-if-changed={}", path.display());
    }

    let newest = newest_source(name, root)?;
    match changed(&archive) {
        None => make(name, root, &archive, "missing")?,
        Some(made) if made < newest => make(name, root, &archive, "older than the sources")?,
        Some(_) => {}
    }
    Ok(folder)
}

/// The latest change of what the archive is made from: the list of crates, and of each crate that is proved for it what is compiled and
/// proved. Must-fail edits are not part of it; a crate's folder itself is, since specs that are moved there or removed change nothing
/// else.
fn newest_source(name: &str, root: &Path) -> Result<SystemTime, String> {
    let mut newest = changed(&root.join("crates.txt"));
    for one in crates_to_prove(name, root)? {
        let folder = root.join("crates").join(one);
        let parts = ["src", "specs", "proofs"].into_iter().filter_map(|part| newest_in(&folder.join(part)));
        newest = parts.chain(changed(&folder)).chain(newest).max();
    }
    newest.ok_or_else(|| "there are no sources under crates/".to_string())
}

/// The latest change of a file, or of anything in a folder. The folder's own change counts too: a file that is removed or moved
/// there changes nothing else.
fn newest_in(path: &Path) -> Option<SystemTime> {
    let inside = fs::read_dir(path).into_iter().flatten().flatten().filter_map(|entry| newest_in(&entry.path()));
    inside.chain(changed(path)).max()
}

fn changed(path: &Path) -> Option<SystemTime> {
    fs::metadata(path).and_then(|data| data.modified()).ok()
}

/// The crates that `rt lib` proves for an archive: the one that exports its functions, and by crates.txt all that it is built on.
fn crates_to_prove(name: &str, root: &Path) -> Result<BTreeSet<String>, String> {
    let list = fs::read_to_string(root.join("crates.txt")).map_err(|e| format!("can't read crates.txt: {e}"))?;
    let lines: Vec<(&str, &str)> = list.lines().filter_map(|line| line.split_once(':')).collect();
    let exports = format!("{name}_c");
    let mut found = BTreeSet::new();
    let mut left = vec![exports.as_str()];
    while let Some(name) = left.pop() {
        // The name comes first, and then what kind of crate it is, as in `NAME staticlib: ..`. What crates.txt doesn't list is the kit's
        // own, proved long ago.
        if let Some((_, built_on)) = lines.iter().find(|(listed, _)| listed.split_whitespace().next() == Some(name)) {
            if found.insert(name.to_string()) {
                left.extend(built_on.split_whitespace());
            }
        }
    }
    Ok(found)
}

fn make(name: &'static str, root: &Path, archive: &Path, why: &str) -> Result<(), String> {
    let mut left = crates_to_prove(name, root)?;
    let crates = left.len();
    let file_name = file_name(name);
    let mut progress = Progress::new(name, crates);
    progress.line(&format!("{file_name} is {why}: rt proves {crates} crates to make it, which takes minutes"));
    if !is_on_path("rt") {
        return Err(format!(
            "target/staticlib/{file_name} is {why}, and 'rt', which makes it, is not on the path; \
             install the Rattle kit and put its folder with 'rt' on PATH, or set {LIB_DIR} to the folder of an archive"
        ));
    }
    // rt keeps its work in a folder out/ in the crate's. Were it made while rt proves, the crate's folder would be newer than the
    // archive, as after a move of its specs.
    for one in &left {
        let _ = fs::create_dir(root.join("crates").join(one).join("out"));
    }
    let newest = newest_source(name, root)?;
    let mut tool = Command::new(root.join("tools").join("archive"))
        .arg(name)
        .stdin(Stdio::null())
        .stdout(Stdio::piped())
        .stderr(Stdio::piped())
        .spawn()
        .map_err(|e| format!("can't run tools/archive: {e}"))?;
    let said = lines_of(tool.stdout.take(), tool.stderr.take());
    let mut report = Report::default();
    loop {
        match said.recv_timeout(Duration::from_secs(1)) {
            Ok(line) => {
                // Cargo reads this script's standard output for its own words, so what rt prints goes to standard error.
                eprintln!("{line}");
                if let Some(one) = report.proved(&line).filter(|one| left.remove(one)) {
                    progress.proved(&one);
                }
            }
            Err(RecvTimeoutError::Timeout) => progress.tick(),
            Err(RecvTimeoutError::Disconnected) => break,
        }
    }
    let status = tool.wait().map_err(|e| format!("can't wait for tools/archive: {e}"))?;
    progress.end();
    if !status.success() {
        return Err(format!("'tools/archive {name}' failed: {status}; its output is above"));
    }
    if !archive.is_file() {
        return Err(format!("'tools/archive {name}' ended well but target/staticlib/{file_name} isn't there"));
    }
    // The archive gets the time of the newest source it was made from, not of now: what is edited while rt proves is newer, and so is
    // not missed.
    let dated = File::options().write(true).open(archive).and_then(|file| file.set_modified(newest));
    dated.map_err(|e| format!("can't set the time of target/staticlib/{file_name}: {e}"))?;
    progress.line(&format!("the archive is made: {crates} crates proved, {}", progress.seconds()));
    Ok(())
}

fn is_on_path(program: &str) -> bool {
    env::var_os("PATH").is_some_and(|path| env::split_paths(&path).any(|folder| folder.join(program).is_file()))
}

/// The lines that rt prints, as they come: to standard output what it says of crates, and some words of its own to standard error.
fn lines_of(stdout: Option<ChildStdout>, stderr: Option<ChildStderr>) -> Receiver<String> {
    fn pass_on(output: impl Read + Send + 'static, to: Sender<String>) {
        thread::spawn(move || {
            for line in BufReader::new(output).split(b'\n').map_while(Result::ok) {
                if to.send(String::from_utf8_lossy(&line).into_owned()).is_err() {
                    return;
                }
            }
        });
    }
    let (sender, receiver) = mpsc::channel();
    if let Some(stdout) = stdout {
        pass_on(stdout, sender.clone());
    }
    if let Some(stderr) = stderr {
        pass_on(stderr, sender);
    }
    receiver
}

/// What rt's lines say of crates, one line after the other.
#[derive(Default)]
struct Report {
    /// The crate that was checked last, of which the verdict is due.
    checked: Option<String>,
}

impl Report {
    /// The crate of which a line says that it is proved, now or before. A check names its crate ahead of its verdict, and
    /// before that the libraries that it was checked over, which rt builds of proved crates alone.
    fn proved(&mut self, line: &str) -> Option<String> {
        let named = |kind: &str| line.strip_prefix(kind)?.split_once(": modules ").map(|(name, _)| name.to_string());
        if let Some(one) = named("crate ") {
            self.checked = Some(one);
        } else if let Some(verdict) = line.strip_prefix("logic=") {
            return self.checked.take().filter(|_| verdict.starts_with("proved "));
        }
        named("library ")
    }
}

/// Says how far the proofs are.
struct Progress {
    /// The archive that is made.
    name: &'static str,
    crates: usize,
    proved: usize,
    started: Instant,
    seen: Seen,
}

/// Who sees it besides standard error, which cargo keeps back unless the script fails or cargo is called with -vv. So it goes where
/// cargo's own words go as well, which is known of the parent process: that is cargo.
enum Seen {
    /// A person at a terminal: one line that changes in place, as cargo's own.
    InPlace(File),
    /// A log, a pipe, or a terminal that can't change a line: whole lines.
    InLines(File),
    Nowhere,
}

impl Seen {
    fn new() -> Seen {
        // As <fcntl.h> has them on x86-64 Linux. A reader that is stopped, or gone, must not stop the build, and the terminal of
        // another must not become this program's own.
        const O_NOCTTY: i32 = 0o400;
        const O_NONBLOCK: i32 = 0o4000;
        let cargos = format!("/proc/{}/fd/2", parent_id());
        let open = || File::options().append(true).custom_flags(O_NOCTTY | O_NONBLOCK).open(&cargos);
        match fs::metadata(&cargos).map(|data| data.file_type()) {
            Ok(kind) if kind.is_char_device() => match open() {
                Ok(terminal) if terminal.is_terminal() => match env::var_os("TERM") {
                    Some(name) if name != "dumb" && !name.is_empty() => Seen::InPlace(terminal),
                    _ => Seen::InLines(terminal),
                },
                _ => Seen::Nowhere,
            },
            Ok(kind) if kind.is_fifo() || kind.is_file() && cargo_appends() => open().map_or(Seen::Nowhere, Seen::InLines),
            // In a file to which cargo writes at a place of its own, cargo would write over these lines.
            _ => Seen::Nowhere,
        }
    }
}

/// Whether cargo's standard error is open for appending, as by `2>>log`.
fn cargo_appends() -> bool {
    const O_APPEND: u32 = 0o2000;
    let info = fs::read_to_string(format!("/proc/{}/fdinfo/2", parent_id())).unwrap_or_default();
    let flags = info.lines().find_map(|line| line.strip_prefix("flags:"));
    flags.and_then(|flags| u32::from_str_radix(flags.trim(), 8).ok()).is_some_and(|flags| flags & O_APPEND != 0)
}

impl Progress {
    fn new(name: &'static str, crates: usize) -> Progress {
        Progress { name, crates, proved: 0, started: Instant::now(), seen: Seen::new() }
    }

    fn seconds(&self) -> String {
        format!("{} s", self.started.elapsed().as_secs())
    }

    /// A line that stays.
    fn line(&mut self, text: &str) {
        let line = format!("{}: {text}", self.name);
        eprintln!("{line}");
        match &self.seen {
            // The line begins where cargo's, or the one that changes, is.
            Seen::InPlace(terminal) => write_to(terminal, &format!("\r\x1B[K{line}\n")),
            Seen::InLines(file) => write_to(file, &format!("{line}\n")),
            Seen::Nowhere => {}
        }
    }

    fn proved(&mut self, one: &str) {
        self.proved += 1;
        let so_far = format!("{} of {} crates, {} so far", self.proved, self.crates, self.seconds());
        let line = format!("{}: {one} proved, {so_far}", self.name);
        eprintln!("{line}");
        match &self.seen {
            Seen::InLines(file) => write_to(file, &format!("{line}\n")),
            _ => self.tick(),
        }
    }

    /// At a terminal the seconds go on between two crates. The cursor is left at the line's start, where cargo's next line begins.
    fn tick(&mut self) {
        if let Seen::InPlace(terminal) = &self.seen {
            let so_far = format!("{} of {} crates proved, {} so far", self.proved, self.crates, self.seconds());
            write_to(terminal, &format!("\r\x1B[K{}: {so_far}\r", self.name));
        }
    }

    /// Leaves nothing of the line that changes.
    fn end(&mut self) {
        if let Seen::InPlace(terminal) = &self.seen {
            write_to(terminal, "\r\x1B[K");
        }
    }
}

/// A line that can't be written is no reason to stop the build.
fn write_to(mut file: &File, text: &str) {
    let _ = file.write_all(text.as_bytes());
}
