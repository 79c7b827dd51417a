//! The build step: which archive it links, when it has it made, and who sees how far the proofs are; and `tools/archive`, which makes
//! it. A script stands for `rt`, and a shell for cargo: it keeps back what the build script prints, as cargo does, and has a standard
//! error of its own. All of it is tested on this package's step; benchmark_loops has the same step for an archive of its own.

mod support;

use std::ffi::{c_char, c_int, OsString};
use std::fs::{self, File};
use std::io::{Read, Write};
use std::os::fd::{AsRawFd, FromRawFd, OwnedFd};
use std::os::unix::fs::PermissionsExt;
use std::path::{Path, PathBuf};
use std::process::{Command, Stdio};
use std::sync::OnceLock;
use std::thread;
use std::time::{Duration, SystemTime};

use support::say;

/// A package with a build step.
struct Package {
    /// The crate whose archive it links.
    name: &'static str,
    /// Its folder in the repository.
    folder: &'static str,
    program: OnceLock<PathBuf>,
}

static PODDURANCE: Package = Package { name: "poddurance", folder: "rust", program: OnceLock::new() };
static BENCHMARK_LOOPS: Package = Package { name: "benchmark_loops", folder: "rust/benchmark_loops", program: OnceLock::new() };

impl Package {
    /// The build script as a program.
    fn program(&self) -> &Path {
        self.program.get_or_init(|| {
            let program = Path::new(env!("CARGO_TARGET_TMPDIR")).join(format!("build-step-of-{}", self.name));
            let source = Path::new(env!("CARGO_MANIFEST_DIR")).join("..").join(self.folder).join("build.rs");
            let compiler = std::env::var_os("RUSTC").unwrap_or_else(|| "rustc".into());
            let status = Command::new(compiler).args(["--edition", "2021", "-o"]).arg(&program).arg(source).status().unwrap();
            assert!(status.success(), "the build.rs of {} doesn't compile", self.name);
            program
        })
    }
}

/// A repository of three crates that the archive is made from and two that it isn't. One of these is what the archive of
/// benchmark_loops is made from, with one of the three.
struct Repository {
    root: PathBuf,
    package: &'static Package,
}

const NUMBER_OF_CRATES: &str = "3";
const CRATES: &str = "\
# NAME: what it is built on.
numbers:
roaring: numbers
poddurance_c staticlib: numbers roaring
cases: roaring regex
benchmark_loops_c staticlib: numbers
";

impl Repository {
    fn new(name: &str) -> Repository {
        Repository::with(name, &PODDURANCE)
    }

    /// The repository, in which that package's step is run.
    fn with(name: &str, package: &'static Package) -> Repository {
        let root = Path::new(env!("CARGO_TARGET_TMPDIR")).join(format!("build-step-{name}"));
        let _ = fs::remove_dir_all(&root);
        for one in ["numbers", "roaring", "poddurance_c", "cases", "benchmark_loops_c"] {
            fs::create_dir_all(root.join("crates").join(one).join("src")).unwrap();
            fs::write(root.join("crates").join(one).join("src/lib.rt"), "").unwrap();
        }
        fs::write(root.join("crates.txt"), CRATES).unwrap();
        fs::create_dir_all(root.join(package.folder)).unwrap();
        fs::create_dir(root.join("bin")).unwrap();
        fs::create_dir(root.join("tools")).unwrap();
        let repository = Repository { root, package };
        let tool = Path::new(env!("CARGO_MANIFEST_DIR")).join("../tools/archive");
        repository.script("tools/archive", &fs::read_to_string(tool).unwrap());
        repository
    }

    fn script(&self, path: &str, script: &str) {
        let path = self.root.join(path);
        fs::write(&path, script).unwrap();
        fs::set_permissions(&path, fs::Permissions::from_mode(0o755)).unwrap();
    }

    /// What `rt lib` does in the folder of the crate that exports the package's functions.
    fn rt(&self, script: &str) {
        let asked =
            format!("[ \"$*\" = lib ] && [ \"$PWD\" = '{}/crates/{}_c' ] || exit 9", self.root.display(), self.package.name);
        self.script("bin/rt", &format!("#!/bin/sh\n{asked}\n{script}"));
    }

    fn archive(&self) -> PathBuf {
        self.root.join("target/staticlib/libpoddurance.a")
    }

    fn write_archive(&self, made: SystemTime) {
        fs::create_dir_all(self.root.join("target/staticlib")).unwrap();
        File::create(self.archive()).unwrap().set_modified(made).unwrap();
    }

    /// The build script, and the shell that stands for cargo. Its words go to `kept`, those of the shell where the caller says.
    fn build(&self) -> Command {
        let mut shell = Command::new("/bin/sh");
        // In a process of its own, and not as the last command, so that the script has this shell for its parent.
        shell.args(["-c", "(exec \"$0\" >kept.out 2>kept.err </dev/null); status=$?; exit $status"]).arg(self.package.program());
        let folder = self.root.join(self.package.folder);
        shell.current_dir(&folder);
        shell.env_remove("PODDURANCE_LIB_DIR").env("CARGO_MANIFEST_DIR", folder);
        shell.env("CARGO_CFG_TARGET_ARCH", "x86_64").env("CARGO_CFG_TARGET_OS", "linux").env("TERM", "xterm");
        shell.env("PATH", self.path()).stdin(Stdio::null()).stdout(Stdio::null());
        shell
    }

    /// Where no script stands for rt there is none on the path, nor anything else.
    fn path(&self) -> OsString {
        let bin = self.root.join("bin");
        let path = std::env::var_os("PATH").filter(|_| bin.join("rt").exists()).unwrap_or_default();
        std::env::join_paths([bin].into_iter().chain(std::env::split_paths(&path))).unwrap()
    }

    /// What the script printed for cargo to read, and for whoever asks cargo.
    fn kept(&self) -> (String, String) {
        let read = |name: &str| fs::read_to_string(self.root.join(self.package.folder).join(name)).unwrap();
        (read("kept.out"), read("kept.err"))
    }

    fn links(&self, folder: &Path) -> bool {
        let name = self.package.name;
        let linked = format!("cargo:rustc-link-search=native={}\ncargo:rustc-link-lib=static={name}\n", folder.display());
        self.kept().0.ends_with(&linked)
    }
}

impl Drop for Repository {
    fn drop(&mut self) {
        let _ = fs::remove_dir_all(&self.root);
    }
}

/// Proves two crates, one of them before, says something else, one of them twice and of one that isn't needed, keeps its work in the
/// crates' folders, and makes the archive. What is said of the crates goes to standard output, as rt has it.
const PROVES: &str = "
mkdir -p out ../numbers/out ../roaring/out
echo 'library numbers: modules loaded=16 checked=0'
echo 'fn roaring::walk: proved'
echo 'crate roaring: modules loaded=0 checked=33'
echo 'axioms std: none reached of the 2 declared'
echo 'logic=proved functions=1 native=nat,char,string'
echo 'crate cases: modules loaded=0 checked=33'
echo 'logic=proved functions=1 native=nat,char,string'
echo 'library roaring: modules loaded=18 checked=0'
: >out/libpoddurance_c.a
";

/// The seconds, which differ, as `N s`.
fn without_seconds(text: &str) -> String {
    let words: Vec<&str> = text.split(' ').collect();
    let is_seconds = |at: usize| words.get(at + 1).is_some_and(|next| next.starts_with("s\n") || *next == "s");
    let shown = words.iter().enumerate().map(|(at, word)| if word.parse::<u64>().is_ok() && is_seconds(at) { "N" } else { word });
    shown.collect::<Vec<_>>().join(" ")
}

const PLAIN: &str = "\
poddurance: libpoddurance.a is missing: rt proves 3 crates to make it, which takes minutes
poddurance: numbers proved, 1 of 3 crates, N s so far
poddurance: roaring proved, 2 of 3 crates, N s so far
poddurance: the archive is made: 3 crates proved, N s
";

#[test]
fn a_pipe_sees_plain_lines() {
    let repository = Repository::new("pipe");
    repository.rt(PROVES);
    let output = repository.build().stderr(Stdio::piped()).output().unwrap();
    assert!(output.status.success());
    assert_eq!(without_seconds(&String::from_utf8(output.stderr).unwrap()), PLAIN);
    assert!(repository.links(&repository.root.join("target/staticlib")));
    // Cargo would repeat its warnings with each build.
    let (out, err) = repository.kept();
    assert!(!out.contains("cargo:warning"), "{out}");
    // Standard error has the same lines among all that rt says.
    let lines = |text: &str| text.lines().map(str::to_string).collect::<Vec<_>>();
    let kept = lines(&without_seconds(&err));
    let (ours, others): (Vec<_>, Vec<_>) = kept.into_iter().partition(|line| line.starts_with("poddurance: "));
    assert_eq!(ours, lines(PLAIN));
    assert_eq!(others.len(), 9, "{others:?}");
    assert!(!err.contains(['\r', '\x1B']));
}

#[test]
fn a_log_sees_plain_lines() {
    // Opened for appending, as by 2>>log, the lines stand in it; else cargo would write over them, and there are none.
    for (appends, expected) in [(true, ["first\n", PLAIN].concat()), (false, "first\n".to_string())] {
        let repository = Repository::new(&format!("log-{appends}"));
        repository.rt(PROVES);
        let path = repository.root.join("log");
        fs::write(&path, "first\n").unwrap();
        let log = File::options().write(true).append(appends).open(&path).unwrap();
        assert!(repository.build().stderr(log).status().unwrap().success());
        assert_eq!(without_seconds(&fs::read_to_string(path).unwrap()), expected);
        assert!(repository.kept().1.contains("poddurance: roaring proved, 2 of 3 crates, "));
    }
}

#[test]
fn a_terminal_sees_one_line_that_changes() {
    let repository = Repository::new("terminal");
    // Long enough for the seconds to go on without a crate.
    repository.rt(&PROVES.replace("echo 'fn roaring", "sleep 2.5\necho 'fn roaring"));
    let Some((mut screen, terminal)) = terminal() else {
        return say("\nskipped: how far the proofs are at a terminal, since there is none to be had");
    };
    let reader = thread::spawn(move || {
        let mut shown = Vec::new();
        let mut part = [0; 4096];
        // Reading fails once nobody has the terminal open.
        while let Ok(count @ 1..) = screen.read(&mut part) {
            shown.extend(&part[..count]);
        }
        String::from_utf8(shown).unwrap()
    });
    let mut build = repository.build();
    assert!(build.stderr(terminal).status().unwrap().success());
    // The command holds the terminal too.
    drop(build);
    let shown = reader.join().unwrap();

    let lines: Vec<&str> = shown.split("\r\x1B[K").collect();
    assert_eq!(lines[0], "", "{shown:?}");
    assert!(lines[1].starts_with("poddurance: libpoddurance.a is missing: "), "{shown:?}");
    assert!(lines[1].ends_with("takes minutes\r\n"), "{shown:?}");
    let in_place: Vec<&str> = lines[2..].iter().copied().filter(|line| line.ends_with("so far\r")).collect();
    // After each crate, and each second between: with one of them proved there is more than one line.
    let of =
        |proved: &str| in_place.iter().filter(|line| line.contains(&format!("{proved} of {NUMBER_OF_CRATES} crates"))).count();
    assert!(of("1") >= 2 && of("2") >= 1, "{shown:?}");
    let later = |line: &&str| line.starts_with("poddurance: 1 of 3 crates proved, ") && !line.contains(", 0 s");
    assert!(in_place.iter().any(later), "{shown:?}");
    // What stays is the line before and the line after.
    let last = lines.last().unwrap();
    assert_eq!(without_seconds(&last.replace('\r', "")), "poddurance: the archive is made: 3 crates proved, N s\n");
    assert_eq!(shown.matches('\n').count(), 2, "{shown:?}");

    // A terminal that can't change a line gets whole ones.
    let repository = Repository::new("dumb");
    repository.rt(PROVES);
    let (mut screen, terminal) = self::terminal().expect("there was one before");
    let mut build = repository.build();
    build.env("TERM", "dumb").stderr(terminal);
    assert!(build.status().unwrap().success());
    let mut shown = [0; 4096];
    let count = screen.read(&mut shown).unwrap();
    drop(build);
    assert!(!shown[..count].contains(&0x1B));
    assert!(shown[..count].starts_with(b"poddurance: libpoddurance.a is missing: "));
}

#[test]
fn a_reader_that_is_gone_or_asleep_does_not_stop_the_build() {
    let repository = Repository::new("gone");
    repository.rt(PROVES);
    let (reader, writer) = pipe();
    drop(reader);
    assert!(repository.build().stderr(writer).status().unwrap().success());

    // A pipe that nobody empties, and that is full.
    let repository = Repository::new("asleep");
    repository.rt(PROVES);
    let (reader, writer) = pipe();
    let mut end = File::from(writer.try_clone().unwrap());
    while end.write(&[b'.'; 1024]).is_ok() {}
    let mut build = repository.build().stderr(writer).spawn().unwrap();
    let waited = (0..600).find_map(|_| {
        thread::sleep(Duration::from_millis(100));
        build.try_wait().unwrap()
    });
    let _ = build.kill();
    assert!(waited.expect("the build ends").success());
    drop(reader);
}

#[test]
fn the_archive_is_made_where_it_is_missing_or_old() {
    let repository = Repository::new("old");
    // Where it isn't needed, rt isn't run.
    repository.rt("exit 7");
    let newest = SystemTime::now() + Duration::from_secs(5);
    repository.write_archive(newest);
    assert!(repository.build().stderr(Stdio::null()).status().unwrap().success());
    assert!(repository.links(&repository.root.join("target/staticlib")));
    assert_eq!(repository.kept().1, "");

    repository.rt(PROVES);
    repository.write_archive(SystemTime::UNIX_EPOCH + Duration::from_secs(1));
    let output = repository.build().stderr(Stdio::piped()).output().unwrap();
    assert!(String::from_utf8(output.stderr).unwrap().contains("libpoddurance.a is older than the sources: "));
    // It has the time of the newest source, and so is not made again.
    repository.rt("exit 7");
    assert!(repository.build().stderr(Stdio::null()).status().unwrap().success());
    // What the archive is watched for.
    let (out, _) = repository.kept();
    for path in ["crates.txt", "crates", "target/staticlib/libpoddurance.a"] {
        let line = format!("cargo:rerun-if-changed={}\n", repository.root.join(path).display());
        assert!(out.contains(&line), "{out}");
    }
    assert!(out.contains("cargo:rerun-if-env-changed=PODDURANCE_LIB_DIR\n"));
}

#[test]
fn crates_that_the_archive_is_not_made_from_are_not_looked_at() {
    let repository = Repository::new("others");
    repository.rt("exit 7");
    let made = SystemTime::now() + Duration::from_secs(60);
    repository.write_archive(made);
    let change = |one: &str| {
        let source = repository.root.join("crates").join(one).join("src/lib.rt");
        File::options().write(true).open(source).unwrap().set_modified(made + Duration::from_secs(1)).unwrap();
    };
    let builds = || repository.build().stderr(Stdio::null()).status().unwrap().success();
    change("cases");
    change("benchmark_loops_c");
    assert!(builds());
    change("numbers");
    assert!(!builds());
}

#[test]
fn what_goes_wrong_is_said() {
    let repository = Repository::new("wrong");
    let complains = |repository: &Repository, set: &[(&str, &str)], reason: &str| {
        let status = repository.build().envs(set.iter().copied()).stderr(Stdio::null()).status().unwrap();
        assert_eq!(status.code(), Some(1), "{reason}");
        let (out, err) = repository.kept();
        assert!(err.ends_with(&format!("poddurance: {reason}\n")), "{err}");
        assert!(!out.contains("cargo:rustc-link"), "{out}");
    };
    complains(
        &repository,
        &[],
        "target/staticlib/libpoddurance.a is missing, and 'rt', which makes it, is not on the path; install the Rattle kit and \
         put its folder with 'rt' on PATH, or set PODDURANCE_LIB_DIR to the folder of an archive",
    );
    repository.rt("
echo 'crate numbers: modules loaded=0 checked=33'
echo 'logic=proved functions=1 native=nat,char,string'
echo 'crate roaring: modules loaded=27 checked=6'
echo 'logic=not-proved'
echo 'rt: the library roaring did not build, so nothing above it was checked' >&2
exit 1
");
    complains(&repository, &[], "'tools/archive poddurance' failed: exit status: 1; its output is above");
    let err = repository.kept().1;
    assert!(err.contains("rt: the library roaring did not build, so nothing above it was checked\n"));
    assert!(err.contains("poddurance: numbers proved, 1 of 3 crates, ") && !err.contains("roaring proved"), "{err}");
    repository.rt("exit 0");
    complains(&repository, &[], "'tools/archive poddurance' failed: exit status: 1; its output is above");
    assert!(repository.kept().1.contains("crates/poddurance_c/out/libpoddurance_c.a"));
    repository.script("tools/archive", "#!/bin/sh\nexit 0");
    complains(&repository, &[], "'tools/archive poddurance' ended well but target/staticlib/libpoddurance.a isn't there");
    let elsewhere = [("CARGO_CFG_TARGET_ARCH", "aarch64")];
    complains(&repository, &elsewhere, "rt lib makes an archive for x86-64 Linux alone, and this is aarch64 linux");

    let dir = |folder: &'static str| [("PODDURANCE_LIB_DIR", folder)];
    complains(&repository, &dir("archives"), "PODDURANCE_LIB_DIR is archives, and must be an absolute path");
    let none = "PODDURANCE_LIB_DIR is /no such folder, and there is no libpoddurance.a in it";
    complains(&repository, &dir("/no such folder"), none);
}

#[test]
fn the_tool_leaves_an_archive_only_where_rt_ends_well() {
    let repository = Repository::new("tool");
    // From any folder.
    let tool = |words: &[&str]| {
        let mut tool = Command::new(repository.root.join("tools/archive"));
        let output = tool.args(words).current_dir("/").env("PATH", repository.path()).stdin(Stdio::null()).output().unwrap();
        (output.status.code(), String::from_utf8(output.stdout).unwrap(), String::from_utf8(output.stderr).unwrap())
    };
    repository.rt("echo built\nmkdir -p out && echo new >out/libpoddurance_c.a");
    let made = "built\ntarget/staticlib/libpoddurance.a has the functions of poddurance\n";
    assert_eq!(tool(&["poddurance"]), (Some(0), made.to_string(), String::new()));
    assert_eq!(fs::read_to_string(repository.archive()).unwrap(), "new\n");
    // Where rt fails there is none, though there was one, and rt's own is there still. The status is rt's.
    repository.rt("echo 'not proved' >&2\nexit 3");
    assert_eq!(tool(&["poddurance"]), (Some(3), String::new(), "not proved\n".to_string()));
    assert!(!repository.archive().exists());

    // Nothing else has an archive.
    repository.rt("exit 7");
    for words in [&[][..], &["numbers"], &["poddurance_c"], &[""], &["poddurance", "benchmark_loops"]] {
        let (status, out, err) = tool(words);
        assert_eq!((status, out.as_str()), (Some(2), ""), "{words:?}");
        let of = format!("the archive of poddurance or of benchmark_loops, and was asked for '{}'\n", words.join(" "));
        assert_eq!(err, format!("tools/archive makes {of}"));
    }
}

#[test]
fn a_prebuilt_archive_is_linked_as_it_is() {
    // Neither rt nor sources are there.
    let repository = Repository::new("prebuilt");
    fs::remove_dir_all(repository.root.join("crates")).unwrap();
    let folder = repository.root.join("elsewhere");
    fs::create_dir(&folder).unwrap();
    File::create(folder.join("libpoddurance.a")).unwrap();
    let output = repository.build().env("PODDURANCE_LIB_DIR", &folder).stderr(Stdio::piped()).output().unwrap();
    assert!(output.status.success() && output.stderr.is_empty());
    assert!(repository.links(&folder));
    let (out, err) = repository.kept();
    assert_eq!(err, "");
    assert!(out.contains(&format!("cargo:rerun-if-changed={}/libpoddurance.a\n", folder.display())));
    assert!(out.contains("cargo:rerun-if-env-changed=PODDURANCE_LIB_DIR\n"));
    // Set to nothing it is not set.
    assert!(!repository.build().env("PODDURANCE_LIB_DIR", "").stderr(Stdio::null()).status().unwrap().success());
}

#[test]
fn the_other_package_links_an_archive_of_its_own() {
    // Made in the same root, from the two crates that it needs.
    let repository = Repository::with("other", &BENCHMARK_LOOPS);
    repository.rt("
[ -f ../../crates.txt ] || exit 8
echo 'library numbers: modules loaded=16 checked=0'
echo 'library roaring: modules loaded=18 checked=0'
mkdir -p out && : >out/libbenchmark_loops_c.a
");
    let output = repository.build().stderr(Stdio::piped()).output().unwrap();
    assert!(output.status.success());
    let expected = "\
benchmark_loops: libbenchmark_loops.a is missing: rt proves 2 crates to make it, which takes minutes
benchmark_loops: numbers proved, 1 of 2 crates, N s so far
benchmark_loops: the archive is made: 2 crates proved, N s
";
    assert_eq!(without_seconds(&String::from_utf8(output.stderr).unwrap()), expected);
    assert!(repository.links(&repository.root.join("target/staticlib")));
    let (out, _) = repository.kept();
    for path in ["crates.txt", "crates", "target/staticlib/libbenchmark_loops.a"] {
        let line = format!("cargo:rerun-if-changed={}\n", repository.root.join(path).display());
        assert!(out.contains(&line), "{out}");
    }
    // It is not made again, and libpoddurance.a, which isn't there, is not asked for.
    repository.rt("exit 7");
    assert!(repository.build().stderr(Stdio::null()).status().unwrap().success());

    // A folder of archives made elsewhere must have this one too.
    let folder = repository.root.join("elsewhere");
    fs::create_dir(&folder).unwrap();
    File::create(folder.join("libpoddurance.a")).unwrap();
    let build = || repository.build().env("PODDURANCE_LIB_DIR", &folder).stderr(Stdio::null()).status().unwrap();
    assert_eq!(build().code(), Some(1));
    let none =
        format!("benchmark_loops: PODDURANCE_LIB_DIR is {}, and there is no libbenchmark_loops.a in it\n", folder.display());
    assert_eq!(repository.kept().1, none);
    File::create(folder.join("libbenchmark_loops.a")).unwrap();
    assert!(build().success());
    assert!(repository.links(&folder));
}

/// Both steps run rt over crates that both archives need, and there one run of rt would wait for the other. Cargo runs the second after
/// the first because the package of the second depends on that of the first, and not for its tests alone, and because that one has `links`.
#[test]
fn cargo_runs_one_step_after_the_other_and_the_second_for_its_own_package_alone() {
    let mut cargo = Command::new(env!("CARGO"));
    cargo.args(["metadata", "--offline", "--no-deps", "--format-version", "1"]).current_dir(env!("CARGO_MANIFEST_DIR"));
    let text = String::from_utf8(cargo.output().unwrap().stdout).unwrap();
    let depends_on =
        |name: &str, kind: &str| text.contains(&format!(r#"{{"name":"{name}","source":null,"req":"*","kind":{kind},"#));
    assert!(text.contains(r#""links":"poddurance""#), "{text}");
    assert!(depends_on("poddurance", "null"), "{text}");

    // No package needs it, and none of cargo's commands takes it in by itself.
    assert!(["null", r#""dev""#, r#""build""#].iter().all(|kind| !depends_on("benchmark_loops", kind)), "{text}");
    let (_, default_members) = text.split_once(r#""workspace_default_members":["#).unwrap();
    let (default_members, _) = default_members.split_once(']').unwrap();
    assert!(default_members.contains("reference") && !default_members.contains("benchmark_loops"), "{default_members}");
}

extern "C" {
    fn pipe2(ends: *mut c_int, flags: c_int) -> c_int;
    fn posix_openpt(flags: c_int) -> c_int;
    fn grantpt(fd: c_int) -> c_int;
    fn unlockpt(fd: c_int) -> c_int;
    fn ptsname_r(fd: c_int, name: *mut c_char, length: usize) -> c_int;
}

// As <fcntl.h> has them on x86-64 Linux: for reading and writing; not to become this program's own terminal; not to wait; not for
// programs that other tests start meanwhile, since a pipe ends when nobody has it.
const O_RDWR: c_int = 2;
const O_NOCTTY: c_int = 0o400;
const O_NONBLOCK: c_int = 0o4000;
const O_CLOEXEC: c_int = 0o2000000;

/// A pipe: what is read from and what is written to, which doesn't wait for room.
fn pipe() -> (OwnedFd, OwnedFd) {
    let mut ends = [-1; 2];
    // SAFETY: there is room for the two descriptors, which are new and so owned by nobody else.
    unsafe {
        assert_eq!(pipe2(ends.as_mut_ptr(), O_CLOEXEC | O_NONBLOCK), 0, "there is no pipe to be had");
        (OwnedFd::from_raw_fd(ends[0]), OwnedFd::from_raw_fd(ends[1]))
    }
}

/// A terminal, if there is one to be had: what is shown on it, and what a program writes to.
fn terminal() -> Option<(File, File)> {
    let mut name = [0u8; 64];
    // SAFETY: the descriptor is new and so owned by nobody else; the name is written within its length, with a zero behind it.
    let screen = unsafe {
        let screen = posix_openpt(O_RDWR | O_NOCTTY | O_CLOEXEC);
        if screen < 0 {
            return None;
        }
        let screen = OwnedFd::from_raw_fd(screen);
        let ready = grantpt(screen.as_raw_fd()) | unlockpt(screen.as_raw_fd());
        assert_eq!(ready | ptsname_r(screen.as_raw_fd(), name.as_mut_ptr().cast(), name.len()), 0);
        screen
    };
    let name = std::str::from_utf8(name.split(|byte| *byte == 0).next().unwrap()).unwrap();
    let terminal = File::options().write(true).open(name).unwrap();
    Some((File::from(screen), terminal))
}
