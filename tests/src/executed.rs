//! The proved program as a process, folders for tests that need files, and tools that may be missing.

use std::io::Write;
use std::os::unix::fs::symlink;
use std::path::{Path, PathBuf};
use std::process::{Command, Output, Stdio};
use std::sync::atomic::{AtomicUsize, Ordering};
use std::{env, fs, process, thread};

/// The repository.
pub fn root() -> PathBuf {
    let tests = Path::new(env!("CARGO_MANIFEST_DIR"));
    tests.parent().expect("tests/ stands in it").to_path_buf()
}

/// The proved program of this name, as `rt run` in its crate's folder, or `rt ci`, made it.
pub fn program(name: &str) -> PathBuf {
    root().join(format!("crates/{name}/out/{name}"))
}

/// The folder of the proved library that ships, as `rt lib` in its crate's folder made it.
pub fn library_folder() -> PathBuf {
    root().join("crates/exports/out")
}

/// The version of all that is here, which rust/Cargo.toml has.
pub fn version() -> String {
    let manifest = fs::read_to_string(root().join("rust/Cargo.toml")).expect("a manifest");
    let mut lines = manifest.lines();
    let version = lines.find_map(|line| line.strip_prefix("version = \"")?.strip_suffix('"'));
    version.expect("a version").to_string()
}

/// The netlists of the catalogue, by name.
pub fn netlists() -> Vec<PathBuf> {
    let entries = fs::read_dir(root().join("catalogue")).expect("a folder");
    let paths = entries.map(|entry| entry.expect("an entry").path());
    let mut found: Vec<PathBuf> = paths
        .filter(|path| path.extension().is_some_and(|ending| ending == "net"))
        .collect();
    found.sort();
    found
}

/// What the proved program `unloop` writes to standard output for a text.
pub fn written_by_the_program(text: &[u8]) -> Vec<u8> {
    let ended = ended(&mut Command::new(program("unloop")), text);
    assert!(ended.status.success(), "{ended:?}");
    assert!(ended.stderr.is_empty(), "{ended:?}");
    ended.stdout
}

/// Runs a command with this standard input to its end.
pub fn ended(command: &mut Command, input: &[u8]) -> Output {
    let pipes = command.stdin(Stdio::piped());
    let pipes = pipes.stdout(Stdio::piped()).stderr(Stdio::piped());
    let mut child = pipes.spawn().unwrap_or_else(|e| panic!("{command:?}: {e}"));
    let mut stdin = child.stdin.take().expect("piped");
    thread::scope(|scope| {
        // A command may end without reading its input, and may write before it has read all of it.
        scope.spawn(move || drop(stdin.write_all(input)));
        child.wait_with_output().expect("it ends")
    })
}

/// Its exit status, standard output and standard error were these.
#[track_caller]
pub fn told(ended: Output, status: i32, output: &str, errors: &str) {
    let text = |bytes: &[u8]| String::from_utf8_lossy(bytes).into_owned();
    assert_eq!(text(&ended.stderr), errors);
    assert_eq!(text(&ended.stdout), output);
    assert_eq!(ended.status.code(), Some(status));
}

/// Where a tool is, by the PATH.
pub fn sought(tool: &str) -> Option<PathBuf> {
    let path = env::var_os("PATH").expect("PATH");
    let mut places = env::split_paths(&path).map(|folder| folder.join(tool));
    places.find(|place| place.exists())
}

/// The same; where the tool is missing this is said past what catches a test's output, with what is not tried for want of it.
pub fn sought_loudly(tool: &str, untried: &str) -> Option<PathBuf> {
    let found = sought(tool);
    if found.is_none() {
        let told = writeln!(
            std::io::stderr(),
            "NOT TRIED: {untried}: {tool} is not installed"
        );
        told.expect("standard error");
    }
    found
}

/// A folder of its own for a test, removed with all that is in it.
pub struct Scratch(PathBuf);

impl Scratch {
    #[allow(clippy::new_without_default)]
    pub fn new() -> Scratch {
        static MADE: AtomicUsize = AtomicUsize::new(0);
        let number = MADE.fetch_add(1, Ordering::Relaxed);
        let name = format!("unloop test {} {number}", process::id());
        let path = env::temp_dir().join(name);
        fs::create_dir(&path).expect("a new folder");
        Scratch(path)
    }

    pub fn path(&self, name: &str) -> PathBuf {
        self.0.join(name)
    }

    /// Writes a file, in folders that are made where they are missing.
    pub fn put(&self, name: &str, content: impl AsRef<[u8]>) {
        let path = self.path(name);
        fs::create_dir_all(path.parent().expect("in the folder")).expect("folders");
        fs::write(path, content).expect("a file");
    }

    /// Writes a script that can be run. Another process writes it: a file that this one still has open, or one of its
    /// children in another thread, is too busy to be run.
    pub fn put_script(&self, name: &str, script: &str) {
        let (source, target) = (format!("{name}.source"), self.path(name));
        self.put(&source, script);
        let source = self.path(&source);
        let copied = Command::new("install")
            .args(["-m", "755"])
            .args([&source, &target])
            .status();
        assert!(copied.expect("install").success());
        fs::remove_file(source).expect("written above");
    }

    /// Makes a folder of links to these commands alone, for a PATH that lacks every other.
    pub fn put_tools(&self, name: &str, tools: &[&str]) -> PathBuf {
        let (folder, path) = (self.path(name), env::var_os("PATH").expect("PATH"));
        fs::create_dir(&folder).expect("a new folder");
        for tool in tools {
            let mut places = env::split_paths(&path).map(|folder| folder.join(tool));
            let found = places.find(|place| place.exists()).expect(tool);
            symlink(found, folder.join(tool)).expect("a link");
        }
        folder
    }

    pub fn get(&self, name: &str) -> String {
        let bytes = fs::read(self.path(name)).unwrap_or_else(|e| panic!("{name}: {e}"));
        String::from_utf8(bytes).expect("text")
    }

    /// The names in one of its folders, sorted, hidden ones too.
    pub fn names(&self, folder: &str) -> Vec<String> {
        let entries = fs::read_dir(self.path(folder)).expect("a folder");
        let name = |entry: fs::DirEntry| entry.file_name().into_string().expect("text");
        let mut names: Vec<String> = entries.map(|entry| name(entry.expect("entry"))).collect();
        names.sort();
        names
    }
}

impl Drop for Scratch {
    fn drop(&mut self) {
        let _ = fs::remove_dir_all(&self.0);
    }
}
