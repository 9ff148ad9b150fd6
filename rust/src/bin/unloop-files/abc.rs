//! ABC, a synthesis tool that nobody here wrote: found on the PATH, and run in a folder of its own. It is not trusted: whoever takes a result of
//! it has that compared with the original.

use crate::source::reason;
use std::fs::{self, File};
use std::os::unix::fs::PermissionsExt;
use std::path::{Path, PathBuf};
use std::process::{Child, Command, ExitStatus, Stdio};
use std::sync::atomic::{AtomicUsize, Ordering};
use std::time::{Duration, Instant};
use std::{env, io, process, thread};
use unloop::{blif, care_model, module_name, Block};

/// What it is called, where it is installed.
const NAMES: [&str; 3] = ["abc", "berkeley-abc", "yosys-abc"];
/// The model that it reads, and the one that it writes.
const MODEL: &str = "in.blif";
const RESULT: &str = "out.blif";
const LOG: &str = "log";
/// The model that is 0 under the settings which never lines exclude.
const CARE: &str = "care.blif";
/// How long a script may take.
const LIMIT: Duration = Duration::from_secs(60);

pub struct Abc(PathBuf);

/// What it is asked for: several scripts, of which each may find something smaller.
pub struct Scripts<'a> {
    /// A file that lies beside the model, by name and content, and the commands that read it.
    pub beside: Option<(&'a str, &'a str, &'a str)>,
    /// The commands that differ.
    pub tried: &'a [&'a str],
    /// What is put behind them once more where never lines exclude settings: it reads care.blif, the model of what is cared for.
    pub care: &'a str,
    /// What ends each script.
    pub last: &'a str,
}

impl Scripts<'_> {
    /// The scripts as they are told, without and with what is cared for.
    fn all(&self, caring: bool) -> Vec<String> {
        let joined = |parts: &[&str]| {
            let parts = parts.iter().filter(|part| !part.is_empty());
            parts.copied().collect::<Vec<&str>>().join("; ")
        };
        let plain = self.tried.iter().map(|script| joined(&[script, self.last]));
        let with = self.tried.iter();
        let with = with.map(|script| joined(&[script, self.care, self.last]));
        plain.chain(with.filter(|_| caring)).collect()
    }
}

impl Abc {
    /// The first that the PATH has, by the order of its names.
    pub fn found() -> Option<Abc> {
        let path = env::var_os("PATH")?;
        let folders: Vec<PathBuf> = env::split_paths(&path).collect();
        let places = NAMES.iter().flat_map(|name| {
            let places = folders.iter().map(|folder| folder.join(name));
            places.collect::<Vec<PathBuf>>()
        });
        let mut places = places.filter_map(|place| place.canonicalize().ok());
        places.find(|place| is_executable(place)).map(Abc)
    }

    /// That there is none, how to get it, and what is done instead.
    pub fn missing(instead: &str) -> String {
        let names = NAMES.join(", ");
        format!("ABC is not on the PATH (as {names}; Debian has it as berkeley-abc): {instead}")
    }

    /// Each script, and what it makes of a block's rendering: a model, or why there is none.
    pub fn results<'a>(
        &'a self,
        block: &Block,
        rendering: &Block,
        scripts: &'a Scripts,
    ) -> impl Iterator<Item = (String, Result<String, String>)> + 'a {
        let model = blif(rendering, &module_name("rendering"));
        let care = care_model(block);
        let all = scripts.all(care.is_some());
        all.into_iter().map(move |script| {
            let care = care.iter().map(|care| (CARE, &care[..]));
            let beside = scripts.beside.iter();
            let beside = beside.map(|(name, content, _)| (*name, *content));
            let files: Vec<(&str, &str)> = care.chain(beside).collect();
            let first = scripts.beside.map_or("", |(_, _, read)| read);
            let result = self.run(&model, &files, &format!("{first}{script}"));
            (script, result)
        })
    }

    /// What it makes of a model by a script; `files` lie beside it, by name and content.
    fn run(&self, model: &str, files: &[(&str, &str)], script: &str) -> Result<String, String> {
        let told = |error: io::Error| format!("ABC: {}", reason(&error));
        let folder = Folder::new().map_err(told)?;
        for (name, content) in files.iter().chain(&[(MODEL, model)]) {
            fs::write(folder.0.join(name), content).map_err(told)?;
        }
        let script = format!("read_blif {MODEL}; {script}; write_blif {RESULT}");
        let ended = self.ended(&folder.0, &script).map_err(told)?;
        let log = fs::read(folder.0.join(LOG)).unwrap_or_default();
        let log = String::from_utf8_lossy(&log);
        let last = log.lines().last().unwrap_or_default();
        let last = last.replace(char::is_control, "?");
        match (ended, fs::read_to_string(folder.0.join(RESULT))) {
            (None, _) => Err(format!("ABC took more than {} seconds", LIMIT.as_secs())),
            (Some(status), Ok(result)) if status.success() => Ok(result),
            (Some(status), _) => Err(format!("ABC wrote nothing ({status}) {last}")
                .trim()
                .to_string()),
        }
    }

    /// Runs a script to its end, which is none where it takes too long.
    fn ended(&self, folder: &Path, script: &str) -> io::Result<Option<ExitStatus>> {
        let log = File::create(folder.join(LOG))?;
        let child = Command::new(&self.0)
            .args(["-q", script])
            .current_dir(folder)
            .stdin(Stdio::null())
            .stderr(log.try_clone()?)
            .stdout(log)
            .spawn()?;
        waited_for(child)
    }
}

/// The status of a child that ends in time; one that doesn't is ended.
fn waited_for(mut child: Child) -> io::Result<Option<ExitStatus>> {
    let begun = Instant::now();
    while begun.elapsed() < LIMIT {
        if let Some(status) = child.try_wait()? {
            return Ok(Some(status));
        }
        thread::sleep(Duration::from_millis(2));
    }
    child.kill()?;
    child.wait()?;
    Ok(None)
}

fn is_executable(path: &Path) -> bool {
    let found = fs::metadata(path);
    found.is_ok_and(|found| found.is_file() && found.permissions().mode() & 0o111 != 0)
}

/// A folder for one run, removed with all that is in it.
struct Folder(PathBuf);

impl Folder {
    fn new() -> io::Result<Folder> {
        static MADE: AtomicUsize = AtomicUsize::new(0);
        let number = MADE.fetch_add(1, Ordering::Relaxed);
        let name = format!("unloop-abc-{}-{number}", process::id());
        let path = env::temp_dir().join(name);
        fs::create_dir(&path)?;
        Ok(Folder(path))
    }
}

impl Drop for Folder {
    fn drop(&mut self) {
        let _ = fs::remove_dir_all(&self.0);
    }
}
