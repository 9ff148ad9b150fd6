//! The words of the command line. The options are those that usage.txt lists, which bin/unloop reads too, before this is built.

use crate::sheet::ALL;
use crate::source::{is_input, shown};
use crate::store::Store;
use crate::USAGE;
use std::ffi::{OsStr, OsString};
use std::os::unix::ffi::OsStrExt;
use std::path::PathBuf;

/// The command line.
#[derive(Debug)]
pub struct Asked {
    pub request: Request,
    /// Where it is written instead of standard output, and what is read: never the same file.
    pub output: Option<PathBuf>,
    pub reads: Vec<PathBuf>,
}

/// What is asked for.
#[derive(Debug)]
pub enum Request {
    Help,
    Version,
    Render {
        files: Vec<PathBuf>,
        into: Option<Target>,
        json: bool,
    },
    Sheet {
        settings: PathBuf,
        file: PathBuf,
    },
    RunCells {
        settings: PathBuf,
        cells: PathBuf,
    },
    Check {
        theirs: PathBuf,
        ours: PathBuf,
        json: bool,
    },
    CheckCells {
        table: PathBuf,
        ours: PathBuf,
        json: bool,
    },
    Audit(Audited, bool),
    Store(Store),
    Cover(Vec<PathBuf>),
    Export(Export),
    Reduce(Reduce),
    FromBlif(FromBlif),
    Design(Design),
    Page(Target, Vec<PathBuf>),
    AuditedPage(Target, Audited),
}

/// Entries of catalogues: those of folders, and of files.
#[derive(Debug)]
pub struct Audited {
    pub paths: Vec<PathBuf>,
    /// Those of the folders below too.
    pub recursive: bool,
    /// Only what is lost is told.
    pub quiet: bool,
}

/// Files that are written in another form: their renderings, or they themselves.
#[derive(Debug)]
pub struct Export {
    pub form: Form,
    pub original: bool,
    pub files: Vec<PathBuf>,
    /// Where they go instead of standard output.
    pub into: Option<Target>,
    /// The file of names that they had elsewhere.
    pub names: Option<PathBuf>,
}

/// Files of which the smallest table of cells, or the smallest netlist, is wanted.
#[derive(Debug)]
pub struct Reduce {
    pub to: Reduced,
    pub files: Vec<PathBuf>,
    /// Where they go instead of standard output.
    pub into: Option<Target>,
    pub json: bool,
}

/// What is to be as small as can be.
#[derive(Debug, Clone, Copy, PartialEq, Eq)]
pub enum Reduced {
    Cells,
    Netlist,
}

/// A model that is written as a netlist.
#[derive(Debug)]
pub struct FromBlif {
    pub file: Option<PathBuf>,
    pub model: Option<String>,
    /// Where names that were changed go.
    pub names: Option<PathBuf>,
}

/// A model whose loops are taken out.
#[derive(Debug)]
pub struct Design {
    pub file: Option<PathBuf>,
    pub model: Option<String>,
    /// The promises about its nets.
    pub never: Option<PathBuf>,
    /// Loops that can't be taken out stay, and the rest is written.
    pub partial: bool,
    pub json: bool,
}

/// A folder that is written to.
#[derive(Debug, PartialEq)]
pub struct Target {
    pub folder: PathBuf,
    pub force: bool,
}

/// The forms that a block is written in for other tools.
#[derive(Debug, Clone, Copy, PartialEq, Eq)]
pub enum Form {
    Verilog,
    Blif,
    Cells,
}

/// What one run does; the default is to render.
#[derive(Debug, Default, PartialEq)]
enum Task {
    #[default]
    Render,
    Into(PathBuf),
    Sheet(PathBuf),
    RunCells(PathBuf),
    Check(PathBuf),
    CheckCells(PathBuf),
    Audit,
    Store(PathBuf),
    Cover,
    Export(Form),
    Reduce(Reduced),
    FromBlif,
    Design,
    Page(PathBuf),
}

impl Task {
    fn option(&self) -> &'static str {
        match self {
            Task::Render => "",
            Task::Into(_) => "--into DIR",
            Task::Sheet(_) => "--sheet SETTINGS",
            Task::RunCells(_) => "--run-cells SETTINGS",
            Task::Check(_) => "--check THEIRS",
            Task::CheckCells(_) => "--check-cells TABLE",
            Task::Audit => "--audit",
            Task::Store(_) => "--store DIR",
            Task::Cover => "--cover",
            Task::Export(Form::Verilog) => "--verilog",
            Task::Export(Form::Blif) => "--blif",
            Task::Export(Form::Cells) => "--cells",
            Task::Reduce(Reduced::Cells) => "--fit",
            Task::Reduce(Reduced::Netlist) => "--shrink",
            Task::FromBlif => "--from-blif",
            Task::Design => "--design",
            Task::Page(_) => "--page DIR",
        }
    }
}

/// The words, sorted by what they are.
#[derive(Default)]
struct Given {
    files: Vec<PathBuf>,
    tasks: Vec<Task>,
    output: Option<PathBuf>,
    force: bool,
    json: bool,
    original: bool,
    names: Option<PathBuf>,
    model: Option<PathBuf>,
    never: Option<PathBuf>,
    partial: bool,
    recursive: bool,
    quiet: bool,
    /// Asked for instead of all else.
    about: Option<Request>,
}

/// What is asked for, or what is wrong with it in one line.
pub fn parse(words: impl Iterator<Item = OsString>) -> Result<Asked, String> {
    asked(words).map_err(|what| format!("{what} (see --help)"))
}

fn asked(words: impl Iterator<Item = OsString>) -> Result<Asked, String> {
    let mut given = given(words)?;
    let output = given.output.take().filter(|path| !is_input(path));
    let reads = reads(&given)?;
    let request = match given.about.take() {
        Some(request) => request,
        None if output.is_some() => written(request(given)?)?,
        None => request(given)?,
    };
    Ok(Asked {
        request,
        output,
        reads,
    })
}

/// The files that are read; standard input, which is no file, at most once.
fn reads(given: &Given) -> Result<Vec<PathBuf>, String> {
    let lists = given.tasks.iter().filter_map(|task| match task {
        Task::Sheet(list) | Task::RunCells(list) if list.as_os_str() == ALL => None,
        Task::Sheet(list) | Task::RunCells(list) | Task::Check(list) => Some(list),
        Task::CheckCells(table) => Some(table),
        _ => None,
    });
    let reads_names = given.tasks.iter().any(|task| *task != Task::FromBlif);
    let names = given.names.as_ref().filter(|_| reads_names);
    let (input, files): (Vec<_>, Vec<_>) = lists
        .chain(names)
        .chain(&given.never)
        .chain(&given.files)
        .cloned()
        .partition(|path| is_input(path));
    match input.len() {
        0 | 1 => Ok(files),
        _ => Err("standard input (-) can't be read twice".to_string()),
    }
}

/// The same request, which writes to standard output.
fn written(request: Request) -> Result<Request, String> {
    let silent = "writes nothing to standard output, so -o has no use";
    match request {
        Request::Page(..) | Request::AuditedPage(..) => Err(format!("--page DIR {silent}")),
        Request::Render {
            into: Some(_),
            json: false,
            ..
        } => Err(format!("--into DIR without --json {silent}")),
        Request::Export(Export { into: Some(_), .. }) => Err(format!("--into DIR {silent}")),
        Request::Reduce(Reduce {
            into: Some(_),
            json: false,
            ..
        }) => Err(format!("--into DIR without --json {silent}")),
        request => Ok(request),
    }
}

/// An option of usage.txt: its long name, and what it needs.
struct Listed {
    name: &'static str,
    needs: Option<&'static str>,
}

/// The option of this name; a line such as `-o, --output FILE` lists it by both names.
fn listed(wanted: &str) -> Option<Listed> {
    let lines = USAGE.lines().filter(|line| line.starts_with("  -"));
    let mut options = lines.map(|line| {
        let mut words = line.split_whitespace().peekable();
        let mut names = Vec::new();
        while let Some(name) = words.next_if(|word| word.starts_with('-')) {
            names.push(name.trim_end_matches(','));
        }
        let capital = |word: &&str| word.bytes().all(|byte| byte.is_ascii_uppercase());
        (names, words.next().filter(capital))
    });
    let (names, needs) = options.find(|(names, _)| names.contains(&wanted))?;
    let name = names.last()?;
    Some(Listed { name, needs })
}

/// The name and the value of `--into=DIR` and `-oFILE`, the name alone of `--into` and `-o`; nothing of what is no option.
fn parts(word: &OsStr) -> Option<(&OsStr, Option<&OsStr>)> {
    let bytes = word.as_bytes();
    let (name, value) = match bytes {
        [b'-', b'-', ..] => match bytes.iter().position(|&byte| byte == b'=') {
            Some(end) => (&bytes[..end], Some(&bytes[end + 1..])),
            None => (bytes, None),
        },
        [b'-', _, value @ ..] => (&bytes[..2], Some(value).filter(|value| !value.is_empty())),
        _ => return None,
    };
    Some((OsStr::from_bytes(name), value.map(OsStr::from_bytes)))
}

/// The words up to one that asks about the command itself.
fn given(mut words: impl Iterator<Item = OsString>) -> Result<Given, String> {
    let mut given = Given::default();
    while let Some(word) = words.next() {
        if word == "--" {
            given.files.extend(words.map(PathBuf::from));
            break;
        }
        let Some((given_as, value)) = parts(&word) else {
            given.files.push(word.into());
            continue;
        };
        let unknown = || format!("unknown option {}", shown(word.as_ref()));
        let Listed { name, needs } = given_as.to_str().and_then(listed).ok_or_else(unknown)?;
        let operand = match (needs, value) {
            // As if it stood behind it.
            (None, Some(path)) if name == "--audit" => {
                given.files.push(path.into());
                PathBuf::new()
            }
            (None, Some(_)) => return Err(format!("{} takes no value", shown(given_as.as_ref()))),
            (None, None) => PathBuf::new(),
            (Some(_), Some(value)) => value.into(),
            (Some(needs), None) => {
                let next = words.next().map(PathBuf::from);
                next.ok_or_else(|| format!("{} needs {needs}", shown(given_as.as_ref())))?
            }
        };
        given.take(name, operand).ok_or_else(unknown)?;
        if given.about.is_some() {
            break;
        }
    }
    Ok(given)
}

impl Given {
    /// The folder that files in another form go to: `--into` beside one of those options, whose task alone is left.
    fn export_folder(&mut self) -> Option<PathBuf> {
        let writes = |task: &Task| matches!(task, Task::Export(_) | Task::Reduce(_));
        match &mut self.tasks[..] {
            [Task::Into(folder), task] | [task, Task::Into(folder)] if writes(task) => {
                let folder = std::mem::take(folder);
                self.tasks.retain(writes);
                Some(folder)
            }
            _ => None,
        }
    }

    /// Takes an option and what it needs; nothing where this has no such option.
    fn take(&mut self, name: &str, operand: PathBuf) -> Option<()> {
        match name {
            "--help" => self.about = Some(Request::Help),
            "--version" => self.about = Some(Request::Version),
            "--output" => self.output = Some(operand),
            "--force" => self.force = true,
            "--json" => self.json = true,
            "--original" => self.original = true,
            "--names" => self.names = Some(operand),
            "--model" => self.model = Some(operand),
            "--never" => self.never = Some(operand),
            "--partial" => self.partial = true,
            "--recursive" => self.recursive = true,
            "--quiet" => self.quiet = true,
            _ => self.tasks.push(match name {
                "--into" => Task::Into(operand),
                "--sheet" => Task::Sheet(operand),
                "--run-cells" => Task::RunCells(operand),
                "--check" => Task::Check(operand),
                "--check-cells" => Task::CheckCells(operand),
                "--audit" => Task::Audit,
                "--store" => Task::Store(operand),
                "--cover" => Task::Cover,
                "--page" => Task::Page(operand),
                "--verilog" => Task::Export(Form::Verilog),
                "--blif" => Task::Export(Form::Blif),
                "--cells" => Task::Export(Form::Cells),
                "--fit" => Task::Reduce(Reduced::Cells),
                "--shrink" => Task::Reduce(Reduced::Netlist),
                "--from-blif" => Task::FromBlif,
                "--design" => Task::Design,
                _ => return None,
            }),
        }
        Some(())
    }
}

fn request(mut given: Given) -> Result<Request, String> {
    if let Some(folder) = page_of_an_audit(&given.tasks) {
        return audited_page(folder, given);
    }
    let into = given.export_folder();
    let mut tasks = given.tasks.drain(..);
    let task = tasks.next().unwrap_or_default();
    let other = tasks.next();
    drop(tasks);
    let writes = into.is_some() || matches!(task, Task::Into(_) | Task::Page(_) | Task::Store(_));
    let reports = matches!(
        task,
        Task::Render
            | Task::Into(_)
            | Task::Check(_)
            | Task::CheckCells(_)
            | Task::Audit
            | Task::Reduce(_)
            | Task::Design
    );
    let fits = (writes || !given.force) && (reports || !given.json);
    match task {
        Task::Render if given.force => {
            return Err("--force needs --into DIR, --page DIR or --store DIR".to_string())
        }
        Task::Sheet(_) | Task::Check(_) | Task::CheckCells(_) => {}
        _ => {
            if let Some(other) = &other {
                return Err(format!(
                    "{} and {} don't go together",
                    task.option(),
                    other.option()
                ));
            }
            if !fits {
                return Err(format!(
                    "{} doesn't go with --force or --json",
                    task.option()
                ));
            }
        }
    }
    modified(&task, &given)?;
    named_models(&task, &given)?;
    match task {
        Task::Export(form) => exported(form, into, given),
        Task::Reduce(to) => reduced(to, into, given),
        task => made(task, other.is_none() && fits, given),
    }
}

/// What the options about models need to have a meaning.
fn named_models(task: &Task, given: &Given) -> Result<(), String> {
    let wrong = |what: &str| Err(what.to_string());
    let one = given.files.len() < 2;
    match task {
        Task::Design => {}
        _ if given.never.is_some() => return wrong("--never NEVERS needs --design"),
        _ if given.partial => return wrong("--partial needs --design"),
        _ => {}
    }
    match task {
        Task::FromBlif => Ok(()),
        Task::Design if given.names.is_none() => Ok(()),
        _ if given.model.is_some() => wrong("--model NAME needs --from-blif or --design"),
        Task::Export(Form::Verilog | Form::Blif) if given.names.is_some() && !one => {
            wrong("--names NAMES goes with one FILE")
        }
        Task::Export(Form::Verilog | Form::Blif) => Ok(()),
        _ if given.names.is_some() => wrong("--names NAMES needs --from-blif, --verilog or --blif"),
        _ => Ok(()),
    }
}

/// The request of files in another form; those for a folder must have names.
fn exported(form: Form, into: Option<PathBuf>, given: Given) -> Result<Request, String> {
    let files = match into {
        Some(_) => named(given.files, "--into")?,
        None => given.files,
    };
    let force = given.force;
    Ok(Request::Export(Export {
        form,
        original: given.original,
        files,
        into: into.map(|folder| Target { folder, force }),
        names: given.names,
    }))
}

/// The request of small tables or netlists; those for a folder must have names.
fn reduced(to: Reduced, into: Option<PathBuf>, given: Given) -> Result<Request, String> {
    let files = match into {
        Some(_) => named(given.files, "--into")?,
        None => given.files,
    };
    let force = given.force;
    Ok(Request::Reduce(Reduce {
        to,
        files,
        into: into.map(|folder| Target { folder, force }),
        json: given.json,
    }))
}

/// The folder of the page, where it is asked for with an audit: the two tasks that go together.
fn page_of_an_audit(tasks: &[Task]) -> Option<PathBuf> {
    match tasks {
        [Task::Page(folder), Task::Audit] | [Task::Audit, Task::Page(folder)] => {
            Some(folder.clone())
        }
        _ => None,
    }
}

/// The page of what an audit finds.
fn audited_page(folder: PathBuf, given: Given) -> Result<Request, String> {
    if given.json || given.quiet || given.original {
        let what = "--page DIR with --audit goes with --force and --recursive alone";
        return Err(what.to_string());
    }
    let target = Target {
        folder,
        force: given.force,
    };
    Ok(Request::AuditedPage(target, audited(given)?))
}

fn audited(given: Given) -> Result<Audited, String> {
    Ok(Audited {
        paths: named(given.files, "--audit")?,
        recursive: given.recursive,
        quiet: given.quiet,
    })
}

/// What some options need to have a meaning.
fn modified(task: &Task, given: &Given) -> Result<(), String> {
    let wrong = |what: &str| Err(what.to_string());
    match task {
        Task::Export(_) => {}
        _ if given.original => return wrong("--original needs --verilog, --blif or --cells"),
        _ => {}
    }
    match task {
        Task::Audit => Ok(()),
        _ if given.quiet => wrong("--quiet needs --audit"),
        Task::Store(_) if given.files.is_empty() => Ok(()),
        Task::Store(_) if given.recursive => wrong("--recursive goes with no NAME"),
        _ if given.recursive => wrong("--recursive needs --audit or --store DIR"),
        _ => Ok(()),
    }
}

/// The request of a task; `fits`: no other option stands in its way.
fn made(task: Task, fits: bool, given: Given) -> Result<Request, String> {
    let (force, json) = (given.force, given.json);
    let target = |folder| Target { folder, force };
    Ok(match task {
        Task::Render => rendered(given.files, None, json),
        Task::Into(folder) => rendered(named(given.files, "--into")?, Some(target(folder)), json),
        Task::Audit => Request::Audit(audited(given)?, json),
        Task::Store(folder) => Request::Store(Store {
            folder,
            names: given.files,
            recursive: given.recursive,
            force,
        }),
        Task::Cover => Request::Cover(given.files),
        Task::Export(form) => return exported(form, None, given),
        Task::FromBlif if given.files.len() < 2 => Request::FromBlif(FromBlif {
            file: given.files.into_iter().next(),
            model: given.model.map(|name| name.to_string_lossy().into_owned()),
            names: given.names,
        }),
        Task::Design if given.files.len() < 2 => Request::Design(Design {
            file: given.files.into_iter().next(),
            model: given.model.map(|name| name.to_string_lossy().into_owned()),
            never: given.never,
            partial: given.partial,
            json,
        }),
        Task::Page(folder) => Request::Page(target(folder), named(given.files, "--page")?),
        task => return of_one_file(task, fits, given.files, json),
    })
}

/// The request of a task that takes one file.
fn of_one_file(task: Task, fits: bool, files: Vec<PathBuf>, json: bool) -> Result<Request, String> {
    let one = |files: Vec<PathBuf>| <[PathBuf; 1]>::try_from(files).ok();
    let wrong = |what: &str| Err(what.to_string());
    Ok(match task {
        Task::Sheet(_) if !fits => return wrong("--sheet SETTINGS goes with no other option"),
        Task::Sheet(settings) => match one(files) {
            Some([file]) => Request::Sheet { settings, file },
            None => return wrong("--sheet needs one FILE"),
        },
        Task::RunCells(settings) => match one(files) {
            Some([cells]) => Request::RunCells { settings, cells },
            None => return wrong("--run-cells SETTINGS needs one CELLS"),
        },
        Task::Check(theirs) => match one(files) {
            Some([ours]) if fits => Request::Check { theirs, ours, json },
            _ => return wrong("--check THEIRS needs one FILE and no other option"),
        },
        Task::CheckCells(table) => match one(files) {
            Some([ours]) if fits => Request::CheckCells { table, ours, json },
            _ => return wrong("--check-cells TABLE needs one FILE and no other option"),
        },
        task => return Err(format!("{} takes one FILE", task.option())),
    })
}

fn rendered(files: Vec<PathBuf>, into: Option<Target>, json: bool) -> Request {
    Request::Render { files, into, json }
}

/// The files, of which there must be one at least.
fn named(files: Vec<PathBuf>, option: &str) -> Result<Vec<PathBuf>, String> {
    let what = if option == "--audit" { "PATH" } else { "FILE" };
    match files.is_empty() || files.iter().any(|file| is_input(file)) {
        true => Err(format!(
            "{option} needs a {what}: standard input has no name"
        )),
        false => Ok(files),
    }
}
