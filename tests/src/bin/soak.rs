//! The comparisons on fresh seeds, for some minutes.

use simulator::compare::tally::Tally;
use simulator::compare::{cells, foreign, gather, many, programs, seeded, sheet};
use simulator::executed::{library_folder, root};
use simulator::generate::Size;
use std::hash::{DefaultHasher, Hash, Hasher};
use std::num::NonZero;
use std::ops::Range;
use std::panic::{catch_unwind, AssertUnwindSafe};
use std::path::PathBuf;
use std::process::ExitCode;
use std::sync::{Mutex, PoisonError};
use std::time::{Duration, Instant, SystemTime, UNIX_EPOCH};
use std::{env, fs, io, thread};

const USAGE: &str = "usage: tests/soak N [SEED]
Compares the proved library with the simulator on generated input for N minutes (1 or more), on every core.
Round after round takes the next seed through every kind of input, the costly kinds in some rounds only.
SEED, below 2^62, is the first round's; without it, one is made from the clock. It is printed first; each further
core begins 2^32 higher. A progress line comes about every ten seconds, and what was compared so far then stands in
target/soak, by the library's sum and by the seed: so sittings add up, however they end, and the sum is told.
The first difference ends the run with status 1, after the seed and the input were printed; starting at the seed
printed meets it again in the first round.
The end tells how long each kind of input took, and how often each operation answered each of its numbers; one that
was never answered ends with status 1.
";

/// Between two progress lines.
const PROGRESS: Duration = Duration::from_secs(10);

/// A kind of generated input, met in the first round and then in each `every`th. Generators take turns by the seed modulo 2, 4
/// and 10, so each `every` is prime to those.
struct Kind {
    name: &'static str,
    every: u64,
    compare: fn(Range<u64>),
}

const fn kind(name: &'static str, every: u64, compare: fn(Range<u64>)) -> Kind {
    Kind {
        name,
        every,
        compare,
    }
}

const KINDS: &[Kind] = &[
    kind("small blocks and words near them", 1, many::blocks),
    kind("small texts and texts near them", 7, many::texts),
    kind("words that break each rule", 77, many::malformed_words),
    kind("small blocks", 301, |s| seeded::blocks(s, Size::SMALL)),
    kind("middle blocks", 707, |s| seeded::blocks(s, Size::MIDDLE)),
    kind("large blocks", 14_007, |s| seeded::blocks(s, Size::LARGE)),
    kind("typical blocks", 357, seeded::typical_blocks),
    kind(
        "blocks of about 1,024 copies",
        357,
        seeded::about_1024_copies,
    ),
    kind("written small blocks", 301, |s| {
        seeded::written_blocks(s, Size::SMALL)
    }),
    kind("written large blocks", 707, |s| {
        seeded::written_blocks(s, Size::LARGE)
    }),
    kind("malformed blocks", 707, seeded::malformed_words),
    kind("mangled blocks", 301, seeded::mangled_words),
    kind("small blocks brought over", 301, |s| {
        seeded::brought_blocks(s, Size::SMALL)
    }),
    kind("middle blocks brought over", 2_107, |s| {
        seeded::brought_blocks(s, Size::MIDDLE)
    }),
    kind("malformed old blocks", 77, seeded::malformed_old_words),
    kind(
        "texts with a strange never line",
        301,
        seeded::texts_with_a_strange_never,
    ),
    kind("legal small texts", 301, |s| {
        seeded::legal_texts(s, Size::SMALL)
    }),
    kind("legal large texts", 357, |s| {
        seeded::legal_texts(s, Size::LARGE)
    }),
    kind("spoiled small texts", 301, |s| {
        seeded::spoiled_texts(s, Size::SMALL)
    }),
    kind("spoiled large texts", 357, |s| {
        seeded::spoiled_texts(s, Size::LARGE)
    }),
    kind("texts near a limit", 357, seeded::texts_near_a_limit),
    kind("longest texts", 2_107, seeded::longest_texts),
    kind("texts by line", 77, seeded::lines),
    kind("cells of small blocks", 301, |s| {
        cells::blocks(s, Size::SMALL)
    }),
    kind("cells of middle blocks", 707, |s| {
        cells::blocks(s, Size::MIDDLE)
    }),
    kind("cells of malformed blocks", 707, cells::malformed_words),
    kind("foreign cells", 301, |s| cells::foreign(s, 40)),
    kind("malformed cells", 77, cells::malformed_runs),
    kind("tables of cells for small blocks", 301, |s| {
        cells::tables(s, Size::SMALL);
    }),
    kind("tables of cells for middle blocks", 707, |s| {
        cells::tables(s, Size::MIDDLE);
    }),
    kind("small blocks gathered", 301, |s| {
        gather::blocks(s, Size::SMALL)
    }),
    kind("middle blocks gathered", 357, |s| {
        gather::blocks(s, Size::MIDDLE)
    }),
    kind("malformed blocks gathered", 707, gather::malformed_words),
    kind("small blocks compared with others", 301, |s| {
        foreign::blocks(s, Size::SMALL, 2);
    }),
    kind("middle blocks compared with others", 707, |s| {
        foreign::blocks(s, Size::MIDDLE, 1);
    }),
    kind(
        "blocks compared with strangers",
        301,
        foreign::refused_pairs,
    ),
    kind("sheets of small blocks", 301, |s| {
        sheet::blocks(s, Size::SMALL, &[0, 1, 40]);
    }),
    kind("sheets of middle blocks", 707, |s| {
        sheet::blocks(s, Size::MIDDLE, &[40]);
    }),
    kind("sheets of malformed blocks", 707, |s| {
        sheet::malformed_words(s);
    }),
    kind("texts in the program", 3_001, programs::texts),
    kind("set lines in the bench", 3_001, programs::set_lines),
    kind(
        "long netlists in the bench",
        21_007,
        programs::long_netlists,
    ),
];

/// How far the seeds of two cores are apart.
const APART: u64 = 1 << 32;

fn main() -> ExitCode {
    let arguments: Vec<String> = env::args().skip(1).collect();
    if arguments == ["--help"] {
        print!("{USAGE}");
        return ExitCode::SUCCESS;
    }
    let Some((minutes, seed)) = run_of(&arguments) else {
        eprint!("{USAGE}");
        return ExitCode::from(2);
    };
    let cores = thread::available_parallelism().map_or(1, NonZero::get) as u64;
    println!("first seed {seed}, for {minutes} min, on {cores} cores");
    let all = Mutex::new(All::new(seed, Duration::from_secs(60 * minutes)));
    thread::scope(|scope| {
        for core in 0..cores {
            let all = &all;
            scope.spawn(move || Soak::new(all, seed + core * APART).run());
        }
    });
    all.into_inner()
        .unwrap_or_else(PoisonError::into_inner)
        .end()
}

/// The minutes and the first seed that the arguments ask for.
fn run_of(arguments: &[String]) -> Option<(u64, u64)> {
    let (minutes, seed) = match arguments {
        [minutes] => (minutes, fresh_seed()),
        [minutes, seed] => (minutes, seed.parse().ok()?),
        _ => return None,
    };
    let minutes: u32 = minutes.parse().ok()?;
    (minutes > 0 && seed < 1 << 62).then_some((minutes.into(), seed))
}

/// Far above the seeds of the tests.
fn fresh_seed() -> u64 {
    let now = SystemTime::now().duration_since(UNIX_EPOCH);
    now.map_or(1 << 40, |now| now.as_micros() as u64)
}

/// How often a kind was met, and what that took.
#[derive(Clone, Copy, Default)]
struct Met {
    rounds: u64,
    time: Duration,
}

/// What all cores have done.
struct All {
    first: u64,
    start: Instant,
    length: Duration,
    told: Instant,
    rounds: u64,
    met: [Met; KINDS.len()],
    tally: Tally,
    differs: bool,
}

impl All {
    fn new(first: u64, length: Duration) -> All {
        let start = Instant::now();
        All {
            first,
            start,
            length,
            told: start,
            rounds: 0,
            met: [Met::default(); KINDS.len()],
            tally: Tally::default(),
            differs: false,
        }
    }

    fn is_over(&self) -> bool {
        self.differs || self.start.elapsed() >= self.length
    }

    /// Seconds, rounds and answers.
    fn age(&self) -> String {
        let seconds = self.start.elapsed().as_secs();
        let answers = self.tally.all_answers();
        format!("{seconds} s, {} rounds, {answers} answers", self.rounds)
    }

    /// A progress line, and the same in the folder of all sittings.
    fn tell(&mut self) {
        if self.told.elapsed() >= PROGRESS {
            self.told = Instant::now();
            println!("{}", self.age());
            self.keep();
        }
    }

    /// Keeps what this sitting compared: answers, rounds, seconds.
    fn keep(&self) {
        let (answers, seconds) = (self.tally.all_answers(), self.start.elapsed().as_secs());
        let result = if self.differs { "DIFFERS" } else { "agrees" };
        let line = format!("{answers} {} {seconds} {result}\n", self.rounds);
        let kept = kept_in().and_then(|folder| {
            fs::create_dir_all(&folder)?;
            let begun = folder.join(format!("{}.begun", self.first));
            fs::write(&begun, line)?;
            fs::rename(begun, folder.join(self.first.to_string()))
        });
        if let Err(error) = kept {
            println!("what was compared is not kept: {error}");
        }
    }

    /// Tells all; what main ends with.
    fn end(self) -> ExitCode {
        self.keep();
        for (kind, met) in KINDS.iter().zip(self.met) {
            let seconds = met.time.as_secs_f64();
            println!("{} {}, {seconds:.1} s", met.rounds, kind.name);
        }
        println!("in all {}: {}", self.age(), self.tally);
        print!("{}", self.tally.by_operation());
        let (answers, unseen) = (self.tally.all_answers(), self.tally.unseen());
        let rate = answers as u64 / self.start.elapsed().as_secs().max(1);
        println!("{answers} answers compared, {rate} a second");
        match kept() {
            Ok((sittings, answers)) => {
                println!("{answers} in {sittings} sittings with this library")
            }
            Err(error) => println!("other sittings can't be read: {error}"),
        }
        if !unseen.is_empty() {
            println!("NEVER ANSWERED: {}", unseen.join(", "));
        }
        println!(
            "{}",
            if self.differs {
                "DIFFERS"
            } else {
                "nothing differs"
            }
        );
        ExitCode::from(u8::from(self.differs || !unseen.is_empty()))
    }
}

/// Where sittings with this library are kept: below target, or beside the library that UNLOOP_LIBRARY named for the build.
fn kept_in() -> io::Result<PathBuf> {
    let (library, sittings) = match option_env!("UNLOOP_LIBRARY") {
        Some(folder) => (PathBuf::from(folder), PathBuf::from(folder).join("soak")),
        None => (library_folder(), root().join("target/soak")),
    };
    let library = fs::read(library.join("libexports.a"))?;
    let mut sum = DefaultHasher::new();
    library.hash(&mut sum);
    Ok(sittings.join(format!("{:016x}", sum.finish())))
}

/// How many sittings there were with this library, and what they compared.
fn kept() -> io::Result<(usize, u64)> {
    let (mut sittings, mut answers) = (0, 0);
    for entry in fs::read_dir(kept_in()?)? {
        let line = fs::read_to_string(entry?.path())?;
        let told = line
            .split(' ')
            .next()
            .and_then(|told| told.parse::<u64>().ok());
        answers += told.unwrap_or(0);
        sittings += 1;
    }
    Ok((sittings, answers))
}

/// What one core does.
struct Soak<'a> {
    all: &'a Mutex<All>,
    first: u64,
    rounds: u64,
    met: [Met; KINDS.len()],
}

impl Soak<'_> {
    fn new(all: &Mutex<All>, first: u64) -> Soak<'_> {
        Soak {
            all,
            first,
            rounds: 0,
            met: [Met::default(); KINDS.len()],
        }
    }

    /// Round after round, until the time is over or something differs.
    fn run(&mut self) {
        loop {
            // The panic has printed itself and the reports by the time it is caught.
            let agreed = catch_unwind(AssertUnwindSafe(|| self.round()));
            let mut all = self.all.lock().unwrap_or_else(PoisonError::into_inner);
            all.tally.add(&Tally::taken());
            all.rounds += 1;
            for (sum, met) in all.met.iter_mut().zip(&mut self.met) {
                sum.rounds += met.rounds;
                sum.time += met.time;
                *met = Met::default();
            }
            self.rounds += 1;
            all.differs |= agreed.is_err();
            all.tell();
            if all.is_over() {
                return;
            }
        }
    }

    fn round(&mut self) {
        let seed = self.first + self.rounds;
        for (kind, met) in KINDS.iter().zip(&mut self.met) {
            if self.rounds.is_multiple_of(kind.every) {
                let start = Instant::now();
                (kind.compare)(seed..seed + 1);
                met.time += start.elapsed();
                met.rounds += 1;
            }
        }
    }
}
