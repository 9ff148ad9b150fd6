//! How much was compared on this thread; each test has a thread of its own.

use crate::answer::NOT_A_PERMUTATION;
use crate::limits::NEVERS;
use std::cell::RefCell;
use std::fmt::{self, Display, Formatter};
use std::thread;

/// What answers: the library's operations and the two programs.
#[derive(Debug, Clone, Copy, PartialEq, Eq)]
pub enum Operation {
    Read,
    Write,
    Settle,
    Pass,
    Sheet,
    Verdict,
    Cover,
    Groups,
    Render,
    Compare,
    CompareCells,
    Bring,
    Cells,
    Run,
    Gather,
    Scatter,
    Line,
    /// The program `unloop`: a rendering counts as 0.
    Program,
    /// The program `bench`, each of its lines: `show` counts as 0.
    Bench,
}

impl Operation {
    /// All of them, in their order.
    pub const ALL: [Operation; 19] = [
        Operation::Read,
        Operation::Write,
        Operation::Settle,
        Operation::Pass,
        Operation::Sheet,
        Operation::Verdict,
        Operation::Cover,
        Operation::Groups,
        Operation::Render,
        Operation::Compare,
        Operation::CompareCells,
        Operation::Bring,
        Operation::Cells,
        Operation::Run,
        Operation::Gather,
        Operation::Scatter,
        Operation::Line,
        Operation::Program,
        Operation::Bench,
    ];

    /// The numbers that it answers, as include/unloop.h lists them.
    pub fn numbers(self) -> &'static [usize] {
        match self {
            Operation::Read => &[0, 1, 2, 3, 4, 5, 11],
            Operation::Settle | Operation::Run => &[0, 6, 7, 11],
            Operation::Pass => &[0, 6, 7, 10, 11],
            Operation::Sheet | Operation::Verdict => &[0, 6],
            Operation::Render => &[0, 6, 8, 9, 11],
            Operation::Compare => &[0, 6, 10, 12],
            Operation::CompareCells => &[0, 6, 12],
            Operation::Cells => &[0, 6, 10, 11],
            Operation::Scatter => &[0, 6, 11, 13],
            Operation::Line => &[0],
            Operation::Program => &[0, 1, 2, 3, 4, 5, 8, 9],
            Operation::Bench => &[0, 1, 2, 3, 4, 5],
            Operation::Write
            | Operation::Cover
            | Operation::Groups
            | Operation::Bring
            | Operation::Gather => &[0, 6, 11],
        }
    }
}

/// Counts of what was compared.
#[derive(Debug, Clone, Default)]
pub struct Tally {
    /// Lists of words, each in every operation on a block.
    pub words: usize,
    /// Blocks among them, by how many never lines they have.
    pub lines: [usize; NEVERS + 1],
    /// Blocks among them of which every setting is excluded.
    pub all_excluded: usize,
    /// Lists of words in Bring.
    pub brought: usize,
    /// Lists of words in Cells.
    pub made: usize,
    /// Lists of words and settings in Run.
    pub runs: usize,
    /// Blocks with cells and a list of nodes in CompareCells.
    pub tables: usize,
    /// Lists of words in Gather.
    pub gathered: usize,
    /// Lists of words and of gate numbers in Scatter.
    pub scattered: usize,
    /// Settings, each with a list of words in Settle and Pass.
    pub settings: usize,
    /// Records of sheets.
    pub records: usize,
    /// Texts in Read.
    pub texts: usize,
    /// Answers by operation and number.
    pub answered: [[usize; NOT_A_PERMUTATION + 1]; Operation::ALL.len()],
}

thread_local! {
    static TALLY: RefCell<Tally> = RefCell::new(Tally::default());
}

impl Tally {
    /// What was compared so far.
    pub fn so_far() -> Tally {
        TALLY.with_borrow(Tally::clone)
    }

    /// The same, and counting begins again.
    pub fn taken() -> Tally {
        TALLY.take()
    }

    /// Counts what another thread compared.
    pub fn add(&mut self, other: &Tally) {
        let sums = [
            (&mut self.words, other.words),
            (&mut self.all_excluded, other.all_excluded),
            (&mut self.brought, other.brought),
            (&mut self.made, other.made),
            (&mut self.runs, other.runs),
            (&mut self.tables, other.tables),
            (&mut self.gathered, other.gathered),
            (&mut self.scattered, other.scattered),
            (&mut self.settings, other.settings),
            (&mut self.records, other.records),
            (&mut self.texts, other.texts),
        ];
        let lines = self.lines.iter_mut().zip(other.lines);
        let answered = self.answered.iter_mut().flatten();
        let answered = answered.zip(other.answered.into_iter().flatten());
        let sums = sums.into_iter().chain(lines).chain(answered);
        sums.for_each(|(sum, count)| *sum += count);
    }

    /// How often a number was answered, by whichever operation.
    pub fn answers(&self, number: usize) -> usize {
        self.answered.iter().map(|numbers| numbers[number]).sum()
    }

    /// All answers.
    pub fn all_answers(&self) -> usize {
        self.answered.iter().flatten().sum()
    }

    /// A line for each operation: how often it answered each of its numbers.
    pub fn by_operation(&self) -> String {
        let line = |operation: &Operation| {
            let counts = self.answered[*operation as usize];
            let numbers = operation.numbers().iter();
            let numbers: Vec<String> = numbers
                .map(|&number| format!("{number}: {}", counts[number]))
                .collect();
            format!("{operation:?} answered {}\n", numbers.join(", "))
        };
        Operation::ALL.iter().map(line).collect()
    }

    /// The numbers that an operation answers and never did.
    pub fn unseen(&self) -> Vec<String> {
        let unseen = |operation: Operation| {
            let counts = self.answered[operation as usize];
            let numbers = operation.numbers().iter();
            let missing = numbers.filter(move |&&number| counts[number] == 0);
            missing.map(move |number| format!("{operation:?} {number}"))
        };
        Operation::ALL.into_iter().flat_map(unseen).collect()
    }
}

/// Counts something more.
pub(super) fn count(add: impl FnOnce(&mut Tally)) {
    TALLY.with_borrow_mut(add);
}

/// Counts an answer that was compared; it is one of those that the operation gives.
pub(super) fn count_answer(operation: Operation, number: usize) {
    let known = operation.numbers().contains(&number);
    assert!(known, "{operation:?} answered {number}");
    count(|tally| tally.answered[operation as usize][number] += 1);
}

impl Display for Tally {
    fn fmt(&self, f: &mut Formatter<'_>) -> fmt::Result {
        let Tally {
            words,
            lines,
            all_excluded,
            brought,
            made,
            runs,
            tables,
            gathered,
            scattered,
            settings,
            records,
            texts,
            answered: _,
        } = self;
        write!(f, "{words} lists of words, {settings} settings, ")?;
        write!(f, "blocks by never lines {lines:?}, ")?;
        write!(
            f,
            "{all_excluded} with every setting excluded, {brought} in Bring, "
        )?;
        write!(
            f,
            "{made} in Cells, {runs} in Run, {tables} in CompareCells, "
        )?;
        write!(f, "{gathered} in Gather, {scattered} in Scatter, ")?;
        let places = self.answered[Operation::Line as usize][0];
        write!(
            f,
            "{records} records, {texts} texts, {places} places of lines, "
        )?;
        let numbers = 0..=NOT_A_PERMUTATION;
        let answered: Vec<usize> = numbers.map(|number| self.answers(number)).collect();
        write!(f, "answers by number {answered:?}")
    }
}

/// Prints what this test compared.
pub fn print_compared() {
    let name = thread::current().name().unwrap_or_default().to_string();
    println!("{name} compared {}", Tally::so_far());
}

/// Prints what this test compared; each of the numbers was answered often in it.
pub fn answered_often(numbers: &[usize], least: usize) {
    print_compared();
    let tally = Tally::so_far();
    let often = |&number: &usize| tally.answers(number) >= least;
    assert!(numbers.iter().all(often), "{}", tally.by_operation());
}
