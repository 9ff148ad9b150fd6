//! A design of any size with its loops taken out one by one. Each loop group becomes a block of its own, which Render renders and Compare
//! accepts; its gates are put back in place of the group, and every other line stays as it is. crates/theory_replacement proves that a design with its
//! groups replaced so shows what it showed; that the groups are cut out and put back as it says is tested.

mod block;
mod cut;
mod gates;
mod lines;
mod loops;
mod promises;
mod whole;
mod wider;
mod wiring;
mod writing;

use crate::blif_model::{BlifError, BlifFile};
use crate::from_blif::chosen;
use crate::{Names, Refusal};
use cut::Cut;
use std::collections::HashSet;
use whole::Whole;

pub use promises::{Promise, PromiseError, Promises};

/// A file whose design is one of its models, with the loops of this model and of those that it uses.
pub struct Design<'a> {
    text: &'a str,
    /// The design's model first; then those that it still has instances of.
    models: Vec<Whole>,
    /// Every loop: its model, its number there, and how it is cut out.
    loops: Vec<(usize, Cut)>,
}

/// What tells of a loop, whether it is taken out or not.
#[derive(Debug, Clone, PartialEq, Eq)]
pub struct Loop {
    /// The model that it is in.
    pub model: String,
    /// The line of the first of its gates.
    pub line: usize,
    /// The nets that its gates drive.
    pub nets: Vec<String>,
    /// The nets that it reads from outside, each through buffers and inverters.
    pub boundary: Vec<String>,
    /// Those of its nets that are read outside of it.
    pub ports: Vec<String>,
}

/// What takes a loop's place.
#[derive(Debug, Clone, PartialEq, Eq)]
pub struct Piece {
    /// What is told of it at the head of the file, in lines.
    told: Vec<String>,
    /// The `.names` lines.
    lines: String,
    /// How many gates they are.
    pub gates: usize,
    /// The promises that it rests on, by number.
    pub promises: Vec<usize>,
    /// These exclude every setting of the boundary, so that nothing is said of the loop.
    pub never_comes: bool,
}

/// Why a loop stays.
#[derive(Debug, Clone, PartialEq, Eq)]
pub enum Refused {
    /// The loop is too large for a block, in words.
    TooLarge(String),
    /// The loop's block is refused.
    Block(Box<RefusedBlock>),
    /// Compare does not accept what was rendered, which never happens while Render keeps its promise.
    NotAccepted,
}

/// A block that was refused: its text, what its pins, ports and gates are called in the model, and the refusal.
#[derive(Debug, Clone, PartialEq, Eq)]
pub struct RefusedBlock {
    pub text: String,
    pub names: Names,
    pub refusal: Refusal,
}

impl<'a> Design<'a> {
    /// The design of a file's model, by default of its first.
    ///
    /// ```
    /// # use unloop::design::{Design, Promises};
    /// let text = ".model m\n.inputs s\n.outputs y\n.names s q p\n11 1\n.names s p q\n1- 1\n-1 1\n.names q y\n0 1\n.end\n";
    /// let design = Design::read(text, None).unwrap();
    /// let [found] = &design.loops()[..] else { panic!() };
    /// assert_eq!((&found.nets[..], &found.boundary[..], &found.ports[..]), (&["p".into(), "q".into()][..], &["s".into()][..], &["q".into()][..]));
    /// let piece = design.taken_out(0, &Promises::default()).unwrap();
    /// let straight = design.written(&[Some(piece)]);
    /// assert!(straight.ends_with(".names q y\n0 1\n.end\n"));
    /// assert!(Design::read(&straight, None).unwrap().loops().is_empty());
    /// ```
    pub fn read(text: &'a str, model: Option<&str>) -> Result<Design<'a>, BlifError> {
        let file = BlifFile::read(text)?;
        let mut waiting = vec![&chosen(&file, model)?.name[..]];
        let mut seen: HashSet<&str> = waiting.iter().copied().collect();
        let (mut models, mut loops) = (Vec::new(), Vec::new());
        while let Some(name) = waiting.pop() {
            let Some(model) = file.model(Some(name)) else {
                continue;
            };
            let (whole, cuts) = Whole::of(&file, model)?;
            loops.extend(cuts.into_iter().map(|cut| (models.len(), cut)));
            let used = whole.used();
            let known = file.models.iter().map(|model| &model.name[..]);
            waiting.extend(known.filter(|name| used.contains(*name) && seen.insert(name)));
            models.push(whole);
        }
        Ok(Design {
            text,
            models,
            loops,
        })
    }

    /// How many tables and cells it has, each model that it uses counted once.
    pub fn gates(&self) -> usize {
        self.models.iter().map(Whole::gates).sum()
    }

    /// The loops: model after model, and in a model by the first line.
    pub fn loops(&self) -> Vec<Loop> {
        let found = self.loops.iter();
        found
            .map(|(model, cut)| cut.told(&self.models[*model]))
            .collect()
    }

    /// The instances that are put in place because a loop passes through them, as `half.1`.
    pub fn placed(&self) -> Vec<String> {
        let models = self.models.iter();
        models.flat_map(|whole| whole.placed_instances()).collect()
    }

    /// What the file doesn't have and the design has instances of: these stay, and a loop through them is not seen.
    pub fn strangers(&self) -> Vec<String> {
        let mut names: Vec<String> = self.models.iter().flat_map(Whole::strangers).collect();
        names.sort();
        names.dedup();
        names
    }

    /// What takes the place of a loop, by its number from 0; or why it stays. Promises count where it is not sound without them.
    pub fn taken_out(&self, number: usize, promises: &Promises) -> Result<Piece, Refused> {
        let (model, cut) = &self.loops[number];
        let whole = &self.models[*model];
        let allowed = promises.about(*model, whole, cut);
        block::taken_out(whole, cut, number, &allowed)
    }

    /// The file with each loop replaced by its piece; one without a piece stays.
    pub fn written(&self, pieces: &[Option<Piece>]) -> String {
        writing::written(self, pieces)
    }
}
