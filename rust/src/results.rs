//! What the operations on a block tell.

use crate::{Block, Value};

/// How many settings of the inputs are settled, of those of the 2^n that may come: under those every output shows 0 or 1.
#[derive(Debug, Clone, Copy, PartialEq, Eq)]
pub struct Verdict {
    /// The settled settings.
    pub settled: usize,
    /// The lowest setting that may come and isn't settled; input i has weight 2^i.
    pub lowest_unsettled: Option<usize>,
}

impl Verdict {
    /// Whether every setting that may come is settled.
    pub fn is_sound(self) -> bool {
        self.lowest_unsettled.is_none()
    }
}

/// A partial assignment of the inputs: bit i is for input i. The default one fixes none.
#[derive(Debug, Clone, Copy, Default, PartialEq, Eq, Hash)]
pub struct Assignment {
    /// The inputs that it fixes.
    pub fixed: u16,
    /// Those that it fixes at 1.
    pub ones: u16,
}

impl Assignment {
    /// What it fixes an input at. An input that the masks have no bit for is not fixed.
    ///
    /// ```
    /// # use unloop::Assignment;
    /// let assignment = Assignment { fixed: 3, ones: 2 };
    /// assert_eq!([0, 1, 2].map(|input| assignment.value(input)), [Some(false), Some(true), None]);
    /// assert_eq!([16, 64, usize::MAX].map(|input| assignment.value(input)), [None; 3]);
    /// ```
    pub fn value(self, input: usize) -> Option<bool> {
        let bit = 1_u16.checked_shl(input.try_into().ok()?)?;
        (self.fixed & bit != 0).then_some(self.ones & bit != 0)
    }

    /// Whether a setting has its values at the inputs that it fixes; input i has weight 2^i.
    pub fn agrees(self, setting: usize) -> bool {
        setting & usize::from(self.fixed) == usize::from(self.ones)
    }
}

/// Where a block made elsewhere shows another value than the original.
#[derive(Debug, Clone, Copy, PartialEq, Eq)]
pub struct Disagreement {
    /// The lowest such setting that may come and is settled in the original; input i has weight 2^i.
    pub setting: usize,
    /// The lowest such output there, from 0.
    pub output: usize,
}

/// The strongly connected groups of a block's gates, in the order in which they can be rendered.
#[derive(Debug, Clone, PartialEq, Eq)]
pub struct Groups {
    /// How many there are.
    pub count: usize,
    /// The group's number of each gate.
    pub of_gates: Vec<u16>,
}

/// What a block settles to under a setting.
#[derive(Debug, Clone, PartialEq, Eq)]
pub struct Settled {
    /// The value of each gate.
    pub values: Vec<Value>,
    /// The rounds that changed something.
    pub rounds: usize,
}

impl Settled {
    /// Whether no gate's value is undefined.
    pub fn is_defined(&self) -> bool {
        !self.values.contains(&Value::Undefined)
    }
}

impl Block {
    /// How many of the 2^n settings its never lines exclude.
    ///
    /// ```
    /// # use unloop::{Block, Refusal};
    /// let block = Block::read("(in a)\n(in b)\n(never (a 1))\n(out y b)\n")?;
    /// assert_eq!(block.excluded_settings(), 2);
    /// assert_eq!(block.settled_in_words(), "2 of 2, 2 excluded");
    /// # Ok::<(), Refusal>(())
    /// ```
    pub fn excluded_settings(&self) -> usize {
        (1 << self.inputs()) - self.settings_that_come()
    }

    /// How many settings are settled of those that may come, as `14 of 16`; and how many are excluded where some are, as
    /// `8 of 8, 8 excluded`.
    pub fn settled_in_words(&self) -> String {
        let told = format!(
            "{} of {}",
            self.verdict().settled,
            self.settings_that_come()
        );
        match self.excluded_settings() {
            0 => told,
            excluded => format!("{told}, {excluded} excluded"),
        }
    }
}
