//! Other orders of a block's gates. A loop is copied as often as some setting needs passes through it, and the order in which its gates stand
//! decides how many these are; what it settles to is the same in every order. Each loop's order is found by itself, since its passes depend on
//! no other's. Tested, not proved: what is rendered in another order is held to the original by Compare.

use crate::copies::Batches;
use crate::declarations::gate_names;
use crate::{Block, Gate};

/// How many shuffled orders of a loop are tried.
pub const SHUFFLED: usize = 150;
/// The most gates that a loop is entered at.
const ENTERED: usize = 64;
/// The most evaluations of a gate under 64 settings that a search takes; it ends in the order that is the best by then.
const WORK: usize = 1 << 28;
/// That of a report, which must not keep anyone waiting.
const WORK_OF_A_REPORT: usize = 1 << 22;

/// How an order of a loop's gates is found.
#[derive(Debug, Clone, Copy, PartialEq, Eq)]
pub enum Rule {
    /// As they stand.
    Written,
    /// Each behind what it reads, from this gate on, which comes last.
    Postorder { entered: usize },
    /// The last first.
    Reversed,
    /// The shuffled order of this number, from 1.
    Shuffled { number: usize },
}

/// A loop, and the order that needs the fewest passes of those that were tried.
#[derive(Debug, Clone, PartialEq, Eq)]
pub struct LoopOrder {
    /// Its gates by number, in that order.
    pub gates: Vec<usize>,
    pub rule: Rule,
    pub passes: usize,
    /// The passes as the gates stand.
    pub before: usize,
}

/// A block whose gates stand in another order, and what became of its loops.
#[derive(Debug, Clone, PartialEq, Eq)]
pub struct Reordered {
    pub block: Block,
    /// Those that need fewer passes than before.
    pub loops: Vec<LoopOrder>,
    /// How many gates the rendering of the block has then.
    pub gates: usize,
}

/// The block with the gates of each loop in the order that needs the fewest passes: along the loop's postorder from each of its gates,
/// reversed, or one of [`SHUFFLED`] others. Of equally good ones the first is taken, that of the text before all.
///
/// ```
/// # use unloop::{orders::reordered, Block, Refusal};
/// let ring = "(gate p (not q))\n(gate q (not r))\n(gate r (and p 0))\n(out y p)\n";
/// let block = Block::read(ring)?;
/// let found = reordered(&block);
/// let rendered = found.block.render()?;
/// assert_eq!((block.render()?.gates(), rendered.gates(), found.gates), (9, 3, 3));
/// assert_eq!(block.compare(&rendered)?, None);
/// let told = "a loop of 3 gates in 1 pass and not 3, in postorder from p";
/// assert_eq!(found.loops[0].in_words(ring.as_bytes()), told);
/// # Ok::<(), Refusal>(())
/// ```
pub fn reordered(block: &Block) -> Reordered {
    Search::new(block, SHUFFLED, WORK).reordered(block)
}

/// How many gates the rendering has, and how many in the best order by rule alone: along postorders, and reversed.
pub(crate) fn gates_by_rule(block: &Block) -> [usize; 2] {
    let search = Search::new(block, 0, WORK_OF_A_REPORT);
    let copies = search.batches.copies();
    [copies, search.reordered(block).gates]
}

/// A search for orders, and what it may still take.
struct Search {
    gates: Vec<Gate>,
    batches: Batches,
    shuffled: usize,
    work: usize,
}

impl Search {
    fn new(block: &Block, shuffled: usize, work: usize) -> Search {
        Search {
            gates: block.gate_list(),
            batches: Batches::of(block),
            shuffled,
            work,
        }
    }

    fn reordered(mut self, block: &Block) -> Reordered {
        let mut numbers: Vec<u16> = (0..block.gates()).map(|gate| gate as u16).collect();
        let mut gates = self.batches.copies();
        let mut loops = Vec::new();
        for (members, before) in self.batches.groups().to_vec() {
            let found = self.best(&members, before);
            gates -= members.len() * (before - found.passes);
            if found.passes < found.before {
                for (&gate, &place) in found.gates.iter().zip(&members) {
                    numbers[gate] = place as u16;
                }
                loops.push(found);
            }
        }
        let block = block.scatter(&numbers).unwrap_or_else(|_| block.clone());
        Reordered {
            block,
            loops,
            gates,
        }
    }

    /// The best order of a group that needs so many passes as it stands. What would need as many passes as the best so far is left at once.
    fn best(&mut self, members: &[usize], before: usize) -> LoopOrder {
        let mut best = LoopOrder {
            gates: members.to_vec(),
            rule: Rule::Written,
            passes: before,
            before,
        };
        for rule in rules(members, self.shuffled) {
            if best.passes <= 1 || self.work == 0 {
                break;
            }
            let gates = self.in_order(members, rule);
            if let Some(passes) = self.passes(&gates, best.passes) {
                best = LoopOrder {
                    gates,
                    rule,
                    passes,
                    before,
                };
            }
        }
        best
    }

    /// The passes that a loop needs in an order, if they are fewer than `most`.
    fn passes(&mut self, order: &[usize], most: usize) -> Option<usize> {
        let (passes, evaluated) = self.batches.passes(&self.gates, order, most);
        self.work = self.work.saturating_sub(evaluated);
        passes
    }

    /// A loop's gates in the order of a rule.
    fn in_order(&self, members: &[usize], rule: Rule) -> Vec<usize> {
        match rule {
            Rule::Written => members.to_vec(),
            Rule::Reversed => members.iter().rev().copied().collect(),
            Rule::Postorder { entered } => self.postorder(members, entered),
            Rule::Shuffled { number } => shuffled(members, number),
        }
    }

    /// The loop's gates behind what they read, by a search that begins at a gate; what it is in the middle of is not waited for.
    fn postorder(&self, members: &[usize], entered: usize) -> Vec<usize> {
        let mut left = vec![false; self.gates.len()];
        members.iter().for_each(|&gate| left[gate] = true);
        left[entered] = false;
        let reads = |gate: usize| {
            self.gates[gate]
                .gates_read()
                .collect::<Vec<usize>>()
                .into_iter()
        };
        let mut open = vec![(entered, reads(entered))];
        let mut order = Vec::with_capacity(members.len());
        while let Some((gate, next)) = open.last_mut() {
            match next.next() {
                Some(read) if std::mem::take(&mut left[read]) => open.push((read, reads(read))),
                Some(_) => {}
                None => {
                    order.push(*gate);
                    open.pop();
                }
            }
        }
        order
    }
}

/// The rules in the order in which they are tried.
fn rules(members: &[usize], shuffled: usize) -> impl Iterator<Item = Rule> + '_ {
    let entered = members.iter().take(ENTERED);
    let postorders = entered.map(|&entered| Rule::Postorder { entered });
    let others = (1..=shuffled).map(|number| Rule::Shuffled { number });
    postorders.chain([Rule::Reversed]).chain(others)
}

/// The shuffled order of a number: the same in every run.
fn shuffled(members: &[usize], number: usize) -> Vec<usize> {
    let mut order = members.to_vec();
    let mut state = number as u64;
    for last in (1..order.len()).rev() {
        order.swap(last, (next(&mut state) % (last as u64 + 1)) as usize);
    }
    order
}

/// The next number of a sequence, by Steele's splitmix64.
fn next(state: &mut u64) -> u64 {
    *state = state.wrapping_add(0x9E37_79B9_7F4A_7C15);
    let mixed = (*state ^ *state >> 30).wrapping_mul(0xBF58_476D_1CE4_E5B9);
    let mixed = (mixed ^ mixed >> 27).wrapping_mul(0x94D0_49BB_1331_11EB);
    mixed ^ mixed >> 31
}

impl LoopOrder {
    /// In words, with the names of a text's gates: `a loop of 9 gates in 2 passes and not 4, in postorder from up`.
    pub fn in_words(&self, text: &[u8]) -> String {
        let names = gate_names(text);
        // An inner gate is told by its line, whose name stands behind it.
        let name = |gate: usize| {
            let mut lines = names.iter().skip(gate).flatten();
            lines.next().map_or("", |name| name)
        };
        let rule = match self.rule {
            Rule::Written => "as it stands".to_string(),
            Rule::Postorder { entered } => format!("in postorder from {}", name(entered)),
            Rule::Reversed => "reversed".to_string(),
            Rule::Shuffled { number } => format!("shuffled, the order {number} of {SHUFFLED}"),
        };
        let passes = match self.passes {
            1 => "1 pass".to_string(),
            passes => format!("{passes} passes"),
        };
        let (count, before) = (self.gates.len(), self.before);
        format!("a loop of {count} gates in {passes} and not {before}, {rule}")
    }
}
