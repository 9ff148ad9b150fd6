//! A block that owns its words, with the operations as methods.

use crate::limits::{
    BLOCK_WORDS, COVER_WORDS, GATE_WORDS, HEAD_WORDS, NAME_WORDS, NEVER_WORDS, OUTPUT_WORDS,
    WRITTEN_BYTES,
};
use crate::raw::{self, Reply};
use crate::{Assignment, Disagreement, Groups, Refusal, Settled, Value, Verdict};

/// A block of gates. Its words keep every rule of the stored block, so no method refuses with
/// [`Refusal::MalformedBlock`] but of other words that it is lent, nor for want of room.
#[derive(Debug, Clone, PartialEq, Eq, Hash)]
pub struct Block {
    words: Vec<u16>,
}

/// What the library promises of a block where there is room for every result.
pub(crate) const NEVER_REFUSED: &str = "a block is not refused";

impl Block {
    /// The block of a netlist text.
    ///
    /// ```
    /// # use unloop::{Block, Refusal};
    /// assert_eq!(Block::read("")?.words(), [0, 0, 0, 0]);
    /// let again = Block::read("(in a)\n(in a)\n");
    /// assert_eq!(again, Err(Refusal::DuplicateDeclaration { place: 11 }));
    /// # Ok::<(), Refusal>(())
    /// ```
    pub fn read(text: impl AsRef<[u8]>) -> Result<Block, Refusal> {
        let text = text.as_ref();
        let words = counted(BLOCK_WORDS, |block| raw::read(text, block))?;
        Ok(Block { words })
    }

    /// The block of stored words, if they are one's.
    ///
    /// ```
    /// # use unloop::{Block, Refusal};
    /// let stored = Block::read("(in a)\n(gate p (not a))\n")?.words().to_vec();
    /// assert_eq!(Block::from_words(stored)?.write(), "(in a)\n(gate _0 (not a))\n");
    /// assert_eq!(Block::from_words([1, 0, 0, 0]), Err(Refusal::MalformedBlock));
    /// # Ok::<(), Refusal>(())
    /// ```
    pub fn from_words(words: impl Into<Vec<u16>>) -> Result<Block, Refusal> {
        let words = words.into();
        // Settle tests the words before all else; lent nothing, it evaluates no gate.
        match raw::settle(&words, &[], &mut []).done() {
            Err(Refusal::MalformedBlock) => Err(Refusal::MalformedBlock),
            _ => Ok(Block { words }),
        }
    }

    /// The block of words that were stored before there were never lines: with three counts in front and at most 10 inputs. It has no
    /// never line, and every answer that it had.
    ///
    /// ```
    /// # use unloop::{Block, Refusal};
    /// let old = [1, 1, 0, 97, 0, 0, 0, 8, 0, 0, 0, 0];
    /// let block = Block::bring(old)?;
    /// assert_eq!(block.write(), "(in a)\n(gate _0 (not a))\n");
    /// assert_eq!(block.words()[..4], [1, 1, 0, 0]);
    /// assert_eq!(Block::bring(block.words()), Err(Refusal::MalformedBlock));
    /// # Ok::<(), Refusal>(())
    /// ```
    pub fn bring(old: impl AsRef<[u16]>) -> Result<Block, Refusal> {
        let old = old.as_ref();
        let words = counted(BLOCK_WORDS, |block| raw::bring(old, block))?;
        Ok(Block { words })
    }

    /// The block of words that an operation gave.
    pub(crate) fn of_words(words: Vec<u16>) -> Block {
        Block { words }
    }

    /// The stored words.
    pub fn words(&self) -> &[u16] {
        &self.words
    }

    /// How many inputs it has.
    pub fn inputs(&self) -> usize {
        self.words[0].into()
    }

    /// How many gates it has.
    pub fn gates(&self) -> usize {
        self.words[1].into()
    }

    /// How many outputs it has.
    pub fn outputs(&self) -> usize {
        self.words[2].into()
    }

    /// Its never lines: a setting that agrees with one of them never comes.
    ///
    /// ```
    /// # use unloop::{Block, Refusal};
    /// let block = Block::read("(in a)\n(in b)\n(never (b 1) (a 0))\n")?;
    /// let [line] = block.never_lines()[..] else { panic!() };
    /// assert_eq!((line.value(0), line.value(1)), (Some(false), Some(true)));
    /// assert_eq!(block.write(), "(in a)\n(in b)\n(never (a 0) (b 1))\n");
    /// # Ok::<(), Refusal>(())
    /// ```
    pub fn never_lines(&self) -> Vec<Assignment> {
        let lines = self.words[HEAD_WORDS + NAME_WORDS * self.inputs()..].chunks(NEVER_WORDS);
        let line = |masks: &[u16]| Assignment {
            fixed: masks[0],
            ones: masks[1],
        };
        lines.take(self.words[3].into()).map(line).collect()
    }

    /// The names of the inputs.
    ///
    /// ```
    /// # use unloop::Block;
    /// let block = Block::read("(in mute)\n(in k48)\n").unwrap();
    /// assert_eq!(block.input_names(), ["mute", "k48"]);
    /// ```
    pub fn input_names(&self) -> Vec<String> {
        let names = self.words[HEAD_WORDS..].chunks(NAME_WORDS);
        names.take(self.inputs()).map(name).collect()
    }

    /// The ports of the outputs.
    ///
    /// ```
    /// # use unloop::Block;
    /// let block = Block::read("(in a)\n(out left a)\n(out right a)\n").unwrap();
    /// assert_eq!(block.output_names(), ["left", "right"]);
    /// ```
    pub fn output_names(&self) -> Vec<String> {
        let port = |output: &[u16]| name(&output[..NAME_WORDS]);
        self.stored_outputs().map(port).collect()
    }

    /// The value that each output shows, from one value an input.
    ///
    /// ```
    /// # use unloop::{Block, Refusal, Value};
    /// let block = Block::read("(in a)\n(gate p (not p))\n(out y p)\n(out z a)\n")?;
    /// assert_eq!(block.shown(&[Value::One])?, [Value::Undefined, Value::One]);
    /// # Ok::<(), Refusal>(())
    /// ```
    pub fn shown(&self, setting: &[Value]) -> Result<Vec<Value>, Refusal> {
        let mut nodes = setting.to_vec();
        nodes.extend(self.settle(setting)?.values);
        let node = |output: &[u16]| nodes[usize::from(output[NAME_WORDS])];
        Ok(self.stored_outputs().map(node).collect())
    }

    pub(crate) fn stored_outputs(&self) -> impl Iterator<Item = &[u16]> {
        let nevers = NEVER_WORDS * usize::from(self.words[3]);
        let first = HEAD_WORDS + NAME_WORDS * self.inputs() + nevers + GATE_WORDS * self.gates();
        self.words[first..].chunks(OUTPUT_WORDS)
    }

    /// The values of the inputs in a setting, whose number has weight 2^i for input i.
    ///
    /// ```
    /// # use unloop::{Block, Refusal, Value};
    /// let block = Block::read("(in a)\n(in b)\n")?;
    /// assert_eq!(block.setting(2)?, [Value::Zero, Value::One]);
    /// assert_eq!(block.setting(4), Err(Refusal::BadSetting));
    /// # Ok::<(), Refusal>(())
    /// ```
    pub fn setting(&self, number: usize) -> Result<Vec<Value>, Refusal> {
        let all = self.assignment(number)?;
        let values = (0..self.inputs()).filter_map(|input| all.value(input));
        Ok(values.map(Value::from).collect())
    }

    /// The assignment that fixes every input as the setting of this number does.
    ///
    /// ```
    /// # use unloop::{Assignment, Block, Refusal, Value};
    /// let block = Block::read("(in a)\n(in b)\n(out y b)\n")?;
    /// let assignment = block.assignment(2)?;
    /// assert_eq!(assignment, Assignment { fixed: 3, ones: 2 });
    /// assert_eq!(block.sheet(&[assignment]), [Ok(vec![Value::One])]);
    /// assert_eq!(block.assignment(4), Err(Refusal::BadSetting));
    /// # Ok::<(), Refusal>(())
    /// ```
    pub fn assignment(&self, setting: usize) -> Result<Assignment, Refusal> {
        let fixed = (1 << self.inputs()) - 1;
        let ones = u16::try_from(setting).ok().filter(|&ones| ones <= fixed);
        let ones = ones.ok_or(Refusal::BadSetting)?;
        Ok(Assignment { fixed, ones })
    }

    /// The block as a text; gates are named by their numbers.
    pub fn write(&self) -> String {
        let text = counted(WRITTEN_BYTES, |text| raw::write(&self.words, text));
        String::from_utf8(text.expect(NEVER_REFUSED)).expect("a written text is ASCII")
    }

    /// How many settings are settled: every output shows 0 or 1. Settings that never come are neither counted nor told.
    ///
    /// ```
    /// # use unloop::{Block, Refusal};
    /// let gates = "(gate p (and a q))\n(gate q (or b p))\n";
    /// let block = Block::read(format!("(in a)\n(in b)\n{gates}(out y q)\n"))?;
    /// let verdict = block.verdict();
    /// assert_eq!((verdict.settled, verdict.lowest_unsettled), (3, Some(1)));
    /// let block = Block::read(format!("(in a)\n(in b)\n(never (a 1) (b 0))\n{gates}(out y q)\n"))?;
    /// let verdict = block.verdict();
    /// assert_eq!((verdict.settled, verdict.lowest_unsettled), (3, None));
    /// # Ok::<(), Refusal>(())
    /// ```
    pub fn verdict(&self) -> Verdict {
        let told = raw::verdict(&self.words).done().expect(NEVER_REFUSED);
        Verdict {
            settled: told.count,
            lowest_unsettled: (told.detail < 1 << self.inputs()).then_some(told.detail),
        }
    }

    /// The minimal partial assignments under which every setting that may come is settled, ascending.
    ///
    /// ```
    /// # use unloop::{Block, Refusal};
    /// let gates = "(gate p (and a q))\n(gate q (or b p))\n";
    /// let block = Block::read(format!("(in a)\n(in b)\n{gates}(out y q)\n"))?;
    /// let [first, second] = block.cover()[..] else { panic!() };
    /// assert_eq!((first.value(0), first.value(1)), (Some(false), None));
    /// assert_eq!((second.value(0), second.value(1)), (None, Some(true)));
    /// # Ok::<(), Refusal>(())
    /// ```
    pub fn cover(&self) -> Vec<Assignment> {
        let found = filled(COVER_WORDS, |entries| raw::cover(&self.words, entries));
        let (words, count) = found.expect(NEVER_REFUSED);
        let entry = |pair: &[u16]| Assignment {
            fixed: pair[0],
            ones: pair[1],
        };
        words.chunks(2).take(count).map(entry).collect()
    }

    /// The strongly connected groups of its gates.
    ///
    /// ```
    /// # use unloop::{Block, Refusal};
    /// let block = Block::read("(gate p (not r))\n(gate q (and q 0))\n(gate r (not p))\n")?;
    /// let groups = block.groups();
    /// assert_eq!((groups.count, groups.of_gates), (2, vec![0, 1, 0]));
    /// # Ok::<(), Refusal>(())
    /// ```
    pub fn groups(&self) -> Groups {
        let found = filled(self.gates(), |numbers| raw::groups(&self.words, numbers));
        let (of_gates, count) = found.expect(NEVER_REFUSED);
        Groups { count, of_gates }
    }

    /// The settled value of each gate, from one value an input.
    ///
    /// ```
    /// # use unloop::{Block, Refusal, Value};
    /// let block = Block::read("(in s)\n(gate p (and s q))\n(gate q (or s p))\n")?;
    /// let settled = block.settle(&[Value::One])?;
    /// assert_eq!((settled.values, settled.rounds), (vec![Value::One, Value::One], 2));
    /// assert!(!block.settle(&[Value::Undefined])?.is_defined());
    /// assert_eq!(block.settle(&[]), Err(Refusal::BadSetting));
    /// # Ok::<(), Refusal>(())
    /// ```
    pub fn settle(&self, setting: &[Value]) -> Result<Settled, Refusal> {
        let (values, rounds) = self.valued(setting, raw::settle)?;
        Ok(Settled { values, rounds })
    }

    /// The same values where no gate reads itself or a gate behind it, in one sweep.
    ///
    /// ```
    /// # use unloop::{Block, Refusal, Value};
    /// let straight = Block::read("(in a)\n(gate p (not a))\n(gate q (not p))\n")?;
    /// assert_eq!(straight.pass(&straight.setting(1)?)?, [Value::Zero, Value::One]);
    /// let looped = Block::read("(gate p (or p 1))\n")?;
    /// assert_eq!(looped.pass(&[]), Err(Refusal::NotStraight));
    /// # Ok::<(), Refusal>(())
    /// ```
    pub fn pass(&self, setting: &[Value]) -> Result<Vec<Value>, Refusal> {
        Ok(self.valued(setting, raw::pass)?.0)
    }

    /// The loop-free block with the same outputs under every setting that may come, and the same never lines.
    ///
    /// ```
    /// # use unloop::{Block, Refusal};
    /// let block = Block::read("(gate p (or p 1))\n")?;
    /// assert_eq!(block.render()?.write(), "(gate _0 (or 0 1))\n");
    /// let unsound = Block::read("(gate p (or p (not p)))\n(out y p)\n")?;
    /// assert_eq!(unsound.render(), Err(Refusal::NotSettled { setting: 0 }));
    /// # Ok::<(), Refusal>(())
    /// ```
    pub fn render(&self) -> Result<Block, Refusal> {
        let words = counted(BLOCK_WORDS, |rendered| raw::render(&self.words, rendered))?;
        Ok(Block { words })
    }

    /// Whether a loop-free block made elsewhere is as good as this one: under every settled setting of this one that may come all outputs
    /// must show the same. Its own never lines play no part. `None`: it is accepted.
    ///
    /// ```
    /// # use unloop::{Block, Disagreement, Refusal};
    /// let block = Block::read("(in a)\n(in b)\n(gate p (and a q))\n(gate q (or b p))\n(out y q)\n")?;
    /// let direct = Block::read("(in a)\n(in b)\n(out y b)\n")?;
    /// assert_eq!(block.compare(&direct)?, None);
    /// let other = Block::read("(in a)\n(in b)\n(out y a)\n")?;
    /// assert_eq!(block.compare(&other)?, Some(Disagreement { setting: 2, output: 0 }));
    /// let renamed = Block::read("(in a)\n(in c)\n(out y c)\n")?;
    /// assert_eq!(block.compare(&renamed), Err(Refusal::InterfaceMismatch));
    /// # Ok::<(), Refusal>(())
    /// ```
    pub fn compare(&self, theirs: &Block) -> Result<Option<Disagreement>, Refusal> {
        lowest(raw::compare(&self.words, &theirs.words))
    }

    /// The gates' values and the count by Settle or Pass.
    fn valued(
        &self,
        setting: &[Value],
        run: fn(&[u16], &[u8], &mut [u8]) -> Reply,
    ) -> Result<(Vec<Value>, usize), Refusal> {
        let setting: Vec<u8> = setting.iter().map(|&value| value as u8).collect();
        let (codes, count) = filled(self.gates(), |codes| run(&self.words, &setting, codes))?;
        Ok((codes.into_iter().map(Value::of_code).collect(), count))
    }
}

/// The disagreement that a comparison tells, if there is one.
pub(crate) fn lowest(told: Reply) -> Result<Option<Disagreement>, Refusal> {
    let told = told.done()?;
    let output = told.count.checked_sub(1);
    Ok(output.map(|output| Disagreement {
        setting: told.detail,
        output,
    }))
}

/// The slice after an operation that was lent so much room, and its count.
fn filled<T: Clone + Default>(
    room: usize,
    run: impl FnOnce(&mut [T]) -> Reply,
) -> Result<(Vec<T>, usize), Refusal> {
    let mut result = vec![T::default(); room];
    let told = run(&mut result).done()?;
    Ok((result, told.count))
}

/// The result of an operation that counts its elements.
pub(crate) fn counted<T: Clone + Default>(
    room: usize,
    run: impl FnOnce(&mut [T]) -> Reply,
) -> Result<Vec<T>, Refusal> {
    let (mut result, count) = filled(room, run)?;
    result.truncate(count);
    result.shrink_to_fit();
    Ok(result)
}

/// A stored name; its unused bytes are zero.
fn name(words: &[u16]) -> String {
    let bytes = words.iter().flat_map(|word| word.to_le_bytes());
    bytes.filter(|&byte| byte != 0).map(char::from).collect()
}
