//! Many answers of each small block, and of words near it: the simulator tells once what a block settles to in sixty-four lanes, and many calls
//! of every operation are compared with that, in slices that are lent again and again.

use super::cells::list_of;
use super::gather::Slices;
use super::lent::Lender;
use super::sheet::GUARD;
use super::tally::{count, count_answer, Operation};
use super::{compare_block, compare_line, count_block, mangled};
use crate::answer::*;
use crate::block::Block;
use crate::cells::cells_of;
use crate::gather::{gathered_by, scattered_by};
use crate::generate::{
    changed_tables, for_blocks, for_texts, foreign_cells, malformed, mutant, order, spoiled,
    strange_never, strange_tables, stranger, Change, Random, Report, Size,
};
use crate::limits::{self, BLOCK_WORDS};
use crate::malformed::well_formed;
use crate::small::{is_small, ran, swept, May, Settings, Small, LANES};
use crate::write::text_of;
use std::cell::RefCell;
use std::ops::Range;
use unloop::raw::{self, Record, Reply};

/// What is lent.
struct Many {
    bytes: Lender<u8>,
    words: Lender<u16>,
    records: Lender<Record>,
    gathered: Slices,
}

/// A small block, and what the simulator says of it.
struct Known<'a> {
    block: &'a Block,
    words: &'a [u16],
    settings: &'a Settings,
    small: Small<'a>,
    /// What the passes of Render make of it.
    copied: Block,
    copied_words: Vec<u16>,
    /// The cells of that, and the nodes that show the outputs.
    cells: Vec<u16>,
    list: Vec<u16>,
}

impl<'a> Known<'a> {
    fn new(block: &'a Block, words: &'a [u16], settings: &'a Settings) -> Known<'a> {
        let small = Small::new(block, settings);
        let copied = small.copied();
        let copied_words = copied.to_words();
        Known {
            block,
            words,
            settings,
            small,
            cells: cells_of(&copied, &copied_words),
            list: list_of(&copied),
            copied,
            copied_words,
        }
    }

    fn rendered(&self) -> (Answer, &[u16]) {
        if self.copied.gates.len() > limits::GATES {
            return (Answer::refusal(TOO_MANY_COPIES, 0), &[]);
        }
        match self.small.unsettled() {
            Some(lowest) => (Answer::refusal(NOT_SETTLED, lowest), &[]),
            None => whole(&self.copied_words),
        }
    }

    /// As many lanes as there are settings, undefined inputs and all, if there are so many.
    fn lanes(&self) -> Range<usize> {
        0..LANES.min(3_usize.pow(self.block.inputs.len() as u32))
    }
}

/// A success that counts the elements of its result.
fn whole<T>(result: &[T]) -> (Answer, &[T]) {
    (Answer::success(result.len()), result)
}

fn refused<'a, T>(number: usize) -> (Answer, &'a [T]) {
    (Answer::refusal(number, 0), &[])
}

/// Exactly enough room, some more, one short, and any less.
fn rooms(random: &mut Random, exact: usize) -> impl Iterator<Item = usize> {
    let (more, fewer) = (random.between(1, 13), random.below(exact.max(1)));
    let rooms = [exact, exact + more, exact.saturating_sub(1), fewer];
    rooms.into_iter().take(2 + exact.min(2))
}

/// One of such rooms, mostly exactly enough.
fn room(random: &mut Random, exact: usize) -> usize {
    match random.below(8) {
        0 => exact.saturating_sub(1),
        1 => random.below(exact + 1),
        2 => exact + random.between(1, 13),
        _ => exact,
    }
}

/// Any room, now and then enough for every block.
fn any_room(random: &mut Random) -> usize {
    match random.below(64) {
        0 => BLOCK_WORDS,
        _ => random.below(64),
    }
}

/// A setting of one byte more or fewer, or with a byte that is too great.
fn bad_setting(random: &mut Random, good: &[u8], least: usize) -> Vec<u8> {
    let mut setting = good.to_vec();
    match random.below(3) {
        0 if !good.is_empty() => drop(setting.pop()),
        1 if !good.is_empty() => {
            setting[random.below(good.len())] = random.between(least, 255) as u8;
        }
        _ => setting.push(random.below(2) as u8),
    }
    setting
}

/// A list of the numbers below a count, with something wrong.
fn bad_order(random: &mut Random, count: usize) -> Vec<u16> {
    let mut list = order(random, count);
    match random.below(4) {
        0 if count > 0 => drop(list.pop()),
        1 if count > 1 => list[0] = list[count - 1],
        2 if count > 0 => {
            list[random.below(count)] = random.between(count, 65_535) as u16;
        }
        _ => list.push(random.below(count + 1) as u16),
    }
    list
}

impl Many {
    fn new() -> Many {
        Many {
            bytes: Lender::new(9),
            words: Lender::new(9_999),
            records: Lender::new(GUARD),
            gathered: Slices::new(),
        }
    }

    /// Words in every operation, whether or not they store a block.
    fn any(&mut self, random: &mut Random, words: &[u16], near: &[u16]) {
        let _report = Report(|| format!("near it {words:?}"));
        match well_formed(words) {
            Ok(block) if is_small(&block) => self.block(random, &block, words),
            Ok(_) => compare_block(random, words),
            Err(refusal) => self.malformed(random, words, near, refusal),
        }
    }

    /// A small block in every operation.
    fn block(&mut self, random: &mut Random, block: &Block, words: &[u16]) {
        let settings = Settings::new(random, block.inputs.len());
        let known = Known::new(block, words, &settings);
        count(|tally| tally.words += 1);
        count_block(block);
        self.shapes(random, &known);
        self.stored(random, &known);
        self.values(random, &known);
        self.sheets(random, &known);
        self.runs(random, &known);
        self.orders(random, &known);
        pairs(random, &known);
        tables(random, &known);
    }

    fn call_words(
        &mut self,
        random: &mut Random,
        operation: Operation,
        expected: (Answer, &[u16]),
        run: impl Fn(&mut [u16]) -> Reply,
    ) {
        for room in rooms(random, expected.1.len()) {
            self.words.call(operation, room, expected, &run);
        }
    }

    /// Verdict, Groups, Cover, Render.
    fn shapes(&mut self, random: &mut Random, known: &Known) {
        let (words, small) = (known.words, &known.small);
        compare_told(Operation::Verdict, raw::verdict(words), small.verdict());
        let expected = (
            Answer::success(small.groups.len()),
            &small.group_numbers()[..],
        );
        self.call_words(random, Operation::Groups, expected, |numbers| {
            raw::groups(words, numbers)
        });
        let cover = small.cover();
        let expected = (Answer::success(cover.len() / 2), &cover[..]);
        self.call_words(random, Operation::Cover, expected, |entries| {
            raw::cover(words, entries)
        });
        self.call_words(random, Operation::Render, known.rendered(), |rendered| {
            raw::render(words, rendered)
        });
    }

    /// Write, Read, Bring, Cells.
    fn stored(&mut self, random: &mut Random, known: &Known) {
        let (words, copied) = (known.words, &known.copied_words[..]);
        let text = text_of(known.block).into_bytes();
        for room in rooms(random, text.len()) {
            let run = |text: &mut [u8]| raw::write(words, text);
            self.bytes.call(Operation::Write, room, whole(&text), run);
        }
        self.call_words(random, Operation::Read, whole(words), |block| {
            raw::read(&text, block)
        });
        for old in [&known.block.to_old_words(), words] {
            self.brought(random, old);
        }
        self.call_words(random, Operation::Cells, whole(&known.cells), |cells| {
            raw::cells(copied, cells)
        });
        if !known.block.is_straight() {
            let room = any_room(random);
            let run = |cells: &mut [u16]| raw::cells(words, cells);
            let expected = refused(NOT_STRAIGHT);
            self.words.call(Operation::Cells, room, expected, run);
        }
        count(|tally| tally.made += 1);
    }

    fn brought(&mut self, random: &mut Random, old: &[u16]) {
        let _report = Report(|| format!("bring of {old:?}"));
        let (told, block) = crate::bring(old, usize::MAX);
        self.call_words(random, Operation::Bring, (told, &block), |block| {
            raw::bring(old, block)
        });
        count(|tally| tally.brought += 1);
    }

    /// Settle of the block, Pass of its copies.
    fn values(&mut self, random: &mut Random, known: &Known) {
        let (words, copied, small) = (known.words, &known.copied_words[..], &known.small);
        let swept = swept(&known.copied, known.settings);
        let mut values = Vec::new();
        for lane in known.lanes() {
            let setting = known.settings.bytes(lane);
            let _report = Report(|| format!("setting {setting:?}"));
            count(|tally| tally.settings += 1);
            bytes_of(&small.gates, lane, &mut values);
            let expected = (Answer::success(small.rounds[lane].into()), &values[..]);
            let (room, run) = (room(random, values.len()), |values: &mut [u8]| {
                raw::settle(words, setting, values)
            });
            self.bytes.call(Operation::Settle, room, expected, run);
            bytes_of(&swept, lane, &mut values);
            self.passed(random, copied, setting, whole(&values));
        }
        let good = known.settings.bytes(random.below(LANES));
        let bad = bad_setting(random, good, 3);
        let _report = Report(|| format!("setting {good:?} or {bad:?}"));
        self.refused_bytes(random, Operation::Settle, BAD_SETTING, |values| {
            raw::settle(words, &bad, values)
        });
        self.passed(random, copied, &bad, refused(BAD_SETTING));
        if !known.block.is_straight() {
            self.passed(random, words, good, refused(NOT_STRAIGHT));
            self.passed(random, words, &bad, refused(NOT_STRAIGHT));
        }
    }

    fn passed(
        &mut self,
        random: &mut Random,
        words: &[u16],
        setting: &[u8],
        expected: (Answer, &[u8]),
    ) {
        let room = room(random, expected.1.len());
        let run = |values: &mut [u8]| raw::pass(words, setting, values);
        self.bytes.call(Operation::Pass, room, expected, run);
    }

    fn refused_bytes(
        &mut self,
        random: &mut Random,
        operation: Operation,
        number: usize,
        run: impl FnOnce(&mut [u8]) -> Reply,
    ) {
        let room = any_room(random);
        self.bytes.call(operation, room, refused(number), run);
    }

    fn refused_words(
        &mut self,
        random: &mut Random,
        operation: Operation,
        number: usize,
        run: impl FnOnce(&mut [u16]) -> Reply,
    ) {
        let room = any_room(random);
        self.words.call(operation, room, refused(number), run);
    }

    /// Two sheets of records for some lanes.
    fn sheets(&mut self, random: &mut Random, known: &Known) {
        let shown: Vec<May> = known.small.outputs().collect();
        for most in [3, 40] {
            let count = random.between(0, most);
            let records = (0..count).map(|_| record(random, known.settings, &shown));
            let (asked, left): (Vec<Record>, Vec<Record>) = records.unzip();
            self.sheet(known.words, &asked, whole(&left));
        }
    }

    fn sheet(&mut self, words: &[u16], asked: &[Record], expected: (Answer, &[Record])) {
        let _report = Report(|| format!("records {asked:?}"));
        let run = |records: &mut [Record]| {
            records.copy_from_slice(asked);
            raw::sheet(words, records)
        };
        self.records
            .call(Operation::Sheet, asked.len(), expected, run);
        count(|tally| tally.records += asked.len());
    }

    /// Run of the cells of the copies, and of cells of other origin.
    fn runs(&mut self, random: &mut Random, known: &Known) {
        let n = known.block.inputs.len();
        let [few, more] = [4, 20].map(|most| {
            let count = random.between(0, most);
            foreign_cells(random, n, count)
        });
        let mut values = Vec::new();
        for cells in [&known.cells, &few, &more] {
            let _report = Report(|| format!("run of {cells:?}"));
            let nodes = ran(cells, known.settings);
            for lane in 0..known.settings.full() {
                let setting = known.settings.bytes(lane);
                values.clear();
                values.extend(nodes[n..].iter().map(|&lanes| (lanes >> lane & 1) as u8));
                self.run(random, (n, cells, setting), whole(&values));
            }
            let good = known.settings.bytes(random.below(known.settings.full()));
            let bad = bad_setting(random, good, 2);
            self.run(random, (n, cells, &bad), refused(BAD_SETTING));
            if !cells.is_empty() {
                let cells = mangled(random, cells);
                let (told, values) = crate::run(n, &cells, good, usize::MAX);
                self.run(random, (n, &cells, good), (told, &values));
            }
        }
    }

    fn run(
        &mut self,
        random: &mut Random,
        (n, cells, setting): (usize, &[u16], &[u8]),
        expected: (Answer, &[u8]),
    ) {
        let _report = Report(|| format!("{cells:?} from {setting:?}"));
        let room = room(random, expected.1.len());
        let run = |values: &mut [u8]| raw::run(n, cells, setting, values);
        self.bytes.call(Operation::Run, room, expected, run);
        count(|tally| tally.runs += 1);
    }

    /// Gather, Scatter back, and Scatter by another list and by one that isn't each gate once.
    fn orders(&mut self, random: &mut Random, known: &Known) {
        let (words, m) = (known.words, known.block.gates.len());
        let (gathered, list) = gathered_by(known.block, &known.small.group_numbers());
        let expected = (Answer::success(words.len()), &gathered[..], &list[..]);
        let (more, fewer) = (random.between(1, 13), random.below(m.max(1)));
        let lists = [m, m + more, m, fewer];
        for (block_room, list_room) in rooms(random, words.len()).zip(lists) {
            self.gathered.call(words, [block_room, list_room], expected);
        }
        self.gathered.call(words, [words.len(), fewer], expected);
        count(|tally| tally.gathered += 1);
        self.scattered(random, &gathered, &list, whole(words));
        let other = order(random, m);
        let scattered = scattered_by(known.block, &other);
        self.scattered(random, words, &other, whole(&scattered));
        let bad = bad_order(random, m);
        self.scattered(random, words, &bad, refused(NOT_A_PERMUTATION));
    }

    fn scattered(
        &mut self,
        random: &mut Random,
        words: &[u16],
        list: &[u16],
        expected: (Answer, &[u16]),
    ) {
        let _report = Report(|| format!("scatter by {list:?}"));
        self.call_words(random, Operation::Scatter, expected, |original| {
            raw::scatter(words, list, original)
        });
        count(|tally| tally.scattered += 1);
    }

    /// Words that store no block, with the words of a block that is near.
    fn malformed(&mut self, random: &mut Random, words: &[u16], near: &[u16], refusal: Answer) {
        count(|tally| tally.words += 1);
        compare_told(Operation::Verdict, raw::verdict(words), refusal);
        compare_told(Operation::Compare, raw::compare(words, near), refusal);
        compare_told(Operation::Compare, raw::compare(near, words), refusal);
        let told = raw::compare_cells(words, &[], &[]);
        compare_told(Operation::CompareCells, told, refusal);
        self.malformed_words(random, words);
        self.refused_bytes(random, Operation::Write, refusal.number, |text| {
            raw::write(words, text)
        });
        let length = random.below(crate::small::INPUTS);
        let setting: Vec<u8> = (0..length).map(|_| random.below(4) as u8).collect();
        self.refused_bytes(random, Operation::Settle, refusal.number, |values| {
            raw::settle(words, &setting, values)
        });
        self.passed(random, words, &setting, refused(refusal.number));
        let asked: Vec<Record> = (0..random.below(4)).map(|_| any_record(random)).collect();
        self.sheet(words, &asked, (refusal, &asked));
        let rooms = [any_room(random), any_room(random)];
        self.gathered.call(words, rooms, (refusal, &[], &[]));
        self.brought(random, words);
    }

    /// Cover, Groups, Render, Cells, Scatter, each with 6.
    fn malformed_words(&mut self, random: &mut Random, words: &[u16]) {
        type Call = fn(&[u16], &mut [u16]) -> Reply;
        let calls: [(Operation, Call); 5] = [
            (Operation::Cover, raw::cover),
            (Operation::Groups, raw::groups),
            (Operation::Render, raw::render),
            (Operation::Cells, raw::cells),
            (Operation::Scatter, |words, original| {
                raw::scatter(words, &[0], original)
            }),
        ];
        for (operation, call) in calls {
            self.refused_words(random, operation, MALFORMED_BLOCK, |slice| {
                call(words, slice)
            });
        }
    }

    /// Read of a text, and Line at some of its places.
    fn text(&mut self, random: &mut Random, text: &[u8]) {
        let _report = Report(|| format!("text {}", text.escape_ascii()));
        let (told, block) = crate::read(text, usize::MAX);
        let read = |block: &mut [u16]| raw::read(text, block);
        match told.number {
            0 => self.call_words(random, Operation::Read, (told, &block), read),
            _ => {
                for room in [any_room(random), any_room(random)] {
                    self.words.call(Operation::Read, room, (told, &[]), read);
                }
            }
        }
        count(|tally| tally.texts += 1);
        for _ in 0..3 {
            compare_line(text, random.below(text.len() + 2));
        }
    }
}

fn compare_told(operation: Operation, told: Reply, expected: Answer) {
    assert_eq!(Answer::from(told), expected, "{operation:?}");
    count_answer(operation, expected.number);
}

/// The values of a lane, a byte each.
fn bytes_of(values: &[May], lane: usize, bytes: &mut Vec<u8>) {
    bytes.clear();
    bytes.extend(values.iter().map(|may| may.value(lane)));
}

/// Compare with the copies, with changed ones, with itself and with a stranger.
fn pairs(random: &mut Random, known: &Known) {
    let compare = |theirs: &Block, words: &[u16]| {
        let _report = Report(|| format!("compare with {words:?}"));
        let expected = known.small.compared(theirs);
        compare_told(
            Operation::Compare,
            raw::compare(known.words, words),
            expected,
        );
        expected
    };
    assert_eq!(
        compare(&known.copied, &known.copied_words),
        Answer::success(0)
    );
    compare(known.block, known.words);
    let mut others: Vec<Block> = (0..2)
        .filter_map(|_| {
            let change = random.pick(&Change::ALL);
            mutant(random, &known.copied, change)
        })
        .collect();
    others.extend(stranger(random, &known.copied));
    for other in others {
        compare(&other, &other.to_words());
    }
}

/// CompareCells with the cells of the copies, with one thing of them changed, and with strange ones.
fn tables(random: &mut Random, known: &Known) {
    let Known { cells, list, .. } = known;
    let n = known.block.inputs.len();
    let mut tables = vec![(cells.clone(), list.clone())];
    tables.extend(changed_tables(random, n, cells, list));
    let strange = strange_tables(random, n, cells, list);
    let first = random.below(strange.len());
    tables.extend(strange.into_iter().cycle().skip(first).take(2));
    for (cells, list) in tables {
        let _report = Report(|| format!("compare cells {cells:?}, list {list:?}"));
        let told = raw::compare_cells(known.words, &cells, &list);
        let expected = known.small.compared_cells(&cells, &list);
        compare_told(Operation::CompareCells, told, expected);
        count(|tally| tally.tables += 1);
    }
}

/// A record with something in its answer.
fn any_record(random: &mut Random) -> Record {
    let bits = random.number().to_le_bytes();
    let word = |place: usize| u16::from_le_bytes([bits[place], bits[place + 1]]);
    Record {
        fixed: word(0),
        ones: word(2),
        number: word(4),
        defined: word(6),
        values: word(1),
    }
}

/// A record that asks for the setting of some lane, or for none, and how Sheet leaves it where the outputs show these values.
fn record(random: &mut Random, settings: &Settings, shown: &[May]) -> (Record, Record) {
    let lane = random.below(LANES);
    let mask = |holds: fn(u8) -> bool| {
        let bits = settings.bytes(lane).iter().enumerate();
        bits.fold(0, |mask, (input, &value)| {
            mask | u16::from(holds(value)) << input
        })
    };
    let (fixed, ones) = (mask(|value| value < 2), mask(|value| value == 1));
    let mut asked = Record {
        fixed,
        ones,
        ..any_record(random)
    };
    let outputs = |bits: &dyn Fn(May) -> u64| {
        let outputs = shown.iter().enumerate();
        outputs.fold(0, |mask, (output, &may)| {
            mask | ((bits(may) >> lane & 1) as u16) << output
        })
    };
    let mut left = Record {
        number: 0,
        defined: outputs(&May::defined),
        values: outputs(&|may| may.one & may.defined()),
        ..asked
    };
    let (place, n) = (random.below(16), settings.bytes(0).len());
    if fixed >> place & 1 == 0 && random.chance(15) {
        match random.below(3) {
            0 if place >= n => asked.fixed |= 1 << place,
            1 if place >= n => (asked.fixed, asked.ones) = (fixed | 1 << place, ones | 1 << place),
            _ => asked.ones |= 1 << place,
        }
        left = Record {
            number: BAD_SETTING as u16,
            defined: 0,
            values: 0,
            ..asked
        };
    }
    (asked, left)
}

thread_local! {
    static MANY: RefCell<Many> = RefCell::new(Many::new());
}

/// Small blocks, and words near each, in every operation.
pub fn blocks(seeds: Range<u64>) {
    MANY.with_borrow_mut(|many| {
        for_blocks(seeds, Size::SMALL, |random, block, words| {
            many.block(random, block, words);
            for _ in 0..4 {
                let near = mangled(random, words);
                many.any(random, &near, words);
            }
        });
    });
}

/// Words that break each rule of the stored block, in every operation.
pub fn malformed_words(seeds: Range<u64>) {
    MANY.with_borrow_mut(|many| {
        for_blocks(seeds, Size::SMALL, |random, block, words| {
            for (rule, torn) in malformed(random, block) {
                let _report = Report(|| rule.to_string());
                many.any(random, &torn, words);
            }
        });
    });
}

/// Small texts that Read takes, and texts near each.
pub fn texts(seeds: Range<u64>) {
    MANY.with_borrow_mut(|many| {
        for_texts(seeds, Size::SMALL, |random, text, block| {
            many.text(random, text);
            for _ in 0..4 {
                let near = spoiled(random, text);
                many.text(random, &near);
            }
            let strange = strange_never(random, text, block);
            many.text(random, &strange);
        });
    });
}
