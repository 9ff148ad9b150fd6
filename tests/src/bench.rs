//! The program `bench`: a netlist text, an empty line, then set lines, each answered by a line.

use crate::answer::*;
use crate::block::{Block, Source};
use crate::limits::{BLOCK_WORDS, NAME_BYTES};
use crate::read;
use crate::values::{Network, UNDEFINED};
use std::collections::BTreeSet;

/// All that the program writes for an input.
pub fn bench(input: &[u8]) -> Vec<u8> {
    let (netlist, set_lines) = parted(input);
    let (answer, words) = read(netlist, BLOCK_WORDS);
    if answer.number != 0 {
        return refusal_line(answer);
    }
    let block = Block::from_words(&words);
    let bench = Bench::new(&block);
    let lines = set_lines.split_inclusive(|&byte| byte == b'\n');
    lines.flat_map(|line| bench.answered(line)).collect()
}

/// The netlist, and what stands behind the empty line; nothing where there is none.
pub fn parted(input: &[u8]) -> (&[u8], &[u8]) {
    let mut end = 0;
    for line in input.split_inclusive(|&byte| byte == b'\n') {
        if line == b"\n" {
            return (&input[..end], &input[end + 1..]);
        }
        end += line.len();
    }
    (input, b"")
}

fn refusal_line(Answer { number, detail, .. }: Answer) -> Vec<u8> {
    format!("(refused {number} {detail})\n").into_bytes()
}

/// A block, ready for many set lines.
pub struct Bench<'a> {
    block: &'a Block,
    network: Network<'a>,
}

/// A pair of a set line.
struct Pair<'a> {
    place: usize,
    name: &'a [u8],
    value: u8,
}

impl<'a> Bench<'a> {
    pub fn new(block: &'a Block) -> Bench<'a> {
        let network = Network::new(block);
        Bench { block, network }
    }

    /// The answer to a line, which ends with its LF or with the input.
    pub fn answered(&self, line: &[u8]) -> Vec<u8> {
        match self.setting(line) {
            Ok(setting) => self.shown(&setting),
            Err(refusal) => refusal_line(refusal),
        }
    }

    /// A value for each input.
    fn setting(&self, line: &[u8]) -> Result<Vec<u8>, Answer> {
        let inputs = &self.block.inputs;
        if let Some(place) = first_error(line, inputs.len()) {
            return Err(Answer::refusal(SYNTAX_ERROR, place));
        }
        let pairs = pairs(line);
        let mut seen = BTreeSet::new();
        if let Some(pair) = pairs.iter().find(|pair| !seen.insert(pair.name)) {
            return Err(Answer::refusal(DUPLICATE_DECLARATION, pair.place));
        }
        let mut setting = vec![UNDEFINED; inputs.len()];
        for pair in &pairs {
            let is_named = |input: &String| input.as_bytes() == pair.name;
            match inputs.iter().position(is_named) {
                Some(input) => setting[input] = pair.value,
                None => return Err(Answer::refusal(UNDECLARED_NAME, pair.place)),
            }
        }
        Ok(setting)
    }

    fn shown(&self, setting: &[u8]) -> Vec<u8> {
        let values = self.network.settled(setting);
        let value = |node: Source| match node {
            Source::Constant(value) => u8::from(value),
            Source::Input(input) => setting[input],
            Source::Gate(gate) => values[gate],
        };
        let mut line = String::from("(show");
        for output in &self.block.outputs {
            let value = ['0', '1', 'u'][usize::from(value(output.node))];
            line += &format!(" ({} {value})", output.port);
        }
        (line + ")\n").into_bytes()
    }
}

/// The pairs of a line in form: a name stands behind each bracket but the first.
fn pairs(line: &[u8]) -> Vec<Pair<'_>> {
    let mut pairs = Vec::new();
    let mut parts = line.split(|&byte| byte == b'(').skip(1);
    let mut place = 1 + parts.next().map_or(0, <[u8]>::len) + 1;
    for part in parts {
        let space = part.iter().position(|&byte| byte == b' ').expect("in form");
        let (name, value) = (&part[..space], part[space + 1] - b'0');
        pairs.push(Pair { place, name, value });
        place += part.len() + 1;
    }
    pairs
}

/// Where a line is, after some of its bytes.
#[derive(Clone, Copy, PartialEq)]
enum State {
    /// So many bytes of its first word.
    Word(usize),
    /// Behind the word or a pair.
    Between,
    /// Behind the space before a pair.
    Pair,
    /// In a name, behind so many of its bytes.
    Name(usize),
    Value,
    PairEnd,
    LineEnd,
    Done,
}

const WORD: &[u8] = b"(set";

/// The offset of the first byte that no set line of a block with so many inputs has there, the length if cut off, or none.
pub fn first_error(line: &[u8], inputs: usize) -> Option<usize> {
    let mut state = State::Word(0);
    let mut left = inputs;
    for (place, &byte) in line.iter().enumerate() {
        let next = match (state, byte) {
            (State::Word(read), byte) if byte == WORD[read] => match read + 1 == WORD.len() {
                true => State::Between,
                false => State::Word(read + 1),
            },
            (State::Between, b' ') if left > 0 => State::Pair,
            (State::Between, b')') => State::LineEnd,
            (State::Pair, b'(') => State::Name(0),
            (State::Name(0), b'a'..=b'z' | b'_') => State::Name(1),
            (State::Name(read), b'a'..=b'z' | b'_' | b'0'..=b'9')
                if (1..NAME_BYTES).contains(&read) =>
            {
                State::Name(read + 1)
            }
            (State::Name(1..), b' ') => State::Value,
            (State::Value, b'0' | b'1') => State::PairEnd,
            (State::PairEnd, b')') => State::Between,
            (State::LineEnd, b'\n') => State::Done,
            _ => return Some(place),
        };
        left -= usize::from(next == State::Pair);
        state = next;
    }
    (state != State::Done).then_some(line.len())
}
