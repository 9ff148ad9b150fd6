//! Refusal 2: a table-driven automaton with a stack, fed one byte at a time.
//! Every configuration it reaches can still be completed, so the place where it sticks is the first bad byte.

use crate::block::Kind;
use crate::limits::{DEPTH, NAME_BYTES};
use std::sync::OnceLock;

type State = u8;

/// What one byte does in one state.
#[derive(Clone, Copy)]
enum Move {
    Stuck,
    Go(State),
    /// Opens an expression: push the state to come back to.
    Open {
        back: State,
        to: State,
    },
    /// Closes an expression: go to the state popped.
    Close,
}

/// A move for each state and byte; a text may end in the first four states, the line starts.
struct Table(Vec<[Move; 256]>);

/// The line starts: inputs may still come, never lines may still come, gates may still come, only outputs may come.
const LINE_STARTS: [State; 4] = [0, 1, 2, 3];

/// The offset of the first byte that no legal text has there, the length if cut off, or none if legal.
pub fn first_error(text: &[u8]) -> Option<usize> {
    static TABLE: OnceLock<Table> = OnceLock::new();
    let Table(moves) = TABLE.get_or_init(Table::build);
    let mut stack: Vec<State> = Vec::new();
    let mut state = LINE_STARTS[0];
    for (place, &byte) in text.iter().enumerate() {
        state = match moves[usize::from(state)][usize::from(byte)] {
            Move::Go(next) => next,
            Move::Open { back, to } if stack.len() < DEPTH => {
                stack.push(back);
                to
            }
            Move::Close => stack.pop().expect("closed where one is open"),
            Move::Open { .. } | Move::Stuck => return Some(place),
        };
    }
    (!LINE_STARTS.contains(&state)).then_some(text.len())
}

const LETTERS: &[u8] = b"abcdefghijklmnopqrstuvwxyz";
const LETTERS_AND_BAR: &[u8] = b"abcdefghijklmnopqrstuvwxyz_";
const NAME: &[u8] = b"abcdefghijklmnopqrstuvwxyz_0123456789";

impl Table {
    fn build() -> Table {
        let mut table = Table(Vec::new());
        let starts = LINE_STARTS.map(|_| table.state());
        let lines = [
            ("(in ", table.input_line(starts[0])),
            ("(never ", table.never_line(starts[1])),
            ("(gate ", table.gate_line(starts[2])),
            ("(out ", table.output_line(starts[3])),
        ];
        for (section, &start) in starts.iter().enumerate() {
            for (word, rest) in &lines[section..] {
                table.word(start, word, Move::Go(*rest));
            }
        }
        table
    }

    fn input_line(&mut self, next_line: State) -> State {
        let end = self.bracket_and_line_end(next_line);
        let [name] = self.states();
        self.name(name, LETTERS, &[(b')', Move::Go(end))]);
        name
    }

    fn never_line(&mut self, next_line: State) -> State {
        let end = self.bracket_and_line_end(next_line);
        let [pair, name, value, close, after] = self.states();
        self.on(pair, b"(", Move::Go(name));
        self.name(name, LETTERS_AND_BAR, &[(b' ', Move::Go(value))]);
        self.on(value, b"01", Move::Go(close));
        self.on(close, b")", Move::Go(after));
        self.all(after, &[(b' ', Move::Go(pair)), (b')', Move::Go(end))]);
        pair
    }

    fn gate_line(&mut self, next_line: State) -> State {
        let [name, outermost, after] = self.states();
        self.name(name, LETTERS_AND_BAR, &[(b' ', Move::Go(outermost))]);
        let to = self.expression();
        self.on(outermost, b"(", Move::Open { back: after, to });
        let end = self.bracket_and_line_end(next_line);
        self.on(after, b")", Move::Go(end));
        name
    }

    fn output_line(&mut self, next_line: State) -> State {
        let end = self.bracket_and_line_end(next_line);
        let [port, node] = self.states();
        self.name(port, LETTERS, &[(b' ', Move::Go(node))]);
        self.name(node, LETTERS_AND_BAR, &[(b')', Move::Go(end))]);
        port
    }

    /// The state after a line's last bracket, where only LF may come.
    fn bracket_and_line_end(&mut self, next_line: State) -> State {
        let end = self.state();
        self.on(end, b"\n", Move::Go(next_line));
        end
    }

    /// The state after an expression's `(`.
    fn expression(&mut self) -> State {
        let kind = self.state();
        let one = self.operands(kind, 1, 1);
        let many = self.operands(kind, 2, 4);
        self.word(kind, "not ", Move::Go(one));
        for name in Kind::MANY.map(Kind::keyword) {
            self.word(kind, &format!("{name} "), Move::Go(many));
        }
        kind
    }

    /// The state before the first of `least` to `most` operands; built from the last operand back.
    fn operands(&mut self, kind: State, least: usize, most: usize) -> State {
        let mut next: Option<State> = None;
        for count in (1..=most).rev() {
            let mut ends: Vec<(u8, Move)> = Vec::new();
            ends.extend(next.map(|state| (b' ', Move::Go(state))));
            ends.extend((count >= least).then_some((b')', Move::Close)));
            next = Some(self.operand(kind, &ends));
        }
        next.expect("at least one operand")
    }

    /// The state before an operand that the moves `ends` may follow.
    fn operand(&mut self, kind: State, ends: &[(u8, Move)]) -> State {
        let [before, after] = self.states();
        self.all(after, ends);
        self.on(before, b"01", Move::Go(after));
        let (back, to) = (after, kind);
        self.on(before, b"(", Move::Open { back, to });
        self.name(before, LETTERS_AND_BAR, ends);
        before
    }

    /// From `before`, a name of 1 to 8 bytes; after any of them the moves `ends` may follow.
    fn name(&mut self, before: State, first: &[u8], ends: &[(u8, Move)]) {
        let mut last = before;
        for count in 1..=NAME_BYTES {
            let state = self.state();
            self.on(last, if count == 1 { first } else { NAME }, Move::Go(state));
            self.all(state, ends);
            last = state;
        }
    }

    /// From `before`, the bytes of a word, its last doing `then`; common beginnings are shared.
    fn word(&mut self, before: State, word: &str, then: Move) {
        let (last, beginning) = word.as_bytes().split_last().expect("a word");
        let mut state = before;
        for byte in beginning {
            state = match self.0[usize::from(state)][usize::from(*byte)] {
                Move::Go(shared) => shared,
                _ => {
                    let fresh = self.state();
                    self.on(state, &[*byte], Move::Go(fresh));
                    fresh
                }
            };
        }
        self.on(state, &[*last], then);
    }

    fn state(&mut self) -> State {
        self.0.push([Move::Stuck; 256]);
        State::try_from(self.0.len() - 1).expect("fewer than 256 states")
    }

    fn states<const N: usize>(&mut self) -> [State; N] {
        [(); N].map(|()| self.state())
    }

    fn on(&mut self, state: State, bytes: &[u8], then: Move) {
        for &byte in bytes {
            self.0[usize::from(state)][usize::from(byte)] = then;
        }
    }

    fn all(&mut self, state: State, moves: &[(u8, Move)]) {
        for &(byte, then) in moves {
            self.on(state, &[byte], then);
        }
    }
}
