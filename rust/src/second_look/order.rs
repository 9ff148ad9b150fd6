//! An order in which the gates of a circuit with loops are evaluated.

use super::circuit::{Circuit, Gate};
use super::nets::Net;
use std::ops::Range;

/// The gates that the ports need, each behind what it reads, but where a loop closes.
#[derive(Debug, Default)]
pub struct Order {
    gates: Vec<Gate>,
    /// From the first gate that reads a net which is driven there or later to the last gate that drives such a net.
    loops: Range<usize>,
    /// These nets.
    pub closing: Vec<Net>,
    /// By net, how far its gate is.
    drivers: Vec<Driver>,
    /// The gates that wait for what they read.
    waiting: Vec<Waiting>,
}

#[derive(Debug, Clone, Copy, PartialEq, Eq)]
enum Driver {
    /// No gate, or one that is in the order.
    Done,
    /// A gate by its number.
    Gate(u32),
    /// A gate that waits.
    Waits,
    /// And is read by one before it.
    Closes,
}

/// A gate by its number, how many of its operands have been followed, and whether one of them closes a loop.
#[derive(Debug, Clone, Copy)]
struct Waiting {
    gate: u32,
    followed: usize,
    closes: bool,
}

impl Order {
    /// Of this circuit, in the room that there is.
    pub fn find(&mut self, circuit: &Circuit) {
        self.gates.clear();
        self.closing.clear();
        self.loops = 0..0;
        self.drivers.clear();
        self.drivers.resize(circuit.nets.count(), Driver::Done);
        for (number, gate) in circuit.gates.iter().enumerate() {
            self.drivers[gate.net as usize] = Driver::Gate(number as u32);
        }
        for (_, shown) in &circuit.ports {
            let mut next = self.begun(*shown);
            while let Some(gate) = next {
                next = self.go_on(circuit, gate).or_else(|| self.waiting.pop());
            }
        }
    }

    /// The gates before the loops, those among which loops close, and those behind.
    pub fn parts(&self) -> [&[Gate]; 3] {
        let Range { start, end } = self.loops;
        [
            &self.gates[..start],
            &self.gates[start..end],
            &self.gates[end..],
        ]
    }

    /// The gate of a net, unless it has begun.
    #[inline(always)]
    fn begun(&mut self, net: Net) -> Option<Waiting> {
        let Driver::Gate(gate) = self.drivers[net as usize] else {
            return None;
        };
        self.drivers[net as usize] = Driver::Waits;
        Some(Waiting {
            gate,
            followed: 0,
            closes: false,
        })
    }

    /// Follows what a gate reads up to the first gate that has not begun, for which it waits, and puts it into the order if there is none.
    #[inline(always)]
    fn go_on(&mut self, circuit: &Circuit, mut waiting: Waiting) -> Option<Waiting> {
        let gate = &circuit.gates[waiting.gate as usize];
        let reads = &gate.reads[..if gate.wide { 4 } else { 2 }];
        while let Some(&read) = reads.get(waiting.followed) {
            waiting.followed += 1;
            match self.drivers[read as usize] {
                Driver::Done => {}
                Driver::Gate(_) => {
                    self.waiting.push(waiting);
                    return self.begun(read);
                }
                Driver::Waits => {
                    self.drivers[read as usize] = Driver::Closes;
                    self.closing.push(read);
                    waiting.closes = true;
                }
                Driver::Closes => waiting.closes = true,
            }
        }
        self.put(gate, waiting.closes);
        None
    }

    #[inline(always)]
    fn put(&mut self, gate: &Gate, closes: bool) {
        let place = self.gates.len();
        self.gates.push(*gate);
        if closes && self.loops.end == 0 {
            self.loops = place..place + 1;
        }
        if self.drivers[gate.net as usize] == Driver::Closes {
            self.loops.end = place + 1;
        }
        self.drivers[gate.net as usize] = Driver::Done;
    }
}
