//! The loops of typical blocks. All but the latch are broken under every setting.

use super::Maker;
use crate::block::{Kind, Source};

impl Maker<'_> {
    /// Two functions that feed each other by way of multiplexers; an input selects which comes first.
    pub(super) fn muxed_loop(&mut self) {
        let select = self.input();
        let (first, second) = (self.random.between(1, 4), self.random.between(1, 4));
        let [a, b] = [(); 2].map(|()| self.outside());
        let inverse = self.gate(Kind::Not, &[select]);
        let a = self.gate(Kind::And, &[select, a]);
        let b = self.gate(Kind::And, &[inverse, b]);
        let last = self.later(3 + first + second);
        let closing = self.gate(Kind::And, &[inverse, last]);
        let entry = self.gate(Kind::Or, &[a, closing]);
        let found = self.function(entry, first);
        let chosen = self.gate(Kind::And, &[select, found]);
        let entry = self.gate(Kind::Or, &[chosen, b]);
        let end = self.function(entry, second);
        assert_eq!(end, last);
        self.readable.extend([found, end]);
    }

    /// `count` gates in a row behind `entry`, each with something from outside.
    fn function(&mut self, entry: Source, count: usize) -> Source {
        (0..count).fold(entry, |before, _| {
            let kind = self.random.pick(&Kind::MANY);
            let other = self.outside();
            self.gate(kind, &[before, other])
        })
    }

    /// A ring of four cells; two inputs tell which comes first, and it hands on what it doesn't take.
    pub(super) fn arbiter(&mut self) {
        let low = self.input();
        let Source::Input(number) = low else {
            unreachable!("an input");
        };
        let high = Source::Input((number + 1) % self.n);
        let [not_low, not_high] = [low, high].map(|input| self.gate(Kind::Not, &[input]));
        let pairs = [
            [not_low, not_high],
            [low, not_high],
            [not_low, high],
            [low, high],
        ];
        let first = pairs.map(|pair| self.gate(Kind::And, &pair));
        let requests = [(); 4].map(|()| self.outside());
        let idle = requests.map(|request| self.gate(Kind::Not, &[request]));
        let base = self.gates.len();
        let turn = |cell: usize| Source::Gate(base + 2 * cell);
        for cell in 0..4 {
            let handed = Source::Gate(base + 2 * ((cell + 3) % 4) + 1);
            self.gate(Kind::Or, &[first[cell], handed]);
            self.gate(Kind::And, &[turn(cell), idle[cell]]);
        }
        for (cell, request) in requests.into_iter().enumerate() {
            let grant = self.gate(Kind::And, &[request, turn(cell)]);
            self.readable.push(grant);
        }
    }

    /// Six gates in a ring, three sources twice, once at an `and` and once at an `or`.
    pub(super) fn crossed_ring(&mut self) {
        let sources = [(); 3].map(|()| self.outside());
        let mut before = self.later(5);
        for rank in 0..6 {
            let kind = [Kind::And, Kind::Or][rank % 2];
            before = self.gate(kind, &[sources[rank % 3], before]);
        }
        let base = self.gates.len() - 6;
        self.readable.extend((base..base + 6).map(Source::Gate));
    }

    /// Two `nand` that hold each other where both inputs are 1; the gate whose value they hold.
    pub(super) fn latch(&mut self) -> Source {
        let (set, reset) = (Source::Input(0), Source::Input(1));
        let other = self.later(1);
        let held = self.gate(Kind::Nand, &[set, other]);
        self.gate(Kind::Nand, &[reset, held]);
        self.readable.push(held);
        held
    }
}
