//! An original: its circuit, and what its ports show under every setting that may come.

use super::circuit::Circuit;
use super::interface::Read;
use super::netlist;
use super::nets::Net;
use super::order::Order;
use super::simulation::{settings_that_come, Simulation, Values, LANES, MOST_PINS};
use super::{Difference, Shown};

#[derive(Debug, Default)]
pub struct Original {
    /// What it was read from; nothing where that has failed.
    text: Vec<u8>,
    circuit: Circuit,
    order: Order,
    /// For each 64 settings, which of them may come.
    come: Vec<u64>,
    /// For each 64 settings of which one may come, what the ports show.
    shown: Vec<Values>,
}

impl Original {
    /// Reads and simulates a text, unless it is the one that was read last: what is found depends on its bytes alone.
    pub fn read(&mut self, text: &[u8], simulation: &mut Simulation) -> Result<(), Difference> {
        if !text.is_empty() && self.text == text {
            return Ok(());
        }
        self.text.clear();
        self.circuit.begin();
        netlist::read(text, true, &mut self.circuit).map_err(Difference::Original)?;
        let pins = self.circuit.pins.len();
        if pins > MOST_PINS {
            return Err(Difference::TooManyPins(pins));
        }
        self.simulate(simulation);
        self.text.extend_from_slice(text);
        Ok(())
    }

    fn simulate(&mut self, simulation: &mut Simulation) {
        let circuit = &self.circuit;
        let pins = circuit.pins.len();
        self.come.clear();
        self.shown.clear();
        if circuit.loops {
            self.order.find(circuit);
        }
        simulation.begin(circuit.nets.count());
        for first in (0..1 << pins).step_by(LANES) {
            let come = settings_that_come(pins, first, &circuit.nevers);
            self.come.push(come);
            if come == 0 {
                continue;
            }
            simulation.set(circuit, first);
            match circuit.loops {
                true => simulation.settle(&self.order),
                false => simulation.sweep(&circuit.gates),
            }
            let nets = circuit.ports.iter().map(|&(_, net)| net);
            self.shown.extend(nets.map(|net| simulation.value(net)));
        }
    }

    /// A circuit with the same pins and as many ports shows the same at every port under every setting that may come; else the lowest
    /// setting is told, and there the first port.
    pub fn shows_the_same(
        &self,
        theirs: &Circuit,
        (simulation, order): (&mut Simulation, &mut Order),
    ) -> Result<(), Difference> {
        if theirs.loops {
            order.find(theirs);
        }
        simulation.begin(theirs.nets.count());
        let ports = self.circuit.ports.len();
        let mut shown = &self.shown[..];
        for (batch, &come) in self.come.iter().enumerate() {
            if come == 0 {
                continue;
            }
            let (ours, rest) = shown.split_at(ports);
            shown = rest;
            simulation.set(theirs, batch * LANES);
            match theirs.loops {
                true => simulation.settle(order),
                false => simulation.sweep(&theirs.gates),
            }
            let written = |(_, net): &(_, Net)| simulation.value(*net);
            let both = ours.iter().zip(theirs.ports.iter().map(written));
            let differ = |lanes, (ours, theirs): (&Values, _)| lanes | ours.differ(theirs) & come;
            let lane = both.clone().fold(0, differ).trailing_zeros();
            if lane < u64::BITS {
                let shown = both.map(|(ours, theirs)| [ours.lane(lane), theirs.lane(lane)]);
                let mut shown = shown.enumerate();
                let found = shown.find(|(_, [ours, theirs])| ours != theirs);
                let (port, shown) = found.expect("a port differs");
                return Err(self.told(batch * LANES + lane as usize, port, shown));
            }
        }
        Ok(())
    }

    /// What the original and the written circuit show at a port under a setting.
    fn told(&self, setting: usize, port: usize, [original, written]: [Shown; 2]) -> Difference {
        let (circuit, text) = (&self.circuit, &self.text[..]);
        let pins = circuit.pins.iter().enumerate();
        let pins =
            pins.map(|(pin, &net)| (circuit.nets.label(net).told(text), setting >> pin & 1 == 1));
        Difference::Value {
            setting: pins.collect(),
            port: circuit.ports[port].0.told(text),
            written,
            original,
        }
    }

    pub fn as_read(&self) -> Read<'_> {
        Read {
            circuit: &self.circuit,
            text: &self.text,
        }
    }
}
