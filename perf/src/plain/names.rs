//! A table from names to numbers: a name of at most eight bytes is itself a number, and a product spreads it over the slots.

/// At most half of the slots are taken. No name is 0.
pub struct Names {
    slots: Vec<(u64, u16)>,
    shift: u32,
}

impl Names {
    pub fn with_room(count: usize) -> Names {
        let bits = (2 * count.max(1)).next_power_of_two().ilog2();
        Names {
            slots: vec![(0, 0); 1 << bits],
            shift: u64::BITS - bits,
        }
    }

    /// The slot that has the name, or the free one where it belongs.
    fn slot(&self, name: u64) -> usize {
        let mut slot = (name.wrapping_mul(0x9e37_79b9_7f4a_7c15) >> self.shift) as usize;
        while ![0, name].contains(&self.slots[slot].0) {
            slot = (slot + 1) % self.slots.len();
        }
        slot
    }

    /// Whether the name is a new one.
    pub fn insert(&mut self, name: u64, number: u16) -> bool {
        let slot = self.slot(name);
        let new = self.slots[slot].0 == 0;
        self.slots[slot] = (name, number);
        new
    }

    pub fn get(&self, name: u64) -> Option<u16> {
        let (found, number) = self.slots[self.slot(name)];
        (found != 0).then_some(number)
    }
}
