//! The loop groups of a model: its drivers' strongly connected components that have a loop, by Tarjan's algorithm, in time linear in the
//! model's size and without recursion.

use super::wiring::Wiring;

const UNSEEN: usize = usize::MAX;

/// A search that is under way.
struct Search<'a> {
    wiring: &'a Wiring,
    /// By driver, when it was met; `UNSEEN` before.
    met: Vec<usize>,
    /// By driver, the earliest open one that is known to be reached.
    lowest: Vec<usize>,
    /// By driver, whether it waits for its component to be known.
    is_open: Vec<bool>,
    open: Vec<usize>,
    /// The way from the start to where the search is: drivers, and how many of their reads were followed.
    way: Vec<(usize, usize)>,
    count: usize,
    found: Vec<Vec<usize>>,
}

/// The drivers of each group, ascending; the groups by their first line.
pub fn loops(wiring: &Wiring) -> Vec<Vec<usize>> {
    let drivers = wiring.drivers.len();
    let mut search = Search {
        wiring,
        met: vec![UNSEEN; drivers],
        lowest: vec![0; drivers],
        is_open: vec![false; drivers],
        open: Vec::new(),
        way: Vec::new(),
        count: 0,
        found: Vec::new(),
    };
    for start in 0..drivers {
        if search.met[start] == UNSEEN {
            search.from(start);
        }
    }
    let mut found = search.found;
    for group in &mut found {
        group.sort_unstable_by_key(|&place| wiring.drivers[place].line);
    }
    found.sort_by_key(|group| wiring.drivers[group[0]].line);
    found
}

impl Search<'_> {
    fn meet(&mut self, place: usize) {
        self.met[place] = self.count;
        self.lowest[place] = self.count;
        self.is_open[place] = true;
        self.count += 1;
        self.open.push(place);
        self.way.push((place, 0));
    }

    fn from(&mut self, start: usize) {
        self.meet(start);
        while let Some((place, followed)) = self.way.last_mut() {
            let place = *place;
            let next = self.wiring.drivers[place].reads.get(*followed);
            *followed += 1;
            match next.map(|&net| self.wiring.by_net[net]) {
                None => self.leave(place),
                Some(None) => {}
                Some(Some(read)) if self.met[read] == UNSEEN => self.meet(read),
                Some(Some(read)) if self.is_open[read] => {
                    self.lowest[place] = self.lowest[place].min(self.met[read]);
                }
                Some(Some(_)) => {}
            }
        }
    }

    /// All that a driver reads is known: it hands on what it reaches, and its component ends with it where it reaches nothing earlier.
    fn leave(&mut self, place: usize) {
        self.way.pop();
        if let Some(&(before, _)) = self.way.last() {
            self.lowest[before] = self.lowest[before].min(self.lowest[place]);
        }
        if self.lowest[place] < self.met[place] {
            return;
        }
        let mut group = Vec::new();
        while let Some(member) = self.open.pop() {
            self.is_open[member] = false;
            group.push(member);
            if member == place {
                break;
            }
        }
        let reads_itself = || self.wiring.read_by(place).any(|read| read == place);
        if group.len() > 1 || reads_itself() {
            self.found.push(group);
        }
    }
}
