//! Cells from a model that a mapper wrote: each `.names` table of up to four operands is a cell, a buffer the node that it reads, a constant an
//! operand. Nothing here is trusted: CompareCells says afterwards whether the cells are as good as the original.

use crate::blif_model::{BlifError, BlifFile, Model, Net, Table};
use crate::export::Nets;
use crate::gate::ZERO;
use crate::limits::{CELL_WORDS, GATES};
use crate::{Block, CellTable, Cells, Labels, ModuleName};

/// The most operands of a cell.
const OPERANDS: usize = CELL_WORDS - 1;

/// The table of cells of a model's text. The model's inputs and outputs are called as [`blif`](crate::blif) calls those of the block, and
/// may stand in any order.
///
/// ```
/// # use unloop::{cells_of_blif, module_name, Block, Refusal};
/// let block = Block::read("(in a)\n(in b)\n(gate p (nor a b))\n(out y p)\n(out z a)\n")?;
/// let model = ".model m\n.inputs a b\n.outputs y z\n.names a b y\n00 1\n.names a z\n1 1\n.end\n";
/// let table = cells_of_blif(model, &block, &module_name("m")).unwrap();
/// assert_eq!(table.cells().words(), [0, 1, 65534, 65534, 0x1111]);
/// assert_eq!(block.compare_table(&table)?, None);
/// # Ok::<(), Refusal>(())
/// ```
pub fn cells_of_blif(
    text: &str,
    block: &Block,
    module: &ModuleName,
) -> Result<CellTable, BlifError> {
    let file = BlifFile::read(text)?;
    let model = &file.models[0];
    let mut mapped = Mapped::of(model)?;
    let names = Nets::of(block, &Labels::from(module));
    let net = |name: &String| {
        let known = model.nets.iter().position(|net| net == name);
        known.ok_or_else(|| BlifError::at(model.line, format!("there is no net {name}")))
    };
    for (number, name) in names.inputs.iter().enumerate() {
        // A mapper may leave a pin out that nothing reads.
        if let Ok(net) = net(name) {
            mapped.nodes[net] = Some(number as u16);
        }
    }
    mapped.inputs = block.inputs();
    let mut shown = Vec::new();
    for port in &names.ports {
        shown.push(mapped.output(net(port)?)?);
    }
    let cells = Cells::from_words(block.inputs(), mapped.words);
    let wrong = |_| BlifError::at(model.line, "its tables are no cells");
    Ok(CellTable::over(block, cells.map_err(wrong)?, shown))
}

/// A model's tables, and the cells that were made of them so far: those that an output needs, each behind what it reads.
struct Mapped<'a> {
    model: &'a Model,
    /// By net, its table.
    tables: Vec<Option<&'a Table>>,
    /// By net, its operand word, where that is known.
    nodes: Vec<Option<u16>>,
    inputs: usize,
    words: Vec<u16>,
}

impl<'a> Mapped<'a> {
    fn of(model: &'a Model) -> Result<Mapped<'a>, BlifError> {
        let mut tables = vec![None; model.nets.len()];
        for table in &model.tables {
            if tables[table.output].replace(table).is_some() {
                let reason = format!("{} is driven twice", model.nets[table.output]);
                return Err(BlifError::at(table.line, reason));
            }
            if table.inputs.len() > OPERANDS {
                let count = table.inputs.len();
                let reason = format!("a table of {count} operands, and a cell has {OPERANDS}");
                return Err(BlifError::at(table.line, reason));
            }
        }
        Ok(Mapped {
            model,
            tables,
            nodes: vec![None; model.nets.len()],
            inputs: 0,
            words: Vec::new(),
        })
    }

    /// The node that shows a net; a constant gets a cell for that.
    fn output(&mut self, net: Net) -> Result<usize, BlifError> {
        let word = match self.node(net)? {
            word if word >= ZERO => {
                let truth = if word > ZERO { u16::MAX } else { 0 };
                self.cell(&[], truth)?
            }
            word => word,
        };
        Ok(word.into())
    }

    /// The operand word of a net. What it reads is found first, without recursion: a model may be deep.
    fn node(&mut self, net: Net) -> Result<u16, BlifError> {
        let mut open = vec![net];
        let mut entered = vec![false; self.nodes.len()];
        while let Some(&next) = open.last() {
            if self.nodes[next].is_some() {
                open.pop();
                continue;
            }
            let name = &self.model.nets[next];
            let missing = || BlifError::at(self.model.end, format!("nothing drives {name}"));
            let table = self.tables[next].ok_or_else(missing)?;
            let unknown = table
                .inputs
                .iter()
                .filter(|&&read| self.nodes[read].is_none());
            let unknown: Vec<Net> = unknown.copied().collect();
            if unknown.is_empty() {
                self.nodes[next] = Some(self.made(table)?);
                continue;
            }
            if std::mem::replace(&mut entered[next], true) {
                let reason = format!("{name} reads itself");
                return Err(BlifError::at(table.line, reason));
            }
            open.extend(unknown);
        }
        Ok(self.nodes[net].unwrap_or(ZERO))
    }

    /// The operand word of a table whose operands are known: a new cell's, unless it is a constant or one of them.
    fn made(&mut self, table: &Table) -> Result<u16, BlifError> {
        let operands = table
            .inputs
            .iter()
            .map(|&net| self.nodes[net].unwrap_or(ZERO));
        let operands: Vec<u16> = operands.collect();
        let truth = truth(table);
        match (truth, &operands[..]) {
            (0, _) => Ok(ZERO),
            (u16::MAX, _) => Ok(ZERO + 1),
            (BUFFER, [alone]) => Ok(*alone),
            _ => self.cell(&operands, truth),
        }
    }

    /// The word of a cell: one that is there already, or a new one.
    fn cell(&mut self, operands: &[u16], truth: u16) -> Result<u16, BlifError> {
        let mut words = [ZERO; CELL_WORDS];
        words[..operands.len()].copy_from_slice(operands);
        words[OPERANDS] = truth;
        let known = self.words.chunks(CELL_WORDS).position(|cell| cell == words);
        let number = known.unwrap_or(self.words.len() / CELL_WORDS);
        if number == GATES {
            let reason = format!("more than {GATES} cells");
            return Err(BlifError::at(self.model.line, reason));
        }
        if known.is_none() {
            self.words.extend(words);
        }
        Ok((self.inputs + number) as u16)
    }
}

/// The truth word of a cell that shows its first operand.
const BUFFER: u16 = 0xAAAA;

/// The truth word of a table: bit b is what it shows where operand i is bit i of b; absent operands change nothing.
fn truth(table: &Table) -> u16 {
    let agrees = |row: &Vec<Option<bool>>, place: usize| {
        let mut wanted = row.iter().enumerate();
        wanted.all(|(operand, bit)| bit.is_none_or(|bit| bit == (place >> operand & 1 == 1)))
    };
    let shows = |place: &usize| table.rows.iter().any(|row| agrees(row, *place)) == table.shown;
    (0..16).filter(shows).map(|place| 1 << place).sum()
}
