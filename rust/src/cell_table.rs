//! Cells as a table of decimal words for a board's filler, and back. What stands behind a `#` is a comment to a filler; some comments
//! tell the names here: `# inputs N NAME ...` at the head, `# outputs N` and `# output PORT NODE` at the end; before each cell stands its gate.

use crate::gate::ZERO;
use crate::limits::{CELL_WORDS, INPUTS};
use crate::{Block, Cells, Disagreement, Labels, ModuleName, Names, Refusal};
use std::collections::HashSet;
use std::fmt;

const INPUTS_WORD: &str = "inputs";
const OUTPUTS_WORD: &str = "outputs";
const OUTPUT_WORD: &str = "output";
const WORDS: [&str; 3] = [INPUTS_WORD, OUTPUTS_WORD, OUTPUT_WORD];

/// A table of cells: what a written one says. Each port's node is an input or a cell.
#[derive(Debug, Clone, PartialEq, Eq)]
pub struct CellTable {
    cells: Cells,
    inputs: Vec<String>,
    outputs: Vec<(String, usize)>,
}

/// Why a text is no table.
#[derive(Debug, Clone, PartialEq, Eq)]
#[non_exhaustive]
pub enum TableError {
    /// The words are no cells over the inputs.
    Refused(Refusal),
    /// What is wrong with a line, counted from 1.
    Line { row: usize, why: RowError },
    /// No line tells the number of inputs.
    NoInputs,
}

impl fmt::Display for TableError {
    fn fmt(&self, f: &mut fmt::Formatter<'_>) -> fmt::Result {
        match self {
            TableError::Refused(refusal) => write!(f, "{refusal}"),
            TableError::Line { row, why } => write!(f, "line {row}: {why}"),
            TableError::NoInputs => write!(f, "no line '# {INPUTS_WORD} NUMBER NAME ...'"),
        }
    }
}

impl std::error::Error for TableError {}

/// What is wrong with a line of a table.
#[derive(Debug, Clone, PartialEq, Eq)]
#[non_exhaustive]
pub enum RowError {
    /// This is no number of 16 bits.
    NotAWord(String),
    /// This is no number, or above the most inputs.
    NotInputs(String),
    /// Other names than one for each input.
    Names { inputs: usize, names: usize },
    /// The inputs are told again.
    SecondTable,
    /// Another number of outputs than there are lines of them; this is what the line says.
    Outputs { said: String, lines: usize },
    /// This is no input and no cell.
    NoNode(String),
}

impl fmt::Display for RowError {
    fn fmt(&self, f: &mut fmt::Formatter<'_>) -> fmt::Result {
        match self {
            RowError::NotAWord(word) => write!(f, "not a word of 16 bits: {word}"),
            RowError::NotInputs(said) => write!(f, "not a number of inputs: {said}"),
            RowError::Names { inputs, names } => write!(f, "{inputs} inputs with {names} names"),
            RowError::SecondTable => write!(f, "a second table"),
            RowError::Outputs { said, lines } => write!(f, "{said} outputs with {lines} lines"),
            RowError::NoNode(node) => write!(f, "no node {node}"),
        }
    }
}

impl std::error::Error for RowError {}

/// The table of a block in which no gate reads itself or a gate behind it; the module's name is put at its head. Pins and ports keep the
/// block's names.
///
/// ```
/// # use unloop::{cell_table, module_name, Block, CellTable, Refusal};
/// let block = Block::read("(in a)\n(in b)\n(gate p (nor a b))\n(out y p)\n(out z b)\n")?;
/// let text = cell_table(&block, &module_name("m"))?;
/// assert_eq!(text, "# cells m 1\n# inputs 2 a b\n# _0 nor\n0 1 65534 65534 4369\n# outputs 2\n# output y 2\n# output z 1\n");
/// let table = CellTable::read(&text).expect("a table");
/// assert_eq!(table.shown(&[false, false])?, [true, false]);
/// # Ok::<(), Refusal>(())
/// ```
pub fn cell_table(block: &Block, labels: impl Into<Labels>) -> Result<String, Refusal> {
    let mut labels = labels.into();
    labels.names = Names::default();
    let table = CellTable::of(block)?;
    let gates = block.gate_list();
    let told = gates.iter().enumerate().map(|(number, gate)| {
        // A gate that is called as a line which tells names would be taken for one.
        let own = labels.gate(number).filter(|name| !WORDS.contains(name));
        let name = own.map_or_else(|| format!("_{number}"), str::to_string);
        format!("{name} {}", gate.kind.word())
    });
    let told: Vec<String> = told.collect();
    Ok(table.lines(&labels.module, &labels.comments(block), &told))
}

impl CellTable {
    /// The cells of a block in which no gate reads itself or a gate behind it, with its pins and ports.
    pub fn of(block: &Block) -> Result<CellTable, Refusal> {
        let ports = block.output_names().into_iter().zip(block.nodes_shown());
        Ok(CellTable {
            cells: block.cells()?,
            inputs: block.input_names(),
            outputs: ports.collect(),
        })
    }

    /// Cells made elsewhere over a block's pins, with the node that each of its ports is to show.
    pub(crate) fn over(block: &Block, cells: Cells, shown: Vec<usize>) -> CellTable {
        CellTable {
            cells,
            inputs: block.input_names(),
            outputs: block.output_names().into_iter().zip(shown).collect(),
        }
    }

    /// The table as it is written: comments at its head, and before each cell its number and how many operands it has.
    ///
    /// ```
    /// # use unloop::{module_name, CellTable};
    /// let table = CellTable::read("# inputs 2 a b\n0 1 65534 65534 4369\n# outputs 1\n# output y 2\n").unwrap();
    /// let text = table.written(&module_name("m"), &["made by hand".to_string()]);
    /// assert_eq!(text, "# cells m 1\n# made by hand\n# inputs 2 a b\n# _0 lookup 2\n0 1 65534 65534 4369\n# outputs 1\n# output y 2\n");
    /// ```
    pub fn written(&self, module: &ModuleName, comments: &[String]) -> String {
        let cells = self.cells.words().chunks(CELL_WORDS).enumerate();
        let told = cells.map(|(number, words)| {
            let operands = words[..CELL_WORDS - 1].iter();
            let count = operands.filter(|&&word| word < ZERO).count();
            format!("_{number} lookup {count}")
        });
        self.lines(module, comments, &told.collect::<Vec<String>>())
    }

    /// The text, with a comment before each cell.
    fn lines(&self, module: &ModuleName, comments: &[String], told: &[String]) -> String {
        let mut lines = vec![format!("# cells {module} {}", told.len())];
        lines.extend(comments.iter().map(|line| format!("# {line}")));
        let inputs = [vec![self.inputs.len().to_string()], self.inputs.clone()].concat();
        lines.push(format!("# {INPUTS_WORD} {}", inputs.join(" ")));
        for (words, told) in self.cells.words().chunks(CELL_WORDS).zip(told) {
            let decimal: Vec<String> = words.iter().map(u16::to_string).collect();
            lines.push(format!("# {told}"));
            lines.push(decimal.join(" "));
        }
        lines.push(format!("# {OUTPUTS_WORD} {}", self.outputs.len()));
        let ports = self.outputs.iter();
        lines.extend(ports.map(|(port, node)| format!("# {OUTPUT_WORD} {port} {node}")));
        lines.join("\n") + "\n"
    }
}

impl CellTable {
    /// The table of a text: decimal words in any layout, the comments but those of the names skipped. Inputs without names are called by
    /// their numbers; without an `# outputs` line each cell is a port, called as its gate is.
    pub fn read(text: &str) -> Result<CellTable, TableError> {
        let mut said = Said::default();
        for (line, row) in text.lines().zip(1..) {
            said.line(line, row)
                .map_err(|why| TableError::Line { row, why })?;
        }
        let inputs = said.inputs.take().ok_or(TableError::NoInputs)?;
        let words = std::mem::take(&mut said.words);
        let cells = Cells::from_words(inputs.len(), words).map_err(TableError::Refused)?;
        let outputs = said.shown(inputs.len(), cells.words().len() / CELL_WORDS)?;
        Ok(CellTable {
            cells,
            inputs,
            outputs,
        })
    }

    /// The cells.
    pub fn cells(&self) -> &Cells {
        &self.cells
    }

    /// The inputs' names, in order.
    pub fn inputs(&self) -> &[String] {
        &self.inputs
    }

    /// The ports, each with its node: an input's number, or a cell's behind the inputs.
    pub fn outputs(&self) -> &[(String, usize)] {
        &self.outputs
    }

    /// How many cells there are.
    pub fn count(&self) -> usize {
        self.cells.words().len() / CELL_WORDS
    }

    /// The ports' values, from one value an input, by the library's Run.
    pub fn shown(&self, setting: &[bool]) -> Result<Vec<bool>, Refusal> {
        let mut nodes = setting.to_vec();
        nodes.extend(self.cells.run(setting)?);
        Ok(self.outputs.iter().map(|(_, node)| nodes[*node]).collect())
    }
}

impl CellTable {
    /// The cells with these pins as their inputs, in this order, and the node of each of these ports: none where the table's inputs or ports
    /// have other names. Inputs that are called by their numbers are the pins in order.
    pub fn arranged(&self, pins: &[String], ports: &[String]) -> Option<(Cells, Vec<usize>)> {
        let unnamed = self
            .inputs
            .iter()
            .zip(0..)
            .all(|(name, number)| *name == number.to_string());
        let numbered: Vec<String> = (0..pins.len()).map(|pin| pin.to_string()).collect();
        let pins = if unnamed { &numbered } else { pins };
        let pin = places(&self.inputs, pins)?;
        let names: Vec<String> = self.outputs.iter().map(|(port, _)| port.clone()).collect();
        let inputs = self.inputs.len();
        let moved = |node: usize| if node < inputs { pin[node] } else { node };
        let mut words = self.cells.words().to_vec();
        for cell in words.chunks_mut(CELL_WORDS) {
            for operand in &mut cell[..CELL_WORDS - 1] {
                *operand = u16::try_from(moved((*operand).into())).unwrap_or(*operand);
            }
        }
        let cells = Cells::from_words(inputs, words).ok()?;
        let mut shown = vec![0; ports.len()];
        for (output, port) in places(&names, ports)?.into_iter().enumerate() {
            shown[port] = moved(self.outputs[output].1);
        }
        Some((cells, shown))
    }
}

/// Where each name stands among the others, which must be the same ones, each once.
fn places(names: &[String], others: &[String]) -> Option<Vec<usize>> {
    let place = |name: &String| others.iter().position(|other| other == name);
    let places: Vec<usize> = names.iter().map(place).collect::<Option<_>>()?;
    let distinct: HashSet<&usize> = places.iter().collect();
    (distinct.len() == others.len() && places.len() == others.len()).then_some(places)
}

impl Block {
    /// Whether a table of cells is as good as this block, by CompareCells: its inputs and ports are taken by their names, in whatever order
    /// they stand. `None`: it is accepted.
    ///
    /// ```
    /// # use unloop::{Block, CellTable, Disagreement, Refusal};
    /// let block = Block::read("(in a)\n(in b)\n(gate p (and a q))\n(gate q (or b p))\n(out y q)\n(out z b)\n")?;
    /// let table = |lines: &str| CellTable::read(&format!("# inputs 2 b a\n# outputs 2\n{lines}")).unwrap();
    /// assert_eq!(block.compare_table(&table("# output z 0\n# output y 0\n"))?, None);
    /// let differs = block.compare_table(&table("# output z 1\n# output y 0\n"))?;
    /// assert_eq!(differs, Some(Disagreement { setting: 2, output: 1 }));
    /// assert_eq!(block.compare_table(&table("# output z 0\n# output x 0\n")), Err(Refusal::InterfaceMismatch));
    /// # Ok::<(), Refusal>(())
    /// ```
    pub fn compare_table(&self, table: &CellTable) -> Result<Option<Disagreement>, Refusal> {
        let arranged = table.arranged(&self.input_names(), &self.output_names());
        let (cells, shown) = arranged.ok_or(Refusal::InterfaceMismatch)?;
        self.compare_cells(&cells, &shown)
    }
}

/// What the lines of a text say.
#[derive(Default)]
struct Said {
    words: Vec<u16>,
    inputs: Option<Vec<String>>,
    /// The row of the line that tells how many outputs there are, and what it tells.
    count: Option<(usize, String)>,
    /// The row, the port and the node of each output.
    outputs: Vec<(usize, String, String)>,
}

impl Said {
    fn line(&mut self, line: &str, row: usize) -> Result<(), RowError> {
        let (decimal, comment) = line.split_once('#').unwrap_or((line, ""));
        for word in decimal.split_whitespace() {
            let wrong = |_| RowError::NotAWord(word.to_string());
            self.words.push(word.parse().map_err(wrong)?);
        }
        match comment.split_whitespace().collect::<Vec<&str>>()[..] {
            [INPUTS_WORD, ..] if self.inputs.is_some() => return Err(RowError::SecondTable),
            [INPUTS_WORD, count, ref names @ ..] => self.inputs = Some(named(count, names)?),
            [OUTPUTS_WORD, count] => self.count = Some((row, count.to_string())),
            [OUTPUT_WORD, port, node] => {
                self.outputs.push((row, port.to_string(), node.to_string()))
            }
            _ => {}
        }
        Ok(())
    }

    /// The ports with their nodes, over so many inputs and cells.
    fn shown(self, inputs: usize, cells: usize) -> Result<Vec<(String, usize)>, TableError> {
        let Some((row, count)) = self.count else {
            let port = |cell: usize| (format!("_{cell}"), inputs + cell);
            return Ok((0..cells).map(port).collect());
        };
        let lines = self.outputs.len();
        if count != lines.to_string() {
            let why = RowError::Outputs { said: count, lines };
            return Err(TableError::Line { row, why });
        }
        let output = |(row, port, node): (usize, String, String)| {
            let known = node.parse().ok().filter(|&node| node < inputs + cells);
            let why = RowError::NoNode(node);
            Ok((port, known.ok_or(TableError::Line { row, why })?))
        };
        self.outputs.into_iter().map(output).collect()
    }
}

/// The names of so many inputs.
fn named(count: &str, names: &[&str]) -> Result<Vec<String>, RowError> {
    let known = count.parse().ok().filter(|&count: &usize| count <= INPUTS);
    let inputs = known.ok_or_else(|| RowError::NotInputs(count.to_string()))?;
    match names.len() {
        0 => Ok((0..inputs).map(|input| input.to_string()).collect()),
        given if given == inputs => Ok(names.iter().map(|name| name.to_string()).collect()),
        names => Err(RowError::Names { inputs, names }),
    }
}
