//! `--fit`: the fewest cells for a netlist that a mapper finds. Nothing is written that CompareCells did not accept for the original.

use crate::abc::{Abc, Scripts};
use crate::described::object;
use crate::reduce::{smallest, Found, Original, Product};
use crate::tally::counted;
use unloop::json::Json;
use unloop::orders::reordered;
use unloop::{cells_of_blif, module_name, Block, CellTable, Labels, Refusal};

/// What ABC is asked for: cells of four operands, by area, with and without the circuit's own structure.
const SCRIPTS: Scripts = Scripts {
    beside: None,
    tried: &[
        "strash; ifraig; dch; if -K 4",
        "strash; ifraig; dch; if -K 4 -a; mfs2 -a -L 20; lutpack -L 20 -S 1",
        "strash; ifraig; dc2; dc2; dc2; if -K 4 -a; mfs2 -a -e -L 20",
        "collapse; strash; dch; if -K 4 -a; mfs2 -a -L 20",
        "collapse; sop; fx; strash; dch; if -K 4 -a; mfs2 -a -L 20",
    ],
    care: "care_set care.blif; mfs -W 10 -a -e -L 20; strash; dch; if -K 4 -a; care_set care.blif; mfs -W 10 -a -e -L 20",
    last: "",
};

/// The table with the fewest cells: those of the rendering, or what ABC makes of it.
pub fn fitted(abc: Option<&Abc>, original: &Original) -> Result<Product, Refusal> {
    let block = original.block;
    let (rendering, by) = rendering(block)?;
    // Whatever Cells makes of what Render makes of a block is accepted, by proof; what was rendered in another order may not be.
    let own = accepted(block, CellTable::of(&rendering)?, by);
    let own = own.ok_or(Refusal::TooManyCopies)?;
    let before = own.made.count();
    let results = abc.into_iter();
    let results = results.flat_map(|abc| abc.results(block, &rendering, &SCRIPTS));
    let tried = results.map(|(script, result)| {
        let table = cells_of_blif(&result?, &rendering, &module_name("rendering"));
        let table = table.map_err(|error| format!("ABC's result, line {error}"))?;
        let found = accepted(block, table, format!("ABC, {script}"));
        found.ok_or_else(|| "ABC's result is not accepted".to_string())
    });
    let (found, failures) = smallest(own, CellTable::count, tried);
    Ok(product(original, found, before, failures))
}

/// The rendering, or that of another order where there is none for its size, and what its cells are by.
fn rendering(block: &Block) -> Result<(Block, String), Refusal> {
    match block.render() {
        Err(Refusal::TooManyCopies) => {
            let rendering = reordered(block).block.render();
            let rendering = rendering.map_err(|_| Refusal::TooManyCopies)?;
            Ok((rendering, "the rendering in another order".to_string()))
        }
        rendered => Ok((rendered?, "the rendering as it is".to_string())),
    }
}

/// The table with what it is by, if CompareCells accepts it.
fn accepted(block: &Block, table: CellTable, by: String) -> Option<Found<CellTable>> {
    let accepted = block.compare_table(&table) == Ok(None);
    accepted.then_some(Found { made: table, by })
}

/// The table as it is written, with what is told of it.
fn product(
    original: &Original,
    found: Found<CellTable>,
    before: usize,
    failures: Vec<String>,
) -> Product {
    let Found { made: table, by } = found;
    let count = table.count();
    let cells = counted(count, "cell");
    let size = format!("{cells}, {before} in the rendering");
    let source = original.source;
    let module = module_name(&source.stem());
    let labels = Labels {
        made_from: Some(format!("cells for {}, by unloop", source.last_part())),
        ..Labels::from(&module)
    };
    let mut comments = labels.comments(original.block);
    comments.insert(1, format!("{size}, accepted by CompareCells; by {by}"));
    let text = table.written(&module, &comments);
    let mut told = vec![format!("{size}, accepted; by {by}")];
    told.extend(failures.iter().map(|why| format!("not taken: {why}")));
    let fields = object([
        ("cells", Json::Number(count)),
        ("before", Json::Number(before)),
        ("by", Json::text(by)),
        ("not_taken", Json::texts(failures)),
        ("table", Json::text(&text)),
    ]);
    Product { text, told, fields }
}
