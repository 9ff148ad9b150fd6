//! `--shrink`: the smallest loop-free netlist for a netlist that other orders of its gates and a synthesis tool find. Nothing is written that
//! Compare did not accept for the original.

use crate::abc::{Abc, Scripts};
use crate::described::object;
use crate::reduce::{smallest, Found, Original, Product};
use crate::tally::counted;
use unloop::json::Json;
use unloop::orders::reordered;
use unloop::{from_blif, Block, Refusal};

/// What ABC is asked for: gates of the library of a netlist's gates, by area.
const SCRIPTS: Scripts = Scripts {
    beside: Some((
        "gates.genlib",
        include_str!("../../../../catalogue/gates.genlib"),
        "read_library gates.genlib; ",
    )),
    tried: &[
        "strash; ifraig; dc2; dc2; dc2",
        "strash; ifraig; dch",
        "collapse; sop; fx; strash; dc2; dch",
        "strash; ifraig; if -K 6 -a; mfs2 -a -L 20; strash; dc2; dc2",
        "strash; ifraig; if -K 4 -a; mfs2 -a -e -L 20; strash; dc2; dch",
    ],
    care: "if -K 4 -a; care_set care.blif; mfs -W 10 -a -e -L 20; mfs -W 10 -r; strash; dc2; dch",
    last: "map -a",
};

const ORDER: &str = "another order of the gate lines";

/// What is known before ABC is asked: the rendering's gates, none where it is refused for its size, and those in another order, where that is
/// better, with what became of the loops.
struct Orders {
    before: Option<usize>,
    other: Option<(usize, Vec<String>)>,
}

/// The netlist with the fewest gates: the rendering, that of another order, or what ABC makes of the smaller of them.
pub fn shrunk(abc: Option<&Abc>, original: &Original) -> Result<Product, Refusal> {
    let block = original.block;
    let (first, orders) = ordered(original)?;
    let rendering = first.made.clone();
    let results = abc.into_iter();
    let results = results.flat_map(|abc| abc.results(block, &rendering, &SCRIPTS));
    let tried = results.map(|(script, result)| {
        let netlist = from_blif(&result?, None);
        let netlist = netlist.map_err(|error| format!("ABC's result, line {error}"))?;
        let read = Block::read(with_promises(&netlist.netlist, block));
        let read = read.map_err(|refusal| format!("ABC's result: {refusal}"))?;
        let found = accepted(block, read, format!("ABC, {script}"));
        found.ok_or_else(|| "ABC's result is not accepted".to_string())
    });
    let (found, failures) = smallest(first, Block::gates, tried);
    Ok(product(found, orders, failures))
}

/// The rendering, or that of another order where it has fewer gates.
fn ordered(original: &Original) -> Result<(Found<Block>, Orders), Refusal> {
    let block = original.block;
    let own = match block.render() {
        Err(Refusal::TooManyCopies) => None,
        rendered => Some(rendered?),
    };
    let before = own.as_ref().map(Block::gates);
    let reordered = reordered(block);
    let fewer = before.is_none_or(|before| reordered.gates < before);
    let other = reordered.block.render().ok().filter(|_| fewer);
    let other = other.and_then(|other| accepted(block, other, ORDER.to_string()));
    let loops = reordered.loops.iter();
    let loops = loops.map(|found| found.in_words(original.text)).collect();
    let orders = Orders {
        before,
        other: other.as_ref().map(|other| (other.made.gates(), loops)),
    };
    let own = own.map(|made| Found {
        made,
        by: "the rendering as it is".to_string(),
    });
    let found = other.or(own).ok_or(Refusal::TooManyCopies)?;
    Ok((found, orders))
}

/// The rendering with what it is by, if Compare accepts it.
fn accepted(block: &Block, made: Block, by: String) -> Option<Found<Block>> {
    (block.compare(&made) == Ok(None)).then_some(Found { made, by })
}

/// A netlist text with a block's never lines behind its inputs: a tool doesn't know of them.
fn with_promises(netlist: &str, block: &Block) -> String {
    let of = |text: &str, form: &str, is: bool| -> String {
        let lines = text.lines().filter(|line| line.starts_with(form) == is);
        lines.map(|line| format!("{line}\n")).collect()
    };
    let promises = of(&block.write(), "(never ", true);
    of(netlist, "(in ", true) + &promises + &of(netlist, "(in ", false)
}

/// The netlist as it is written, with what is told of it.
fn product(found: Found<Block>, orders: Orders, failures: Vec<String>) -> Product {
    let Found {
        made: rendering,
        by,
    } = found;
    let gates = rendering.gates();
    let was = match orders.before {
        Some(before) => format!("{before} in the rendering"),
        None => "refused as it stands".to_string(),
    };
    let lines = counted(gates, "gate line");
    let mut told = vec![format!("{lines}, {was}, accepted; by {by}")];
    let mut fields = object([("gates", Json::Number(gates))]);
    fields.extend(
        orders
            .before
            .map(|before| ("before".to_string(), Json::Number(before))),
    );
    if let Some((ordered, loops)) = orders.other {
        told.push(format!("{ordered} by {ORDER}: {}", loops.join("; ")));
        let loops = Json::texts(loops);
        fields.extend(object([
            ("ordered", Json::Number(ordered)),
            ("loops", loops),
        ]));
    }
    told.extend(failures.iter().map(|why| format!("not taken: {why}")));
    let text = rendering.write();
    fields.extend(object([
        ("by", Json::text(by)),
        ("not_taken", Json::texts(failures)),
        ("netlist", Json::text(&text)),
    ]));
    Product { text, told, fields }
}
