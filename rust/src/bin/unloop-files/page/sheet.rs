//! The sheet: pins that are clicked to 0, 1 or undefined, and the outputs then. Their values are stored in the page, as Sheet gave them, with
//! them what is said of each setting, and for the drawing the gates' values, as Settle gave them.

use super::html::escaped;
use crate::described::object;
use unloop::json::Json;
use unloop::{Assignment, Block, Opening, Value};

/// With more inputs than these no pin may be left undefined, so that the page stays small.
const UNDEFINED_PINS: usize = 8;

/// What the drawing shows of a gate: its three values, and 0 or 1 where it opens its loop.
const GATE_STATES: u32 = 5;

/// The sheet of a block; one that isn't settled begins with the lowest setting that shows it.
pub fn sheet(block: &Block, unsettled: Option<usize>) -> String {
    let (pins, ports) = (block.input_names(), block.output_names());
    if ports.is_empty() && block.gates() == 0 {
        return "<p>It has no outputs.</p>\n".to_string();
    }
    let base = if pins.len() <= UNDEFINED_PINS { 3 } else { 2 };
    let pin = |(index, name): (usize, &String)| {
        format!(
            "<li><span>{0}</span> <button type=\"button\" class=\"pin v0\" data-pin=\"{index}\" aria-label=\"{0}: 0\">0</button></li>\n",
            escaped(name)
        )
    };
    let port = |(index, name): (usize, &String)| {
        format!(
            "<li><span>{}</span> <output class=\"port\" data-port=\"{index}\">–</output></li>\n",
            escaped(name)
        )
    };
    let (values, count) = stored(block, base, unsettled.unwrap_or(0));
    format!(
        "<div class=\"bench\">\n<ul class=\"pinlist\" aria-label=\"Pins\">\n{}</ul>\n<ul class=\"portlist\" aria-label=\"Outputs\">\n{}</ul>\n</div>\n\
         <p id=\"asked\" class=\"warning\" role=\"status\" hidden></p>\n\
         <p id=\"verdict\" role=\"status\"></p>\n<noscript><p>The sheet needs scripts.</p></noscript>\n\
         {}<script type=\"application/json\" id=\"values\">{values}</script>\n",
        pins.iter().enumerate().map(pin).collect::<String>(),
        ports.iter().enumerate().map(port).collect::<String>(),
        notes(pins.len(), base, count)
    )
}

/// How pins are changed, what an open one means, and where the values come from.
fn notes(pins: usize, base: usize, count: usize) -> String {
    let changed = match (pins, base) {
        (0, _) => "It has no pins.",
        (_, 3) => "Click a pin to change it (0, 1, undefined), or press 0, 1 or u on it. A pin that is undefined here (?) has no value, and an output shows 0 or 1 \
                   only if that follows without it; \"any\" in the cover says that the pin has a value, 0 or 1, and that either will do.",
        _ => "Click a pin to change it, or press 0 or 1 on it; with more than eight inputs none may be undefined here.",
    };
    let settings = match count {
        1 => "its only setting".to_string(),
        count => format!("all {count} settings that can be made here"),
    };
    format!(
        "<p class=\"note\">{changed}</p>\n<p class=\"note\">What is shown under {settings} is stored in this page, which only looks it up: the outputs' values are \
         those that the proved operation Sheet gave, those of the gates in the drawing are Settle's; whether they settle, whether the setting never comes, and which gates open a loop, was told from these \
         values and the never lines when the page was written.</p>\n"
    )
}

/// The values and states as JSON, and how many settings they are of: a setting's number has weight base^i for input i, and digit 2 is undefined.
fn stored(block: &Block, base: usize, start: usize) -> (Json, usize) {
    let count = base.pow(block.inputs() as u32);
    let asked: Vec<Assignment> = (0..count)
        .map(|setting| asked(block, base, setting))
        .collect();
    let letter = |value: Value| match value {
        Value::Zero => '0',
        Value::One => '1',
        Value::Undefined => 'u',
    };
    let shown = block.sheet(&asked).into_iter();
    let shown: Vec<Vec<Value>> = shown.map(Result::unwrap_or_default).collect();
    let nevers = block.never_lines();
    let comes = |setting| !nevers.iter().any(|line| line.agrees(setting));
    let comes: Vec<bool> = (0..1 << block.inputs()).map(comes).collect();
    let settings = asked.iter().zip(&shown);
    let states = settings.map(|(&asked, shown)| state(asked, shown, &comes));
    let fields = object([
        ("base", Json::Number(base)),
        ("inputs", Json::texts(block.input_names())),
        ("outputs", Json::texts(block.output_names())),
        ("start", Json::Number(start)),
        ("states", Json::Text(states.collect())),
        (
            "rows",
            Json::Text(shown.iter().flatten().copied().map(letter).collect()),
        ),
        ("letters", Json::Number(block.gates().div_ceil(2))),
        ("gates", Json::Text(gates(block, &asked))),
    ]);
    (Json::Object(fields), count)
}

/// What the drawing shows of every gate under these settings, two gates a letter: the lower one's state, and five times that of the other.
fn gates(block: &Block, asked: &[Assignment]) -> String {
    let opening = Opening::of(block);
    let mut letters = String::new();
    for assignment in asked {
        let value = |input| {
            assignment
                .value(input)
                .map_or(Value::Undefined, Value::from)
        };
        let setting: Vec<Value> = (0..block.inputs()).map(value).collect();
        let Ok(settled) = block.settle(&setting) else {
            continue;
        };
        let mut states: Vec<u32> = settled.values.iter().map(|&value| value as u32).collect();
        let opened = opening.gates(&setting, &settled).into_iter();
        opened.for_each(|gate| states[gate] += Value::Undefined as u32 + 1);
        let letter = |pair: &[u32]| {
            let number = pair
                .iter()
                .rev()
                .fold(0, |number, state| GATE_STATES * number + state);
            char::from_digit(number, 36)
        };
        letters.extend(states.chunks(2).filter_map(letter));
    }
    letters
}

/// What is said of a setting: `s` it is settled, `n` it is not; where pins are open, which is no setting that could be settled, `d` every
/// output is defined all the same, `u` some is not; `x` none of the settings that it stands for may come. `comes` has the 2^n complete ones.
fn state(asked: Assignment, shown: &[Value], comes: &[bool]) -> char {
    let may_come = comes
        .iter()
        .enumerate()
        .any(|(setting, &comes)| comes && asked.agrees(setting));
    let complete = usize::from(asked.fixed) == comes.len() - 1;
    let defined = !shown.contains(&Value::Undefined);
    match (may_come, complete, defined) {
        (false, ..) => 'x',
        (_, true, true) => 's',
        (_, true, false) => 'n',
        (_, false, true) => 'd',
        (_, false, false) => 'u',
    }
}

/// The assignment of a setting's number.
fn asked(block: &Block, base: usize, setting: usize) -> Assignment {
    let digit = |input: usize| setting / base.pow(input as u32) % base;
    let mask = |wanted: fn(usize) -> bool| {
        let inputs = (0..block.inputs()).filter(|&input| wanted(digit(input)));
        inputs.map(|input| 1 << input).sum()
    };
    Assignment {
        fixed: mask(|digit| digit < 2),
        ones: mask(|digit| digit == 1),
    }
}
