//! What `--json` tells: one object a file, in one line. docs/KEEPER.md has its fields.

use crate::report::{undefined, unsettled, warning};
use unloop::json::Json;
use unloop::{circle, hint, Assignment, Block, Location, Refusal};

/// An object by its fields.
pub fn object<const N: usize>(fields: [(&str, Json); N]) -> Vec<(String, Json)> {
    fields.map(|(name, value)| (name.to_string(), value)).into()
}

/// A file that was rendered or refused.
pub fn described(
    name: &str,
    text: &[u8],
    refusal: Option<Refusal>,
    rendering: Option<&[u8]>,
) -> Json {
    let (number, word) = refusal.map_or((0, "rendered"), |refusal| {
        (refusal.number(), refusal.word())
    });
    let mut fields = object([
        ("file", Json::text(name)),
        ("number", Json::Number(number)),
        ("word", Json::text(word)),
    ]);
    if let Some(refusal) = refusal {
        fields.extend(refused(refusal, text));
    }
    if let Ok(block) = Block::read(text) {
        fields.extend(read(&block));
    }
    if let Some(rendering) = rendering {
        let gates = Block::read(rendering).map_or(0, |block| block.gates());
        fields.extend(object([
            ("rendering_gates", Json::Number(gates)),
            ("rendering", Json::text(String::from_utf8_lossy(rendering))),
        ]));
    }
    Json::Object(fields)
}

/// A file that could not be read or written.
pub fn unreadable(name: &str, reason: &str) -> Json {
    Json::Object(object([
        ("file", Json::text(name)),
        ("error", Json::text(reason)),
    ]))
}

/// The place, the setting and the hint of a refusal, as far as it has them.
fn refused(refusal: Refusal, text: &[u8]) -> Vec<(String, Json)> {
    let mut fields = Vec::new();
    if let Some(place) = refusal.place() {
        let Location { row, column, .. } = Location::of(text, place);
        fields.extend(object([
            ("place", Json::Number(place)),
            ("line", Json::Number(row)),
            ("column", Json::Number(column)),
        ]));
    }
    let block = Block::read(text).ok();
    let setting = block.as_ref().and_then(|block| unsettled(refusal, block));
    if let Some((setting, block)) = setting.zip(block) {
        fields.extend(object([
            (
                "setting",
                pins(
                    block.assignment(setting).unwrap_or_default(),
                    &block.input_names(),
                ),
            ),
            ("undefined", Json::texts(undefined(&block, setting))),
            ("waits", Json::texts(circle(text, setting))),
        ]));
    }
    fields.extend(hint(refusal, text).map(|hint| ("hint".to_string(), Json::Text(hint))));
    fields
}

/// What is known of a text that can be read.
fn read(block: &Block) -> Vec<(String, Json)> {
    let names = block.input_names();
    let listed = |list: Vec<Assignment>| {
        Json::List(list.into_iter().map(|entry| pins(entry, &names)).collect())
    };
    let mut fields = object([
        ("inputs", Json::texts(&names)),
        ("outputs", Json::texts(block.output_names())),
        ("gates", Json::Number(block.gates())),
        ("loops", Json::Number(block.loops().len())),
        ("settings", Json::Number(block.settings_that_come())),
        ("settled", Json::Number(block.verdict().settled)),
        ("never", listed(block.never_lines())),
        ("cover", listed(block.cover())),
    ]);
    fields.extend(excluded(block));
    fields
}

/// How many of the 2^n settings never lines exclude, and a warning where these are all.
pub fn excluded(block: &Block) -> Vec<(String, Json)> {
    let mut fields = object([("excluded", Json::Number(block.excluded_settings()))]);
    fields.extend(warning(block).map(|why| ("warning".to_string(), Json::Text(why))));
    fields
}

/// The pins that an assignment fixes, as `{"a":1,"b":0}`.
pub fn pins(assignment: Assignment, names: &[String]) -> Json {
    let values = names.iter().enumerate().filter_map(|(input, name)| {
        let value = assignment.value(input)?;
        Some((name.clone(), Json::Number(value.into())))
    });
    Json::Object(values.collect())
}
