//! A design and its loops as JSON objects, one a line: a loop each, and at last the whole.

use super::Finding;
use crate::described::{object, pins};
use crate::report::{other, undefined, unsettled};
use unloop::design::{Loop, Piece, Refused, RefusedBlock};
use unloop::json::Json;
use unloop::{circle, hint, Block};

impl Finding<'_> {
    /// The objects; the last has the model where it is written.
    pub fn objects(&self, written: Option<&str>) -> String {
        let loops = self.loops.iter().zip(&self.taken);
        let mut objects: Vec<String> = loops
            .map(|(found, taken)| Json::Object(self.described(found, taken)).to_string())
            .collect();
        let promises = self.promises.0.iter().enumerate();
        let rests_on = self.rests_on();
        let rests_on = promises.filter(|(number, _)| rests_on.contains(number));
        let rests_on = rests_on.map(|(_, promise)| &promise.text);
        let mut whole = object([
            ("file", Json::text(&self.name)),
            ("gates", Json::Number(self.design.gates())),
            ("loops", Json::Number(self.loops.len())),
            (
                "taken_out",
                Json::Number(self.taken.iter().flatten().count()),
            ),
            ("placed", Json::texts(self.design.placed())),
            ("not_in_the_file", Json::texts(self.design.strangers())),
            ("rests_on", Json::texts(rests_on)),
        ]);
        whole.extend(written.map(|text| ("written".to_string(), Json::text(text))));
        objects.push(Json::Object(whole).to_string());
        objects.join("\n") + "\n"
    }

    fn described(&self, found: &Loop, taken: &Result<Piece, Refused>) -> Vec<(String, Json)> {
        let mut fields = object([
            ("file", Json::text(&self.name)),
            ("model", Json::text(&found.model)),
            ("line", Json::Number(found.line)),
            ("nets", Json::texts(&found.nets)),
            ("boundary", Json::texts(&found.boundary)),
            ("ports", Json::texts(&found.ports)),
        ]);
        fields.extend(match taken {
            Ok(piece) => {
                let promises = piece
                    .promises
                    .iter()
                    .map(|&number| &self.promises.0[number].text);
                object([
                    ("word", Json::text("rendered")),
                    ("rendering_gates", Json::Number(piece.gates)),
                    ("rests_on", Json::texts(promises)),
                ])
            }
            Err(Refused::TooLarge(reason)) => vec![
                ("word".to_string(), Json::text("too large")),
                ("hint".to_string(), Json::text(reason)),
            ],
            Err(Refused::NotAccepted) => vec![("word".to_string(), Json::text("not accepted"))],
            Err(Refused::Block(refused)) => block(refused),
        });
        fields
    }
}

/// What is known of a block that was refused, by the names of the model.
fn block(refused: &RefusedBlock) -> Vec<(String, Json)> {
    let (text, names, refusal) = (&refused.text, &refused.names, refused.refusal);
    let mut fields = object([
        ("word", Json::text(refusal.word())),
        ("number", Json::Number(refusal.number())),
    ]);
    let Ok(block) = Block::read(text) else {
        return fields;
    };
    let inputs = block.input_names().into_iter();
    let inputs: Vec<String> = inputs.map(|pin| other(names.input(&pin), &pin)).collect();
    if let Some(setting) = unsettled(refusal, &block) {
        let ports = undefined(&block, setting).into_iter();
        let gates = circle(text.as_bytes(), setting).into_iter();
        fields.extend(object([
            (
                "setting",
                pins(block.assignment(setting).unwrap_or_default(), &inputs),
            ),
            (
                "undefined",
                Json::texts(ports.map(|port| other(names.port(&port), &port))),
            ),
            (
                "waits",
                Json::texts(gates.map(|gate| other(names.gate(&gate), &gate))),
            ),
        ]));
    }
    let cover = block.cover().into_iter().map(|entry| pins(entry, &inputs));
    fields.push(("cover".to_string(), Json::List(cover.collect())));
    fields
        .extend(hint(refusal, text.as_bytes()).map(|hint| ("hint".to_string(), Json::Text(hint))));
    fields
}
