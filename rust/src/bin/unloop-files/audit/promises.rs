//! Never lines that are others than before, in words and as JSON: each line, and how many settings are now promised never to come.

use crate::described::{object, pins};
use unloop::audit::Changes;
use unloop::json::Json;
use unloop::{Assignment, Block};

type Told = (String, Vec<(String, Json)>);

/// The original's lines, held to the stored ones.
pub fn in_original(changes: &Changes, original: &Block) -> Told {
    let told = lines(changes, original).into_iter();
    let names = original.input_names();
    (counted(told, changes, original), fields(changes, &names))
}

/// The differences, one by one. Of the lines that are gone and new the first are one line that changed, and so on.
pub fn lines(changes: &Changes, original: &Block) -> Vec<String> {
    let (names, lines) = (original.input_names(), original.never_lines());
    let times = |lines: &[Assignment], line| lines.iter().filter(|&&other| other == line).count();
    let Changes { gone, new, .. } = changes;
    let told = (0..gone.len().max(new.len())).filter_map(|place| {
        let line = |line: Assignment| line.never_line(&names);
        Some(match (gone.get(place), new.get(place)) {
            (Some(&before), Some(&now)) => format!("{} became {}", line(before), line(now)),
            (Some(&gone), None) if lines.contains(&gone) => {
                format!("{} is written fewer times", line(gone))
            }
            (Some(&gone), None) => format!("{} is gone", line(gone)),
            (None, Some(&again)) if times(&lines, again) > times(new, again) => {
                format!("{} is written more times", line(again))
            }
            (None, Some(&new)) => format!("{} is new", line(new)),
            (None, None) => return None,
        })
    });
    let with_pins = changes.gone_with_pins.iter();
    told.chain(with_pins.map(|line| format!("{line} is gone")))
        .collect()
}

/// The lines of a stored rendering that has some, held to the original's.
pub fn in_rendering(changes: &Changes, original: &Block, rendering: &Block) -> Told {
    let names = original.input_names();
    let own = changes.new.iter();
    let own = own.map(|line| format!("its {} is not the original's", line.never_line(&names)));
    let gone = changes.gone.iter();
    let gone = gone.map(|line| format!("the original's {} is not in it", line.never_line(&names)));
    let told = counted(own.chain(gone), changes, rendering);
    (told, fields(changes, &names))
}

/// The differences, and how many settings a block's lines exclude.
fn counted(told: impl Iterator<Item = String>, changes: &Changes, block: &Block) -> String {
    let (excluded, all) = (block.excluded_settings(), 1 << block.inputs());
    let same = if changes.same_settings {
        "the same "
    } else {
        ""
    };
    let verb = if excluded == 1 { "is" } else { "are" };
    format!(
        "{}: {same}{excluded} of {all} settings {verb} promised never to come",
        told.collect::<Vec<String>>().join("; ")
    )
}

fn fields(changes: &Changes, names: &[String]) -> Vec<(String, Json)> {
    let listed =
        |lines: &[Assignment]| Json::List(lines.iter().map(|&line| pins(line, names)).collect());
    let mut fields = object([
        ("gone", listed(&changes.gone)),
        ("new", listed(&changes.new)),
    ]);
    if !changes.gone_with_pins.is_empty() {
        let lines = Json::texts(&changes.gone_with_pins);
        fields.extend(object([("gone_with_pins", lines)]));
    }
    fields
}
