//! How a refusal is told: as compilers do, with the line and a caret where there is a place.

use unloop::{circle, hint, visible, Assignment, Block, Location, Names, Refusal, Value};

/// The entries of a cover that are told.
pub const ENTRIES_TOLD: usize = 8;

/// The refusal that the program's output is, if it is one. No rendering begins so.
pub fn refusal_in(output: &[u8]) -> Result<Option<Refusal>, String> {
    if !output.starts_with(b"(refused ") {
        return Ok(None);
    }
    let refusal = Refusal::of_line(output);
    let strange = || "the program's answer is no refusal that is known here".to_string();
    refusal.map(Some).ok_or_else(strange)
}

/// The lines that tell of a refusal: the place, the word, and behind it what helps.
pub fn report(refusal: Refusal, name: &str, text: &[u8]) -> Vec<String> {
    let word = match hint(refusal, text) {
        Some(hint) => format!("{}: {hint}", refusal.word()),
        None => refusal.word().to_string(),
    };
    if let Some(place) = refusal.place() {
        let Location { row, column, line } = Location::of(text, place);
        return vec![
            format!("{name}:{row}:{column}: {word}"),
            visible(line),
            " ".repeat(visible(&line[..column - 1]).len()) + "^",
        ];
    }
    let mut lines = vec![format!("{name}: {word}")];
    if let Ok(block) = Block::read(text) {
        let setting = unsettled(refusal, &block);
        let told = |setting| settings_told(&block, setting, text, &Names::default());
        lines.extend(setting.map_or_else(Vec::new, told));
        let exclusions = exclusions(&block).into_iter();
        lines.extend(exclusions.map(|line| format!("  {line}")));
    }
    lines
}

/// The lowest setting of a refused block that isn't settled, if there is one: 8 comes before 9 and must not hide it.
pub fn unsettled(refusal: Refusal, block: &Block) -> Option<usize> {
    match refusal {
        Refusal::TooManyCopies => block.verdict().lowest_unsettled,
        _ => refusal.setting(),
    }
}

/// What is told of a text that was rendered: the settings that its never lines exclude, if any.
pub fn notes(name: &str, text: &[u8]) -> Vec<String> {
    let block = Block::read(text);
    block.map_or(Vec::new(), |block| notes_of(name, &block))
}

/// The same of its block.
pub fn notes_of(name: &str, block: &Block) -> Vec<String> {
    let lines = exclusions(block).into_iter();
    lines.map(|line| format!("{name}: {line}")).collect()
}

/// Where never lines exclude a setting: how many settle and how many are excluded, and a warning where these are all.
pub fn exclusions(block: &Block) -> Vec<String> {
    if block.excluded_settings() == 0 {
        return Vec::new();
    }
    let mut lines = vec![format!("settled settings: {}", block.settled_in_words())];
    lines.extend(warning(block).map(|why| format!("warning: {why}")));
    lines
}

/// That never lines exclude every setting, in words.
pub fn warning(block: &Block) -> Option<String> {
    let all = 1 << block.inputs();
    (block.excluded_settings() == all).then(|| {
        format!("all {all} settings are promised never to come, so nothing is said of any output")
    })
}

/// The setting that isn't settled, the outputs undefined under it, the gates that wait for each other, and what settles, by the names of
/// the pins, or by those that they had elsewhere.
pub fn settings_told(block: &Block, setting: usize, text: &[u8], names: &Names) -> Vec<String> {
    let pins = block.input_names().into_iter();
    let pins: Vec<String> = pins.map(|pin| other(names.input(&pin), &pin)).collect();
    let under = match pins.is_empty() {
        true => String::new(),
        false => {
            let setting = block.assignment(setting).unwrap_or_default();
            format!(" with {}", setting.pins(&pins))
        }
    };
    let ports = undefined(block, setting).into_iter();
    let ports: Vec<String> = ports.map(|port| other(names.port(&port), &port)).collect();
    let mut lines = vec![format!(
        "  not settled{under}: {} undefined",
        ports.join(", ")
    )];
    let gates = circle(text, setting).into_iter();
    let gates: Vec<String> = gates.map(|gate| other(names.gate(&gate), &gate)).collect();
    lines.extend(waiting(&gates).map(|circle| format!("  {circle}")));
    let cover = block.cover();
    let told = cover.iter().take(ENTRIES_TOLD);
    lines.extend(told.map(|&entry| {
        let what = match may_come(block, entry) {
            true => "settles",
            false => "never comes",
        };
        format!("  {what} with {}", entry.pins(&pins))
    }));
    if cover.len() > ENTRIES_TOLD {
        lines.push(format!("  and {} more", cover.len() - ENTRIES_TOLD));
    }
    if !cover.iter().any(|&entry| may_come(block, entry)) {
        lines.push("  settles under no setting".to_string());
    }
    lines
}

/// A name, where there is one, or else the other.
pub fn other(name: Option<&str>, otherwise: &str) -> String {
    name.unwrap_or(otherwise).to_string()
}

/// As `up waits for filter, filter waits for up`; of a long circle its first gates and how many there are.
pub fn waiting(circle: &[String]) -> Option<String> {
    let (first, count) = (circle.first()?, circle.len());
    if count == 1 {
        return Some(format!("{first} waits for itself"));
    }
    let next = circle.iter().cycle().skip(1);
    let waits = circle.iter().zip(next).take(ENTRIES_TOLD);
    let told: Vec<String> = waits
        .map(|(gate, next)| format!("{gate} waits for {next}"))
        .collect();
    let more = match count > ENTRIES_TOLD {
        true => format!(", and so on: {count} gates in a circle"),
        false => String::new(),
    };
    Some(told.join(", ") + &more)
}

/// Whether some setting that agrees with an assignment is not excluded by a never line.
fn may_come(block: &Block, assignment: Assignment) -> bool {
    let nevers = block.never_lines();
    let mut settings = (0..1 << block.inputs()).filter(|&setting| assignment.agrees(setting));
    settings.any(|setting| !nevers.iter().any(|never| never.agrees(setting)))
}

/// The outputs that show no value under a setting.
pub fn undefined(block: &Block, setting: usize) -> Vec<String> {
    let shown = block
        .setting(setting)
        .and_then(|setting| block.shown(&setting));
    let ports = block
        .output_names()
        .into_iter()
        .zip(shown.unwrap_or_default());
    ports
        .filter(|(_, value)| *value == Value::Undefined)
        .map(|(port, _)| port)
        .collect()
}

/// The pins of a setting, as `a = 1, b = 0`.
pub fn pins_of(block: &Block, setting: usize) -> String {
    let pins = block.assignment(setting).unwrap_or_default();
    pins.pins(&block.input_names())
}
