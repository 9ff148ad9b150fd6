//! index.html: a row for each netlist, which page.js sorts, searches and filters.

use super::entry::Entry;
use super::facts::Facts;
use super::html::{counted, escaped, framed};
use unloop::Block;

/// As `24 netlists: 14 rendered (2 with settings excluded), 9 refused, 1 error`, and of audited ones `; 22 hold, 1 lost` behind it.
pub fn summary(entries: &[&Entry], errors: usize) -> String {
    let rendered = entries.iter().filter(|entry| entry.rendering.is_ok());
    let blocks = rendered.flat_map(|entry| &entry.block);
    let (rendered, limited) = (
        blocks.clone().count(),
        blocks.filter(|block| block.excluded_settings() > 0).count(),
    );
    let limited = match limited {
        0 => String::new(),
        limited => format!(" ({limited} with settings excluded)"),
    };
    let errors_told = match errors {
        0 => String::new(),
        errors => format!(", {}", counted(errors, "error")),
    };
    let facts: Vec<&Facts> = entries
        .iter()
        .filter_map(|entry| entry.facts.as_ref())
        .collect();
    let hold = facts.iter().filter(|facts| facts.hold()).count();
    let audited = match facts.len() {
        0 => String::new(),
        all => format!("; {hold} hold, {} lost", all - hold),
    };
    format!(
        "{}: {rendered} rendered{limited}, {} refused{errors_told}{audited}",
        counted(entries.len() + errors, "netlist"),
        entries.len() - rendered
    )
}

/// The overview; errors are the reasons why files could not be read.
pub fn page(entries: &[Entry], errors: &[String]) -> String {
    let headers = ["Netlist", "State", "Gates", "Loops", "Rendering", "Settled"];
    let headers: String = headers
        .iter()
        .map(|name| format!("<th scope=\"col\"><button type=\"button\">{name}</button></th>"))
        .collect();
    let rows: String = entries.iter().map(row).collect();
    let unread = errors.iter().map(|reason| {
        let reason = escaped(reason);
        format!("<p class=\"warning\">Not on this page: {reason}</p>\n")
    });
    let body = format!(
        "<header>\n<h1>Netlists</h1>\n<p>{}.</p>\n{}</header>\n<main>\n\
         <p class=\"search\"><label for=\"search\">Search</label> <input id=\"search\" type=\"search\" placeholder=\"a name, or a state such as undecided\"> \
         <span id=\"found\" role=\"status\"></span></p>\n{}\
         <table id=\"overview\">\n<thead>\n<tr>{headers}</tr>\n</thead>\n<tbody>\n{rows}</tbody>\n</table>\n\
         <p class=\"note\">Gates: of the original, inner ones counted. Loops: its strongly connected groups that are one. Rendering: the gate lines of the \
         loop-free netlist. Settled: the settings of the pins under which every output is 0 or 1, of those that may come; \
         excluded are those that a never line promises never to come.</p>\n</main>\n",
        escaped(&summary(&entries.iter().collect::<Vec<_>>(), errors.len())),
        unread.collect::<String>(),
        filters(entries)
    );
    framed("Netlists", &body)
}

/// The states that rows are filtered by, with their words: those of the netlist, and those of its facts.
const STATES: [(&str, &[(&str, &str)]); 2] = [
    (
        "State",
        &[
            ("rendered", "rendered"),
            ("excluded", "rendered, settings excluded"),
            ("undecided", "undecided"),
            ("swollen", "swollen"),
            ("illegible", "not read"),
        ],
    ),
    ("Facts", &[("lost", "lost"), ("held", "all hold")]),
];

/// A row's states.
fn states(entry: &Entry) -> Vec<&'static str> {
    let facts = entry.facts.as_ref();
    let facts = facts.map(|facts| if facts.hold() { "held" } else { "lost" });
    entry.states().into_iter().chain(facts).collect()
}

/// A box for each state that some row has, with how many have it.
fn filters(entries: &[Entry]) -> String {
    let group = |(title, listed): (&str, &[(&str, &str)])| {
        let boxes = listed.iter().filter_map(|(state, words)| {
            let has = |entry: &&Entry| states(entry).contains(state);
            let count = entries.iter().filter(has).count();
            (count > 0).then(|| format!("<label><input type=\"checkbox\" name=\"{title}\" value=\"{state}\"> {words} ({count})</label>\n"))
        });
        let boxes: String = boxes.collect();
        match boxes.is_empty() {
            true => String::new(),
            false => format!(
                "<fieldset class=\"filters\">\n<legend>{title}</legend>\n{boxes}</fieldset>\n"
            ),
        }
    };
    STATES.into_iter().map(group).collect()
}

/// A row; a cell's `data-value` is what it is sorted by.
fn row(entry: &Entry) -> String {
    let cell = |label: &str, value: Option<usize>, shown: String| {
        let sorted = value.map_or("-1".to_string(), |value| value.to_string());
        format!("<td data-label=\"{label}\" data-value=\"{sorted}\">{shown}</td>")
    };
    let number = |label: &str, value: Option<usize>| {
        cell(
            label,
            value,
            value.map_or("–".to_string(), |value| value.to_string()),
        )
    };
    let block = entry.block.as_ref().ok();
    let share = block.map(|block| {
        let settled = block.verdict().settled * 1_000_000;
        settled.checked_div(block.settings_that_come()).unwrap_or(0)
    });
    format!(
        "<tr data-states=\"{}\"><th scope=\"row\"><a href=\"{}\">{}</a></th>{}{}{}{}{}</tr>\n",
        states(entry).join(" "),
        escaped(&entry.page),
        escaped(&entry.title),
        state(entry),
        number("Gates", block.map(|block| block.gates())),
        number("Loops", block.map(|block| block.loops().len())),
        number(
            "Rendering",
            entry.rendering.as_ref().ok().map(|block| block.gates())
        ),
        cell(
            "Settled",
            share,
            block.map_or("–".to_string(), Block::settled_in_words)
        ),
    )
}

/// The cell of the state, and whether the stored facts hold; those that are lost are sorted together.
fn state(entry: &Entry) -> String {
    let (class, state) = entry.state();
    let state = escaped(&state);
    let lost = entry.facts.as_ref().is_some_and(|facts| !facts.hold());
    let sorted = if lost { "lost " } else { "" };
    format!(
        "<td data-label=\"State\" data-value=\"{sorted}{state}\"><span class=\"state {class}\">{state}</span>{}</td>",
        entry.badge()
    )
}
