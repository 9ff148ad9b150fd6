//! A netlist's own page: its state, text, drawing, cover, sheet, and its rendering beside it.

use super::facts::Facts;
use super::files::{links, Beside};
use super::html::{counted, escaped, framed};
use super::texts::{refused, Lines};
use super::{drawn, excluded, sheet};
use crate::looked::looked_at;
use crate::report;
use crate::source::Source;
use unloop::second_look::{Form, Language};
use unloop::{Assignment, Block, Location, Refusal};

/// The entries of a cover that are shown.
const ENTRIES_SHOWN: usize = 200;

/// A netlist and what became of it.
pub struct Entry {
    /// The last part of the file's path.
    pub name: String,
    pub title: String,
    /// The file of its page.
    pub page: String,
    pub text: Vec<u8>,
    pub block: Result<Block, Refusal>,
    pub rendering: Result<Block, Refusal>,
    /// What is stored beside it, where that is asked for.
    pub facts: Option<Facts>,
    /// The lowest setting that may come and isn't settled, whatever the block is refused for.
    unsettled: Option<usize>,
}

impl Entry {
    /// Without facts.
    pub fn new(source: &Source, page: &str, text: &[u8]) -> Entry {
        let block = Block::read(text);
        let rendering = block.clone().and_then(|block| block.render());
        let verdict = block.as_ref().map(Block::verdict);
        Entry {
            name: source.last_part(),
            title: source.stem(),
            page: page.to_string(),
            text: text.to_vec(),
            unsettled: verdict.ok().and_then(|verdict| verdict.lowest_unsettled),
            block,
            rendering,
            facts: None,
        }
    }

    /// Whether the rendering that is shown says what the netlist says; else an error in words.
    pub fn looked_at(&self) -> Result<(), String> {
        let Ok(rendering) = &self.rendering else {
            return Ok(());
        };
        let form = Form::rendering(Language::Netlist);
        let looked = looked_at(&self.text, rendering.write().as_bytes(), form);
        looked.map_err(|reason| format!("{}: {reason}", self.name))
    }

    /// Its state as a class and in words; a refusal at a place has its line and column.
    pub fn state(&self) -> (&'static str, String) {
        let refusal = match self.rendering {
            Ok(_) => return self.rendered_state(),
            Err(refusal) => refusal,
        };
        match (refusal, refusal.place()) {
            (_, Some(place)) => {
                let Location { row, column, .. } = Location::of(&self.text, place);
                ("illegible", format!("{} {row}:{column}", refusal.word()))
            }
            (Refusal::TooManyCopies, _) => {
                let hidden = self
                    .unsettled
                    .map(|setting| Refusal::NotSettled { setting });
                let words = [Some(refusal), hidden].into_iter().flatten();
                let words: Vec<&str> = words.map(Refusal::word).collect();
                ("undecided", words.join(", "))
            }
            (Refusal::NotSettled { .. }, _) => ("undecided", refusal.word().to_string()),
            _ => ("illegible", refusal.word().to_string()),
        }
    }

    /// The states by which the overview is filtered; one that is both swollen and undecided has both.
    pub fn states(&self) -> Vec<&'static str> {
        let excluded = |block: &Block| block.excluded_settings() > 0;
        match self.rendering {
            Ok(_) if self.block.as_ref().is_ok_and(excluded) => vec!["excluded"],
            Ok(_) => vec!["rendered"],
            Err(_) if self.block.is_err() => vec!["illegible"],
            Err(Refusal::TooManyCopies) if self.unsettled.is_some() => vec!["swollen", "undecided"],
            Err(refusal) => vec![refusal.word()],
        }
    }

    /// Behind the state, whether the stored facts hold, where that is asked for.
    pub fn badge(&self) -> String {
        let badge = |facts: &Facts| format!(" {}", facts.badge());
        self.facts.as_ref().map_or(String::new(), badge)
    }

    /// The state of a block that was rendered: another one where never lines exclude settings.
    fn rendered_state(&self) -> (&'static str, String) {
        let count = |block: &Block| (block.excluded_settings(), block.settings_that_come());
        match self.block.as_ref().map_or((0, 0), count) {
            (0, _) => ("rendered", "rendered".to_string()),
            (all, 0) => ("vacuous", format!("rendered, all {all} excluded")),
            (some, _) => ("promised", format!("rendered, {some} excluded")),
        }
    }

    /// The state in a sentence or two.
    fn told(&self) -> Vec<String> {
        match (&self.block, &self.rendering) {
            (Ok(block), Ok(rendering)) => vec![format!(
                "{} {}, {}; the loop-free rendering has {}.",
                excluded::told(block),
                counted(block.gates(), "gate"),
                counted(block.loops().len(), "loop"),
                counted(rendering.gates(), "gate line")
            )],
            (_, Err(refusal)) => report::report(*refusal, &self.name, &self.text),
            (Err(_), Ok(_)) => Vec::new(),
        }
    }
}

/// The links to the entry before, the overview and the entry behind.
fn nav(entries: &[Entry], index: usize) -> String {
    let link = |other: Option<&Entry>, word: &str| match other {
        Some(other) => format!(
            "<a rel=\"{word}\" href=\"{}\">{}</a>",
            escaped(&other.page),
            escaped(&other.title)
        ),
        None => "<span></span>".to_string(),
    };
    let before = index.checked_sub(1).map(|before| &entries[before]);
    format!(
        "<nav>{} <a href=\"index.html\">All netlists</a> {}</nav>",
        link(before, "prev"),
        link(entries.get(index + 1), "next")
    )
}

/// The page of an entry. `before`: what it was before, if it was there.
pub fn page(entries: &[Entry], index: usize, files: &[Beside], before: Option<&str>) -> String {
    let (entry, nav) = (&entries[index], nav(entries, index));
    let (class, state) = entry.state();
    let told = entry
        .told()
        .iter()
        .map(|line| escaped(line))
        .collect::<Vec<_>>()
        .join("\n");
    let mut body = format!(
        "<header>\n{nav}\n<h1>{}</h1>\n<p><span class=\"state {class}\">{}</span>{}</p>\n<pre class=\"told\">{told}</pre>\n{}{}</header>\n<main>\n",
        escaped(&entry.title),
        escaped(&state),
        entry.badge(),
        entry.block.as_ref().map_or(String::new(), excluded::paragraph),
        links(files)
    );
    if let Some(facts) = &entry.facts {
        body += &section("Facts", &facts.content());
    }
    if let Ok(block) = &entry.block {
        body += &section("Sheet", &sheet::sheet(block, entry.unsettled));
        body += &section(
            "Drawing",
            &drawn::drawing(block, &entry.text, entry.unsettled, before),
        );
        body += &section("Cover", &cover(block));
    }
    body += &texts(entry);
    framed(&entry.title, &format!("{body}</main>\n"))
}

fn section(title: &str, content: &str) -> String {
    let id = title.to_lowercase();
    format!("<section id=\"{id}\">\n<h2>{title}</h2>\n{content}</section>\n")
}

/// The original, its refusal marked, and the rendering beside it.
fn texts(entry: &Entry) -> String {
    let block = match &entry.block {
        Ok(block) => block,
        Err(refusal) => return section("Text", &refused(&entry.text, *refusal)),
    };
    let rendering = entry.rendering.as_ref().ok();
    let lines = Lines::of(&entry.text, block, rendering);
    let original = section("Text", &lines.original());
    let Some(rendering) = rendering else {
        return original;
    };
    let rendering = section("Rendering", &lines.rendering(rendering));
    format!("<div class=\"beside\">\n{original}{rendering}</div>\n")
}

/// The cover as a table of pins.
fn cover(block: &Block) -> String {
    let (cover, pins) = (block.cover(), block.input_names());
    match cover[..] {
        [] => "<p>Under no setting of the pins that may come does every output settle.</p>\n"
            .to_string(),
        [Assignment { fixed: 0, .. }] => {
            let but = match block.excluded_settings() {
                0 => "",
                _ => " Of the settings that never come nothing is said.",
            };
            format!("<p>Always: no pin needs to be set.{but}</p>\n")
        }
        _ => cover_table(&cover, &pins),
    }
}

/// Its entries, a row each.
fn cover_table(cover: &[Assignment], pins: &[String]) -> String {
    let headers: String = pins
        .iter()
        .map(|pin| format!("<th scope=\"col\">{}</th>", escaped(pin)))
        .collect();
    let cell = |entry: &Assignment, input: usize| match entry.value(input) {
        Some(value) => format!("<td class=\"v{0}\">{0}</td>", u8::from(value)),
        None => "<td class=\"free\">any</td>".to_string(),
    };
    let row = |entry: &Assignment| {
        format!(
            "<tr>{}</tr>\n",
            (0..pins.len())
                .map(|input| cell(entry, input))
                .collect::<String>()
        )
    };
    let rows: String = cover.iter().take(ENTRIES_SHOWN).map(row).collect();
    let more = match cover.len().saturating_sub(ENTRIES_SHOWN) {
        0 => String::new(),
        more => format!("<p>And {more} more; --json tells them all.</p>\n"),
    };
    format!(
        "<p>Every output settles, or the setting never comes, under these settings of the pins and no others.</p>\n\
         <div class=\"scroll\" tabindex=\"0\"><table class=\"pins\">\n<thead><tr>{headers}</tr></thead>\n<tbody>\n{rows}</tbody>\n</table></div>\n{more}"
    )
}
