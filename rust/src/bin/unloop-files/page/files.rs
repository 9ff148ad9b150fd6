//! The files beside a netlist's page, in the folder `files`: its text, its rendering, and that in the forms for other tools. Of a netlist
//! that is refused for its loops the forms are of the original, its loops kept. The texts and the table of cells end with `.txt`, so that no audit
//! of a folder above takes them for an entry of a catalogue, and a browser shows them.

use super::entry::Entry;
use super::html::escaped;
use crate::export::made_from;
use crate::looked::looked_at;
use unloop::declarations::gate_names;
use unloop::second_look::{Form, Language};
use unloop::{blif, cell_table, module_name, verilog, Block, Labels};

/// The folder of these files, in that of the page.
pub const FOLDER: &str = "files";

/// A file: its name, what it is, and what is in it.
pub struct Beside {
    pub name: String,
    what: &'static str,
    pub content: Vec<u8>,
}

impl Beside {
    /// Whether it says what the netlist says, if it is in a form for other tools; else an error in words.
    pub fn looked_at(&self, entry: &Entry) -> Result<(), String> {
        let languages = [
            (".v", Language::Verilog),
            (".blif", Language::Blif),
            (".cells.txt", Language::Cells),
        ];
        let ends = |(ending, _): &&(&str, Language)| self.name.ends_with(ending);
        let Some(&(_, language)) = languages.iter().find(ends) else {
            return Ok(());
        };
        let form = Form {
            loops: entry.rendering.is_err(),
            ..Form::rendering(language)
        };
        looked_at(&entry.text, &self.content, form)
            .map_err(|reason| format!("{}: {reason}", self.name))
    }
}

/// The files of a netlist.
pub fn files(entry: &Entry) -> Vec<Beside> {
    let stem = entry.page.trim_end_matches(".html");
    let file = |ending: &str, what: &'static str, content: Vec<u8>| Beside {
        name: format!("{stem}.{ending}"),
        what,
        content,
    };
    let mut files = vec![file("net.txt", "text", entry.text.clone())];
    match (&entry.block, &entry.rendering) {
        (_, Ok(rendering)) => {
            let labels = labels(entry, false);
            let cells = cell_table(rendering, labels.clone()).ok();
            files.push(file("out.txt", "rendering", rendering.write().into_bytes()));
            files.push(file("v", "Verilog", in_verilog(rendering, &labels)));
            files.push(file("blif", "BLIF", blif(rendering, labels).into_bytes()));
            files.extend(cells.map(|cells| file("cells.txt", "cells", cells.into_bytes())));
        }
        (Ok(block), Err(_)) => {
            let labels = labels(entry, true);
            let verilog = in_verilog(block, &labels);
            files.push(file("v", "Verilog of the original", verilog));
            let blif = blif(block, labels).into_bytes();
            files.push(file("blif", "BLIF of the original", blif));
        }
        (Err(_), Err(_)) => {}
    }
    files
}

fn in_verilog(block: &Block, labels: &Labels) -> Vec<u8> {
    verilog(block, labels.clone()).into_bytes()
}

/// What the parts of a netlist are called in other forms: as by `--verilog` and its like.
fn labels(entry: &Entry, original: bool) -> Labels {
    let gates = if original {
        gate_names(&entry.text)
    } else {
        Vec::new()
    };
    Labels {
        made_from: Some(made_from(original, &entry.name)),
        gates,
        ..Labels::from(&module_name(&entry.title))
    }
}

/// The links to them.
pub fn links(files: &[Beside]) -> String {
    let link = |file: &Beside| {
        let name = escaped(&file.name);
        format!("<a href=\"{FOLDER}/{name}\">{}</a>", file.what)
    };
    let links: Vec<String> = files.iter().map(link).collect();
    format!("<p class=\"files\">Files: {}</p>\n", links.join(", "))
}
