//! What a block's never lines exclude, told wherever the page says how many settings are settled.

use super::html::escaped;
use crate::report::warning;
use unloop::Block;

/// Of a block that settles wherever it must: under how many settings that is.
pub fn told(block: &Block) -> String {
    let may_come = if block.excluded_settings() == 0 {
        ""
    } else {
        " that may come"
    };
    match block.settings_that_come() {
        0 => "No setting may come.".to_string(),
        1 => format!("Settled under the only setting{may_come}."),
        come => format!("Settled under all {come} settings{may_come}."),
    }
}

/// The never lines as a paragraph, or nothing where there are none. That they exclude every setting is a warning.
pub fn paragraph(block: &Block) -> String {
    let (all, names) = (1 << block.inputs(), block.input_names());
    let lines = block.never_lines().into_iter();
    let lines: Vec<String> = lines
        .map(|line| escaped(&line.never_line(&names)))
        .collect();
    let lines = lines.join("; ");
    match (block.excluded_settings(), warning(block)) {
        (0, _) => String::new(),
        (_, Some(why)) => format!("<p class=\"warning\">Warning: {why} ({lines}).</p>\n"),
        (some, None) => format!("<p class=\"promise\">{some} of {all} settings are promised never to come ({lines}); nothing is said of them.</p>\n"),
    }
}
