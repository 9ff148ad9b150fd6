//! The lines of a file, joined where they go on.

/// The words of a line that has some, with the numbers, from 1, of the first and the last line of the file that it stands on.
pub struct LogicalLine<'a> {
    pub first: usize,
    pub last: usize,
    pub words: Vec<&'a str>,
}

/// The lines that have words, joined: a comment ends with its line; a backslash at the end of what is left joins the next line.
pub fn logical_lines(text: &str) -> Vec<LogicalLine<'_>> {
    let mut lines: Vec<LogicalLine> = Vec::new();
    let mut goes_on = false;
    for (line, number) in text.lines().zip(1..) {
        let code = line.split('#').next().unwrap_or("").trim_end();
        let cut = code.strip_suffix('\\');
        let words = cut.unwrap_or(code).split_whitespace();
        match lines.last_mut() {
            Some(joined) if goes_on => {
                joined.words.extend(words);
                joined.last = number;
            }
            _ => lines.push(LogicalLine {
                first: number,
                last: number,
                words: words.collect(),
            }),
        }
        goes_on = cut.is_some();
    }
    lines.retain(|line| !line.words.is_empty());
    lines
}
