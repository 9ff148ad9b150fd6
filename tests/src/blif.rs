//! A second reader of BLIF models, of their tables alone, and what such a model settles to: a table shows 1 where some row agrees, 0 where no
//! row can, and otherwise nothing (or the opposite, where its rows are for 0), until nothing changes.

use crate::values::UNDEFINED;
use std::collections::HashMap;

#[derive(Debug, Default)]
pub struct Blif {
    pub inputs: Vec<String>,
    pub outputs: Vec<String>,
    tables: Vec<Table>,
}

/// Nets, the last of which is driven, and the rows.
type Table = (Vec<String>, Vec<Row>);

/// What a row wants, and what the output is.
type Row = (String, char);

impl Blif {
    pub fn of(text: &str) -> Blif {
        let uncommented = text
            .lines()
            .map(|line| line.split('#').next().unwrap_or(""));
        let joined = uncommented.collect::<Vec<&str>>().join("\n");
        let joined = joined.replace("\\\n", " ");
        let mut blif = Blif::default();
        for line in joined.lines() {
            let words: Vec<String> = line.split_whitespace().map(str::to_string).collect();
            match words.first().map(|word| &word[..]) {
                None | Some(".model" | ".end") => {}
                Some(".inputs") => blif.inputs.extend(words[1..].to_vec()),
                Some(".outputs") => blif.outputs.extend(words[1..].to_vec()),
                Some(".names") => blif.tables.push((words[1..].to_vec(), Vec::new())),
                Some(_) => {
                    let row = words[..words.len() - 1].concat();
                    let shown = words[words.len() - 1].chars().next();
                    let (_, rows) = blif.tables.last_mut().expect("a table");
                    rows.push((row, shown.expect("an output")));
                }
            }
        }
        blif
    }

    /// What the outputs settle to.
    pub fn shown(&self, setting: &[u8]) -> Vec<u8> {
        let inputs = self.inputs.iter().map(|name| &name[..]);
        let mut values: HashMap<&str, u8> = inputs.zip(setting.iter().copied()).collect();
        let mut changed = true;
        while changed {
            changed = false;
            for (nets, rows) in &self.tables {
                let (output, read) = nets.split_last().expect("a net");
                let value = |net: &String| values.get(&net[..]).copied().unwrap_or(UNDEFINED);
                let read: Vec<u8> = read.iter().map(value).collect();
                let told = table(&read, rows);
                changed |= told != UNDEFINED && values.insert(output, told) != Some(told);
            }
        }
        let value = |port: &String| values.get(&port[..]).copied().unwrap_or(UNDEFINED);
        self.outputs.iter().map(value).collect()
    }
}

/// What a table shows for what it reads.
fn table(read: &[u8], rows: &[Row]) -> u8 {
    let Some((_, shown)) = rows.first() else {
        return 0;
    };
    let wants = |(row, _): &Row| {
        let pairs = row.bytes().zip(read).filter(|(wanted, _)| *wanted != b'-');
        let pairs: Vec<(u8, u8)> = pairs
            .map(|(wanted, &value)| (wanted - b'0', value))
            .collect();
        let against = pairs
            .iter()
            .any(|&(wanted, value)| value != UNDEFINED && value != wanted);
        let open = pairs.iter().any(|&(_, value)| value == UNDEFINED);
        match (against, open) {
            (true, _) => 0,
            (false, true) => UNDEFINED,
            (false, false) => 1,
        }
    };
    let told: Vec<u8> = rows.iter().map(wants).collect();
    let some = match (told.contains(&1), told.contains(&UNDEFINED)) {
        (true, _) => 1,
        (false, true) => UNDEFINED,
        (false, false) => 0,
    };
    match (some, shown) {
        (UNDEFINED, _) => UNDEFINED,
        (some, '1') => some,
        (some, _) => 1 - some,
    }
}
