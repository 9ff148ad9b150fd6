//! The program `bench`, line by line: the netlist read and kept as a list of gates, each set line parsed and settled.

use super::block::{name, Block};
use super::read;
use super::settle::Network;
use std::io::{self, BufRead, Write};

/// Reads the whole input and writes each answer as soon as its line is read.
pub fn bench(mut input: impl BufRead, mut output: impl Write) -> io::Result<()> {
    let netlist = netlist(&mut input)?;
    let mut words = vec![0; 5_268];
    let told = read(&netlist, &mut words);
    if told.number != 0 {
        writeln!(output, "(refused {} {})", told.number, told.detail)?;
        return output.flush();
    }
    words.truncate(told.count);
    let block = Block::of(&words).expect("read");
    let mut network = Network::of(&block);
    let names: Vec<Vec<u8>> = block.names().map(bytes_of).collect();
    let ports = block
        .outputs
        .iter()
        .map(|output| bytes_of(name(&output[..4])));
    let ports: Vec<(Vec<u8>, usize)> = ports.zip(block.shown()).collect();
    let longest = 4 + 13 * names.len() + 2;
    let mut line = Vec::new();
    while next_line(&mut input, &mut line, longest + 1)? {
        match setting(&line, &names) {
            Ok(setting) => {
                network.settle(&setting);
                show(&mut output, &ports, &network.values)?;
            }
            Err((number, detail)) => writeln!(output, "(refused {number} {detail})")?,
        }
        output.flush()?;
    }
    Ok(())
}

/// The lines before the empty one, no more of them than tell that they are too long.
fn netlist(input: &mut impl BufRead) -> io::Result<Vec<u8>> {
    let mut netlist = Vec::new();
    loop {
        let start = netlist.len();
        let left = (61_441_u64).saturating_sub(start as u64);
        io::Read::take(&mut *input, left + 1).read_until(b'\n', &mut netlist)?;
        if netlist.len() == start || netlist.len() > 61_441 {
            return Ok(netlist);
        }
        if netlist.len() == start + 1 && netlist[start] == b'\n' {
            netlist.pop();
            return Ok(netlist);
        }
    }
}

/// The next line with its LF, cut to so many bytes; false at the end of the input.
fn next_line(input: &mut impl BufRead, line: &mut Vec<u8>, most: usize) -> io::Result<bool> {
    line.clear();
    loop {
        let read = input.fill_buf()?;
        if read.is_empty() {
            return Ok(!line.is_empty());
        }
        let end = read.iter().position(|&byte| byte == b'\n');
        let used = end.map_or(read.len(), |place| place + 1);
        let kept = used.min(most - line.len());
        line.extend_from_slice(&read[..kept]);
        input.consume(used);
        if end.is_some() {
            return Ok(true);
        }
    }
}

fn bytes_of(name: u64) -> Vec<u8> {
    let bytes = name.to_le_bytes().into_iter();
    bytes.take_while(|&byte| byte != 0).collect()
}

/// A value for each input, or a refusal's number and detail.
fn setting(line: &[u8], names: &[Vec<u8>]) -> Result<Vec<u8>, (u64, usize)> {
    let pairs = pairs(line, names.len()).map_err(|place| (2, place))?;
    for (i, (_, name, _)) in pairs.iter().enumerate() {
        if pairs[..i].iter().any(|(_, before, _)| before == name) {
            return Err((4, pairs[i].0));
        }
    }
    let mut setting = vec![2; names.len()];
    for (place, name, value) in pairs {
        match names.iter().position(|input| input == name) {
            Some(input) => setting[input] = value,
            None => return Err((5, place)),
        }
    }
    Ok(setting)
}

/// A name's place, the name and its value.
type Pair<'a> = (usize, &'a [u8], u8);

/// The pairs of a line, at most so many, or the place where it is out of form.
fn pairs(line: &[u8], most: usize) -> Result<Vec<Pair<'_>>, usize> {
    let expect = |at: usize, bytes: &[u8]| {
        let wrong = |&i: &usize| line.get(at + i) != Some(&bytes[i]);
        match (0..bytes.len()).find(wrong) {
            Some(i) => Err(at + i),
            None => Ok(at + bytes.len()),
        }
    };
    let mut pairs = Vec::with_capacity(most);
    let mut at = expect(0, b"(set")?;
    while pairs.len() < most && line.get(at) == Some(&b' ') {
        let place = expect(at, b" (")?;
        let is_name = |&b: &u8| b == b'_' || b.is_ascii_lowercase() || b.is_ascii_digit();
        let rest = line[place..].iter().copied().take(8);
        let length = rest.take_while(is_name).count();
        if length == 0 || line[place].is_ascii_digit() {
            return Err(place);
        }
        at = expect(place + length, b" ")?;
        let Some(value @ (b'0' | b'1')) = line.get(at) else {
            return Err(at);
        };
        pairs.push((place, &line[place..place + length], value - b'0'));
        at = expect(at + 1, b")")?;
    }
    at = expect(at, b")\n")?;
    match at == line.len() {
        true => Ok(pairs),
        false => Err(at),
    }
}

fn show(output: &mut impl Write, ports: &[(Vec<u8>, usize)], values: &[u8]) -> io::Result<()> {
    output.write_all(b"(show")?;
    for (port, node) in ports {
        output.write_all(b" (")?;
        output.write_all(port)?;
        output.write_all(&[b' ', b"01u"[usize::from(values[*node])], b')'])?;
    }
    output.write_all(b")\n")
}
