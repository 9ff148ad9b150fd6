//! What an archive of stored blocks takes, packed by gzip and xz, before and after Gather: is a block with the gates of each group side by
//! side the smaller one? The list of old numbers is what the way back needs, and is packed beside it.

use crate::inputs::{catalogue, large_blocks, typical_blocks, Set};
use std::io::Write;
use std::process::{Command, Stdio};
use unloop::Block;

/// The packers, each with the words that make it pack standard input best.
const PACKERS: [(&str, &[&str]); 2] = [("gzip", &["-9nc"]), ("xz", &["-9ec"])];
/// The typical blocks of an archive.
const TYPICAL: u64 = 200;

/// Prints the sizes of each archive as Markdown.
pub fn print() {
    println!("Bytes of an archive of stored words, packed; `with lists`: with the lists that Scatter needs.\n");
    println!("| archive | blocks | packer | as stored | gathered | change | with lists | change |");
    println!("|---|--:|---|--:|--:|--:|--:|--:|");
    let mut missing = Vec::new();
    let typical = typical_blocks(0..TYPICAL);
    let shuffled = typical
        .iter()
        .zip(0..)
        .map(|(words, seed)| shuffled(words, seed))
        .collect();
    let sets = [
        ("catalogue".to_string(), catalogue()),
        ("typical".to_string(), typical),
        ("typical, shuffled".to_string(), shuffled),
        ("largest".to_string(), large_blocks()),
    ];
    for set in &sets {
        row(set, "none", |bytes| Some(bytes.len()));
        for (packer, words) in PACKERS {
            if !row(set, packer, |bytes| packed(packer, words, bytes)) && !missing.contains(&packer)
            {
                missing.push(packer);
            }
        }
    }
    missing
        .iter()
        .for_each(|packer| println!("\n{packer} is not installed here."));
}

/// Prints one line; not if there is no such packer.
fn row(
    (name, blocks): &Set<Vec<u16>>,
    packer: &str,
    pack: impl Fn(&[u8]) -> Option<usize>,
) -> bool {
    let gathered: Vec<_> = blocks
        .iter()
        .map(|words| Block::from_words(&words[..]).expect("a block").gather())
        .collect();
    let stored = pack(&bytes(blocks.iter().map(|words| &words[..])));
    let after = pack(&bytes(
        gathered.iter().map(|gathered| gathered.block.words()),
    ));
    let lists = gathered
        .iter()
        .flat_map(|gathered| [gathered.block.words(), &gathered.order]);
    let (Some(stored), Some(gathered), Some(with_lists)) = (stored, after, pack(&bytes(lists)))
    else {
        return false;
    };
    let change = |bytes: usize| format!("{:+.1} %", 100.0 * (bytes as f64 / stored as f64 - 1.0));
    println!(
        "| {name} | {} | {packer} | {stored} | {gathered} | {} | {with_lists} | {} |",
        blocks.len(),
        change(gathered),
        change(with_lists)
    );
    true
}

/// The words one after another, two bytes each, the low one first.
fn bytes<'a>(parts: impl Iterator<Item = &'a [u16]>) -> Vec<u8> {
    parts
        .flatten()
        .flat_map(|word| word.to_le_bytes())
        .collect()
}

/// The block with its gates in an order of chance, as one drawn by many hands may have them.
fn shuffled(words: &[u16], seed: u64) -> Vec<u16> {
    let block = Block::from_words(words).expect("a block");
    let order = simulator::generate::Random::new(seed).permutation(block.gates());
    let order: Vec<u16> = order.into_iter().map(|gate| gate as u16).collect();
    block
        .scatter(&order)
        .expect("a permutation")
        .words()
        .to_vec()
}

/// How many bytes a packer makes of these; nothing if there is no such packer.
fn packed(packer: &str, words: &[&str], bytes: &[u8]) -> Option<usize> {
    let mut command = Command::new(packer);
    command
        .args(words)
        .stdin(Stdio::piped())
        .stdout(Stdio::piped());
    let mut child = command.spawn().ok()?;
    let mut input = child.stdin.take().expect("piped");
    // Written beside, since the packer may write before it has read all.
    std::thread::scope(|scope| {
        scope.spawn(move || input.write_all(bytes).expect("a packer that reads"));
        let ended = child.wait_with_output().expect("a packer that ends");
        assert!(ended.status.success(), "{packer}");
        Some(ended.stdout.len())
    })
}
