//! Where the facts of today say less than those that are stored: who stores them must mean it.

use super::fact::{refused_with, with};
use super::Entry;
use unloop::audit::{Audit, Cover, Never, Rendering};
use unloop::{Assignment, Block, Refusal};

/// What gets weaker, in words; nothing where every fact of today is as strong as the stored one. What can't be read may have said anything,
/// so that only the strongest fact is as strong.
pub fn weaker(found: &Audit, entry: &Entry, block: &Result<Block, Refusal>) -> Vec<String> {
    let told = [
        rendering(found, entry, block),
        never(&found.never, block),
        cover(&found.cover, block),
    ];
    told.into_iter().flatten().collect()
}

fn rendering(found: &Audit, entry: &Entry, block: &Result<Block, Refusal>) -> Option<String> {
    let refusal = becomes_refusal(found, entry, block)?;
    Some(format!("a rendering becomes {}", refused_with(refusal)))
}

/// The refusal in the place of a stored rendering. One that is accepted stays while all facts hold: some settings may settle.
pub fn becomes_refusal(
    found: &Audit,
    entry: &Entry,
    block: &Result<Block, Refusal>,
) -> Option<Refusal> {
    let refusal_stored = entry.out.as_deref().and_then(Refusal::of_line).is_some();
    if found.netlist_holds() || found.rendering == Rendering::Missing || refusal_stored {
        return None;
    }
    let block = block.as_ref().map_err(|&refusal| refusal);
    block.and_then(Block::render).err()
}

fn never(found: &Never, block: &Result<Block, Refusal>) -> Option<String> {
    let block = block.as_ref().ok()?;
    let (excluded, all) = (block.excluded_settings(), 1 << block.inputs());
    match found {
        Never::Changed(changes) if changes.more_settings => Some(format!(
            "more settings are promised never to come, now {excluded} of {all}"
        )),
        Never::Illegible { line, reason } if excluded > 0 => Some(format!(
            "what the stored never lines say can't be read, line {line}: {reason}"
        )),
        _ => None,
    }
}

fn cover(found: &Cover, block: &Result<Block, Refusal>) -> Option<String> {
    let always = |block: &Block| block.cover() == [Assignment::default()];
    match (found, block) {
        (Cover::Lost { setting }, Ok(block)) => {
            let with = with(block, *setting);
            Some(format!("not settled any more{with}"))
        }
        (Cover::Illegible { line, reason }, Ok(block)) if !always(block) => Some(format!(
            "what the stored cover says can't be read, line {line}: {reason}"
        )),
        (Cover::Original(_), _) => Some("an original that can't be read has no cover".to_string()),
        _ => None,
    }
}
