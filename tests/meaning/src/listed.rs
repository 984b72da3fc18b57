//! What a partly eliminated list accepts [8.31, 8.32].

use crate::language::{all_filled, Language, Limit, TooMany};
use independent::elimination::{ListRow, FINAL};
use independent::sets;
use independent::table::Node;

/// The trees that a list accepts, by levels that begin with nothing: in the next level a target has what its rows denote, every open hole
/// filled with trees that its state had in this level. Levels only grow; the accepted trees are those of the added target in the last one.
/// `denoted` are the trees of the nodes.
pub fn accepted_by_list(nodes: &[Node], denoted: &[Language], rows: &[ListRow], limit: Limit) -> Result<Language, TooMany> {
    let mut level: Vec<Language> = vec![Language::new(); FINAL + 1];
    loop {
        let next = next_level(&level, nodes, denoted, rows, limit)?;
        assert!(level.iter().zip(&next).all(|(now, then)| now.is_subset(then)), "a level lost a tree");
        if next == level {
            return Ok(level.swap_remove(FINAL));
        }
        level = next;
    }
}

fn next_level(
    level: &[Language],
    nodes: &[Node],
    denoted: &[Language],
    rows: &[ListRow],
    limit: Limit,
) -> Result<Vec<Language>, TooMany> {
    let mut next: Vec<Language> = vec![Language::new(); FINAL + 1];
    for row in rows {
        let open = nodes[row.node].open;
        let choices = |hole: u8| sets::has(open, hole as u32).then(|| &level[hole as usize]);
        next[row.target].extend(all_filled(&denoted[row.node], choices, limit)?);
        limit.check(&next[row.target])?;
    }
    Ok(next)
}
