//! A shuffled problem put in order: chains of the slots that read each node, and the ready nodes as bits of 16 words.

use crate::layout::{
    check, check_kind, field, kind, operands, parts, root, Node, Refusal, HEADER, MOST_NODES, MOST_ROOTS,
    NODE,
};

/// No new id yet.
const NONE: u16 = u16::MAX;

/// The longest file.
const LONGEST: usize = HEADER + NODE * MOST_NODES + 2 * MOST_ROOTS;

/// The file in order at the beginning of `out`, and the old id of each new one at that of `map`; or the first refusal.
pub fn mend(bytes: &[u8], out: &mut [u8], map: &mut [u16]) -> Result<(), Refusal> {
    let refuse = |number, place| Err(Refusal { number, place });
    let problem = parts(bytes).map_err(|number| Refusal { number, place: 0 })?;
    let nodes = problem.nodes;
    for (place, node) in nodes.iter().enumerate() {
        check_kind(node).map_err(|number| Refusal { number, place })?;
    }
    if let Some(place) = nodes.iter().position(|node| named(node).any(|id| id >= nodes.len())) {
        return refuse(21, place);
    }
    let (mut news, mut olds) = ([NONE; MOST_NODES], [0; MOST_NODES]);
    place(nodes, &mut news, &mut olds);
    let (news, olds) = (&news[..nodes.len()], &olds[..nodes.len()]);
    if let Some(place) = news.iter().position(|&new| new == NONE) {
        return refuse(22, place);
    }
    let mut file = [0; LONGEST];
    let file = &mut file[..bytes.len()];
    write(bytes, nodes, news, olds, file);
    match check(file) {
        Err(Refusal { number: number @ ..=12, place }) => return refuse(number, olds[place].into()),
        Err(refusal) => return Err(refusal),
        Ok(_) => {}
    }
    if out.len() < file.len() || map.len() < nodes.len() {
        return refuse(25, 0);
    }
    out[..file.len()].copy_from_slice(file);
    map[..nodes.len()].copy_from_slice(olds);
    Ok(())
}

/// The ids of a node's operands.
#[inline]
fn named(node: &Node) -> impl Iterator<Item = usize> + '_ {
    (0..operands(kind(node))).map(|position| field(node, position))
}

/// Places what can be: always the lowest node that is ready.
fn place(nodes: &[Node], news: &mut [u16; MOST_NODES], olds: &mut [u16; MOST_NODES]) {
    let (mut heads, mut nexts) = ([0u16; MOST_NODES], [0u16; 3 * MOST_NODES]);
    let mut ready = [0u64; MOST_NODES / 64];
    for (id, node) in nodes.iter().enumerate() {
        for (position, operand) in named(node).enumerate() {
            let slot = 3 * id + position;
            nexts[slot] = std::mem::replace(&mut heads[operand], slot as u16 + 1);
        }
        if operands(kind(node)) == 0 {
            ready[id / 64] |= 1 << (id % 64);
        }
    }
    let mut number = 0;
    while let Some(word) = ready.iter().position(|&word| word != 0) {
        let id = 64 * word + ready[word].trailing_zeros() as usize;
        ready[word] &= ready[word] - 1;
        news[id] = number;
        olds[usize::from(number)] = id as u16;
        number += 1;
        let mut at = heads[id];
        while at > 0 {
            let reader = usize::from(at - 1) / 3;
            if named(&nodes[reader]).all(|operand| news[operand] != NONE) {
                ready[reader / 64] |= 1 << (reader % 64);
            }
            at = nexts[usize::from(at - 1)];
        }
    }
}

/// The header, the nodes in their order, the roots; operands and roots renumbered.
fn write(bytes: &[u8], nodes: &[Node], news: &[u16], olds: &[u16], file: &mut [u8]) {
    let new = |id: usize| news.get(id).copied().unwrap_or(id as u16).to_le_bytes();
    file.copy_from_slice(bytes);
    let (head, roots) = file.split_at_mut(HEADER + NODE * nodes.len());
    for (part, &old) in head[HEADER..].as_chunks_mut::<NODE>().0.iter_mut().zip(olds) {
        *part = nodes[usize::from(old)];
        for position in 0..operands(kind(part)) {
            let id = new(field(part, position));
            part[2 + 2 * position..][..2].copy_from_slice(&id);
        }
    }
    roots.as_chunks_mut::<2>().0.iter_mut().for_each(|entry| *entry = new(root(entry)));
}
