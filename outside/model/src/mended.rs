//! The mender (document 02, R-12): "it reorders nodes so that operands come first, always placing the lowest old id
//! that is ready; renumbers operands and roots; and writes, for each new id, the old id in 16 bits".

use crate::problem::{node_of, operator, parts, read, Node, Refusal, HEADER};
use crate::Kind;

/// A file in order, and for each new id the old one.
#[derive(Clone, Debug, PartialEq, Eq)]
pub struct Mended {
    pub bytes: Vec<u8>,
    pub map: Vec<u16>,
}

/// The file in order, or the first refusal. `room` bytes are lent for the file, and `rows` entries for the map.
pub fn mend(bytes: &[u8], room: usize, rows: usize) -> Result<Mended, Refusal> {
    let refuse = |number, place| Err(Refusal { number, place });
    let nodes = nodes(bytes)?;
    let count = nodes.len();
    let astray = |&id: &usize| nodes[id].operands().iter().any(|&operand| usize::from(operand) >= count);
    if let Some(id) = (0..count).find(astray) {
        return refuse(21, id);
    }
    let (map, new) = order(&nodes);
    if let Some(id) = new.iter().position(Option::is_none) {
        return refuse(22, id);
    }
    // An id that no node has stays, and 13 sees it.
    let new = |id: u16| new.get(usize::from(id)).copied().flatten().unwrap_or(id);
    let mended = Mended { bytes: written(bytes, &nodes, &map, new)?, map };
    match read(&mended.bytes) {
        Err(Refusal { number: number @ 10..=12, place }) => refuse(number, mended.map[place].into()),
        Err(refusal) => Err(refusal),
        Ok(_) if room < bytes.len() || rows < count => refuse(25, 0),
        Ok(_) => Ok(mended),
    }
}

/// The nodes wherever they stand, or the first refusal: 1 to 6, then 7, 8 and 20 node by node.
fn nodes(bytes: &[u8]) -> Result<Vec<Node>, Refusal> {
    let parts = parts(bytes)?;
    let node = |(place, part): (usize, &&[u8])| node_of(part).map_err(|number| Refusal { number, place });
    parts.nodes.iter().enumerate().map(node).collect()
}

/// The old ids in the order of their placing, and for each old id its new one if it has any.
fn order(nodes: &[Node]) -> (Vec<u16>, Vec<Option<u16>>) {
    let (mut map, mut new) = (Vec::new(), vec![None; nodes.len()]);
    let ready = |new: &[Option<u16>], id: usize| {
        new[id].is_none() && nodes[id].operands().iter().all(|&operand| new[usize::from(operand)].is_some())
    };
    while let Some(id) = (0..nodes.len()).find(|&id| ready(&new, id)) {
        new[id] = Some(map.len() as u16);
        map.push(id as u16);
    }
    (map, new)
}

/// The bytes with the nodes in the map's order, and with operands and roots renumbered.
fn written(bytes: &[u8], nodes: &[Node], map: &[u16], new: impl Fn(u16) -> u16) -> Result<Vec<u8>, Refusal> {
    let parts = parts(bytes)?;
    let mut written = bytes[..HEADER].to_vec();
    for &old in map {
        let mut part = parts.nodes[usize::from(old)].to_vec();
        for (position, &operand) in nodes[usize::from(old)].operands().iter().enumerate() {
            part[2 + 2 * position..][..2].copy_from_slice(&new(operand).to_le_bytes());
        }
        written.extend(part);
    }
    written.extend(parts.roots.iter().flat_map(|&root| new(root).to_le_bytes()));
    Ok(written)
}

/// Whether values, one for each old id, solve a file whose nodes stand in any order but for its roots: every node's
/// value is what its operator gives from its operands' values, wherever they stand.
pub fn holds(bytes: &[u8], values: &[u64]) -> bool {
    let Ok(nodes) = nodes(bytes) else {
        return false;
    };
    nodes.iter().zip(values).all(|(node, &value)| match node.kind {
        Kind::Variable => node.pair.agrees(value),
        Kind::Constant => node.pair.lo == value,
        _ => {
            let mut operands = [0; 3];
            for (place, &id) in operands.iter_mut().zip(node.operands()) {
                *place = values[usize::from(id)];
            }
            operator(node, &nodes).apply(operands) == value
        }
    })
}

#[cfg(test)]
mod tests {
    use super::*;
    use crate::problem::Problem;
    use crate::Pair;

    fn node(kind: Kind, width: u32, fields: [u16; 3]) -> Node {
        let hi = if kind == Kind::Variable { crate::ones(width) } else { 0 };
        Node { kind, width, fields, pair: Pair { lo: 0, hi } }
    }

    fn file(nodes: &[Node], roots: &[u16]) -> Vec<u8> {
        Problem { nodes: nodes.to_vec(), roots: roots.to_vec() }.bytes()
    }

    fn var4() -> Node {
        node(Kind::Variable, 4, [0; 3])
    }

    fn not4(a: u16) -> Node {
        node(Kind::Not, 4, [a, 0, 0])
    }

    #[test]
    fn operands_come_first_and_roots_follow_their_nodes() {
        let turned = file(&[node(Kind::Eq, 1, [2, 1, 0]), var4(), var4()], &[0]);
        let righted = file(&[var4(), var4(), node(Kind::Eq, 1, [1, 0, 0])], &[2]);
        assert_eq!(mend(&turned, 83, 3), Ok(Mended { bytes: righted.clone(), map: vec![1, 2, 0] }));
        assert_eq!(mend(&righted, 83, 3), Ok(Mended { bytes: righted.clone(), map: vec![0, 1, 2] }));
        assert!(holds(&turned, &[1, 7, 7]) && !holds(&turned, &[1, 7, 8]));
    }

    /// 0 and 2 become ready in turn, each before 4: not by levels, always the lowest.
    #[test]
    fn always_the_lowest_that_is_ready() {
        let turns = file(&[not4(3), var4(), not4(0), not4(1), var4()], &[]);
        assert_eq!(mend(&turns, 200, 5).map(|mended| mended.map), Ok(vec![1, 3, 0, 2, 4]));
    }

    #[test]
    fn refusals() {
        let refused = |bytes: &[u8], room, rows| mend(bytes, room, rows).unwrap_err();
        let at = |number, place| Refusal { number, place };
        // 1 and 2 read each other; 0 is on no circle, and can never be placed all the same.
        assert_eq!(refused(&file(&[not4(1), not4(2), not4(1)], &[]), 0, 0), at(22, 0));
        assert_eq!(refused(&file(&[var4(), not4(1)], &[]), 0, 0), at(22, 1));
        assert_eq!(refused(&file(&[not4(9), not4(1)], &[]), 0, 0), at(21, 0));
        // Old node 0 is node 1 of the mended file.
        assert_eq!(refused(&file(&[node(Kind::Not, 5, [1, 0, 0]), var4()], &[]), 0, 0), at(11, 0));
        assert_eq!(refused(&file(&[var4()], &[3, 0]), 0, 0), at(13, 0));
        assert_eq!(refused(&file(&[var4()], &[]), 32, 1), at(25, 0));
        assert_eq!(refused(&file(&[var4()], &[]), 33, 0), at(25, 0));
        // Extract's lowest bit is no operand, however high.
        let part = Node { pair: Pair::default(), ..node(Kind::Extract, 1, [1, 3, 0]) };
        assert_eq!(mend(&file(&[part, var4()], &[0]), 59, 2).map(|mended| mended.map), Ok(vec![1, 0]));
    }
}
