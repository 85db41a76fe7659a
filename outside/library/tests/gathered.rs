//! The frame bench on three variables of which each start is a model, and refusals 23, 24 and 26. What is kept is worked out
//! by hand, not by the model.

use walumpeh::{gather, raw, Gathered, Refusal, MOST_KEPT};

/// 0, 1 and 2 variables (8 bits, all free), 3 constant 0, 4 constant 0 of 1 bit, 5 not of it; root 5.
fn problem() -> Vec<u8> {
    let node = |kind: u8, width: u8, a: u16, hi: u64| {
        [&[kind, width][..], &a.to_le_bytes(), &[0; 12], &hi.to_le_bytes()].concat()
    };
    let variable = node(0, 8, 0, 255);
    let nodes =
        [variable.clone(), variable.clone(), variable, node(1, 8, 0, 0), node(1, 1, 0, 0), node(2, 1, 4, 0)];
    [b"TBV\x01\0\x06\0\x01\0".to_vec(), nodes.concat(), vec![5, 0]].concat()
}

const NODES: usize = 6;

/// What is gathered from starts with these values of the three variables, and what was kept of them.
fn gathered(starts: &[[u64; 3]], names: &[u16]) -> (Gathered, Vec<[u64; 3]>) {
    let mut values: Vec<u64> = starts.iter().flat_map(|&[x, y, z]| [x, y, z, 9, 9, 9]).collect();
    let mut kept = vec![77; MOST_KEPT * NODES + 2];
    let (lengths, budgets) = (vec![0; starts.len()], vec![0; starts.len()]);
    let gathered = gather(&problem(), &mut values, &[], &lengths, &budgets, names, &mut kept).unwrap();
    let (solutions, rest) = kept.split_at(gathered.kept * NODES);
    assert!(rest.iter().all(|&place| place == 77));
    assert!(solutions.chunks(NODES).all(|solution| solution[3..] == [0, 0, 1]));
    (gathered, solutions.chunks(NODES).map(|solution| [solution[0], solution[1], solution[2]]).collect())
}

fn counts(gathered: &Gathered) -> [u64; 3] {
    [gathered.kept as u64, gathered.repeats, gathered.unkept]
}

#[test]
fn the_named_variables_alone_tell_solutions_apart() {
    let starts = [[1, 2, 3], [1, 2, 4], [2, 2, 3], [1, 3, 3], [1, 2, 5]];
    let (found, kept) = gathered(&starts, &[0]);
    assert_eq!((counts(&found), kept), ([2, 3, 0], vec![[1, 2, 3], [2, 2, 3]]));
    let (found, kept) = gathered(&starts, &[1, 0]);
    assert_eq!((counts(&found), kept), ([3, 2, 0], vec![[1, 2, 3], [2, 2, 3], [1, 3, 3]]));
    let (found, kept) = gathered(&starts, &[2, 1, 0]);
    assert_eq!((counts(&found), kept), ([5, 0, 0], starts.to_vec()));
    // 256 does not fit x: that start is passed over.
    let (found, kept) = gathered(&[[1, 0, 0], [256, 0, 0], [2, 0, 0]], &[0]);
    assert_eq!((counts(&found), kept), ([2, 0, 0], vec![[1, 0, 0], [2, 0, 0]]));
    assert_eq!(found.answers[1], Err(Refusal { number: 15, place: 0 }));
    assert_eq!(counts(&gathered(&[], &[0]).0), [0, 0, 0]);
}

/// A repeat is one whether there is room or not; what is unkept may come again and is unkept again.
#[test]
fn sixty_four_are_kept() {
    let different: Vec<[u64; 3]> = (0..70).map(|x| [x, 0, 0]).collect();
    let again = [[0, 1, 1], [63, 1, 1], [69, 0, 0]];
    let (found, kept) = gathered(&[&different[..], &again].concat(), &[0]);
    assert_eq!((counts(&found), kept), ([64, 2, 7], different[..64].to_vec()));
}

/// The refusal of a call with two starts, which must change nothing but `out`.
#[track_caller]
fn refused(names: &[u16], places: usize, tape_length: u64) -> u64 {
    let (mut values, mut kept) = ([3; 2 * NODES], vec![77; places]);
    let (mut answers, mut out) = ([7; 2 * raw::ANSWER], [7; 4]);
    let (lengths, budgets) = ([0, tape_length], [0, 0]);
    let refusal = raw::gather(
        &problem(),
        2,
        &mut values,
        &[],
        &lengths,
        &budgets,
        names,
        &mut kept,
        &mut answers,
        &mut out,
    );
    assert_eq!((values, answers, out), ([3; 2 * NODES], [7; 2 * raw::ANSWER], [0, 0, 0, 7]));
    assert!(kept.iter().all(|&place| place == 77));
    refusal
}

#[test]
fn calls_that_are_refused() {
    let enough = MOST_KEPT * NODES;
    assert_eq!(refused(&[], enough, 0), 23, "no name");
    assert_eq!(refused(&[0; 9], enough, 0), 23, "nine names");
    assert_eq!(refused(&[0; 8], enough, 0), 24, "a name eight times");
    assert_eq!(refused(&[2, 1, 2], enough, 0), 24, "a name twice");
    assert_eq!(refused(&[3], enough, 0), 24, "a constant");
    assert_eq!(refused(&[0, 6], enough, 0), 24, "no node");
    assert_eq!(refused(&[0], enough - 1, 0), 26, "a place too few");
    assert_eq!(refused(&[], 0, 0), 23, "23 and 26");
    assert_eq!(refused(&[5], 0, 0), 24, "24 and 26");
    assert_eq!(refused(&[], 0, 1), 18, "18, 23 and 26");
}
