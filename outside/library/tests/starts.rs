//! Many starts at once on the worked example, x · 6 = 2 on 4 bits, and refusals 17 to 19. The answers are worked out by hand,
//! not by the model.

use walumpeh::{batch, raw, Answer, Refusal, Verdict};

/// 0 variable (4 bits, all free), 1 constant 6, 2 mul of 0 and 1, 3 constant 2, 4 eq of 2 and 3; root 4.
fn problem() -> Vec<u8> {
    let node = |kind: u8, width: u8, a: u16, b: u16, lo: u64, hi: u64| {
        let fields = [a, b, 0].map(u16::to_le_bytes);
        [&[kind, width], fields.as_flattened(), &lo.to_le_bytes(), &hi.to_le_bytes()].concat()
    };
    let nodes = [
        node(0, 4, 0, 0, 0, 15),
        node(1, 4, 0, 0, 6, 6),
        node(6, 4, 0, 1, 0, 0),
        node(1, 4, 0, 0, 2, 2),
        node(9, 1, 2, 3, 0, 0),
    ];
    [b"TBV\x01\0\x05\0\x01\0".to_vec(), nodes.concat(), vec![4, 0]].concat()
}

/// The words of one move, from eq to mul to the variable, which takes 11.
const MOVE: [u64; 5] = [0, 0, 9, 0, 4];

fn answer(verdict: Verdict, moves: u64, evaluated: u64) -> Result<Answer, Refusal> {
    Ok(Answer { verdict, moves, steps: 2 * moves, words: 5 * moves, evaluated })
}

#[test]
fn each_start_has_its_own_places_words_and_budget() {
    let starts = [[0; 5], [16, 0, 0, 0, 0], [3, 0, 0, 0, 0], [1, 0, 0, 0, 0], [2, 0, 0, 0, 0]];
    let mut values = [starts.concat(), vec![77; 3]].concat();
    // The second start is refused and skips its words; the fourth has too few; the fifth has no budget.
    let tape = [&MOVE[..], &[9; 4], &[], &MOVE[..4], &MOVE[..]].concat();
    let answers = batch(&problem(), &mut values, &tape, &[5, 4, 0, 4, 5], &[1, 1, 9, 1, 0]).unwrap();
    assert_eq!(
        answers,
        [
            answer(Verdict::Model, 1, 5 + 3),
            Err(Refusal { number: 15, place: 0 }),
            answer(Verdict::Model, 0, 5),
            answer(Verdict::Ended, 0, 5),
            answer(Verdict::Spent, 0, 5),
        ]
    );
    let after = [[11, 6, 2, 2, 1], [16, 0, 0, 0, 0], [3, 6, 2, 2, 1], [1, 6, 6, 2, 0], [2, 6, 12, 2, 0]];
    assert_eq!(values, [after.concat(), vec![77; 3]].concat());
}

/// The refusal of a whole call, which must change nothing.
#[track_caller]
fn refused(starts: u64, places: usize, tape: &[u64], lengths: &[u64], budgets: &[u16]) -> u64 {
    let (mut values, mut answers) =
        (vec![3; places], vec![7; raw::ANSWER * lengths.len().max(starts as usize)]);
    let refusal = raw::batch(&problem(), starts, &mut values, tape, lengths, budgets, &mut answers);
    assert!(values.iter().all(|&value| value == 3) && answers.iter().all(|&word| word == 7));
    refusal
}

#[test]
fn calls_that_are_refused_as_a_whole() {
    assert_eq!(refused(257, 257 * 5, &[], &[0; 257], &[0; 257]), 17, "257 starts");
    assert_eq!(refused(2, 10, &[], &[0; 3], &[0; 2]), 17, "a length too many");
    assert_eq!(refused(2, 10, &[], &[0; 2], &[0]), 17, "a budget too few");
    assert_eq!(refused(0, 10, &[], &[0], &[0]), 17, "lists for no start");
    assert_eq!(refused(1, 0, &[], &[1], &[]), 17, "17, 18 and 19");
    assert_eq!(refused(2, 10, &[0; 9], &[5, 5], &[0; 2]), 18, "a word too few");
    assert_eq!(refused(2, 10, &[0; 9], &[1 << 63, 1 << 63], &[0; 2]), 18, "a sum of 2^64");
    assert_eq!(refused(2, 10, &[0; 9], &[u64::MAX, 2], &[0; 2]), 18, "a sum of 2^64 + 1");
    assert_eq!(refused(2, 9, &[0; 9], &[5, 5], &[0; 2]), 18, "18 and 19");
    assert_eq!(refused(2, 9, &[0; 9], &[5, 4], &[0; 2]), 19, "a place too few");
    assert_eq!(refused(1, 0, &[], &[0], &[0]), 19, "no place");
}

#[test]
fn no_start_most_starts_and_too_few_words_for_the_answers() {
    assert_eq!(batch(&problem(), &mut [], &[1, 2], &[], &[]), Ok(vec![]));
    let mut values = [3, 0, 0, 0, 0].repeat(256);
    let answers = batch(&problem(), &mut values, &[], &[0; 256], &[1; 256]).unwrap();
    assert_eq!(answers, vec![answer(Verdict::Model, 0, 5); 256]);
    assert_eq!(values, [3, 6, 2, 2, 1].repeat(256));
    let (mut values, mut short) = ([3; 10], [7; 2 * raw::ANSWER - 1]);
    assert_eq!(raw::batch(&problem(), 2, &mut values, &[], &[0; 2], &[1; 2], &mut short), raw::TOO_SHORT);
    assert_eq!(raw::batch(&[], u64::MAX, &mut values, &[], &[], &[], &mut short), raw::TOO_SHORT);
    assert_eq!((values, short), ([3; 10], [7; 2 * raw::ANSWER - 1]));
}
