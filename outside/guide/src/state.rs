//! The values of a search, and what a change would do to them.

use crate::goals::distance;
use crate::nodes::Ready;
use crate::values::value;

/// Values of all nodes under a root, and how far each goal is from being met.
pub struct State<'a> {
    pub ready: &'a Ready,
    pub values: Vec<u64>,
    distances: Vec<u32>,
    /// How much each goal counts.
    pub weights: Vec<u32>,
    /// The sum of distances, each by its weight.
    pub cost: u64,
    /// Which change reached a node last.
    reached: Vec<u32>,
    change: u32,
    nodes_before: Vec<(u16, u64)>,
    goals_before: Vec<(u16, u32)>,
}

impl<'a> State<'a> {
    /// The state of a start: a word for each node, of which the variables' count.
    pub fn new(ready: &'a Ready, start: &[u64]) -> State<'a> {
        let mut state = State {
            ready,
            values: start.to_vec(),
            distances: vec![0; ready.goals.len()],
            weights: vec![1; ready.goals.len()],
            cost: 0,
            reached: vec![0; ready.nodes.len()],
            change: 0,
            nodes_before: Vec::new(),
            goals_before: Vec::new(),
        };
        state.evaluate();
        state.count();
        state
    }

    /// All nodes by the variables' values.
    pub fn evaluate(&mut self) {
        for (id, node) in self.ready.nodes.iter().enumerate() {
            self.values[id] = value(node, self.values[id], &self.values);
        }
    }

    /// Whether every root is 1.
    pub fn is_model(&self) -> bool {
        self.ready.roots.iter().all(|&root| self.values[usize::from(root)] == 1)
    }

    /// All goals anew.
    fn count(&mut self) {
        for (at, &goal) in self.ready.goals.iter().enumerate() {
            self.distances[at] = distance(goal, &self.ready.nodes[usize::from(goal.node)], &self.values);
        }
        self.weigh();
    }

    /// The cost anew, after weights have changed.
    fn weigh(&mut self) {
        let each = self.distances.iter().zip(&self.weights);
        self.cost = each.map(|(&distance, &weight)| u64::from(distance) * u64::from(weight)).sum();
    }

    /// Makes every goal that is not met count more.
    pub fn stress(&mut self) {
        for (weight, &distance) in self.weights.iter_mut().zip(&self.distances) {
            *weight += u32::from(distance > 0);
        }
        self.weigh();
    }

    /// Makes goals count less that are met, down to 1.
    pub fn relax(&mut self) {
        for (weight, &distance) in self.weights.iter_mut().zip(&self.distances) {
            *weight -= u32::from(distance == 0 && *weight > 1);
        }
        self.weigh();
    }

    /// The cost with a variable at a value; everything is as before afterwards.
    pub fn tried(&mut self, variable: u16, x: u64) -> u64 {
        self.with(variable, x, |state| state.cost)
    }

    /// What is seen with a variable at a value; everything is as before afterwards.
    #[inline]
    pub fn with<Seen>(&mut self, variable: u16, x: u64, look: impl FnOnce(&State) -> Seen) -> Seen {
        let before = self.cost;
        self.set(variable, x);
        let seen = look(self);
        for &(id, value) in &self.nodes_before {
            self.values[usize::from(id)] = value;
        }
        for &(at, distance) in &self.goals_before {
            self.distances[usize::from(at)] = distance;
        }
        self.cost = before;
        seen
    }

    /// Gives a variable a value, and the nodes above it theirs.
    pub fn set(&mut self, variable: u16, x: u64) {
        self.nodes_before.clear();
        self.goals_before.clear();
        self.change += 1;
        self.take(variable, x);
        let ready = self.ready;
        for &id in &ready.above[usize::from(variable)] {
            let node = &ready.nodes[usize::from(id)];
            let [a, b, c] = node.operands.map(|operand| self.reached[usize::from(operand)] == self.change);
            if a | b | c {
                let found = value(node, 0, &self.values);
                if found != self.values[usize::from(id)] {
                    self.take(id, found);
                }
                self.look(id);
            }
        }
    }

    #[inline]
    fn take(&mut self, id: u16, x: u64) {
        let at = usize::from(id);
        self.nodes_before.push((id, self.values[at]));
        self.values[at] = x;
        self.reached[at] = self.change;
        if self.ready.nodes[at].kind == plain::kind::VARIABLE {
            self.look(id);
        }
    }

    /// Brings the goal at a node up to date, if it is one.
    #[inline]
    fn look(&mut self, id: u16) {
        let Some(at) = self.ready.goal_at[usize::from(id)].checked_sub(1) else {
            return;
        };
        let (place, goal) = (usize::from(at), self.ready.goals[usize::from(at)]);
        let found = distance(goal, &self.ready.nodes[usize::from(id)], &self.values);
        let known = self.distances[place];
        if found != known {
            self.goals_before.push((at, known));
            self.distances[place] = found;
            let weight = u64::from(self.weights[place]);
            self.cost = self.cost + u64::from(found) * weight - u64::from(known) * weight;
        }
    }
}

#[cfg(test)]
mod tests {
    use super::*;
    use generate::{solved, Rng};

    /// What is tried leaves nothing behind, and a change brings what a new state of the same variables has.
    #[test]
    fn changes_are_what_evaluation_of_all_gives() {
        for seed in 0..300 {
            let rng = &mut Rng::new(seed);
            let size = rng.between(1, 60);
            let problem = solved::solved(rng, size);
            let ready = Ready::new(&problem.problem.bytes()).unwrap();
            let mut state = State::new(&ready, &solved::start(rng, &problem));
            for _ in 0..20 {
                let Some(&variable) = ready.variables.get(rng.below(ready.variables.len().max(1))) else {
                    break;
                };
                let x = rng.member(problem.problem.nodes[usize::from(variable)].pair);
                let (values, cost) = (state.values.clone(), state.cost);
                let tried = state.tried(variable, x);
                assert_eq!((&state.values, state.cost), (&values, cost));
                state.set(variable, x);
                let mut anew = State::new(&ready, &state.values);
                assert_eq!((state.cost, anew.cost), (tried, tried));
                let roots = |values: &[u64]| {
                    ready.roots.iter().map(|&at| values[usize::from(at)]).collect::<Vec<_>>()
                };
                assert_eq!(roots(&state.values), roots(&anew.values));
                state.evaluate();
                anew.evaluate();
                assert_eq!(state.values, anew.values);
            }
        }
    }
}
