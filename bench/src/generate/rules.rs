//! Rules that mean something, and the diagram of a rule.

use std::collections::HashMap;

use super::diagrams::Padding;
use crate::files::{Diagram, Node, MAX_NODES};

/// A property of sets of steps, judged step by step from state 0.
pub trait Rule {
    /// The steps it speaks of, rising.
    fn steps(&self) -> Vec<u16>;

    /// The state after a step is or isn't taken; none where the set is lost.
    fn next(&self, state: u64, step: u16, taken: bool) -> Option<u64>;

    /// Whether a set that ends in this state has the property.
    fn accepts(&self, state: u64) -> bool;
}

/// Each pair (a, b): step a needs step b. At most 32 pairs.
pub struct Needs(pub Vec<(u16, u16)>);

impl Rule for Needs {
    fn steps(&self) -> Vec<u16> {
        rising(self.0.iter().flat_map(|(a, b)| [*a, *b]).collect())
    }

    fn next(&self, state: u64, step: u16, taken: bool) -> Option<u64> {
        let mut state = state;
        for (at, (a, b)) in self.0.iter().enumerate() {
            let bit = 1 << at;
            let (earlier, later) = (*a.min(b), *a.max(b));
            if step == later && a != b {
                // The bit: a is taken and waits for b, or b is taken and a may come.
                let kept =
                    if a < b { taken || state & bit == 0 } else { !taken || state & bit != 0 };
                if !kept {
                    return None;
                }
                state &= !bit;
            } else if step == earlier && taken {
                state |= bit;
            }
        }
        Some(state)
    }

    fn accepts(&self, _state: u64) -> bool {
        true
    }
}

/// At most so many of the steps.
pub struct AtMost {
    pub most: u64,
    pub steps: Vec<u16>,
}

impl Rule for AtMost {
    fn steps(&self) -> Vec<u16> {
        self.steps.clone()
    }

    fn next(&self, state: u64, _step: u16, taken: bool) -> Option<u64> {
        let count = state + u64::from(taken);
        (count <= self.most).then_some(count)
    }

    fn accepts(&self, _state: u64) -> bool {
        true
    }
}

/// Exactly one of the steps.
pub struct ExactlyOne(pub Vec<u16>);

impl Rule for ExactlyOne {
    fn steps(&self) -> Vec<u16> {
        self.0.clone()
    }

    fn next(&self, state: u64, _step: u16, taken: bool) -> Option<u64> {
        let count = state + u64::from(taken);
        (count <= 1).then_some(count)
    }

    fn accepts(&self, state: u64) -> bool {
        state == 1
    }
}

/// The number of the steps taken leaves `rest` when divided by `divisor`; parity with divisor 2.
pub struct Modulo {
    pub divisor: u64,
    pub rest: u64,
    pub steps: Vec<u16>,
}

impl Rule for Modulo {
    fn steps(&self) -> Vec<u16> {
        self.steps.clone()
    }

    fn next(&self, state: u64, _step: u16, taken: bool) -> Option<u64> {
        Some((state + u64::from(taken)) % self.divisor)
    }

    fn accepts(&self, state: u64) -> bool {
        state == self.rest
    }
}

/// All of the steps.
pub struct AllOf(pub Vec<u16>);

impl Rule for AllOf {
    fn steps(&self) -> Vec<u16> {
        self.0.clone()
    }

    fn next(&self, state: u64, _step: u16, taken: bool) -> Option<u64> {
        taken.then_some(state)
    }

    fn accepts(&self, _state: u64) -> bool {
        true
    }
}

/// Two rules at once; the states share one word.
pub struct Both(pub Box<dyn Rule>, pub Box<dyn Rule>);

impl Rule for Both {
    fn steps(&self) -> Vec<u16> {
        rising([self.0.steps(), self.1.steps()].concat())
    }

    fn next(&self, state: u64, step: u16, taken: bool) -> Option<u64> {
        let advance = |rule: &dyn Rule, part: u64| {
            let concerned = rule.steps().contains(&step);
            if concerned {
                rule.next(part, step, taken)
            } else {
                Some(part)
            }
        };
        let first = advance(self.0.as_ref(), state & 0xffff_ffff)?;
        let second = advance(self.1.as_ref(), state >> 32)?;
        Some(second << 32 | first)
    }

    fn accepts(&self, state: u64) -> bool {
        self.0.accepts(state & 0xffff_ffff) && self.1.accepts(state >> 32)
    }
}

/// Sorted, each once.
fn rising(mut steps: Vec<u16>) -> Vec<u16> {
    steps.sort_unstable();
    steps.dedup();
    steps
}

/// The diagram of a rule, or none where it has more than 510 inner nodes. With padding it has a node
/// for each step and state, also where both children are the same or two nodes are alike.
pub fn diagram_of(rule: &dyn Rule, padding: Padding) -> Option<Diagram> {
    let mut builder = Builder {
        rule,
        steps: rule.steps(),
        padding,
        nodes: Vec::new(),
        by_state: HashMap::new(),
        by_content: HashMap::new(),
    };
    let root = builder.build(0, 0)?;
    Some(Diagram { root, nodes: builder.nodes })
}

struct Builder<'a> {
    rule: &'a dyn Rule,
    steps: Vec<u16>,
    padding: Padding,
    nodes: Vec<Node>,
    by_state: HashMap<(usize, u64), u16>,
    by_content: HashMap<Node, u16>,
}

impl Builder<'_> {
    /// The reference for a state before the step at a position.
    fn build(&mut self, at: usize, state: u64) -> Option<u16> {
        let Some(step) = self.steps.get(at).copied() else {
            return Some(u16::from(self.rule.accepts(state)));
        };
        if let Some(known) = self.by_state.get(&(at, state)) {
            return Some(*known);
        }
        let lo = self.child(at, state, false)?;
        let hi = self.child(at, state, true)?;
        let reference = self.node(Node { step, lo, hi })?;
        self.by_state.insert((at, state), reference);
        Some(reference)
    }

    fn child(&mut self, at: usize, state: u64, taken: bool) -> Option<u16> {
        match self.rule.next(state, self.steps[at], taken) {
            None => Some(0),
            Some(next) => self.build(at + 1, next),
        }
    }

    fn node(&mut self, node: Node) -> Option<u16> {
        if self.padding == Padding::Without {
            if node.lo == node.hi {
                return Some(node.lo);
            }
            if let Some(known) = self.by_content.get(&node) {
                return Some(*known);
            }
        }
        if self.nodes.len() == MAX_NODES {
            return None;
        }
        self.nodes.push(node);
        let reference = self.nodes.len() as u16 + 1;
        self.by_content.insert(node, reference);
        Some(reference)
    }
}
