//! The conjunction: depth first over pairs of references, each visited once, and a hashed table of the
//! nodes that are there. The reduction is that with a diagram that always says yes.

use super::tables::{Inner, Padding, Tables, BY_NODE};
use crate::planner::Answer;

/// The entry of a pair that was not visited.
const UNSEEN: u32 = u32::MAX;
/// The most inner nodes of a file.
const MOST: usize = BY_NODE - 2;
/// More pairs than a path can have: each tests a later step than the one before.
const DEPTH: usize = 1_024;
/// Slots of the table, twice as many as there are nodes.
const SLOTS: usize = 2 * BY_NODE;
const HEAD: usize = 5;
const FIELD: usize = 9;

/// Writes the reduced diagram that says yes where both do.
pub fn conjoin(
    chart: &[u8],
    rules: &[u8],
    more: &[u8],
    work: &mut [u32],
    file: &mut [u8],
) -> Answer {
    let mut first = Tables::new();
    let read = first.read_chart(chart).and_then(|()| first.read_rules(rules, 2, Padding::Refused));
    if let Err(refusal) = read {
        return refusal;
    }
    let mut second = first.with_chart_alone();
    if let Err(refusal) = second.read_rules(more, 3, Padding::Refused) {
        return refusal;
    }
    product(&first, &second, work, file)
}

/// Writes the reduced diagram that says the same, whatever padding the file has.
pub fn reduce(chart: &[u8], rules: &[u8], file: &mut [u8]) -> Answer {
    let mut first = Tables::new();
    let read = first.read_chart(chart).and_then(|()| first.read_rules(rules, 2, Padding::Taken));
    if let Err(refusal) = read {
        return refusal;
    }
    let mut yes = Tables::new();
    yes.say_yes();
    product(&first, &yes, &mut [0; 2 * BY_NODE], file)
}

/// Conjoins both diagrams, in a work slice of any length, and writes the result.
fn product(first: &Tables, second: &Tables, work: &mut [u32], file: &mut [u8]) -> Answer {
    let Some(work) = work.get_mut(..first.references * second.references) else {
        return Answer::refused(7, 0, 0);
    };
    work.fill(UNSEEN);
    let mut product = Product { first, second, work, made: Made::new() };
    let Some(root) = product.visit(first.root, second.root) else {
        return Answer::refused(12, 0, 0);
    };
    product.made.write(root, file)
}

struct Product<'a> {
    first: &'a Tables,
    second: &'a Tables,
    /// By pair: the reference that it became.
    work: &'a mut [u32],
    made: Made,
}

/// A pair that is open: it waits for its lo, then for its hi.
#[derive(Clone, Copy, Default)]
struct Open {
    place: u32,
    step: u16,
    /// What lo became, once hi is waited for.
    lo: u16,
    hi: (u16, u16),
    is_lo_done: bool,
}

impl Product<'_> {
    /// The reference that a pair becomes; none where there are too many nodes.
    fn visit(&mut self, a: usize, b: usize) -> Option<u16> {
        let mut path = [Open::default(); DEPTH];
        let mut open = 0;
        let mut at = (a, b);
        loop {
            // Down along lo as far as nothing is known.
            let mut done = loop {
                match self.known(at) {
                    Ok(reference) => break reference,
                    Err(place) => {
                        let (pair, lo) = self.opened(at, place);
                        path[open] = pair;
                        open += 1;
                        at = lo;
                    }
                }
            };
            // Back from where all is known, to the first hi that is left.
            at = loop {
                let Some(last) = open.checked_sub(1) else { return Some(done) };
                let pair = &mut path[last];
                if !pair.is_lo_done {
                    (pair.is_lo_done, pair.lo) = (true, done);
                    break (pair.hi.0.into(), pair.hi.1.into());
                }
                done = self.made.node(pair.step, pair.lo, done)?;
                self.work[pair.place as usize] = done.into();
                open = last;
            };
        }
    }

    /// What a pair became, or its place where it was not visited.
    fn known(&self, (a, b): (usize, usize)) -> Result<u16, usize> {
        if a == 0 || b == 0 {
            return Ok(0);
        }
        if a == 1 && b == 1 {
            return Ok(1);
        }
        let place = a * self.second.references + b;
        match self.work[place] {
            UNSEEN => Err(place),
            reference => Ok(reference as u16),
        }
    }

    /// A pair with what it waits for, and its lo.
    fn opened(&self, (a, b): (usize, usize), place: usize) -> (Open, (usize, usize)) {
        let (first, second) = (self.first.nodes[a], self.second.nodes[b]);
        // 0 and 1 have a step above all others.
        let step = first.step().min(second.step());
        let child = |node: Inner, own: usize| {
            if node.step() == step {
                (node.lo(), node.hi())
            } else {
                (own, own)
            }
        };
        let (lo, hi) = (child(first, a), child(second, b));
        let waiting = Open {
            place: place as u32,
            step: step as u16,
            lo: 0,
            hi: (lo.1 as u16, hi.1 as u16),
            is_lo_done: false,
        };
        (waiting, (lo.0, hi.0))
    }
}

/// The nodes made so far, and by their hash the reference of each; 0 is an empty slot.
struct Made {
    nodes: [(u16, u16, u16); MOST],
    count: usize,
    slots: [u16; SLOTS],
}

impl Made {
    fn new() -> Made {
        Made { nodes: [(0, 0, 0); MOST], count: 0, slots: [0; SLOTS] }
    }

    /// The reference for a node: that of its children where they are equal, that of one alike, or a new
    /// one; none where there are too many.
    fn node(&mut self, step: u16, lo: u16, hi: u16) -> Option<u16> {
        if lo == hi {
            return Some(lo);
        }
        let node = (step, lo, hi);
        let mut slot = hash(node);
        while self.slots[slot] != 0 {
            let reference = self.slots[slot];
            if self.nodes[usize::from(reference) - 2] == node {
                return Some(reference);
            }
            slot = (slot + 1) % SLOTS;
        }
        if self.count == MOST {
            return None;
        }
        self.nodes[self.count] = node;
        self.count += 1;
        let reference = self.count as u16 + 1;
        self.slots[slot] = reference;
        Some(reference)
    }

    /// Writes the file: nodes were made in the order in which a walk leaves them.
    fn write(&self, root: u16, file: &mut [u8]) -> Answer {
        let length = HEAD + FIELD * self.count;
        let Some(file) = file.get_mut(..length) else { return Answer::refused(7, 0, 0) };
        let (head, fields) = file.split_at_mut(HEAD);
        head[..3].copy_from_slice(&[0x11, 2, 0]);
        head[3..].copy_from_slice(&root.to_le_bytes());
        for (field, (step, lo, hi)) in fields.chunks_exact_mut(FIELD).zip(&self.nodes) {
            field[..3].copy_from_slice(&[0x12, 6, 0]);
            for (bytes, number) in field[3..].chunks_exact_mut(2).zip([step, lo, hi]) {
                bytes.copy_from_slice(&number.to_le_bytes());
            }
        }
        Answer::accepted(0, length, 0)
    }
}

/// The slot at which the search for a node begins.
fn hash((step, lo, hi): (u16, u16, u16)) -> usize {
    let word = u64::from(step) << 32 | u64::from(lo) << 16 | u64::from(hi);
    (word.wrapping_mul(0x9e37_79b9_7f4a_7c15) >> 54) as usize
}
