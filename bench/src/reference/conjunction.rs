//! The conjunction of two diagrams as the reduced diagram in walk order, by two methods that share
//! nothing: by the truth of every set of the groups that they name, and by the product of both.

use std::collections::{BTreeMap, BTreeSet, HashMap};

use super::rules::verdict;
use crate::files::{
    read_three, write_diagram, Diagram, Node, Operands, Refusal, DIAGRAM_HEAD, HEADER, MAX_NODES,
    NODE,
};
use crate::planner::Answer;

/// By truth where both diagrams name no more groups than this.
pub const GROUPS_BY_TRUTH: usize = 12;

/// All three files judged: the conjunction, or the first fault.
pub type Conjoined = Result<Conjunction, Refusal>;

/// Two diagrams and their conjunction.
#[derive(Clone, Debug, PartialEq, Eq)]
pub struct Conjunction {
    pub operands: Operands,
    pub reduced: Reduced,
    pub product: Extent,
}

/// How far the product of both diagrams goes, from the pair of both roots.
#[derive(Clone, Copy, Debug, Default, PartialEq, Eq)]
pub struct Extent {
    /// Pairs of references that are neither decided nor come to twice.
    pub pairs: usize,
    /// Such pairs on a longest path.
    pub depth: usize,
}

/// A diagram in which no two nodes are alike, none has equal children and each is arrived at from the
/// root; nodes in the order in which a walk from the root, lo before hi and each once, leaves them. It
/// may have more nodes than a file can have.
#[derive(Clone, Debug, PartialEq, Eq)]
pub struct Reduced {
    pub root: usize,
    pub nodes: Vec<ReducedNode>,
}

/// An inner node; `nodes[i]` is the one with reference `i + 2`.
#[derive(Clone, Copy, Debug, PartialEq, Eq, Hash, PartialOrd, Ord)]
pub struct ReducedNode {
    pub step: u16,
    pub lo: usize,
    pub hi: usize,
}

/// Reads all three files and conjoins both diagrams by their product.
pub fn conjoin(chart: &[u8], rules: &[u8], more: &[u8]) -> Conjoined {
    read_three(chart, rules, more).map(Conjunction::of)
}

impl Conjunction {
    pub fn of(operands: Operands) -> Conjunction {
        let (reduced, product) = by_product(&operands);
        Conjunction { operands, reduced, product }
    }

    /// Whether the reduced diagram has more nodes than a file may have.
    pub fn is_too_large(&self) -> bool {
        self.reduced.nodes.len() > MAX_NODES
    }

    /// Bytes of the file that is to be written; those of one without a limit where it is too large.
    pub fn length(&self) -> usize {
        HEADER + DIAGRAM_HEAD.length + (HEADER + NODE.length) * self.reduced.nodes.len()
    }

    /// The file that is to be written; none where the diagram is too large.
    pub fn file(&self) -> Option<Vec<u8>> {
        self.reduced.diagram().map(|diagram| write_diagram(&diagram))
    }
}

/// The answer of a call that is lent a work slice and a file buffer of these lengths.
pub fn conjunction_answer(conjoined: &Conjoined, work: usize, file: usize) -> Answer {
    match conjoined {
        Err(fault) => Answer::refused(fault.number, fault.file, fault.place),
        Ok(found) if work < found.operands.pairs() => Answer::refused(7, 0, 0),
        Ok(found) if found.is_too_large() => Answer::refused(12, 0, 0),
        Ok(found) if file < found.length() => Answer::refused(7, 0, 0),
        Ok(found) => Answer::accepted(0, found.length(), 0),
    }
}

impl Reduced {
    /// As a file may have it; none where it has too many nodes.
    pub fn diagram(&self) -> Option<Diagram> {
        let narrow = |reference: usize| reference as u16;
        let node =
            |node: &ReducedNode| Node { step: node.step, lo: narrow(node.lo), hi: narrow(node.hi) };
        let fits = self.nodes.len() <= MAX_NODES;
        let nodes = || self.nodes.iter().map(node).collect();
        fits.then(|| Diagram { root: narrow(self.root), nodes: nodes() })
    }
}

/// The groups that either diagram names, rising, those without steps too.
pub fn named_groups(first: &Diagram, second: &Diagram) -> Vec<u16> {
    let nodes = first.nodes.iter().chain(&second.nodes);
    nodes.map(|node| node.step).collect::<BTreeSet<u16>>().into_iter().collect()
}

/// Whether both diagrams say yes to a set of groups.
pub fn both_say_yes(operands: &Operands, present: &[bool]) -> bool {
    verdict(&operands.first, present) && verdict(&operands.second, present)
}

/// The reduced diagram by the verdicts on every set of the named groups; none where these are too many.
pub fn by_truth(operands: &Operands) -> Option<Reduced> {
    let groups = named_groups(&operands.first, &operands.second);
    if groups.len() > GROUPS_BY_TRUTH {
        return None;
    }
    let sets = sets_of(operands.chart.groups(), &groups);
    let row: Vec<bool> = sets.map(|set| both_say_yes(operands, &set)).collect();
    let mut tree = Tree { groups: &groups, references: HashMap::new(), nodes: Vec::new() };
    let root = tree.leave(&row);
    Some(Reduced { root, nodes: tree.nodes })
}

/// Every set of some of a chart's groups, as one flag for each of all. The first of some is the highest
/// bit of a set's number, so that its lo is the first half of a row.
pub fn sets_of(all: usize, some: &[u16]) -> impl Iterator<Item = Vec<bool>> + '_ {
    (0..1_usize << some.len()).map(move |set| {
        let mut present = vec![false; all];
        for (at, group) in some.iter().rev().enumerate() {
            present[usize::from(*group)] = set >> at & 1 == 1;
        }
        present
    })
}

/// A decision tree whose subtrees are their rows of verdicts: equal rows are one node.
struct Tree<'a> {
    groups: &'a [u16],
    references: HashMap<&'a [bool], usize>,
    nodes: Vec<ReducedNode>,
}

impl<'a> Tree<'a> {
    /// The reference of a subtree; a new node is numbered when all below it is.
    fn leave(&mut self, row: &'a [bool]) -> usize {
        let row = from_first_test(row);
        if let [constant] = row {
            return usize::from(*constant);
        }
        if let Some(known) = self.references.get(row) {
            return *known;
        }
        let (lo, hi) = row.split_at(row.len() / 2);
        let (lo, hi) = (self.leave(lo), self.leave(hi));
        let left = row.len().trailing_zeros() as usize;
        let step = self.groups[self.groups.len() - left];
        self.nodes.push(ReducedNode { step, lo, hi });
        self.references.insert(row, self.nodes.len() + 1);
        self.nodes.len() + 1
    }
}

/// Without the tests at the front that change nothing.
fn from_first_test(mut row: &[bool]) -> &[bool] {
    while row.len() > 1 {
        let (lo, hi) = row.split_at(row.len() / 2);
        if lo != hi {
            return row;
        }
        row = lo;
    }
    row
}

/// The reduced diagram by the product: its pairs in classes of the same meaning, from the last group
/// back, and then the classes numbered by a walk.
fn by_product(operands: &Operands) -> (Reduced, Extent) {
    let product = Product { first: &operands.first, second: &operands.second };
    let root = product.place(operands.first.root, operands.second.root);
    let mut levels = product.levels(root);
    let mut classes = Classes::new(operands.pairs());
    let mut depth = vec![0; operands.pairs()];
    let mut extent = Extent::default();
    for (step, level) in levels.iter_mut().rev() {
        for (place, lo, hi) in level.iter() {
            depth[*place] = 1 + product.depth(&depth, *lo).max(product.depth(&depth, *hi));
            extent.depth = extent.depth.max(depth[*place]);
        }
        extent.pairs += level.len();
        classes.add(&product, *step, level);
    }
    (classes.numbered(classes.of(&product, root)), extent)
}

/// Pairs of references, each at its place in the work slice.
struct Product<'a> {
    first: &'a Diagram,
    second: &'a Diagram,
}

/// The place of a pair, and those of both its children.
type Inner = (usize, usize, usize);

impl Product<'_> {
    fn place(&self, first: u16, second: u16) -> usize {
        usize::from(first) * self.second.references() + usize::from(second)
    }

    fn pair(&self, place: usize) -> (u16, u16) {
        let width = self.second.references();
        ((place / width) as u16, (place % width) as u16)
    }

    /// What a pair comes to whatever follows: no if one does, yes if both do.
    fn decided(&self, place: usize) -> Option<bool> {
        match self.pair(place) {
            (0, _) | (_, 0) => Some(false),
            (1, 1) => Some(true),
            _ => None,
        }
    }

    /// The step of a pair that isn't decided, and where it goes.
    fn tested(&self, place: usize) -> (u16, Inner) {
        let (a, b) = self.pair(place);
        let (first, second) = (self.first.inner(a), self.second.inner(b));
        let steps = [first, second].into_iter().flatten().map(|node| node.step);
        let step = steps.min().expect("an inner node");
        let child = |node: Option<Node>, reference: u16, taken: bool| match node {
            Some(node) if node.step == step => [node.lo, node.hi][usize::from(taken)],
            _ => reference,
        };
        let [lo, hi] =
            [false, true].map(|taken| self.place(child(first, a, taken), child(second, b, taken)));
        (step, (place, lo, hi))
    }

    /// The undecided pairs that a pair leads to, itself too, by their steps.
    fn levels(&self, root: usize) -> BTreeMap<u16, Vec<Inner>> {
        let mut levels: BTreeMap<u16, Vec<Inner>> = BTreeMap::new();
        let mut seen = vec![false; self.first.references() * self.second.references()];
        let mut open = vec![root];
        while let Some(place) = open.pop() {
            if seen[place] || self.decided(place).is_some() {
                continue;
            }
            seen[place] = true;
            let (step, inner) = self.tested(place);
            levels.entry(step).or_default().push(inner);
            open.extend([inner.1, inner.2]);
        }
        levels
    }

    fn depth(&self, depth: &[usize], place: usize) -> usize {
        if self.decided(place).is_some() {
            0
        } else {
            depth[place]
        }
    }
}

/// Pairs that mean the same have one class: 0 and 1 for the constants, from 2 on nodes.
struct Classes {
    /// By place; only those of pairs that came already count.
    of_pair: Vec<usize>,
    nodes: Vec<ReducedNode>,
}

impl Classes {
    fn new(pairs: usize) -> Classes {
        Classes { of_pair: vec![usize::MAX; pairs], nodes: Vec::new() }
    }

    fn of(&self, product: &Product, place: usize) -> usize {
        product.decided(place).map_or(self.of_pair[place], usize::from)
    }

    /// Takes in all pairs of one step; those of the later steps have their classes. Pairs whose children
    /// are of the same classes stand together when they are sorted.
    fn add(&mut self, product: &Product, step: u16, level: &[Inner]) {
        let children =
            |(place, lo, hi): &Inner| (self.of(product, *lo), self.of(product, *hi), *place);
        let mut sorted: Vec<(usize, usize, usize)> = level.iter().map(children).collect();
        sorted.sort_unstable();
        for (lo, hi, place) in sorted {
            let node = ReducedNode { step, lo, hi };
            if lo != hi && self.nodes.last() != Some(&node) {
                self.nodes.push(node);
            }
            self.of_pair[place] = if lo == hi { lo } else { self.nodes.len() + 1 };
        }
    }

    /// The classes below one of them, numbered as a walk leaves them.
    fn numbered(&self, root: usize) -> Reduced {
        let mut references = vec![None; self.nodes.len() + 2];
        (references[0], references[1]) = (Some(0), Some(1));
        let mut nodes = Vec::new();
        let mut open = vec![root];
        while let Some(class) = open.last().copied() {
            if references[class].is_some() {
                open.pop();
                continue;
            }
            let ReducedNode { step, lo, hi } = self.nodes[class - 2];
            match (references[lo], references[hi]) {
                (None, _) => open.push(lo),
                (_, None) => open.push(hi),
                (Some(lo), Some(hi)) => {
                    nodes.push(ReducedNode { step, lo, hi });
                    references[class] = Some(nodes.len() + 1);
                }
            }
        }
        Reduced { root: references[root].unwrap_or(0), nodes }
    }
}
