//! Charts with two diagrams over them, for conjunctions of every size and shape. None of them has padding
//! but those that are said to.

use super::charts::{parallel, random_chart};
use super::diagrams::{layers_of_width, random_diagram, scattered, Padding};
use super::padded::{self, comb, complement, rearranged};
use super::rules::{AllOf, AtMost, Both, ExactlyOne, Needs};
use super::shapes::{
    all_of, eight_needs, even, idle, none_of, odd, parity, rule, tree, tree_of_doubles,
    tree_of_leaves, LAST,
};
use super::Random;
use crate::files::{Diagram, Node, Operands, MAX_NODES, MAX_STEPS};
use crate::reference::conjunction::Conjunction;

const NO: Diagram = Diagram::NO;
const YES: Diagram = Diagram::YES;

/// Two diagrams over a chart of so many parallel steps; without steps it has one stage.
fn over(steps: usize, first: Diagram, second: Diagram) -> Operands {
    Operands { chart: parallel(steps), first, second }
}

/// Both orders of two diagrams over as many steps as there may be.
fn either(first: &Diagram, second: &Diagram) -> [Operands; 2] {
    [(first, second), (second, first)].map(|(a, b)| over(MAX_STEPS, a.clone(), b.clone()))
}

/// Corners of the limits: constants, single tests, equal and opposite ones, chains, results of just the
/// greatest size, most pairs.
pub fn systematic(random: &mut Random) -> Vec<Operands> {
    let mut all = constants();
    all.extend(single_tests());
    all.extend(same_and_opposite(random));
    all.extend(chains());
    all.extend(of_size(random));
    all.extend(many_pairs(random));
    all
}

/// Both constants, with and without steps, and from the last stage back to the first.
fn constants() -> Vec<Operands> {
    let mut all = Vec::new();
    for steps in [0, 1, MAX_STEPS] {
        for (first, second) in [(NO, NO), (NO, YES), (YES, NO), (YES, YES)] {
            all.push(over(steps, first, second));
        }
    }
    let mut backwards = over(3, YES, YES);
    (backwards.chart.start, backwards.chart.end) = (1, 0);
    all.push(backwards);
    all
}

/// One node in each, of the first step, the last or one amid them.
fn single_tests() -> Vec<Operands> {
    let steps = [0, 1, 255, 256, MAX_STEPS as u16 - 1];
    let tests = steps.iter().flat_map(|step| [(0, 1), (1, 0)].map(|(lo, hi)| (*step, lo, hi)));
    let tests: Vec<Diagram> = tests
        .map(|(step, lo, hi)| Diagram { root: 2, nodes: vec![Node { step, lo, hi }] })
        .chain([NO, YES])
        .collect();
    let pairs = tests.iter().flat_map(|a| tests.iter().map(move |b| (a, b)));
    pairs.map(|(a, b)| over(MAX_STEPS, a.clone(), b.clone())).collect()
}

/// Diagrams of up to 510 nodes.
fn some(random: &mut Random) -> [Diagram; 5] {
    [
        parity(3, 255, 1),
        eight_needs(),
        rule(&ExactlyOne((0..255).map(|at| 4 * at).collect())),
        layers_of_width(random, &(400..500).collect::<Vec<u16>>(), 4, Padding::Without),
        scattered(random, MAX_STEPS, 200, Padding::Without),
    ]
}

/// A diagram with itself, its complement, copies of both in another order and the constants.
fn same_and_opposite(random: &mut Random) -> Vec<Operands> {
    let mut all = Vec::new();
    for diagram in some(random) {
        let opposite = complement(&diagram);
        let copies = [(); 2].map(|()| rearranged(random, &diagram, MAX_STEPS, MAX_NODES));
        let other = rearranged(random, &opposite, MAX_STEPS, MAX_NODES);
        let mut with = |other: &Diagram| all.extend(either(&diagram, other));
        with(&diagram);
        with(&opposite);
        with(&copies[0]);
        with(&other);
        with(&NO);
        with(&YES);
        all.extend(either(&copies[0], &copies[1]));
        all.extend(either(&copies[0], &other));
    }
    all
}

/// Nodes of two rows; together they have 509, 510, 511 or far more.
const ROWS: [[usize; 2]; 12] = [
    [255, 254],
    [1, 508],
    [300, 209],
    [255, 255],
    [254, 256],
    [1, 509],
    [509, 1],
    [300, 210],
    [256, 255],
    [1, 510],
    [510, 1],
    [510, 510],
];

/// Rows of nodes by lo and by hi, over the same steps, over every other one, or one behind the other: up
/// to 1,020 deep.
fn chains() -> Vec<Operands> {
    let behind = |count: usize| MAX_STEPS - count..MAX_STEPS;
    let mut all = Vec::new();
    for [first, second] in ROWS {
        all.push(over(MAX_STEPS, all_of(even(first)), all_of(odd(second))));
        all.push(over(MAX_STEPS, all_of(0..first), none_of(behind(second))));
        all.push(over(MAX_STEPS, none_of(behind(second)), none_of(0..first)));
        all.push(over(MAX_STEPS, none_of(even(first)), all_of(odd(second))));
    }
    let (first, second) = deep();
    all.extend(either(&first, &second));
    all.extend(either(&complement(&first), &second));
    all.extend(either(&all_of(0..510), &none_of(0..510)));
    all.extend(either(&all_of(0..510), &all_of(0..510)));
    all.extend(either(&none_of(514..1_024), &complement(&none_of(514..1_024))));
    all
}

/// Rows of 510 nodes, over every other step, that exclude each other by the last step alone: 1,019 deep.
fn deep() -> (Diagram, Diagram) {
    let every_other = AllOf(odd(509).map(|step| step as u16).collect());
    let without_last = AtMost { most: 0, steps: vec![LAST] };
    let second = Both(Box::new(every_other), Box::new(without_last));
    (all_of(even(509).chain([LAST.into()])), rule(&second))
}

/// Results with just so many nodes, and with about as many.
fn of_size(random: &mut Random) -> Vec<Operands> {
    let sizes = [508, 509, 510, 511, 512, 600].into_iter().flat_map(|nodes| [nodes; 3]);
    sizes.flat_map(|nodes| of_nodes(random, nodes)).flat_map(|(a, b)| either(&a, &b)).collect()
}

/// Two diagrams whose conjunction has just so many nodes: a row in front of one that is reduced to some.
/// None where that one is reduced to a constant, or to too many.
fn of_nodes(random: &mut Random, nodes: usize) -> Option<(Diagram, Diagram)> {
    let (width, layers) = (random.pick(&[1, 2, 5, 20]), random.between(20, 300));
    let steps: Vec<u16> = (520..1_024).take(layers.min(500 / width)).collect();
    let behind = layers_of_width(random, &steps, width, Padding::Without);
    let reduced = Conjunction::of(over(MAX_STEPS, behind.clone(), YES)).reduced;
    let in_front =
        nodes.checked_sub(reduced.nodes.len()).filter(|count| (1..=510).contains(count))?;
    let front = random.subset(520, in_front).into_iter().map(usize::from);
    let front = if random.percent(50) { all_of(front) } else { none_of(front) };
    (reduced.root > 1).then_some((front, behind))
}

/// A node that wants the last step, and one that forbids it.
const WANTS_LAST: Node = Node { step: LAST, lo: 0, hi: 1 };
const FORBIDS_LAST: Node = Node { step: LAST, lo: 1, hi: 0 };

/// A tree with different leaves that all say yes where the last step is taken, over a reduced diagram of
/// 510 nodes that wants it, which is the result. Half of all pairs are visited, nearly all of them to
/// find a node that is there already.
pub fn most_pairs() -> Operands {
    let first = tree_of_leaves(0, LAST, WANTS_LAST, 1);
    // An odd number of 255 steps, and then the last step in the place of "yes".
    let Diagram { root, nodes } = parity(8, 255, 1);
    let last = |reference: u16| if reference == 0 { 0 } else { reference + 1 };
    let behind = nodes.iter().map(|node| Node { lo: last(node.lo), hi: last(node.hi), ..*node });
    let second =
        Diagram { root: last(root), nodes: [WANTS_LAST].into_iter().chain(behind).collect() };
    over(MAX_STEPS, first, second)
}

/// Two trees that exclude each other by the last step alone: as many pairs, and the result is "no".
fn trees() -> (Diagram, Diagram) {
    (tree_of_leaves(0, LAST, WANTS_LAST, 0), tree_of_leaves(8, LAST - 300, FORBIDS_LAST, 0))
}

/// Trees over each other: most pairs that are come to, with small results and with large ones.
fn many_pairs(random: &mut Random) -> Vec<Operands> {
    let mut tree_of_any = |first: u16| {
        let steps = random.subset(900, 255).into_iter();
        let mut leaf = |step: u16| {
            let lo = random.below(2) as u16;
            Node { step: LAST - step, lo, hi: 1 - lo }
        };
        tree(first, steps.map(&mut leaf).collect(), |at| if at < 255 { at as u16 + 2 } else { 0 })
    };
    let many = [0, 8].map(&mut tree_of_any);
    let Operands { first, second, .. } = most_pairs();
    let (wants, forbids) = trees();
    let mut all: Vec<_> = either(&first, &second).into();
    all.extend(either(&wants, &forbids));
    all.extend(either(&first, &forbids));
    all.extend(either(&wants, &second));
    all.extend(either(&comb(), &YES));
    all.extend(either(&comb(), &comb()));
    all.extend(either(&many[0], &many[1]));
    all.extend(either(&first, &many[1]));
    all
}

/// Pairs of which one or both have padding, to be refused and to be reduced: such that mean the same, the
/// opposite, or something else.
pub fn with_padding(random: &mut Random) -> Vec<Operands> {
    let mut all = Vec::new();
    for diagram in some(random) {
        let opposite = complement(&diagram);
        let copies = [(); 2].map(|()| padded::padded(random, &diagram, MAX_STEPS, MAX_NODES));
        let other = padded::padded(random, &opposite, MAX_STEPS, MAX_NODES);
        let one = padded::with_one(random, &diagram, MAX_STEPS);
        all.extend(either(&diagram, &copies[0]));
        all.extend(either(&diagram, &other));
        all.extend(either(&diagram, &one));
        all.extend(either(&copies[0], &copies[1]));
        all.extend(either(&copies[0], &other));
        all.extend(either(&copies[0], &NO));
    }
    for end in [NO, YES] {
        let idle_even = idle(even(MAX_NODES), end.root);
        all.extend(either(&idle_even, &end));
        all.extend(either(&idle_even, &idle(odd(MAX_NODES), end.root)));
        all.extend(either(&idle_even, &all_of(odd(MAX_NODES))));
    }
    let doubles = tree_of_doubles(0, WANTS_LAST);
    let leaf = Diagram { root: 2, nodes: vec![WANTS_LAST] };
    all.extend(either(&doubles, &leaf));
    all.extend(either(&doubles, &tree_of_doubles(8, WANTS_LAST)));
    all.extend(either(&doubles, &tree_of_doubles(8, FORBIDS_LAST)));
    all
}

/// Those that are timed, by their names.
pub fn named() -> Vec<(&'static str, Operands)> {
    let whole = |first: Diagram, second: Diagram| over(MAX_STEPS, first, second);
    let needs = |from: u16, to: u16| rule(&Needs((0..4).map(|at| (from + at, to + at)).collect()));
    let ((deep, other_deep), (wants, forbids)) = (deep(), trees());
    let Operands { first, second, .. } = most_pairs();
    vec![
        ("4 needs and 4 others", over(40, needs(0, 20), needs(4, 30))),
        ("no rule and 8 needs", whole(YES, eight_needs())),
        ("8 needs twice", whole(eight_needs(), eight_needs())),
        ("odd and even", whole(parity(0, 255, 1), parity(0, 255, 0))),
        ("1,019 deep, no set", whole(deep, other_deep)),
        ("two chains, 1,020 nodes", whole(all_of(even(510)), all_of(odd(510)))),
        ("two trees, no set", whole(wants, forbids)),
        ("most pairs, 510 nodes", most_pairs()),
        ("the same exchanged", whole(second, first)),
    ]
}

/// How many stages, steps and nodes there may be.
fn drawn_size(random: &mut Random) -> (usize, usize, usize) {
    match random.below(100) {
        0 => (20, MAX_STEPS, MAX_NODES),
        1..=3 => (40, 400, 200),
        4..=18 => (12, 60, 60),
        _ => (6, 12, 14),
    }
}

/// Two diagrams over one chart: unrelated, or one made of the other.
pub fn any(random: &mut Random) -> Operands {
    if random.percent(1) {
        return near_limit(random);
    }
    let (stages, steps, nodes) = drawn_size(random);
    let chart = random_chart(random, stages, steps);
    let first = random_diagram(random, &chart, nodes);
    let second = match random.below(10) {
        0 => first.clone(),
        1 => complement(&first),
        2 => rearranged(random, &first, chart.groups(), nodes),
        3 => rearranged(random, &complement(&first), chart.groups(), nodes),
        _ => random_diagram(random, &chart, nodes),
    };
    let mut operands = Operands { chart, first, second };
    if random.percent(30) {
        operands.first = rearranged(random, &operands.first, operands.chart.groups(), nodes);
    }
    in_any_order(random, operands)
}

/// Two diagrams over one chart, one of them padded or both; mostly they mean the same.
pub fn any_with_padding(random: &mut Random) -> Operands {
    let (stages, steps, nodes) = drawn_size(random);
    let chart = random_chart(random, stages, steps);
    let steps = chart.groups();
    let sound = random_diagram(random, &chart, nodes);
    let first = padded::padded(random, &sound, steps, nodes);
    let second = match random.below(10) {
        0..=2 => sound,
        3..=5 => padded::padded(random, &sound, steps, nodes),
        6 => padded::with_one(random, &sound, steps),
        7 => rearranged(random, &sound, steps, nodes),
        8 => padded::padded(random, &complement(&sound), steps, nodes),
        _ => padded::over_chart(random, &chart, nodes),
    };
    in_any_order(random, Operands { chart, first, second })
}

fn in_any_order(random: &mut Random, mut operands: Operands) -> Operands {
    if random.percent(50) {
        std::mem::swap(&mut operands.first, &mut operands.second);
    }
    operands
}

/// A result of about as many nodes as there may be.
fn near_limit(random: &mut Random) -> Operands {
    let nodes = random.between(500, 520);
    match of_nodes(random, nodes) {
        Some((first, second)) => over(MAX_STEPS, first, second),
        None => over(MAX_STEPS, scattered(random, MAX_STEPS, MAX_NODES, Padding::Without), YES),
    }
}
