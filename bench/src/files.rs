//! Charts and diagrams: what their files hold, how they are read and refused, how they are written.

pub const MAX_STAGES: u16 = 256;
pub const MAX_STEPS: usize = 1_024;
/// The greatest cost that a file may have.
pub const MAX_COST: u32 = 1_000_000;
/// The sequencer's tick: the reader rounds each cost up to whole ones.
pub const TICK: u32 = 50;
/// The greatest group that a step may be of.
pub const MAX_GROUP: u16 = 1_023;
pub const MAX_NODES: usize = 510;

/// The most bytes that a file may have.
pub const LONGEST_FILE: usize = 32_768;

pub const CHART_FILE: u32 = 1;
pub const DIAGRAM_FILE: u32 = 2;
/// A second diagram over the same chart.
pub const MORE_FILE: u32 = 3;

/// The bytes of a field before its body: tag and length.
pub const HEADER: usize = 3;

/// The tag and the body length of one kind of field.
#[derive(Clone, Copy, Debug, PartialEq, Eq)]
pub struct Layout {
    pub tag: u8,
    pub length: usize,
}

pub const CHART_HEAD: Layout = Layout { tag: 0x01, length: 6 };
pub const STEP: Layout = Layout { tag: 0x02, length: 8 };
/// A step with its group. All steps of a chart are of this kind or all of the other.
pub const GROUPED_STEP: Layout = Layout { tag: 0x03, length: 10 };
pub const STEP_KINDS: [Layout; 2] = [STEP, GROUPED_STEP];
pub const DIAGRAM_HEAD: Layout = Layout { tag: 0x11, length: 2 };
pub const NODE: Layout = Layout { tag: 0x12, length: 6 };

/// A field behind the head with this tag or one above it is a remark: it is passed over, whatever its
/// length, and takes no number.
pub const FIRST_REMARK: u8 = 0x80;

/// An edge of the chart.
#[derive(Clone, Copy, Debug, PartialEq, Eq)]
pub struct Step {
    pub from: u16,
    pub to: u16,
    /// As the file has it where the step is to be written; rounded where it was read.
    pub cost: u32,
    /// None in a chart without groups: the step is then a group alone, of its own number.
    pub group: Option<u16>,
}

impl Step {
    /// A step of a chart without groups.
    pub const fn new(from: u16, to: u16, cost: u32) -> Step {
        Step { from, to, cost, group: None }
    }

    /// The same as one of a group.
    pub const fn of_group(self, group: u16) -> Step {
        Step { group: Some(group), ..self }
    }

    /// The kind of its field.
    pub fn layout(&self) -> Layout {
        STEP_KINDS[usize::from(self.group.is_some())]
    }

    /// With its cost in whole ticks; that of the file is within its limit.
    fn rounded(self) -> Step {
        Step { cost: self.cost.div_ceil(TICK) * TICK, ..self }
    }
}

/// A weighted acyclic graph with a start and an end.
#[derive(Clone, Debug, PartialEq, Eq)]
pub struct Chart {
    pub stages: u16,
    pub start: u16,
    pub end: u16,
    pub steps: Vec<Step>,
}

impl Chart {
    /// What its file is read as.
    pub fn rounded(&self) -> Chart {
        self.with_costs(|_, step| step.rounded().cost)
    }

    /// The same with other costs, by the number of each step and the step.
    pub fn with_costs(&self, cost: impl Fn(usize, Step) -> u32) -> Chart {
        let steps = self.steps.iter().enumerate();
        let steps = steps.map(|(at, step)| Step { cost: cost(at, *step), ..*step }).collect();
        Chart { steps, ..*self }
    }

    /// The same with the group of each step, by its number; none is a chart without groups.
    pub fn with_groups(&self, group: impl Fn(usize) -> Option<u16>) -> Chart {
        let steps = self.steps.iter().enumerate();
        let steps = steps.map(|(at, step)| Step { group: group(at), ..*step }).collect();
        Chart { steps, ..*self }
    }

    /// Whether its steps have groups. A chart without steps is of neither kind.
    pub fn is_grouped(&self) -> bool {
        self.steps.first().is_some_and(|step| step.group.is_some())
    }

    /// The group of the step with a number.
    pub fn group(&self, step: u16) -> u16 {
        self.steps[usize::from(step)].group.unwrap_or(step)
    }

    /// The groups of some steps, one for each.
    pub fn groups_of(&self, steps: &[u16]) -> Vec<u16> {
        steps.iter().map(|step| self.group(*step)).collect()
    }

    /// How many groups nodes may name: all up to the highest, with steps or without.
    pub fn groups(&self) -> usize {
        let all = (0..self.steps.len()).map(|step| usize::from(self.group(step as u16)) + 1);
        all.max().unwrap_or(0)
    }

    /// By group: the least cost of its steps; none where it has no step.
    pub fn group_costs(&self) -> Vec<Option<u32>> {
        let mut costs: Vec<Option<u32>> = vec![None; self.groups()];
        for (number, step) in self.steps.iter().enumerate() {
            let least = &mut costs[usize::from(self.group(number as u16))];
            *least = Some(least.map_or(step.cost, |known| known.min(step.cost)));
        }
        costs
    }
}

/// An inner node of the diagram.
#[derive(Clone, Copy, Debug, PartialEq, Eq, Hash)]
pub struct Node {
    /// The group that it names: in a chart without groups that is a step's number.
    pub step: u16,
    pub lo: u16,
    pub hi: u16,
}

/// An ordered binary decision diagram; `nodes[i]` is the node with reference `i + 2`.
#[derive(Clone, Debug, PartialEq, Eq)]
pub struct Diagram {
    pub root: u16,
    pub nodes: Vec<Node>,
}

impl Diagram {
    /// Always "no".
    pub const NO: Diagram = Diagram { root: 0, nodes: Vec::new() };
    /// Always "yes".
    pub const YES: Diagram = Diagram { root: 1, nodes: Vec::new() };

    /// N of REFERENCE: the inner nodes and the two constants.
    pub fn references(&self) -> usize {
        self.nodes.len() + 2
    }

    /// The inner node behind a reference; none for 0 and 1.
    pub fn inner(&self, reference: u16) -> Option<Node> {
        let at = usize::from(reference).checked_sub(2)?;
        self.nodes.get(at).copied()
    }
}

/// A chart and a diagram over it, both accepted.
#[derive(Clone, Debug, PartialEq, Eq)]
pub struct Problem {
    pub chart: Chart,
    pub diagram: Diagram,
}

impl Problem {
    /// What its files are read as.
    pub fn rounded(&self) -> Problem {
        Problem { chart: self.chart.rounded(), diagram: self.diagram.clone() }
    }

    /// Stage count times N: what every work slice must hold.
    pub fn pairs(&self) -> usize {
        usize::from(self.chart.stages) * self.diagram.references()
    }

    /// What a plan slice must hold.
    pub fn longest_plan(&self) -> usize {
        usize::from(self.chart.stages) - 1
    }
}

/// A chart and two diagrams over it, all accepted.
#[derive(Clone, Debug, PartialEq, Eq)]
pub struct Operands {
    pub chart: Chart,
    pub first: Diagram,
    pub second: Diagram,
}

impl Operands {
    /// A reference of each diagram for each of the other: what the work slice must hold.
    pub fn pairs(&self) -> usize {
        self.first.references() * self.second.references()
    }
}

/// Why and where a file is turned away.
#[derive(Clone, Copy, Debug, PartialEq, Eq)]
pub struct Refusal {
    pub number: u32,
    pub file: u32,
    pub place: usize,
}

impl Refusal {
    fn at(number: u32, file: u32, place: usize) -> Refusal {
        Refusal { number, file, place }
    }
}

/// Whether a node is padding behind those before it in its file: its children are equal, or one of them
/// is alike. By a look at all of them.
pub fn is_padding(before: &[Node], node: Node) -> bool {
    node.lo == node.hi || before.contains(&node)
}

/// Reads the chart, then the diagram.
pub fn read_both(chart: &[u8], rules: &[u8]) -> Result<Problem, Refusal> {
    read_both_by(chart, rules, is_padding)
}

/// Reads the chart, then a diagram whose padding is taken.
pub fn read_padded(chart: &[u8], rules: &[u8]) -> Result<Problem, Refusal> {
    read_both_by(chart, rules, |_, _| false)
}

/// Reads the chart, then the diagram; 13 is told of a node within the limits by those before it.
pub fn read_both_by(
    chart: &[u8],
    rules: &[u8],
    is_13: impl FnMut(&[Node], Node) -> bool,
) -> Result<Problem, Refusal> {
    let chart = read_chart(chart)?;
    let diagram = read_diagram_by(rules, DIAGRAM_FILE, chart.groups(), is_13)?;
    Ok(Problem { chart, diagram })
}

/// Reads the chart, then the diagram, then the second diagram, which is file 3.
pub fn read_three(chart: &[u8], rules: &[u8], more: &[u8]) -> Result<Operands, Refusal> {
    read_three_by(chart, rules, more, || is_padding)
}

/// The same with a fresh test for 13 in each diagram.
pub fn read_three_by<Is13: FnMut(&[Node], Node) -> bool>(
    chart: &[u8],
    rules: &[u8],
    more: &[u8],
    is_13: impl Fn() -> Is13,
) -> Result<Operands, Refusal> {
    let Problem { chart, diagram: first } = read_both_by(chart, rules, is_13())?;
    let second = read_diagram_by(more, MORE_FILE, chart.groups(), is_13())?;
    Ok(Operands { chart, first, second })
}

/// Reads a chart file.
pub fn read_chart(bytes: &[u8]) -> Result<Chart, Refusal> {
    let mut reader = Reader::open(bytes, CHART_FILE)?;
    let head = reader.head(CHART_HEAD)?;
    let mut chart = Chart {
        stages: two_bytes(head, 0),
        start: two_bytes(head, 2),
        end: two_bytes(head, 4),
        steps: Vec::new(),
    };
    if !head_within_limits(&chart) {
        return Err(Refusal::at(4, CHART_FILE, 0));
    }
    while let Some((place, body)) = reader.next(step_kinds(&chart))? {
        let step = step_of(body);
        if let Some(number) = step_fault(&chart, step) {
            return Err(Refusal::at(number, CHART_FILE, place));
        }
        chart.steps.push(step.rounded());
    }
    Ok(chart)
}

/// Reads file 2 over a chart whose groups are below a number.
pub fn read_diagram(bytes: &[u8], groups: usize) -> Result<Diagram, Refusal> {
    read_diagram_by(bytes, DIAGRAM_FILE, groups, is_padding)
}

/// The same of a diagram that is the file with a mark, by a test for 13.
pub fn read_diagram_by(
    bytes: &[u8],
    file: u32,
    groups: usize,
    mut is_13: impl FnMut(&[Node], Node) -> bool,
) -> Result<Diagram, Refusal> {
    let mut reader = Reader::open(bytes, file)?;
    let head = reader.head(DIAGRAM_HEAD)?;
    let mut diagram = Diagram { root: two_bytes(head, 0), nodes: Vec::new() };
    while let Some((place, body)) = reader.next(&[NODE])? {
        let node = node_of(body);
        if !node_within_limits(&diagram, node, groups) {
            return Err(Refusal::at(6, file, place));
        }
        if is_13(&diagram.nodes, node) {
            return Err(Refusal::at(13, file, place));
        }
        diagram.nodes.push(node);
    }
    if usize::from(diagram.root) >= diagram.references() {
        return Err(Refusal::at(6, file, 0));
    }
    Ok(diagram)
}

/// Walks the fields of either file from its front.
struct Reader<'a> {
    bytes: &'a [u8],
    file: u32,
    place: usize,
}

impl<'a> Reader<'a> {
    /// A file that is too long is refused before any field of it is looked at.
    fn open(bytes: &'a [u8], file: u32) -> Result<Reader<'a>, Refusal> {
        if bytes.len() > LONGEST_FILE {
            return Err(Refusal::at(9, file, LONGEST_FILE));
        }
        Ok(Reader { bytes, file, place: 0 })
    }

    /// The body of the first field. No remark may stand before it.
    fn head(&mut self, layout: Layout) -> Result<&'a [u8], Refusal> {
        if self.bytes.is_empty() {
            return Err(self.refused(2));
        }
        self.body(&[layout])
    }

    /// Place and body of the next field that is no remark; none at the file's end. The head never
    /// comes again, so it is not among the layouts that are allowed.
    fn next(&mut self, layouts: &[Layout]) -> Result<Option<(usize, &'a [u8])>, Refusal> {
        while self.place < self.bytes.len() {
            let place = self.place;
            if self.header()?[0] < FIRST_REMARK {
                return Ok(Some((place, self.body(layouts)?)));
            }
            self.pass_over()?;
        }
        Ok(None)
    }

    /// The header at the place, which must be whole before anything of it counts.
    fn header(&self) -> Result<&'a [u8], Refusal> {
        self.bytes.get(self.place..self.place + HEADER).ok_or(self.refused(1))
    }

    /// The body of the field at the place, tested in the order header cut, tag, length, body cut;
    /// then the place is behind it.
    fn body(&mut self, layouts: &[Layout]) -> Result<&'a [u8], Refusal> {
        let header = self.header()?;
        let layout = layouts.iter().find(|layout| layout.tag == header[0]);
        let layout = layout.ok_or(self.refused(2))?;
        if usize::from(two_bytes(header, 1)) != layout.length {
            return Err(self.refused(3));
        }
        self.take(layout.length)
    }

    /// Goes behind the remark at the place; only its body can be at fault, if it is cut.
    fn pass_over(&mut self) -> Result<(), Refusal> {
        let length = usize::from(two_bytes(self.header()?, 1));
        self.take(length).map(|_| ())
    }

    fn take(&mut self, length: usize) -> Result<&'a [u8], Refusal> {
        let start = self.place + HEADER;
        let body = self.bytes.get(start..start + length).ok_or(self.refused(1))?;
        self.place = start + length;
        Ok(body)
    }

    /// A fault of the field at the place.
    fn refused(&self, number: u32) -> Refusal {
        Refusal::at(number, self.file, self.place)
    }
}

fn head_within_limits(chart: &Chart) -> bool {
    (1..=MAX_STAGES).contains(&chart.stages)
        && chart.start < chart.stages
        && chart.end < chart.stages
}

/// The kinds of step that may follow in a chart: the first step fixes one.
fn step_kinds(chart: &Chart) -> &'static [Layout] {
    match chart.steps.first() {
        None => &STEP_KINDS,
        Some(Step { group: None, .. }) => &[STEP],
        Some(_) => &[GROUPED_STEP],
    }
}

/// The first fault in the values of a step behind those of the chart, in the order of the tests. The
/// cost is judged as the file has it.
fn step_fault(chart: &Chart, step: Step) -> Option<u32> {
    if chart.steps.len() >= MAX_STEPS {
        return Some(5);
    }
    if step.from >= step.to || step.to >= chart.stages {
        return Some(10);
    }
    let before = chart.steps.last();
    if before.is_some_and(|before| step.from < before.from) {
        return Some(5);
    }
    if step.cost > MAX_COST {
        return Some(11);
    }
    let least = before.and_then(|before| before.group);
    // Without groups both are none.
    (step.group > Some(MAX_GROUP) || step.group < least).then_some(14)
}

fn node_within_limits(diagram: &Diagram, node: Node, groups: usize) -> bool {
    let own_number = diagram.references();
    let child_fits = |child: u16| {
        usize::from(child) < own_number
            && diagram.inner(child).is_none_or(|below| below.step > node.step)
    };
    diagram.nodes.len() < MAX_NODES
        && usize::from(node.step) < groups
        && child_fits(node.lo)
        && child_fits(node.hi)
}

pub fn two_bytes(bytes: &[u8], at: usize) -> u16 {
    u16::from_le_bytes([bytes[at], bytes[at + 1]])
}

fn four_bytes(bytes: &[u8], at: usize) -> u32 {
    u32::from_le_bytes([bytes[at], bytes[at + 1], bytes[at + 2], bytes[at + 3]])
}

/// The values in a step's body, which is whole, the cost as it stands there. A longer body has a group.
pub fn step_of(body: &[u8]) -> Step {
    let step = Step::new(two_bytes(body, 0), two_bytes(body, 2), four_bytes(body, 4));
    let group = (body.len() >= GROUPED_STEP.length).then(|| two_bytes(body, STEP.length));
    Step { group, ..step }
}

/// The values in a node's body.
pub fn node_of(body: &[u8]) -> Node {
    Node { step: two_bytes(body, 0), lo: two_bytes(body, 2), hi: two_bytes(body, 4) }
}

/// One field: tag, length, body.
pub fn field(layout: Layout, body: &[u8]) -> Vec<u8> {
    claiming(layout.tag, layout.length, body)
}

/// A field of any tag with any body, such as a remark.
pub fn tagged(tag: u8, body: &[u8]) -> Vec<u8> {
    claiming(tag, body.len(), body)
}

/// A field whose header claims a length that its body need not have.
pub fn claiming(tag: u8, length: usize, body: &[u8]) -> Vec<u8> {
    let length = u16::try_from(length).expect("a length of two bytes");
    let mut bytes = vec![tag];
    bytes.extend(length.to_le_bytes());
    bytes.extend(body);
    bytes
}

pub fn chart_head_field(chart: &Chart) -> Vec<u8> {
    let body: Vec<u8> =
        [chart.stages, chart.start, chart.end].iter().flat_map(|v| v.to_le_bytes()).collect();
    field(CHART_HEAD, &body)
}

pub fn step_field(step: Step) -> Vec<u8> {
    let mut body: Vec<u8> = [step.from, step.to].iter().flat_map(|v| v.to_le_bytes()).collect();
    body.extend(step.cost.to_le_bytes());
    body.extend(step.group.iter().flat_map(|group| group.to_le_bytes()));
    field(step.layout(), &body)
}

pub fn diagram_head_field(diagram: &Diagram) -> Vec<u8> {
    field(DIAGRAM_HEAD, &diagram.root.to_le_bytes())
}

pub fn node_field(node: Node) -> Vec<u8> {
    let body: Vec<u8> =
        [node.step, node.lo, node.hi].iter().flat_map(|v| v.to_le_bytes()).collect();
    field(NODE, &body)
}

/// The file of a chart; limits are not looked at.
pub fn write_chart(chart: &Chart) -> Vec<u8> {
    let mut bytes = chart_head_field(chart);
    bytes.extend(chart.steps.iter().flat_map(|step| step_field(*step)));
    bytes
}

/// The file of a diagram, nodes as they stand; limits are not looked at.
pub fn write_diagram(diagram: &Diagram) -> Vec<u8> {
    let mut bytes = diagram_head_field(diagram);
    bytes.extend(diagram.nodes.iter().flat_map(|node| node_field(*node)));
    bytes
}
