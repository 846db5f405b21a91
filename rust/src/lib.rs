//! Socket-cycle planner: the cheapest chain of steps from a start stage to an end stage of a chart
//! that a rule diagram allows. The calls are those of a proved static library; this crate lends
//! them slices and has no logic of its own.
//!
//! A chart with two ways from stage 0 to stage 2, and the rule that step 0 is not taken:
//!
//! ```
//! // Head: 3 stages, start 0, end 2. Steps from, to, ns: 0 to 2 for 5; 0 to 1 for 40; 1 to 2 for 60.
//! let chart = [
//!     0x01, 6, 0, 3, 0, 0, 0, 2, 0, //
//!     0x02, 8, 0, 0, 0, 2, 0, 5, 0, 0, 0, //
//!     0x02, 8, 0, 0, 0, 1, 0, 40, 0, 0, 0, //
//!     0x02, 8, 0, 1, 0, 2, 0, 60, 0, 0, 0,
//! ];
//! // Root 2; node 2: where step 0 is taken no (0), else yes (1).
//! let rules = [
//!     0x11, 2, 0, 2, 0, //
//!     0x12, 6, 0, 0, 0, 1, 0, 0, 0,
//! ];
//! let plan = planner::plan(&chart, &rules)?;
//! // In whole ticks the two steps cost 50 and 100.
//! assert_eq!((plan.cost, &plan.steps[..]), (150, &[1, 2][..]));
//!
//! // A chart that ends inside its last field.
//! let refusal = planner::plan(&chart[..40], &rules).unwrap_err();
//! assert_eq!(refusal, planner::Refusal::Cut { file: planner::File::Chart, place: 31 });
//! assert_eq!(refusal.to_string(), "refused 1 file 1 place 31");
//! assert_eq!(refusal.field(&chart[..40], &rules), &chart[31..40]);
//! # Ok::<(), planner::Refusal>(())
//! ```
//!
//! Work space can be kept from call to call, so that a call allocates nothing but its plan:
//!
//! ```
//! # let chart = [0x01, 6, 0, 1, 0, 0, 0, 0, 0];
//! # let rules = [0x11, 2, 0, 1, 0];
//! let mut work = planner::Work::for_files(&chart, &rules)?;
//! let answer = work.guided(&chart, &rules);
//! assert_eq!(answer.number, 0);
//! println!("cost {}, steps {:?}", answer.cost, work.guided_steps(&answer));
//! # Ok::<(), planner::Refusal>(())
//! ```
//!
//! Many starts and ends on one chart are asked for at once, and the files are read once:
//!
//! ```
//! use planner::Cycle;
//! # let chart = [
//! #     0x01, 6, 0, 3, 0, 0, 0, 2, 0, //
//! #     0x02, 8, 0, 0, 0, 2, 0, 5, 0, 0, 0, //
//! #     0x02, 8, 0, 0, 0, 1, 0, 40, 0, 0, 0, //
//! #     0x02, 8, 0, 1, 0, 2, 0, 60, 0, 0, 0,
//! # ];
//! # let rules = [0x11, 2, 0, 2, 0, 0x12, 6, 0, 0, 0, 1, 0, 0, 0];
//! // The first chart and its rule again; there is no stage 3, and no step back.
//! let mut list = [(0, 2), (0, 1), (2, 0), (0, 3)].map(|(start, end)| Cycle::new(start, end));
//! planner::cycles(&chart, &rules, &mut list)?;
//! assert_eq!(list.map(|cycle| (cycle.number, cycle.cost)), [(0, 150), (0, 50), (8, 0), (4, 0)]);
//! # Ok::<(), planner::Refusal>(())
//! ```
//!
//! Two rule diagrams over one chart can be made one, which allows what both allow:
//!
//! ```
//! // Three steps from stage 0 to stage 1, for 50, 100 and 150 ns.
//! let chart = [
//!     0x01, 6, 0, 2, 0, 0, 0, 1, 0, //
//!     0x02, 8, 0, 0, 0, 1, 0, 50, 0, 0, 0, //
//!     0x02, 8, 0, 0, 0, 1, 0, 100, 0, 0, 0, //
//!     0x02, 8, 0, 0, 0, 1, 0, 150, 0, 0, 0,
//! ];
//! // The adapter's rule: step 0 is not taken. The chip's: step 1 is not.
//! let adapter = [0x11, 2, 0, 2, 0, 0x12, 6, 0, 0, 0, 1, 0, 0, 0];
//! let chip = [0x11, 2, 0, 2, 0, 0x12, 6, 0, 1, 0, 1, 0, 0, 0];
//! let both = planner::conjoin(&chart, &adapter, &chip)?;
//! assert_eq!(planner::plan(&chart, &adapter)?.steps, [1]);
//! assert_eq!(planner::plan(&chart, &chip)?.steps, [0]);
//! assert_eq!(planner::plan(&chart, &both)?.steps, [2]);
//!
//! // The third file ends inside its node.
//! let cut = &chip[..9];
//! let refusal = planner::conjoin(&chart, &adapter, cut).unwrap_err();
//! assert_eq!(refusal.to_string(), "refused 1 file 3 place 5");
//! assert_eq!(refusal.field_of_three(&chart, &adapter, cut), &cut[5..]);
//! # Ok::<(), planner::Refusal>(())
//! ```
//!
//! A padded diagram, one with a node whose lo is its hi or with two nodes alike, is refused;
//! [`reduce`] makes of it one that is taken and says the same:
//!
//! ```
//! # let chart = [
//! #     0x01, 6, 0, 2, 0, 0, 0, 1, 0, //
//! #     0x02, 8, 0, 0, 0, 1, 0, 50, 0, 0, 0, //
//! #     0x02, 8, 0, 0, 0, 1, 0, 100, 0, 0, 0, //
//! #     0x02, 8, 0, 0, 0, 1, 0, 150, 0, 0, 0,
//! # ];
//! // The same chart. Node 2 is always yes; node 3: step 0 is not taken.
//! let padded = [
//!     0x11, 2, 0, 3, 0, //
//!     0x12, 6, 0, 2, 0, 1, 0, 1, 0, //
//!     0x12, 6, 0, 0, 0, 2, 0, 0, 0,
//! ];
//! let refusal = planner::plan(&chart, &padded).unwrap_err();
//! assert_eq!(refusal, planner::Refusal::Padded { file: planner::File::Rules, place: 5 });
//!
//! let reduced = planner::reduce(&chart, &padded)?;
//! assert_eq!(reduced, [0x11, 2, 0, 2, 0, 0x12, 6, 0, 0, 0, 1, 0, 0, 0]);
//! assert_eq!(planner::plan(&chart, &reduced)?.steps, [1]);
//! # Ok::<(), planner::Refusal>(())
//! ```
//!
//! Steps that mean the same can be of one group, which a rule names once. Tag 03 marks such a step,
//! with its group after the ns; the nodes of a diagram ask for groups, and a group is there if at least
//! one of its steps is taken. Steps of tag 02, as above, are a group each, by their own number. A plan
//! has numbers of steps, in every chart:
//!
//! ```
//! // From 0 to 1 for 50 or 100 ns, both of group 0; from 1 to 2 for 200, group 1, or 50, group 2.
//! let chart = [
//!     0x01, 6, 0, 3, 0, 0, 0, 2, 0, //
//!     0x03, 10, 0, 0, 0, 1, 0, 50, 0, 0, 0, 0, 0, //
//!     0x03, 10, 0, 0, 0, 1, 0, 100, 0, 0, 0, 0, 0, //
//!     0x03, 10, 0, 1, 0, 2, 0, 200, 0, 0, 0, 1, 0, //
//!     0x03, 10, 0, 1, 0, 2, 0, 50, 0, 0, 0, 2, 0,
//! ];
//! // Who takes a step of group 0 takes one of group 1: node 2 asks for group 1, the root for group 0.
//! let rules = [
//!     0x11, 2, 0, 3, 0, //
//!     0x12, 6, 0, 1, 0, 0, 0, 1, 0, //
//!     0x12, 6, 0, 0, 0, 1, 0, 2, 0,
//! ];
//! let plan = planner::plan(&chart, &rules)?;
//! assert_eq!((plan.cost, &plan.steps[..]), (250, &[0, 2][..]));
//! # Ok::<(), planner::Refusal>(())
//! ```
//!
//! The module [`lent`] has the calls as they are, on slices that the caller lends.

mod conjoin;
pub mod lent;
mod raw;
mod reduce;
mod refusal;
mod work;

pub use conjoin::{conjoin, ConjoinWork};
pub use lent::Cycle;
pub use reduce::reduce;
pub use refusal::{refused_field, File, Refusal};
pub use work::{cycles, plan, space_needed, Plan, Work};

/// The bytes of the longest file that is taken. Remarks, fields of a tag from 80 to FF (hexadecimal)
/// after the head, leave room for text beside steps and nodes.
pub const LONGEST_FILE: usize = 32_768;

/// The ns of a tick. A step takes whole ticks: wherever a cost is told, it is the number in the file
/// rounded up to a multiple of this.
pub const TICK: u32 = 50;

/// Work entries that are enough for the conjunction of any two diagrams: 512 × 512 pairs of nodes.
pub const MOST_PAIRS: usize = 262_144;

/// Bytes that are enough for the file of any conjunction or reduction: those of 510 inner nodes.
pub const MOST_FILE: usize = 4_595;
