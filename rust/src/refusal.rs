//! Why a call is refused.

use std::error::Error;
use std::fmt;

use crate::lent::{self, Answer, Space};

/// One of the files that a call takes, with its mark. Later versions of the library add files.
#[derive(Clone, Copy, Debug, PartialEq, Eq, Hash)]
#[non_exhaustive]
pub enum File {
    Chart = 1,
    Rules = 2,
    /// The second diagram of [`conjoin`](crate::conjoin).
    MoreRules = 3,
}

impl File {
    /// The file of a mark, none of a mark without a name.
    fn of(mark: usize) -> Option<File> {
        match mark {
            1 => Some(File::Chart),
            2 => Some(File::Rules),
            3 => Some(File::MoreRules),
            _ => None,
        }
    }
}

/// The cause of a refusal. Where a file is at fault, with the place: the byte position of the faulty
/// field's tag, or of the first byte too many. Later versions of the library add causes.
#[derive(Clone, Copy, Debug, PartialEq, Eq, Hash)]
#[non_exhaustive]
pub enum Refusal {
    /// 1: the file ends inside a field.
    Cut { file: File, place: usize },
    /// 2: the file is empty, a tag isn't of this file, the head isn't first or comes again, a step is of
    /// another kind than the first.
    Tag { file: File, place: usize },
    /// 3: the length isn't that of the tag.
    Length { file: File, place: usize },
    /// 4: the chart's head breaks a limit.
    Head { file: File, place: usize },
    /// 5: there is a 1,025th step, or a step leaves a stage below that of the step before.
    Step { file: File, place: usize },
    /// 6: an inner node breaks a limit, there is a 511th, or the root is no node.
    Node { file: File, place: usize },
    /// 7: a work slice, the plan slice or the file buffer is too short.
    Space,
    /// 8: no legal plan. The count of the search: reached pairs of a sweep, settled ones of a
    /// guided search.
    NoPlan { count: usize },
    /// 9: the file has more than [`LONGEST_FILE`](crate::LONGEST_FILE) bytes; that is the place.
    Long { file: File, place: usize },
    /// 10: a step doesn't lead to a higher stage of the chart.
    Stages { file: File, place: usize },
    /// 11: a step's cost, as the file has it, is beyond 1,000,000.
    Cost { file: File, place: usize },
    /// 12: the reduced diagram has more than 510 inner nodes.
    Large,
    /// 13: an inner node has lo equal to hi, or group, lo and hi of an earlier one.
    /// [`reduce`](crate::reduce) makes of such a file one that is taken.
    Padded { file: File, place: usize },
    /// 14: a step's group is above 1,023, or below that of the step before.
    Group { file: File, place: usize },
    /// A number that this crate has no name for, or one of a file with a mark that it has no name
    /// for: the linked library is newer. The three entries are the answer's own.
    Other { number: usize, file: usize, place: usize },
}

impl Refusal {
    /// The refusal of an answer, none where it is accepted.
    pub fn of(answer: &Answer) -> Option<Refusal> {
        let Answer { number, file: mark, place, count, .. } = *answer;
        Some(match (number, File::of(mark)) {
            (0, _) => return None,
            (1, Some(file)) => Refusal::Cut { file, place },
            (2, Some(file)) => Refusal::Tag { file, place },
            (3, Some(file)) => Refusal::Length { file, place },
            (4, Some(file)) => Refusal::Head { file, place },
            (5, Some(file)) => Refusal::Step { file, place },
            (6, Some(file)) => Refusal::Node { file, place },
            (7, _) => Refusal::Space,
            (8, _) => Refusal::NoPlan { count },
            (9, Some(file)) => Refusal::Long { file, place },
            (10, Some(file)) => Refusal::Stages { file, place },
            (11, Some(file)) => Refusal::Cost { file, place },
            (12, _) => Refusal::Large,
            (13, Some(file)) => Refusal::Padded { file, place },
            (14, Some(file)) => Refusal::Group { file, place },
            _ => Refusal::Other { number, file: mark, place },
        })
    }

    /// The refusal of a file that was asked for its space.
    pub(crate) fn of_space(space: &Space) -> Option<Refusal> {
        let Space { number, file, place, .. } = *space;
        Refusal::of(&Answer { number, file, place, ..Answer::default() })
    }

    /// The refusal's number, as it stands in the answer.
    pub fn number(&self) -> usize {
        match *self {
            Refusal::Cut { .. } => 1,
            Refusal::Tag { .. } => 2,
            Refusal::Length { .. } => 3,
            Refusal::Head { .. } => 4,
            Refusal::Step { .. } => 5,
            Refusal::Node { .. } => 6,
            Refusal::Space => 7,
            Refusal::NoPlan { .. } => 8,
            Refusal::Long { .. } => 9,
            Refusal::Stages { .. } => 10,
            Refusal::Cost { .. } => 11,
            Refusal::Large => 12,
            Refusal::Padded { .. } => 13,
            Refusal::Group { .. } => 14,
            Refusal::Other { number, .. } => number,
        }
    }

    /// The file at fault and the place; none where no file is at fault, as under 7, 8 and 12.
    pub fn field_place(&self) -> Option<(File, usize)> {
        match *self {
            Refusal::Cut { file, place }
            | Refusal::Tag { file, place }
            | Refusal::Length { file, place }
            | Refusal::Head { file, place }
            | Refusal::Step { file, place }
            | Refusal::Node { file, place }
            | Refusal::Long { file, place }
            | Refusal::Stages { file, place }
            | Refusal::Cost { file, place }
            | Refusal::Padded { file, place }
            | Refusal::Group { file, place } => Some((file, place)),
            Refusal::Other { file, place, .. } => File::of(file).map(|file| (file, place)),
            Refusal::Space | Refusal::NoPlan { .. } | Refusal::Large => None,
        }
    }

    /// The faulty field's bytes, a part of the caller's own file; empty where there is none, or where
    /// the file at fault is neither of these two. Under 9 they begin at the first byte too many.
    pub fn field<'a>(&self, chart: &'a [u8], rules: &'a [u8]) -> &'a [u8] {
        self.field_of_three(chart, rules, &[])
    }

    /// The same for a call on three files, as [`conjoin`](crate::conjoin): the files as it took them.
    pub fn field_of_three<'a>(&self, chart: &'a [u8], rules: &'a [u8], more: &'a [u8]) -> &'a [u8] {
        match self.field_place() {
            Some((File::MoreRules, place)) => refused_field(chart, more, File::Rules, place),
            Some((file, place)) => refused_field(chart, rules, file, place),
            None => &chart[..0],
        }
    }
}

/// The field at a place of a file: its header and its body, or what the file has of them. A place at
/// or past the end, or a file that is neither of these two, gives an empty part of the chart.
///
/// For a field of [`File::MoreRules`] hand that file in as `rules` and name [`File::Rules`], or take
/// [`Refusal::field_of_three`], which does so.
pub fn refused_field<'a>(chart: &'a [u8], rules: &'a [u8], file: File, place: usize) -> &'a [u8] {
    let length = lent::refused_field(chart, rules, file as u32, place, &mut []);
    let bytes = match file {
        File::Chart => chart,
        File::Rules => rules,
        File::MoreRules => &[],
    };
    let part = bytes.get(place..).and_then(|rest| rest.get(..length));
    part.filter(|part| !part.is_empty()).unwrap_or(&chart[..0])
}

impl fmt::Display for Refusal {
    /// As the program `plan` writes it.
    fn fmt(&self, f: &mut fmt::Formatter) -> fmt::Result {
        let (file, place) = match *self {
            Refusal::Other { file, place, .. } => (file, place),
            _ => self.field_place().map_or((0, 0), |(file, place)| (file as usize, place)),
        };
        write!(f, "refused {} file {file} place {place}", self.number())
    }
}

impl Error for Refusal {}
