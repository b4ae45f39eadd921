//! What the test plays: a call of document 01, a group, a begin or a drain of a sheet, on either
//! side.

use crate::call::Call;
use crate::group::{Form, Group};
use crate::library::Library;
use crate::reference::Layer;
use crate::sheet::{OnSheet, What};
use crate::table::Answer;

#[derive(Clone, Debug)]
pub enum Act {
    Call(Call),
    Group(Group),
    Sheet(OnSheet),
}

/// The calls of document 01 in its order, a group as bytes, a group as records.
pub const LAYER_KINDS: usize = 15;

/// And a begin, a drain.
pub const KINDS: usize = LAYER_KINDS + 2;

/// What is lent besides table, memory and area, with the bytes behind it: the status list of a
/// group, all sheets, the text of a drain.
#[derive(Clone, Debug, PartialEq)]
pub struct Lists {
    pub statuses: Vec<u8>,
    pub sheets: Vec<Vec<u8>>,
    pub text: Vec<u8>,
}

impl Lists {
    /// Where another one differs from this: the name of the bytes, which of them, and both.
    pub fn difference(&self, other: &Lists) -> Option<(String, usize, u8, u8)> {
        let sheets = self.sheets.iter().zip(&other.sheets).enumerate();
        let sheets = sheets.map(|(n, (ours, theirs))| (format!("sheet {n}"), ours, theirs));
        let statuses = (String::from("status list"), &self.statuses, &other.statuses);
        let text = (String::from("text"), &self.text, &other.text);
        for (name, ours, theirs) in sheets.chain([statuses, text]) {
            if let Some(at) = (0..ours.len()).find(|&i| ours[i] != theirs[i]) {
                return Some((name, at, ours[at], theirs[at]));
            }
        }
        None
    }
}

impl Act {
    pub fn kind(&self) -> usize {
        match self {
            Act::Call(call) => call.kind(),
            Act::Group(Group { form: Form::Bytes(_), .. }) => 13,
            Act::Group(Group { form: Form::Records(_), .. }) => 14,
            Act::Sheet(OnSheet { what: What::Begin(_), .. }) => 15,
            Act::Sheet(OnSheet { what: What::Drain(..), .. }) => 16,
        }
    }

    pub fn is_start(&self) -> bool {
        matches!(self, Act::Call(Call::Start))
    }

    /// Whether an answer with this number is a refusal.
    pub fn refused_by(&self, number: u32) -> bool {
        match self {
            Act::Call(call) => call.refused_by(number),
            Act::Group(_) | Act::Sheet(_) => number != 0,
        }
    }

    /// The status list of a group as it is before, with the bytes behind it.
    pub fn statuses(&self) -> Vec<u8> {
        match self {
            Act::Group(group) => group.statuses.clone(),
            _ => Vec::new(),
        }
    }

    /// What is lent, as it is before.
    pub fn lists(&self, sheets: &[Vec<u8>]) -> Lists {
        let text = if let Act::Sheet(on) = self { on.text() } else { Vec::new() };
        Lists { statuses: self.statuses(), sheets: sheets.to_vec(), text }
    }

    pub fn by_reference(
        &self,
        layer: &mut Layer,
        memory: usize,
        in_range: bool,
        area: &mut [u8],
        lists: &mut Lists,
    ) -> Answer {
        match self {
            Act::Call(call) => layer.call(call, memory, in_range, area),
            Act::Group(group) => {
                layer.group(group, memory, in_range, area, &mut lists.statuses[..group.lent])
            }
            Act::Sheet(on) => {
                let (sheet, text) = (on.of(&mut lists.sheets), &mut lists.text[..on.text_lent()]);
                layer.on_sheet(on, memory, in_range, sheet, text)
            }
        }
    }

    pub fn by_library(
        &self,
        library: &mut Library,
        table: &[u8],
        memory: &mut [u8],
        area: &mut [u8],
        lists: &mut Lists,
    ) -> Answer {
        match self {
            Act::Call(call) => library.call(table, memory, call, area),
            Act::Group(group) => {
                library.group(table, memory, group, area, &mut lists.statuses[..group.lent])
            }
            Act::Sheet(on) => {
                let (sheet, text) = (on.of(&mut lists.sheets), &mut lists.text[..on.text_lent()]);
                library.on_sheet(table, memory, on, sheet, text)
            }
        }
    }
}
