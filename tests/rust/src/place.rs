//! What a text finds in a store, and what a bulletin holds, for those who look at it beside the call.

use crate::reference::report::{self, groups};
use crate::reference::store::{self, Cell, Head, Settling};

/// The slot that a text means, as it is.
pub struct Place {
    /// Of the station.
    pub index: usize,
    pub slot: usize,
    pub head: Head,
    /// The raw ones.
    pub cells: [Cell; 9],
    /// How far the settling is.
    pub settling: Settling,
    /// The text is a NIL.
    pub nil: bool,
}

/// Where a text goes that passes checks 1 to 7 in a sound store.
pub fn place(store: &[u8], text: &[u8]) -> Option<Place> {
    let report = report::read(text).ok()?;
    let (index, slot) = report.place(store).ok()?;
    let block = store::block(store, index);
    Some(Place {
        index,
        slot,
        head: store::head(block, slot),
        cells: store::raw_sheet(block)[slot],
        settling: store::settling(store, index),
        nil: report.observation.is_none(),
    })
}

/// A group after Nddff of a report that passes checks 1 to 5.
pub struct Later<'a> {
    pub group: &'a [u8],
    /// The one that it stands in, or opens.
    pub section: u32,
    /// A 55 run skips it.
    pub skipped: bool,
}

/// All of them.
pub fn later_groups(text: &[u8]) -> impl Iterator<Item = Later<'_>> {
    let (mut section, mut run) = (1, false);
    groups(&text[..text.len() - 1]).skip(5).map(move |group| {
        let opens = match group {
            b"333" | b"444" | b"555" => true,
            _ => section == 1 && group.starts_with(b"222"),
        };
        if opens {
            section = (group[0] - b'0').into();
        }
        let among = !opens && section == 3;
        let skipped = among && run && matches!(group[0], b'0'..=b'6');
        if among {
            run = (run || group.starts_with(b"55")) && !matches!(group[0], b'7'..=b'9');
        }
        Later { group, section, skipped }
    })
}

/// The reports of a bulletin that end in `=`, each with the heading.
pub fn reports(text: &[u8]) -> Vec<Vec<u8>> {
    let end = text.iter().rposition(|&byte| byte == b'=').unwrap_or(0);
    let mut pieces = text[..end].split(|&byte| byte == b'=').map(|piece| groups(piece).collect::<Vec<_>>());
    let Some(first) = pieces.next().filter(|groups| groups.len() > 1) else { return Vec::new() };
    let (heading, first) = first.split_at(2);
    let whole = |groups: &[&[u8]]| [[heading, groups].concat().join(&b' '), b"=".to_vec()].concat();
    std::iter::once(whole(first)).chain(pieces.map(|piece| whole(&piece))).collect()
}
