//! The rules of change, word by word, each read on a trace as it stands and under
//! a list of registers. Nothing here is shared with the checker but the types.

use crate::peer::{order, Event, Kind, Locations, Word};

/// Plain: a load or a store at a location that is not listed.
fn is_plain(listed: &Locations, event: &Event) -> bool {
    matches!(event.kind, Kind::Load | Kind::Store) && !listed[usize::from(event.place)]
}

/// The access to the location nearest before position `at`, if it is near.
fn near_before(listed: &Locations, trace: &[Event], at: usize, location: u8) -> Option<Event> {
    for event in trace[..at].iter().rev() {
        if !is_plain(listed, event) {
            return None;
        }
        if event.place == location {
            return Some(*event);
        }
    }
    None
}

/// The access to the location nearest from position `from` on, if it is near.
fn near_after(listed: &Locations, trace: &[Event], from: usize, location: u8) -> Option<Event> {
    for event in &trace[from..] {
        if !is_plain(listed, event) {
            return None;
        }
        if event.place == location {
            return Some(*event);
        }
    }
    None
}

/// Removal of the event at index `at`.
pub fn may_remove(listed: &Locations, trace: &[Event], at: usize) -> bool {
    let event = trace[at];
    let before_has_its_value =
        || near_before(listed, trace, at, event.place).is_some_and(|near| near.first == event.first);
    match event.kind {
        _ if !is_plain(listed, &event) => false,
        Kind::Load => event.order == order::UNUSED || before_has_its_value(),
        Kind::Store => {
            before_has_its_value()
                || near_after(listed, trace, at + 1, event.place).is_some_and(|near| near.kind == Kind::Store)
        }
        _ => false,
    }
}

/// Swap of the events at indices `at` and `at + 1`.
pub fn may_swap(listed: &Locations, trace: &[Event], at: usize) -> bool {
    let (a, b) = (trace[at], trace[at + 1]);
    is_plain(listed, &a) && is_plain(listed, &b) && a.place != b.place
}

/// The value of a load of the location that may be inserted at index `at`.
pub fn insertable_value(listed: &Locations, trace: &[Event], at: usize, location: u8) -> Option<Word> {
    near_before(listed, trace, at, location).map(|near| near.first)
}
