//! The run of an accepted matching in the fixed order, and a replay of steps by
//! the rules alone. Ordinary Rust, beside the proved one.

use crate::peer::{check, read_list, Answer, Event, Kind, ListFor, Locations, Word, EVENT_WORDS, MAX_EVENTS, NO_LOCATIONS};
use crate::rules::{insertable_value, may_remove, may_swap};
use crate::texts::event_line;
use std::fmt::Write;

/// Places count from 1 in the trace as it stands.
#[derive(Clone, Copy, Debug, PartialEq, Eq)]
pub enum Step {
    Remove { place: usize, number: usize },
    Swap { place: usize },
    Insert { place: usize },
}

/// What a check of three texts gives: its answer, the events, and the steps with
/// their number, which a refused matching has none of.
pub struct Run {
    pub answer: Answer,
    pub cost: usize,
    pub source: Vec<Event>,
    pub target: Vec<Event>,
    pub steps: Vec<Step>,
}

/// The events of a room.
pub fn events(room: &[Word], count: usize) -> Vec<Event> {
    room.chunks(EVENT_WORDS).take(count).map(|words| Event::from_words(words).expect("a room holds events")).collect()
}

/// The locations that the list of a call names; none without one, or if it is refused.
pub fn listed(list: Option<&ListFor>) -> Locations {
    list.map_or(NO_LOCATIONS, |list| read_list(list).listed)
}

/// The run of three texts under a list or none, checked in rooms that hold the most.
pub fn run(list: Option<&ListFor>, [source, target, matching]: [&[u8]; 3]) -> Result<Run, String> {
    let [mut source_room, mut target_room] = [(); 2].map(|()| vec![0; MAX_EVENTS * EVENT_WORDS]);
    let mut entry_room = vec![0; MAX_EVENTS];
    let checked = check(list, source, target, matching, &mut source_room, &mut target_room, &mut entry_room);
    if checked.answer.number != 0 {
        return Ok(Run { answer: checked.answer, cost: 0, source: vec![], target: vec![], steps: vec![] });
    }
    let source = events(&source_room, checked.source_events);
    let target = events(&target_room, checked.target_events);
    let entries: Vec<usize> = entry_room[..checked.entries].iter().map(|&entry| entry as usize).collect();
    let cost = cost(&entries, target.len());
    let steps = steps(&listed(list), &source, &target, &entries).ok_or("a gone event is stuck")?;
    if steps.len() != cost {
        return Err(format!("{} steps, but {cost} are counted", steps.len()));
    }
    Ok(Run { answer: checked.answer, cost, source, target, steps })
}

/// The gone events, the pairs of kept ones whose order is reversed, and the
/// target events that no entry keeps.
pub fn cost(entries: &[usize], targets: usize) -> usize {
    let kept: Vec<usize> = entries.iter().copied().filter(|&number| number != 0).collect();
    let reversed = |at: usize| kept[at + 1..].iter().filter(|&&later| later < kept[at]).count();
    let inserted = (1..=targets).filter(|number| !kept.contains(number)).count();
    entries.len() - kept.len() + (0..kept.len()).map(reversed).sum::<usize>() + inserted
}

/// The gone events, the highest first of those that may be removed now.
fn removals(listed: &Locations, events: &mut Vec<Event>, numbers: &mut Vec<usize>, steps: &mut Vec<Step>) -> bool {
    let mut sources: Vec<usize> = (1..=events.len()).collect();
    while numbers.contains(&0) {
        let Some(at) = (0..events.len()).rev().find(|&at| numbers[at] == 0 && may_remove(listed, events, at)) else {
            return false;
        };
        steps.push(Step::Remove { place: at + 1, number: sources[at] });
        events.remove(at);
        numbers.remove(at);
        sources.remove(at);
    }
    true
}

/// The swaps, each at the lowest place against the target's order: after one,
/// the place before it is the lowest that can have changed.
fn swaps(numbers: &mut [usize], steps: &mut Vec<Step>) {
    let mut at = 0;
    while at + 1 < numbers.len() {
        if numbers[at] > numbers[at + 1] {
            steps.push(Step::Swap { place: at + 1 });
            numbers.swap(at, at + 1);
            at = at.saturating_sub(1);
        } else {
            at += 1;
        }
    }
}

/// The whole run, or nothing if a gone event cannot be removed.
fn steps(listed: &Locations, source: &[Event], target: &[Event], entries: &[usize]) -> Option<Vec<Step>> {
    let mut steps = Vec::new();
    let mut numbers = entries.to_vec();
    if !removals(listed, &mut source.to_vec(), &mut numbers, &mut steps) {
        return None;
    }
    swaps(&mut numbers, &mut steps);
    steps.extend((1..=target.len()).filter(|number| !entries.contains(number)).map(|place| Step::Insert { place }));
    Some(steps)
}

fn same(event: &Event, target: &Event) -> bool {
    let order = event.kind == Kind::Load || event.order == target.order;
    order && Event { order: target.order, code: target.code, ..*event } == *target
}

/// Applies each step by the rules under a list, knowing nothing of the matching; at
/// the end the trace must be the target, marks and code lines apart.
pub fn replay(listed: &Locations, source: &[Event], target: &[Event], steps: &[Step]) -> Result<(), String> {
    let mut events = source.to_vec();
    let mut sources: Vec<usize> = (1..=source.len()).collect();
    for (index, &step) in steps.iter().enumerate() {
        let allowed = match step {
            Step::Remove { place, number } => {
                let at = place - 1;
                let may = at < events.len() && sources[at] == number && may_remove(listed, &events, at);
                if may {
                    events.remove(at);
                    sources.remove(at);
                }
                may
            }
            Step::Swap { place } => {
                let may = place < events.len() && may_swap(listed, &events, place - 1);
                if may {
                    events.swap(place - 1, place);
                    sources.swap(place - 1, place);
                }
                may
            }
            Step::Insert { place } => {
                let event = target[place - 1];
                let may = event.kind == Kind::Load
                    && place <= events.len() + 1
                    && insertable_value(listed, &events, place - 1, event.place) == Some(event.first);
                if may {
                    events.insert(place - 1, event);
                    sources.insert(place - 1, 0);
                }
                may
            }
        };
        if !allowed {
            return Err(format!("step {}, {step:?}, is not allowed", index + 1));
        }
    }
    let ended = events.len() == target.len() && events.iter().zip(target).all(|(event, target)| same(event, target));
    if ended { Ok(()) } else { Err(String::from("the run does not end at the target")) }
}

/// The lines that the program prints for an accepted matching: how many steps
/// there are, and the steps.
pub fn lines(Run { answer, cost, source, target, steps }: &Run) -> String {
    if answer.number != 0 {
        return String::new();
    }
    let mut text = format!("steps\t{cost}\n");
    for &step in steps {
        let done = match step {
            Step::Remove { place, number } => write!(text, "remove\t{place}\t{number}\t{}", event_line(&source[number - 1])),
            Step::Swap { place } => writeln!(text, "swap\t{place}"),
            Step::Insert { place } => write!(text, "insert\t{place}\t{}", event_line(&target[place - 1])),
        };
        done.expect("a string takes every line");
    }
    text
}
