//! Shortenings (document 02, C-19) with texts worked out by hand: which accesses stay
//! between synchronising events, starting values in both forms, code lines, a list.

use crate::cases::{matching, raw, text, trace};
use crate::forms::CODED;
use crate::lists::list;
use crate::peer::ListFor;

/// A text, the shortened one, and the matching from the first to the second.
pub struct KnownShort {
    pub name: String,
    pub list: Option<ListFor>,
    pub text: Vec<u8>,
    pub short: Vec<u8>,
    pub matching: Vec<u8>,
}

#[derive(Default)]
struct Shorts {
    known: Vec<KnownShort>,
    list: Option<ListFor>,
}

impl Shorts {
    fn add(&mut self, name: &str, text: Vec<u8>, short: Vec<u8>, entries: &str) {
        self.known.push(KnownShort { name: name.to_string(), list: self.list.clone(), text, short, matching: matching(entries) });
    }

    /// Lines of form 1.
    fn plain(&mut self, name: &str, lines: &str, short: &str, entries: &str) {
        self.add(name, trace(lines), trace(short), entries);
    }

    /// Lines of form 1 that all stay, so many of them events.
    fn whole(&mut self, name: &str, lines: &str, events: usize) {
        let entries: String = (1..=events).map(|number| format!("keep {number};")).collect();
        self.plain(name, lines, lines, &entries);
    }

    /// Lines of form 2, as they stand.
    fn coded(&mut self, name: &str, lines: &str, short: &str, entries: &str) {
        self.add(name, text(CODED, lines), text(CODED, short), entries);
    }
}

/// Between synchronising events.
fn accesses(shorts: &mut Shorts) {
    shorts.plain("no events", "", "", "");
    shorts.whole("a used load", "load 1 0 used", 1);
    shorts.plain("an unused load", "load 1 0 unused", "", "gone");
    shorts.plain("a load again", "load 1 0 used; load 1 0 used", "load 1 0 used", "keep 1; gone");
    shorts.plain("a used load behind an unused one", "load 1 0 unused; load 1 0 used", "", "gone; gone");
    shorts.plain("an overwritten store", "store 1 5; store 1 7", "store 1 7", "gone; keep 1");
    shorts.plain("the same stored twice", "store 1 5; store 1 5", "store 1 5", "gone; keep 1");
    shorts.plain("a load of what was stored", "store 1 5; load 1 5 used", "store 1 5", "keep 1; gone");
    shorts.plain("a load between stores", "store 1 5; load 1 5 used; store 1 6", "store 1 6", "gone; gone; keep 1");
    shorts.plain("written back", "load 1 0 used; store 1 4; store 1 0", "load 1 0 used", "keep 1; gone; gone");
    shorts.plain("written back to an unused load", "load 1 0 unused; store 1 4; store 1 0", "", "gone; gone; gone");
    shorts.plain("written behind an unused load", "load 1 0 unused; store 1 4", "store 1 4", "gone; keep 1");
    shorts.plain("written back to a store", "store 1 0; store 1 4; store 1 0", "store 1 0", "gone; gone; keep 1");
    shorts.plain("a load and a last store", "load 1 0 used; store 1 4; load 1 4 used; store 1 6", "load 1 0 used; store 1 6", "keep 1; gone; gone; keep 2");
    shorts.plain(
        "two locations",
        "load 1 0 used; store 2 3; load 1 0 used; store 1 1; store 2 4; store 1 0",
        "load 1 0 used; store 2 4",
        "keep 1; gone; gone; gone; keep 2; gone",
    );
}

/// They stay, and what is near ends at them.
fn synchronising(shorts: &mut Shorts) {
    shorts.whole("stores parted", "store 1 5; lock 0; store 1 7", 3);
    shorts.whole("loads parted", "load 1 0 used; fence sc; load 1 0 used", 3);
    shorts.whole("written back behind a lock", "load 1 0 used; lock 1; store 1 0", 3);
    shorts.whole("atomic events", "astore 3 rel 1; aload 3 acq 1; cmpfail 3 rlx 1; rmw 3 ar 1 2; add64 3 sc 2 5; fence rel; unlock 3", 7);
    shorts.plain("each part by itself", "store 1 5; store 1 6; unlock 0; load 1 6 unused; store 1 6; store 2 1", "store 1 6; unlock 0; store 2 1", "gone; keep 1; keep 2; gone; gone; keep 3");
}

/// Starting values and code lines.
fn starts(shorts: &mut Shorts) {
    shorts.plain("a starting value in form 1", "init 1 4; load 1 4 unused", "init 1 4", "gone");
    shorts.coded("a zero line goes", "init 1 0; init 2 0; load 1 0 unused 5; store 2 3 6", "init 2 0; store 2 3 6", "gone; keep 1");
    shorts.coded("a zero line stays", "init 1 0; load 1 0 used 5; load 1 0 used 6", "init 1 0; load 1 0 used 5", "keep 1; gone");
    shorts.coded("a starting value stays", "init 1 4; load 1 4 unused 9", "init 1 4", "gone");
    shorts.coded("one of no event stays", "init 1 4; lock 7 65535", "init 1 4; lock 7 65535", "keep 1");
}

/// An access to a register stays, and parts the others.
fn registers(shorts: &mut Shorts) {
    shorts.list = Some(ListFor { text: list("reg 1"), group: 1 });
    shorts.whole("reads of a register", "load 1 3 used; load 1 4 unused; store 1 5; store 1 5", 4);
    shorts.whole("stores parted by a register", "store 2 5; load 1 3 used; store 2 7", 3);
    let shared = raw("regs\t2\n", b"reg\t1\t2\nreg\t2\t1\n");
    shorts.list = Some(ListFor { text: shared.clone(), group: 2 });
    shorts.whole("the group's register", "store 2 5; load 1 3 used; store 2 7", 3);
    shorts.list = Some(ListFor { text: shared, group: 1 });
    shorts.plain("the other group's", "store 1 5; load 2 3 used; store 1 7; store 1 8", "store 1 5; load 2 3 used; store 1 8", "keep 1; keep 2; gone; keep 3");
}

/// All that are known by hand.
pub fn known() -> Vec<KnownShort> {
    let mut shorts = Shorts::default();
    for part in [accesses, synchronising, starts, registers] {
        part(&mut shorts);
    }
    shorts.known
}
