//! The same check as slowly and literally as the requirement states it: fields
//! as strings, quadratic searches, one list of tests after another. It exists
//! to be compared with the fast one and shares no code with it. It stays at
//! document 01: no later request is in it, so its values have 32 bits and it knows
//! no `add64` and no `cmpfail`. `slow.rs` puts to it what later requests read as document 01 does.

pub type Triple = (u32, u32, u32);

/// An event as its fields: name, place, order or mark, first, second.
#[derive(Clone, Debug, PartialEq)]
pub struct Row {
    pub name: String,
    pub place: u32,
    pub order: String,
    pub first: u32,
    pub second: u32,
}

impl Row {
    fn plain(&self) -> bool {
        self.name == "load" || self.name == "store"
    }

    fn atomic(&self) -> bool {
        ["aload", "astore", "rmw", "add"].contains(&self.name.as_str())
    }

    /// The row as it lies in a room.
    pub fn words(&self) -> [u32; 6] {
        let names = ["", "load", "store", "aload", "astore", "rmw", "add", "fence", "lock", "unlock"];
        let orders = ["", "rlx", "acq", "rel", "ar", "sc", "used", "unused"];
        let index = |list: &[&str], word: &str| list.iter().position(|&item| item == word).unwrap() as u32;
        [index(&names, &self.name), self.place, index(&orders, &self.order), self.first, self.second, 0]
    }
}

pub struct Trace {
    pub start: [u32; 256],
    pub rows: Vec<Row>,
}

/// The answer of a check and what it is to leave behind.
pub struct Outcome {
    pub answer: Triple,
    /// What is stored, unless a reading was refused.
    pub stored: Option<(Trace, Trace, Vec<u32>)>,
}

fn number(field: &str, limit: u64) -> Option<u32> {
    let value: u64 = field.parse().ok()?;
    (value.to_string() == field && value <= limit).then_some(value as u32)
}

fn place(field: &str) -> Option<u32> {
    number(field, 255)
}

fn value(field: &str) -> Option<u32> {
    number(field, 4294967295)
}

fn suits(name: &str, order: &str) -> bool {
    let suiting: &[&str] = match name {
        "aload" => &["rlx", "acq", "sc"],
        "astore" => &["rlx", "rel", "sc"],
        "rmw" | "add" => &["rlx", "acq", "rel", "ar", "sc"],
        "fence" => &["acq", "rel", "ar", "sc"],
        "load" => &["used", "unused"],
        _ => &[],
    };
    suiting.contains(&order)
}

fn row(line: &str) -> Option<Row> {
    let fields: Vec<&str> = line.split('\t').collect();
    let make = |place: u32, order: &str, first: u32, second: u32| {
        Some(Row { name: fields[0].to_string(), place, order: order.to_string(), first, second })
    };
    match fields[..] {
        ["load", l, v, m] if suits("load", m) => make(place(l)?, m, value(v)?, 0),
        ["store", l, v] => make(place(l)?, "", value(v)?, 0),
        [n @ ("aload" | "astore"), l, o, v] if suits(n, o) => make(place(l)?, o, value(v)?, 0),
        [n @ ("rmw" | "add"), l, o, v, w] if suits(n, o) => make(place(l)?, o, value(v)?, value(w)?),
        ["fence", o] if suits("fence", o) => make(0, o, 0, 0),
        ["lock" | "unlock", m] => make(place(m)?, "", 0, 0),
        _ => None,
    }
}

fn init(line: &str) -> Option<(usize, u32)> {
    let fields: Vec<&str> = line.split('\t').collect();
    match fields[..] {
        ["init", l, v] if v != "0" => Some((place(l)? as usize, value(v)?)),
        _ => None,
    }
}

/// The lines of a text, each with whether it has its LF. Bytes above 127 are
/// never lawful, so how they decode does not matter.
fn lines(text: &[u8]) -> Vec<(String, bool)> {
    text.split_inclusive(|&byte| byte == b'\n')
        .map(|line| match line.strip_suffix(b"\n") {
            Some(line) => (String::from_utf8_lossy(line).into_owned(), true),
            None => (String::from_utf8_lossy(line).into_owned(), false),
        })
        .collect()
}

pub fn read_trace(text: &[u8], side: u32, room: usize) -> Result<Trace, Triple> {
    if text.len() > 32400 {
        return Err((1, side, 0));
    }
    let lines = lines(text);
    if lines.is_empty() || lines[0] != ("trace\t1".to_string(), true) {
        return Err((2, side, 1));
    }
    let mut trace = Trace { start: [0; 256], rows: vec![] };
    let mut inits: Vec<usize> = vec![];
    for (index, (line, ended)) in lines.iter().enumerate().skip(1) {
        let at = index as u32 + 1;
        let (init, row) = (init(line), row(line));
        if !ended || (init.is_none() && row.is_none()) {
            return Err((2, side, at));
        }
        if let Some((location, value)) = init {
            if !trace.rows.is_empty() || inits.iter().any(|&earlier| earlier >= location) {
                return Err((4, side, at));
            }
            inits.push(location);
            trace.start[location] = value;
        }
        if let Some(row) = row {
            trace.rows.push(row);
            if trace.rows.len() == 801 {
                return Err((3, side, at));
            }
        }
    }
    for at in 0..trace.rows.len() {
        let row = &trace.rows[at];
        let earlier = &trace.rows[..at];
        let clash = |other: &Row| {
            other.place == row.place && ((row.plain() && other.atomic()) || (row.atomic() && other.plain()))
        };
        if earlier.iter().any(clash) {
            return Err((5, side, at as u32 + 1));
        }
        let reads = ["load", "aload", "rmw", "add"].contains(&row.name.as_str());
        if reads && row.first != latest(&trace.start, earlier, row.place) {
            return Err((6, side, at as u32 + 1));
        }
    }
    if trace.rows.len() > room {
        return Err((17, side, trace.rows.len() as u32));
    }
    Ok(trace)
}

fn latest(start: &[u32; 256], earlier: &[Row], location: u32) -> u32 {
    for row in earlier.iter().rev() {
        if row.place == location {
            match row.name.as_str() {
                "store" | "astore" => return row.first,
                "rmw" => return row.second,
                "add" => return ((row.first as u64 + row.second as u64) % (1u64 << 32)) as u32,
                _ => {}
            }
        }
    }
    start[location as usize]
}

fn read_matching(text: &[u8], room: usize) -> Result<Vec<u32>, Triple> {
    if text.len() > 32400 {
        return Err((1, 3, 0));
    }
    let lines = lines(text);
    if lines.is_empty() || lines[0] != ("match\t1".to_string(), true) {
        return Err((2, 3, 1));
    }
    let mut entries = vec![];
    for (index, (line, ended)) in lines.iter().enumerate().skip(1) {
        let entry = match line.split_once('\t') {
            None if line == "gone" => Some(0),
            Some(("keep", target)) => number(target, 800).filter(|&target| target > 0),
            _ => None,
        };
        match entry {
            Some(entry) if *ended => entries.push(entry),
            _ => return Err((2, 3, index as u32 + 1)),
        }
        if entries.len() == 801 {
            return Err((3, 3, index as u32 + 1));
        }
    }
    if entries.len() > room {
        return Err((17, 3, entries.len() as u32));
    }
    Ok(entries)
}

/// The indices of the accesses to the location of `at`, between the
/// synchronising events around it.
fn group(rows: &[Row], at: usize) -> Vec<usize> {
    let mut from = at;
    while from > 0 && rows[from - 1].plain() {
        from -= 1;
    }
    let mut to = at;
    while to + 1 < rows.len() && rows[to + 1].plain() {
        to += 1;
    }
    (from..=to).filter(|&index| rows[index].place == rows[at].place).collect()
}

fn is_closing(rows: &[Row], entries: &[u32], at: usize) -> bool {
    let after = group(rows, at).into_iter().filter(|&index| index > at);
    let first = after.into_iter().find(|&index| rows[index].name == "store" || entries[index] != 0);
    first.is_none_or(|index| rows[index].name == "load" && entries[index] != 0)
}

fn has_witness(rows: &[Row], entries: &[u32], at: usize) -> bool {
    let group = group(rows, at);
    let last_kept = group.iter().rev().find(|&&index| index < at && entries[index] != 0);
    let witness = match last_kept {
        Some(&index) => Some(index),
        None => Some(group[0]).filter(|&index| rows[index].name == "load"),
    };
    witness.is_some_and(|index| rows[index].first == rows[at].first)
}

fn judge(source: &Trace, target: &Trace, entries: &[u32]) -> Triple {
    for location in 0..256 {
        if source.start[location] != target.start[location] {
            return (7, 2, location as u32);
        }
    }
    if entries.len() != source.rows.len() {
        return (8, 3, entries.len() as u32);
    }
    for (at, &entry) in entries.iter().enumerate() {
        if entry as usize > target.rows.len() || (entry != 0 && entries[..at].contains(&entry)) {
            return (9, 3, at as u32 + 1);
        }
    }
    let rows = &source.rows;
    for at in 0..rows.len() {
        if let Some(number) = judge_source_event(rows, &target.rows, entries, at) {
            return (number, 1, at as u32 + 1);
        }
    }
    for at in 0..target.rows.len() {
        if entries.contains(&(at as u32 + 1)) {
            continue;
        }
        if target.rows[at].name != "load" {
            return (15, 2, at as u32 + 1);
        }
        if group(&target.rows, at)[0] == at {
            return (16, 2, at as u32 + 1);
        }
    }
    (0, 0, 0)
}

fn judge_source_event(rows: &[Row], target: &[Row], entries: &[u32], at: usize) -> Option<u32> {
    let row = &rows[at];
    if entries[at] != 0 {
        let mut other = target[entries[at] as usize - 1].clone();
        if row.name == "load" && other.name == "load" {
            other.order = row.order.clone();
        }
        if *row != other {
            return Some(10);
        }
        let overtaken = (0..at).any(|earlier| {
            entries[earlier] > entries[at]
                && !(row.plain() && rows[earlier].plain() && row.place != rows[earlier].place)
        });
        return overtaken.then_some(12);
    }
    if !row.plain() {
        return Some(11);
    }
    if row.name == "load" {
        return (row.order == "used" && group(rows, at)[0] == at).then_some(13);
    }
    (is_closing(rows, entries, at) && !has_witness(rows, entries, at)).then_some(14)
}

pub fn offending_line(source: &[u8], target: &[u8], (number, side, place): Triple) -> Vec<u8> {
    let text = match side {
        1 => source,
        2 => target,
        _ => return vec![],
    };
    let mut lines: Vec<&[u8]> = text.split(|&byte| byte == b'\n').collect();
    if [5, 6].contains(&number) || (10..=16).contains(&number) {
        lines.remove(0);
        lines.retain(|line| !line.starts_with(b"init"));
    } else if ![2, 3, 4].contains(&number) {
        return vec![];
    }
    lines[place as usize - 1].to_vec()
}

fn run(texts: [&[u8]; 3], rooms: [usize; 3]) -> Result<(Trace, Trace, Vec<u32>), Triple> {
    let source = read_trace(texts[0], 1, rooms[0])?;
    let target = read_trace(texts[1], 2, rooms[1])?;
    let entries = read_matching(texts[2], rooms[2])?;
    Ok((source, target, entries))
}

/// The check of source, target and matching text, for rooms of so many events,
/// events and entries.
pub fn check(texts: [&[u8]; 3], rooms: [usize; 3]) -> Outcome {
    let (answer, stored) = match run(texts, rooms) {
        Ok(read) => (judge(&read.0, &read.1, &read.2), Some(read)),
        Err(answer) => (answer, None),
    };
    Outcome { answer, stored }
}
