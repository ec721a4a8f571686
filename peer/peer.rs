//! Reading, writing, moving, shortening and checking of traces and matchings, in ordinary safe Rust.
//!
//! Each call but that of a matching has a list of device registers or none, which
//! is read first; without one no location is listed.
//!
//! A text is parsed once, into a compact buffer of its own, because a refused
//! call must leave the lent rooms as they were. Only when every text of the
//! call has been found lawful are the buffers copied to the rooms. The check
//! then makes one pass down and one pass up over the source events and one
//! pass up over the target events, so its cost is linear in their number.

#![forbid(unsafe_code)]

// ---------------------------------------------------------------- constants

/// The longest matching, in bytes.
pub const MAX_MATCHING: usize = 32_400;
/// The longest list, in bytes.
pub const MAX_LIST: usize = 32_400;
/// The longest trace of form 1, in bytes.
pub const MAX_TEXT: usize = 52_500;
/// The longest trace of form 2, in bytes.
pub const MAX_CODED_TEXT: usize = 57_300;
/// The most events of a trace, and the most entries of a matching.
pub const MAX_EVENTS: usize = 800;
/// The most registers of a group.
pub const MAX_REGISTERS: usize = 32;
/// The groups of a list are 1 to this one.
const GROUPS: Word = 2;
/// Locations are numbered 0 to 255, and so are mutexes.
pub const CELLS: usize = 256;
/// An event in a room is this many words.
pub const EVENT_WORDS: usize = 6;

/// The highest location or mutex.
const MAX_PLACE: Word = 255;
/// The highest code line.
const MAX_CODE: Word = 65_535;
/// Twenty digits are enough for every value.
const MAX_DIGITS: usize = 20;
/// `lock`, tab, one digit, LF: bounds the events that a text can hold.
const SHORTEST_EVENT_LINE: usize = 7;
/// `gone`, LF: bounds the entries that a text can hold.
const SHORTEST_ENTRY_LINE: usize = 5;
/// No line that the writer makes is longer: an `add64` of form 2 with all fields full.
const LONGEST_LINE: usize = 62;

const TAB: u8 = b'\t';
const LF: u8 = b'\n';

const MATCHING_HEADER: &[u8] = b"match\t1\n";
const LIST_HEADER: &[u8] = b"regs\t1\n";
const GROUP_HEADER: &[u8] = b"regs\t2\n";

/// The number of an answer.
pub mod number {
    pub const DONE: u32 = 0;
    pub const TEXT_TOO_LONG: u32 = 1;
    pub const BAD_LINE: u32 = 2;
    pub const TOO_MANY: u32 = 3;
    pub const INIT_OUT_OF_ORDER: u32 = 4;
    pub const MIXED_USE: u32 = 5;
    pub const NOT_LATEST: u32 = 6;
    pub const STARTS_DIFFER: u32 = 7;
    pub const ENTRY_COUNT: u32 = 8;
    pub const BAD_TARGET_NUMBER: u32 = 9;
    pub const KEPT_DIFFERS: u32 = 10;
    pub const SYNC_GONE: u32 = 11;
    pub const OVERTAKEN: u32 = 12;
    pub const LOAD_GONE: u32 = 13;
    pub const STORE_GONE: u32 = 14;
    pub const NOT_A_LOAD: u32 = 15;
    pub const NOTHING_NEAR: u32 = 16;
    pub const ROOM_TOO_SHORT: u32 = 17;
    pub const BAD_FIELDS: u32 = 18;
    pub const CODE_LOST: u32 = 19;
    pub const START_MISSING: u32 = 20;
    pub const IDLE_ZERO: u32 = 21;
    pub const LIST_OUT_OF_ORDER: u32 = 22;
}

/// The side of an answer.
pub mod side {
    pub const NONE: u32 = 0;
    pub const SOURCE: u32 = 1;
    pub const TARGET: u32 = 2;
    pub const MATCHING: u32 = 3;
    pub const LIST: u32 = 4;
}

/// What stands in the order word of an event.
pub mod order {
    pub const NONE: u8 = 0;
    pub const RLX: u8 = 1;
    pub const ACQ: u8 = 2;
    pub const REL: u8 = 3;
    pub const AR: u8 = 4;
    pub const SC: u8 = 5;
    /// The marks of a load share the word with the orders.
    pub const USED: u8 = 6;
    pub const UNUSED: u8 = 7;
}

// -------------------------------------------------------------------- types

/// The form of a trace text. An event line of form 2 ends with its code line.
#[derive(Clone, Copy, Debug, PartialEq, Eq)]
pub enum Form {
    One,
    Two,
}

impl Form {
    const fn header(self) -> &'static [u8] {
        match self {
            Form::One => b"trace\t1\n",
            Form::Two => b"trace\t2\n",
        }
    }

    pub const fn limit(self) -> usize {
        match self {
            Form::One => MAX_TEXT,
            Form::Two => MAX_CODED_TEXT,
        }
    }

    /// What closes the field of an event line that is the last in form 1.
    const fn close(self) -> u8 {
        match self {
            Form::One => LF,
            Form::Two => TAB,
        }
    }
}

/// Form 2 exactly where the text begins with its first line, LF included.
pub fn form_of(text: &[u8]) -> Form {
    if text.starts_with(Form::Two.header()) {
        Form::Two
    } else {
        Form::One
    }
}

/// A value, and a word of an event.
pub type Word = u64;
/// An entry of a matching: the target number, or 0 for gone.
pub type Entry = u32;
/// The value of every location.
pub type Memory = [Word; CELLS];

const ZERO_MEMORY: Memory = [0; CELLS];

/// A set of locations.
pub type Locations = [bool; CELLS];

pub const NO_LOCATIONS: Locations = [false; CELLS];

#[derive(Clone, Copy, Debug, PartialEq, Eq)]
pub struct Answer {
    pub number: u32,
    pub side: u32,
    pub place: u32,
}

impl Answer {
    const DONE: Answer = Answer { number: number::DONE, side: side::NONE, place: 0 };

    /// A place never exceeds the length of a text or a room's need, so it fits.
    fn new(number: u32, side: u32, place: usize) -> Answer {
        Answer { number, side, place: place as u32 }
    }
}

/// The list of a call: its text, and the group whose lines are used.
#[derive(Clone, Debug, PartialEq, Eq, PartialOrd, Ord)]
pub struct ListFor {
    pub text: Vec<u8>,
    pub group: Word,
}

/// The locations that a list names for a group; none under a refusal.
#[derive(Clone, Debug, PartialEq, Eq)]
pub struct ListRead {
    pub answer: Answer,
    pub listed: Locations,
}

#[derive(Clone, Debug, PartialEq, Eq)]
pub struct TraceRead {
    pub answer: Answer,
    pub events: usize,
    pub memory: Memory,
}

#[derive(Clone, Copy, Debug, PartialEq, Eq)]
pub struct MatchingRead {
    pub answer: Answer,
    pub entries: usize,
}

#[derive(Clone, Debug, PartialEq, Eq)]
pub struct Checked {
    pub answer: Answer,
    pub source_events: usize,
    pub target_events: usize,
    pub entries: usize,
    pub source_memory: Memory,
    pub target_memory: Memory,
}

impl Checked {
    /// What a check hands back when one of its readings is refused.
    fn refused(answer: Answer) -> Checked {
        Checked {
            answer,
            source_events: 0,
            target_events: 0,
            entries: 0,
            source_memory: ZERO_MEMORY,
            target_memory: ZERO_MEMORY,
        }
    }
}

#[derive(Clone, Copy, Debug, PartialEq, Eq)]
#[repr(u8)]
pub enum Kind {
    Load = 1,
    Store = 2,
    ALoad = 3,
    AStore = 4,
    Rmw = 5,
    Add = 6,
    Fence = 7,
    Lock = 8,
    Unlock = 9,
    Add64 = 10,
    CmpFail = 11,
}

/// The kinds in the order of their numbers, from 1.
const KINDS: [Kind; 11] = [
    Kind::Load,
    Kind::Store,
    Kind::ALoad,
    Kind::AStore,
    Kind::Rmw,
    Kind::Add,
    Kind::Fence,
    Kind::Lock,
    Kind::Unlock,
    Kind::Add64,
    Kind::CmpFail,
];

impl Kind {
    pub fn is_plain(self) -> bool {
        matches!(self, Kind::Load | Kind::Store)
    }

    fn name(self) -> &'static [u8] {
        match self {
            Kind::Load => b"load",
            Kind::Store => b"store",
            Kind::ALoad => b"aload",
            Kind::AStore => b"astore",
            Kind::Rmw => b"rmw",
            Kind::Add => b"add",
            Kind::Fence => b"fence",
            Kind::Lock => b"lock",
            Kind::Unlock => b"unlock",
            Kind::Add64 => b"add64",
            Kind::CmpFail => b"cmpfail",
        }
    }

    /// The orders (or marks) that suit the kind, one bit for each order number.
    const fn lawful_orders(self) -> u8 {
        const EACH: u8 = 1 << order::RLX | 1 << order::ACQ | 1 << order::REL | 1 << order::AR | 1 << order::SC;
        match self {
            Kind::Load => 1 << order::USED | 1 << order::UNUSED,
            Kind::ALoad | Kind::CmpFail => 1 << order::RLX | 1 << order::ACQ | 1 << order::SC,
            Kind::AStore => 1 << order::RLX | 1 << order::REL | 1 << order::SC,
            Kind::Rmw | Kind::Add | Kind::Add64 => EACH,
            Kind::Fence => EACH & !(1 << order::RLX),
            Kind::Store | Kind::Lock | Kind::Unlock => 1 << order::NONE,
        }
    }

    fn suits(self, order: u8) -> bool {
        self.lawful_orders() >> order & 1 == 1
    }

    fn has_place(self) -> bool {
        self != Kind::Fence
    }

    /// Whether the kind's place is a location; that of a mutex is none.
    fn touches(self) -> bool {
        !matches!(self, Kind::Fence | Kind::Lock | Kind::Unlock)
    }

    /// How many value fields the kind has.
    fn values(self) -> usize {
        match self {
            Kind::Load | Kind::Store | Kind::ALoad | Kind::AStore | Kind::CmpFail => 1,
            Kind::Rmw | Kind::Add | Kind::Add64 => 2,
            Kind::Fence | Kind::Lock | Kind::Unlock => 0,
        }
    }

    /// The greatest value that the kind has: `add` counts in 32 bits.
    pub fn last_value(self) -> Word {
        match self {
            Kind::Add => Word::from(u32::MAX),
            _ => Word::MAX,
        }
    }
}

/// An event, in fewer bytes than it takes in a room. Fields that the kind does
/// not have are 0, and so is the code line in form 1.
#[derive(Clone, Copy, Debug, PartialEq, Eq)]
pub struct Event {
    pub kind: Kind,
    /// The location or the mutex.
    pub place: u8,
    /// The order, or the mark of a load.
    pub order: u8,
    /// The value; for `rmw`, `add` and `add64` the old one.
    pub first: Word,
    /// `rmw`'s new value, the operand of `add` and `add64`.
    pub second: Word,
    /// The code line.
    pub code: u16,
}

/// What the rules see of an event: a plain access, or one that synchronises.
#[derive(Clone, Copy, PartialEq, Eq)]
enum Seen {
    Load,
    Store,
    Wall,
}

impl Event {
    /// Whether it is a plain access to a location that is not listed. One to a
    /// listed location counts as synchronising.
    pub fn is_plain(self, listed: &Locations) -> bool {
        self.kind.is_plain() && !listed[usize::from(self.place)]
    }

    fn seen(self, listed: &Locations) -> Seen {
        match self.kind {
            Kind::Load if self.is_plain(listed) => Seen::Load,
            Kind::Store if self.is_plain(listed) => Seen::Store,
            _ => Seen::Wall,
        }
    }

    /// The six words of the event in a room.
    pub fn words(self) -> [Word; EVENT_WORDS] {
        [self.kind as Word, self.place.into(), self.order.into(), self.first, self.second, self.code.into()]
    }

    /// The event of six words, if they are of the layout.
    pub fn from_words(words: &[Word]) -> Option<Event> {
        let &[kind, place, order, first, second, code] = words else {
            return None;
        };
        let kind = *KINDS.get(usize::try_from(kind).ok()?.checked_sub(1)?)?;
        let place = u8::try_from(place).ok()?;
        let order = u8::try_from(order).ok().filter(|&order| order <= order::UNUSED)?;
        let code = u16::try_from(code).ok()?;
        let lawful = kind.suits(order)
            && (kind.has_place() || place == 0)
            && (kind.values() >= 1 || first == 0)
            && (kind.values() == 2 || second == 0)
            && first.max(second) <= kind.last_value();
        lawful.then_some(Event { kind, place, order, first, second, code })
    }

    /// Equality, the marks of loads and the code lines apart.
    fn is_kept_as(self, other: Event) -> bool {
        self.kind == other.kind
            && self.place == other.place
            && self.first == other.first
            && self.second == other.second
            && (self.order == other.order || self.kind == Kind::Load)
    }
}

// ------------------------------------------------------------------ reading

/// The part of a text that is still to be read. Every method takes what it
/// wants from the front, or says `None` and leaves the rest undefined: the
/// line is then not of the layout and nothing after it matters.
struct Cursor<'a> {
    rest: &'a [u8],
    /// The form of a trace; a matching has none and goes as form 1.
    form: Form,
}

/// One line of a trace after the first.
enum Record {
    Init { location: u8, value: Word },
    Event(Event),
}

impl Cursor<'_> {
    /// A decimal number of at most `limit` without leading zeros, and the byte
    /// `end` that closes its field.
    #[inline]
    fn number(&mut self, limit: Word, end: u8) -> Option<Word> {
        let mut value: Word = 0;
        let mut digits = 0;
        loop {
            let &byte = self.rest.get(digits)?;
            let digit = byte.wrapping_sub(b'0');
            if digit > 9 {
                if byte != end {
                    return None;
                }
                break;
            }
            value = value.checked_mul(10)?.checked_add(digit.into())?;
            digits += 1;
        }
        let leading_zero = digits > 1 && self.rest[0] == b'0';
        if digits == 0 || leading_zero || value > limit {
            return None;
        }
        self.rest = &self.rest[digits + 1..];
        Some(value)
    }

    #[inline]
    fn place(&mut self, end: u8) -> Option<u8> {
        self.number(MAX_PLACE, end).map(|place| place as u8)
    }

    #[inline]
    fn value(&mut self, end: u8) -> Option<Word> {
        self.number(Word::MAX, end)
    }

    /// An order that suits the kind, and the byte that closes its field.
    #[inline]
    fn order(&mut self, kind: Kind, end: u8) -> Option<u8> {
        let (order, close, rest) = match self.rest {
            [b'r', b'l', b'x', close, rest @ ..] => (order::RLX, close, rest),
            [b'a', b'c', b'q', close, rest @ ..] => (order::ACQ, close, rest),
            [b'r', b'e', b'l', close, rest @ ..] => (order::REL, close, rest),
            [b'a', b'r', close, rest @ ..] => (order::AR, close, rest),
            [b's', b'c', close, rest @ ..] => (order::SC, close, rest),
            _ => return None,
        };
        self.rest = rest;
        (*close == end && kind.suits(order)).then_some(order)
    }

    /// The mark of a load, and the byte that closes its field.
    #[inline]
    fn mark(&mut self, end: u8) -> Option<u8> {
        let (mark, close, rest) = match self.rest {
            [b'u', b's', b'e', b'd', close, rest @ ..] => (order::USED, close, rest),
            [b'u', b'n', b'u', b's', b'e', b'd', close, rest @ ..] => (order::UNUSED, close, rest),
            _ => return None,
        };
        self.rest = rest;
        (*close == end).then_some(mark)
    }

    /// The event of these fields, after which form 2 has the code line.
    #[inline]
    fn event(&mut self, kind: Kind, place: u8, order: u8, first: Word, second: Word) -> Option<Record> {
        let code = match self.form {
            Form::One => 0,
            Form::Two => self.number(MAX_CODE, LF)? as u16,
        };
        Some(Record::Event(Event { kind, place, order, first, second, code }))
    }

    /// A whole trace line with its LF.
    fn record(&mut self) -> Option<Record> {
        match self.rest {
            [b'l', b'o', b'a', b'd', TAB, rest @ ..] => self.after(rest).load(),
            [b's', b't', b'o', b'r', b'e', TAB, rest @ ..] => self.after(rest).store(),
            [b'a', b'l', b'o', b'a', b'd', TAB, rest @ ..] => self.after(rest).atomic(Kind::ALoad),
            [b'a', b's', b't', b'o', b'r', b'e', TAB, rest @ ..] => self.after(rest).atomic(Kind::AStore),
            [b'r', b'm', b'w', TAB, rest @ ..] => self.after(rest).atomic_pair(Kind::Rmw),
            [b'a', b'd', b'd', TAB, rest @ ..] => self.after(rest).atomic_pair(Kind::Add),
            [b'a', b'd', b'd', b'6', b'4', TAB, rest @ ..] => self.after(rest).atomic_pair(Kind::Add64),
            [b'c', b'm', b'p', b'f', b'a', b'i', b'l', TAB, rest @ ..] => self.after(rest).atomic(Kind::CmpFail),
            [b'f', b'e', b'n', b'c', b'e', TAB, rest @ ..] => self.after(rest).fence(),
            [b'l', b'o', b'c', b'k', TAB, rest @ ..] => self.after(rest).mutex(Kind::Lock),
            [b'u', b'n', b'l', b'o', b'c', b'k', TAB, rest @ ..] => self.after(rest).mutex(Kind::Unlock),
            [b'i', b'n', b'i', b't', TAB, rest @ ..] => self.after(rest).init(),
            _ => None,
        }
    }
}

impl<'a> Cursor<'a> {
    #[inline]
    fn after(&mut self, rest: &'a [u8]) -> &mut Self {
        self.rest = rest;
        self
    }

    #[inline]
    fn load(&mut self) -> Option<Record> {
        let place = self.place(TAB)?;
        let first = self.value(TAB)?;
        let order = self.mark(self.form.close())?;
        self.event(Kind::Load, place, order, first, 0)
    }

    #[inline]
    fn store(&mut self) -> Option<Record> {
        let place = self.place(TAB)?;
        let first = self.value(self.form.close())?;
        self.event(Kind::Store, place, order::NONE, first, 0)
    }

    #[inline]
    fn atomic(&mut self, kind: Kind) -> Option<Record> {
        let place = self.place(TAB)?;
        let order = self.order(kind, TAB)?;
        let first = self.value(self.form.close())?;
        self.event(kind, place, order, first, 0)
    }

    #[inline]
    fn atomic_pair(&mut self, kind: Kind) -> Option<Record> {
        let place = self.place(TAB)?;
        let order = self.order(kind, TAB)?;
        let first = self.number(kind.last_value(), TAB)?;
        let second = self.number(kind.last_value(), self.form.close())?;
        self.event(kind, place, order, first, second)
    }

    #[inline]
    fn fence(&mut self) -> Option<Record> {
        let order = self.order(Kind::Fence, self.form.close())?;
        self.event(Kind::Fence, 0, order, 0, 0)
    }

    #[inline]
    fn mutex(&mut self, kind: Kind) -> Option<Record> {
        let place = self.place(self.form.close())?;
        self.event(kind, place, order::NONE, 0, 0)
    }

    /// An `init` line. In form 1 a value of 0 is not of the layout.
    #[inline]
    fn init(&mut self) -> Option<Record> {
        let location = self.place(TAB)?;
        let value = self.value(LF).filter(|&value| value != 0 || self.form == Form::Two)?;
        Some(Record::Init { location, value })
    }

    /// A whole matching line with its LF: the target number, 0 for `gone`.
    #[inline]
    fn entry(&mut self) -> Option<u16> {
        match self.rest {
            [b'g', b'o', b'n', b'e', LF, rest @ ..] => {
                self.rest = rest;
                Some(0)
            }
            [b'k', b'e', b'e', b'p', TAB, rest @ ..] => {
                self.rest = rest;
                let target = self.number(MAX_EVENTS as Word, LF).filter(|&target| target != 0)?;
                Some(target as u16)
            }
            _ => None,
        }
    }

    /// A whole line of a list with its LF: the group, which a line of form 1 does not
    /// name, and the location.
    fn register(&mut self) -> Option<(Word, u8)> {
        self.rest = self.rest.strip_prefix(b"reg\t")?;
        let group = match self.form {
            Form::One => 1,
            Form::Two => self.number(GROUPS, TAB).filter(|&group| group != 0)?,
        };
        Some((group, self.place(LF)?))
    }
}

/// Answer 1.
fn within(limit: usize, text: &[u8], side: u32) -> Result<(), Answer> {
    if text.len() > limit {
        return Err(Answer::new(number::TEXT_TOO_LONG, side, 0));
    }
    Ok(())
}

/// The text after its first line, or the refusal of that line.
fn body<'a>(text: &'a [u8], header: &[u8], form: Form, side: u32) -> Result<Cursor<'a>, Answer> {
    match text.strip_prefix(header) {
        Some(rest) => Ok(Cursor { rest, form }),
        None => Err(Answer::new(number::BAD_LINE, side, 1)),
    }
}

/// Answers 1, 2 and 22 of a list, whichever group's line is at fault; and the
/// locations that it names for a group.
fn parse_list(ListFor { text, group: wanted }: &ListFor) -> Result<Locations, Answer> {
    within(MAX_LIST, text, side::LIST)?;
    let form = if text.starts_with(GROUP_HEADER) { Form::Two } else { Form::One };
    let header = if form == Form::Two { GROUP_HEADER } else { LIST_HEADER };
    let mut cursor = body(text, header, form, side::LIST)?;
    let mut listed = NO_LOCATIONS;
    let mut last = None;
    let mut registers = 0;
    for line in 2.. {
        if cursor.rest.is_empty() {
            break;
        }
        let Some(register) = cursor.register() else {
            return Err(Answer::new(number::BAD_LINE, side::LIST, line));
        };
        let (group, location) = register;
        if last.is_some_and(|(last, _)| last != group) {
            registers = 0;
        }
        if last >= Some(register) || registers == MAX_REGISTERS {
            return Err(Answer::new(number::LIST_OUT_OF_ORDER, side::LIST, line));
        }
        listed[usize::from(location)] |= group == *wanted;
        last = Some(register);
        registers += 1;
    }
    Ok(listed)
}

/// The locations that the list of a call names. A call without one lists none.
fn registers(list: Option<&ListFor>) -> Result<Locations, Answer> {
    list.map_or(Ok(NO_LOCATIONS), parse_list)
}

/// Reads a list alone, for a group.
pub fn read_list(list: &ListFor) -> ListRead {
    match parse_list(list) {
        Ok(listed) => ListRead { answer: Answer::DONE, listed },
        Err(answer) => ListRead { answer, listed: NO_LOCATIONS },
    }
}

/// The lines of a trace: its events, and the locations that have an `init` line.
struct Lines {
    events: Vec<Event>,
    lined: Locations,
}

/// Answers 1 to 4 of a trace. Fills the starting memory, which is all 0 before.
fn parse_lines(text: &[u8], side: u32, memory: &mut Memory) -> Result<Lines, Answer> {
    let form = form_of(text);
    within(form.limit(), text, side)?;
    let mut cursor = body(text, form.header(), form, side)?;
    let mut events = Vec::with_capacity((text.len() / SHORTEST_EVENT_LINE).min(MAX_EVENTS));
    let mut lined = NO_LOCATIONS;
    let mut line = 1;
    let mut next_location = 0;
    while !cursor.rest.is_empty() {
        line += 1;
        match cursor.record() {
            None => return Err(Answer::new(number::BAD_LINE, side, line)),
            Some(Record::Init { location, value }) => {
                if !events.is_empty() || usize::from(location) < next_location {
                    return Err(Answer::new(number::INIT_OUT_OF_ORDER, side, line));
                }
                next_location = usize::from(location) + 1;
                memory[usize::from(location)] = value;
                lined[usize::from(location)] = true;
            }
            Some(Record::Event(event)) => {
                if events.len() == MAX_EVENTS {
                    return Err(Answer::new(number::TOO_MANY, side, line));
                }
                events.push(event);
            }
        }
    }
    Ok(Lines { events, lined })
}

/// The locations that the events touch.
fn touched(events: &[Event]) -> Locations {
    let mut touched = NO_LOCATIONS;
    for event in events.iter().filter(|event| event.kind.touches()) {
        touched[usize::from(event.place)] = true;
    }
    touched
}

/// Answers 20 and 21, which form 2 alone has: no start of a touched location is
/// left unsaid, and none of 0 is said of another.
fn cover(lines: &Lines, memory: &Memory, side: u32) -> Result<(), Answer> {
    let unsaid = |event: &Event| event.kind.touches() && !lines.lined[usize::from(event.place)];
    if let Some(index) = lines.events.iter().position(unsaid) {
        return Err(Answer::new(number::START_MISSING, side, index + 1));
    }
    let touched = touched(&lines.events);
    // The `init` lines ascend, from line 2 on.
    let mut starts = (0..CELLS).filter(|&location| lines.lined[location]);
    match starts.position(|location| memory[location] == 0 && !touched[location]) {
        Some(index) => Err(Answer::new(number::IDLE_ZERO, side, index + 2)),
        None => Ok(()),
    }
}

/// Bits that say how a location has been used so far.
const PLAIN_USE: u8 = 1;
const ATOMIC_USE: u8 = 2;

/// Answers 5 and 6: the events one by one against the latest values. A listed
/// location is one of plain use from the start, and may hold any value.
fn replay(listed: &Locations, start: &Memory, events: &[Event], side: u32) -> Result<(), Answer> {
    let mut cells = *start;
    let mut uses = listed.map(|listed| if listed { PLAIN_USE } else { 0 });
    for (index, event) in events.iter().enumerate() {
        let (usage, reads, after) = match event.kind {
            Kind::Load => (PLAIN_USE, true, event.first),
            Kind::Store => (PLAIN_USE, false, event.first),
            // A failed exchange is an atomic load.
            Kind::ALoad | Kind::CmpFail => (ATOMIC_USE, true, event.first),
            Kind::AStore => (ATOMIC_USE, false, event.first),
            Kind::Rmw => (ATOMIC_USE, true, event.second),
            Kind::Add => (ATOMIC_USE, true, (event.first + event.second) % (1 << 32)),
            Kind::Add64 => (ATOMIC_USE, true, event.first.wrapping_add(event.second)),
            Kind::Fence | Kind::Lock | Kind::Unlock => continue,
        };
        let place = usize::from(event.place);
        uses[place] |= usage;
        if uses[place] == PLAIN_USE | ATOMIC_USE {
            return Err(Answer::new(number::MIXED_USE, side, index + 1));
        }
        if reads && cells[place] != event.first && !listed[place] {
            return Err(Answer::new(number::NOT_LATEST, side, index + 1));
        }
        cells[place] = after;
    }
    Ok(())
}

/// Answers 1 to 6, 20 and 21 of a trace.
fn parse(listed: &Locations, text: &[u8], side: u32, memory: &mut Memory) -> Result<Vec<Event>, Answer> {
    let lines = parse_lines(text, side, memory)?;
    if form_of(text) == Form::Two {
        cover(&lines, memory, side)?;
    }
    replay(listed, memory, &lines.events, side)?;
    Ok(lines.events)
}

/// All answers of a trace, for a room of `room` words.
fn parse_trace(listed: &Locations, text: &[u8], side: u32, room: usize, memory: &mut Memory) -> Result<Vec<Event>, Answer> {
    let events = parse(listed, text, side, memory)?;
    if room / EVENT_WORDS < events.len() {
        return Err(Answer::new(number::ROOM_TOO_SHORT, side, events.len()));
    }
    Ok(events)
}

/// Answers 1 to 3 and 17 of a matching, for a room of `room` entries.
fn parse_matching(text: &[u8], room: usize) -> Result<Vec<u16>, Answer> {
    within(MAX_MATCHING, text, side::MATCHING)?;
    let mut cursor = body(text, MATCHING_HEADER, Form::One, side::MATCHING)?;
    let mut entries = Vec::with_capacity((text.len() / SHORTEST_ENTRY_LINE).min(MAX_EVENTS));
    let mut line = 1;
    while !cursor.rest.is_empty() {
        line += 1;
        let Some(entry) = cursor.entry() else {
            return Err(Answer::new(number::BAD_LINE, side::MATCHING, line));
        };
        if entries.len() == MAX_EVENTS {
            return Err(Answer::new(number::TOO_MANY, side::MATCHING, line));
        }
        entries.push(entry);
    }
    if room < entries.len() {
        return Err(Answer::new(number::ROOM_TOO_SHORT, side::MATCHING, entries.len()));
    }
    Ok(entries)
}

/// Puts the events at the front of a room that is long enough.
fn store_events(events: &[Event], room: &mut [Word]) {
    for (event, words) in events.iter().zip(room.chunks_exact_mut(EVENT_WORDS)) {
        words.copy_from_slice(&event.words());
    }
}

/// Puts the entries at the front of a room that is long enough.
fn store_entries(entries: &[u16], room: &mut [Entry]) {
    for (entry, word) in entries.iter().zip(room) {
        *word = Entry::from(*entry);
    }
}

/// Reads a trace alone.
pub fn read_trace(list: Option<&ListFor>, text: &[u8], room: &mut [Word]) -> TraceRead {
    let mut read = TraceRead { answer: Answer::DONE, events: 0, memory: ZERO_MEMORY };
    let parsed = registers(list).and_then(|listed| parse_trace(&listed, text, side::SOURCE, room.len(), &mut read.memory));
    match parsed {
        Ok(events) => {
            store_events(&events, room);
            read.events = events.len();
            read
        }
        Err(answer) => TraceRead { answer, events: 0, memory: ZERO_MEMORY },
    }
}

/// Reads a matching alone.
pub fn read_matching(text: &[u8], room: &mut [Entry]) -> MatchingRead {
    match parse_matching(text, room.len()) {
        Ok(entries) => {
            store_entries(&entries, room);
            MatchingRead { answer: Answer::DONE, entries: entries.len() }
        }
        Err(answer) => MatchingRead { answer, entries: 0 },
    }
}

// ------------------------------------------------------------------ writing

fn push_number(text: &mut Vec<u8>, mut number: Word) {
    let mut digits = [0u8; MAX_DIGITS];
    let mut start = MAX_DIGITS;
    loop {
        start -= 1;
        digits[start] = b'0' + (number % 10) as u8;
        number /= 10;
        if number == 0 {
            break;
        }
    }
    text.extend_from_slice(&digits[start..]);
}

fn push_number_field(text: &mut Vec<u8>, number: Word) {
    text.push(TAB);
    push_number(text, number);
}

fn push_order_field(text: &mut Vec<u8>, order: u8) {
    let name: &[u8] = match order {
        order::RLX => b"\trlx",
        order::ACQ => b"\tacq",
        order::REL => b"\trel",
        order::AR => b"\tar",
        order::SC => b"\tsc",
        order::USED => b"\tused",
        order::UNUSED => b"\tunused",
        _ => b"",
    };
    text.extend_from_slice(name);
}

fn push_event(text: &mut Vec<u8>, form: Form, event: Event) {
    text.extend_from_slice(event.kind.name());
    if event.kind.has_place() {
        push_number_field(text, event.place.into());
    }
    // A load's mark stands after its value, an order before.
    if event.kind == Kind::Load {
        push_number_field(text, event.first);
        push_order_field(text, event.order);
    } else {
        push_order_field(text, event.order);
        if event.kind.values() >= 1 {
            push_number_field(text, event.first);
        }
        if event.kind.values() == 2 {
            push_number_field(text, event.second);
        }
    }
    if form == Form::Two {
        push_number_field(text, event.code.into());
    }
    text.push(LF);
}

fn push_init(text: &mut Vec<u8>, location: usize, value: Word) {
    text.extend_from_slice(b"init");
    push_number_field(text, location as Word);
    push_number_field(text, value);
    text.push(LF);
}

/// The text of a lawful trace. Form 2 says the start of a touched location even
/// where it is 0.
fn render(form: Form, memory: &Memory, events: &[Event]) -> Vec<u8> {
    let mut text = Vec::with_capacity(form.header().len() + events.len() * LONGEST_LINE);
    text.extend_from_slice(form.header());
    let zeros = match form {
        Form::One => NO_LOCATIONS,
        Form::Two => touched(events),
    };
    for (location, &value) in memory.iter().enumerate() {
        if value != 0 || zeros[location] {
            push_init(&mut text, location, value);
        }
    }
    for &event in events {
        push_event(&mut text, form, event);
    }
    text
}

/// Answer 19: form 1 would lose a code line that is not 0.
fn keep_codes(form: Form, events: &[Event], side: u32) -> Result<(), Answer> {
    let lost = events.iter().position(|event| form == Form::One && event.code != 0);
    lost.map_or(Ok(()), |index| Err(Answer::new(number::CODE_LOST, side, index + 1)))
}

/// Puts a text at the front of bytes that are long enough; else 17.
fn put(text: &[u8], out: &mut [u8]) -> Result<usize, Answer> {
    match out.get_mut(..text.len()) {
        Some(front) => {
            front.copy_from_slice(text);
            Ok(text.len())
        }
        None => Err(Answer::new(number::ROOM_TOO_SHORT, side::NONE, text.len())),
    }
}

/// The answer to a writing or a move: the bytes written, or the refusal.
fn wrote(written: Result<usize, Answer>) -> Answer {
    match written {
        Ok(bytes) => Answer::new(number::DONE, side::NONE, bytes),
        Err(answer) => answer,
    }
}

/// Answers 3 and 18 of the writer. An event cut short at the end of the part
/// counts as an event; it has fewer than six words, so it is not of the layout.
fn unpack(room: &[Word]) -> Result<Vec<Event>, Answer> {
    if room.len().div_ceil(EVENT_WORDS) > MAX_EVENTS {
        return Err(Answer::new(number::TOO_MANY, side::NONE, MAX_EVENTS + 1));
    }
    room.chunks(EVENT_WORDS)
        .enumerate()
        .map(|(index, words)| {
            Event::from_words(words).ok_or(Answer::new(number::BAD_FIELDS, side::NONE, index + 1))
        })
        .collect()
}

/// Writes the text of the events in a part of a room, with `init` lines made
/// from the starting memory.
pub fn write_trace(list: Option<&ListFor>, form: Form, memory: &Memory, room: &[Word], out: &mut [u8]) -> Answer {
    wrote(registers(list).and_then(|listed| {
        let events = unpack(room)?;
        replay(&listed, memory, &events, side::NONE)?;
        keep_codes(form, &events, side::NONE)?;
        put(&render(form, memory, &events), out)
    }))
}

// ------------------------------------------------------------------- moving

/// Writes the text of a trace in the other form. A text that has the wanted
/// form already has not the first line that the move wants.
pub fn move_to(list: Option<&ListFor>, to: Form, text: &[u8], out: &mut [u8]) -> Answer {
    let mut memory = ZERO_MEMORY;
    let form = form_of(text);
    wrote(registers(list).and_then(|listed| {
        within(form.limit(), text, side::SOURCE)?;
        if form == to {
            return Err(Answer::new(number::BAD_LINE, side::SOURCE, 1));
        }
        let events = parse(&listed, text, side::SOURCE, &mut memory)?;
        keep_codes(to, &events, side::SOURCE)?;
        put(&render(to, &memory, &events), out)
    }))
}

// --------------------------------------------------------------- shortening

/// What a shortening hands back; no bytes under a refusal.
#[derive(Clone, Copy, Debug, PartialEq, Eq)]
pub struct Shortened {
    pub answer: Answer,
    pub bytes: usize,
    pub matching_bytes: usize,
}

/// Which events stay. A stretch is what stands between two synchronising events; of
/// a location's accesses in it the first stays if it is a used load, and the last
/// store unless the first is a load of its value.
pub fn staying(listed: &Locations, events: &[Event]) -> Vec<bool> {
    let mut stays: Vec<bool> = events.iter().map(|event| event.seen(listed) == Seen::Wall).collect();
    let mut from = 0;
    for to in 0..=events.len() {
        if to < events.len() && !stays[to] {
            continue;
        }
        let mut accesses: Vec<usize> = (from..to).collect();
        accesses.sort_by_key(|&index| events[index].place);
        for group in accesses.chunk_by(|&a, &b| events[a].place == events[b].place) {
            let first = events[group[0]];
            let loads = first.seen(listed) == Seen::Load;
            if loads && first.order == order::USED {
                stays[group[0]] = true;
            }
            let last = group.iter().rev().find(|&&index| events[index].seen(listed) == Seen::Store);
            if let Some(&index) = last.filter(|&&index| !loads || events[index].first != first.first) {
                stays[index] = true;
            }
        }
        from = to + 1;
    }
    stays
}

/// The matching from a trace to what stays of it.
fn render_matching(stays: &[bool]) -> Vec<u8> {
    let mut text = b"match\t1\n".to_vec();
    let mut number = 0;
    for &stays in stays {
        if stays {
            number += 1;
            text.extend_from_slice(format!("keep\t{number}\n").as_bytes());
        } else {
            text.extend_from_slice(b"gone\n");
        }
    }
    text
}

/// Both texts of a trace that is shortened.
fn shortened(list: Option<&ListFor>, text: &[u8]) -> Result<[Vec<u8>; 2], Answer> {
    let listed = registers(list)?;
    let mut memory = ZERO_MEMORY;
    let events = parse(&listed, text, side::SOURCE, &mut memory)?;
    let stays = staying(&listed, &events);
    let kept: Vec<Event> = events.iter().zip(&stays).filter(|(_, &stays)| stays).map(|(&event, _)| event).collect();
    Ok([render(form_of(text), &memory, &kept), render_matching(&stays)])
}

/// Writes the shortened text and the matching to it, or neither.
pub fn shorten(list: Option<&ListFor>, text: &[u8], out: &mut [u8], matching_out: &mut [u8]) -> Shortened {
    let made = shortened(list, text).and_then(|[short, matching]| {
        for (side, bytes, lent) in [(side::TARGET, short.len(), out.len()), (side::MATCHING, matching.len(), matching_out.len())] {
            if lent < bytes {
                return Err(Answer::new(number::ROOM_TOO_SHORT, side, bytes));
            }
        }
        out[..short.len()].copy_from_slice(&short);
        matching_out[..matching.len()].copy_from_slice(&matching);
        Ok([short.len(), matching.len()])
    });
    match made {
        Ok([bytes, matching_bytes]) => Shortened { answer: Answer::DONE, bytes, matching_bytes },
        Err(answer) => Shortened { answer, bytes: 0, matching_bytes: 0 },
    }
}

// ----------------------------------------------------------------- checking

/// A set of event indices.
#[derive(Clone, Copy)]
struct Indices {
    bits: [u64; MAX_EVENTS.div_ceil(64)],
}

impl Indices {
    const EMPTY: Indices = Indices { bits: [0; MAX_EVENTS.div_ceil(64)] };

    fn contains(&self, index: usize) -> bool {
        self.bits[index / 64] >> (index % 64) & 1 == 1
    }

    /// Adds an index and says whether it was new.
    fn insert(&mut self, index: usize) -> bool {
        let new = !self.contains(index);
        self.bits[index / 64] |= 1 << (index % 64);
        new
    }
}

/// Answer 7, which listed locations are no matter of.
fn compare_starts(listed: &Locations, source: &Memory, target: &Memory) -> Result<(), Answer> {
    if source == target {
        return Ok(());
    }
    match (0..CELLS).find(|&location| source[location] != target[location] && !listed[location]) {
        Some(location) => Err(Answer::new(number::STARTS_DIFFER, side::TARGET, location)),
        None => Ok(()),
    }
}

/// Answers 8 and 9. Hands back the target indices that have a source.
fn match_up(source_events: usize, target_events: usize, entries: &[u16]) -> Result<Indices, Answer> {
    if entries.len() != source_events {
        return Err(Answer::new(number::ENTRY_COUNT, side::MATCHING, entries.len()));
    }
    let mut matched = Indices::EMPTY;
    for (index, &entry) in entries.iter().enumerate() {
        let target = usize::from(entry);
        if target > target_events || (target > 0 && !matched.insert(target - 1)) {
            return Err(Answer::new(number::BAD_TARGET_NUMBER, side::MATCHING, index + 1));
        }
    }
    Ok(matched)
}

// A stretch is what lies between two neighbouring synchronising events. The
// passes below number the stretches from 1 and stamp a location with the
// stretch in which something was last noted of it, so that nothing has to be
// cleared where a new stretch begins.

/// The source stores, by index, whose next access in the stretch that is a
/// store or is kept is not a store: *closing*, should they be gone.
fn closing_stores(listed: &Locations, source: &[Event], entries: &[u16]) -> Indices {
    let mut closing = Indices::EMPTY;
    // The stretch in which the next access that decides is a store.
    let mut store_follows = [0u16; CELLS];
    let mut stretch = 1u16;
    for (index, (event, &entry)) in source.iter().zip(entries).enumerate().rev() {
        let place = usize::from(event.place);
        match event.seen(listed) {
            Seen::Store => {
                if store_follows[place] != stretch {
                    closing.insert(index);
                }
                store_follows[place] = stretch;
            }
            Seen::Load => {
                if entry != 0 {
                    store_follows[place] = 0;
                }
            }
            Seen::Wall => stretch += 1,
        }
    }
    closing
}

/// What the upward pass over the source knows of one location.
#[derive(Clone, Copy)]
struct Spot {
    /// The highest target number of the kept plain events.
    highest: u16,
    /// The stretch of the last access; what follows is of that stretch.
    stretch: u16,
    /// Whether a gone store may lean on `witness`.
    witnessed: bool,
    /// The value of the last kept access or, with none yet, of the first
    /// access if that is a load.
    witness: Word,
}

const UNTOUCHED: [Spot; CELLS] = [Spot { highest: 0, stretch: 0, witnessed: false, witness: 0 }; CELLS];

/// Answers 10 to 14.
struct SourceJudge<'a> {
    listed: &'a Locations,
    target: &'a [Event],
    closing: Indices,
    spots: [Spot; CELLS],
    stretch: u16,
    /// The highest target number of all kept events, and of the synchronising.
    highest: u16,
    highest_sync: u16,
}

impl SourceJudge<'_> {
    fn keep_sync(&mut self, event: Event, entry: u16) -> Result<(), u32> {
        if !event.is_kept_as(self.target[usize::from(entry) - 1]) {
            return Err(number::KEPT_DIFFERS);
        }
        // A synchronising event stays behind everything before it.
        if self.highest > entry {
            return Err(number::OVERTAKEN);
        }
        self.highest = entry;
        self.highest_sync = entry;
        self.stretch += 1;
        Ok(())
    }

    fn keep_plain(&mut self, event: Event, entry: u16) -> Result<(), u32> {
        if !event.is_kept_as(self.target[usize::from(entry) - 1]) {
            return Err(number::KEPT_DIFFERS);
        }
        let spot = &mut self.spots[usize::from(event.place)];
        if spot.highest > entry || self.highest_sync > entry {
            return Err(number::OVERTAKEN);
        }
        self.highest = self.highest.max(entry);
        *spot = Spot { highest: entry, stretch: self.stretch, witnessed: true, witness: event.first };
        Ok(())
    }

    fn remove_load(&mut self, event: Event) -> Result<(), u32> {
        let spot = &mut self.spots[usize::from(event.place)];
        if spot.stretch != self.stretch {
            if event.order == order::USED {
                return Err(number::LOAD_GONE);
            }
            spot.stretch = self.stretch;
            spot.witnessed = true;
            spot.witness = event.first;
        }
        Ok(())
    }

    fn remove_store(&mut self, event: Event, index: usize) -> Result<(), u32> {
        let spot = &mut self.spots[usize::from(event.place)];
        if spot.stretch != self.stretch {
            spot.stretch = self.stretch;
            spot.witnessed = false;
        }
        let witness = spot.witnessed && spot.witness == event.first;
        if self.closing.contains(index) && !witness {
            return Err(number::STORE_GONE);
        }
        Ok(())
    }

    fn event(&mut self, index: usize, event: Event, entry: u16) -> Result<(), u32> {
        match (event.seen(self.listed), entry) {
            (Seen::Load, 0) => self.remove_load(event),
            (Seen::Store, 0) => self.remove_store(event, index),
            (Seen::Load | Seen::Store, _) => self.keep_plain(event, entry),
            (Seen::Wall, 0) => Err(number::SYNC_GONE),
            (Seen::Wall, _) => self.keep_sync(event, entry),
        }
    }
}

fn judge_source(listed: &Locations, source: &[Event], target: &[Event], entries: &[u16]) -> Result<(), Answer> {
    let mut judge = SourceJudge {
        listed,
        target,
        closing: closing_stores(listed, source, entries),
        spots: UNTOUCHED,
        stretch: 1,
        highest: 0,
        highest_sync: 0,
    };
    for (index, (&event, &entry)) in source.iter().zip(entries).enumerate() {
        if let Err(number) = judge.event(index, event, entry) {
            return Err(Answer::new(number, side::SOURCE, index + 1));
        }
    }
    Ok(())
}

/// Answers 15 and 16: of what may not be inserted a load is 16, any other 15.
fn judge_target(listed: &Locations, target: &[Event], matched: &Indices) -> Result<(), Answer> {
    // The stretch in which a location was last accessed.
    let mut touched = [0u16; CELLS];
    let mut stretch = 1u16;
    for (index, event) in target.iter().enumerate() {
        let place = usize::from(event.place);
        let seen = event.seen(listed);
        // A lawful trace gives a load the value of the near access.
        let insertable = seen == Seen::Load && touched[place] == stretch;
        if !matched.contains(index) && !insertable {
            let number = if event.kind == Kind::Load { number::NOTHING_NEAR } else { number::NOT_A_LOAD };
            return Err(Answer::new(number, side::TARGET, index + 1));
        }
        if seen == Seen::Wall {
            stretch += 1;
        } else {
            touched[place] = stretch;
        }
    }
    Ok(())
}

/// Checks a matching between a source and a target trace. A room of events
/// holds one event in six words; a room of entries one entry in a word.
pub fn check(
    list: Option<&ListFor>,
    source: &[u8],
    target: &[u8],
    matching: &[u8],
    source_room: &mut [Word],
    target_room: &mut [Word],
    entry_room: &mut [Entry],
) -> Checked {
    let mut checked = Checked::refused(Answer::DONE);
    let listed = match registers(list) {
        Ok(listed) => listed,
        Err(answer) => return Checked::refused(answer),
    };
    let source = match parse_trace(&listed, source, side::SOURCE, source_room.len(), &mut checked.source_memory) {
        Ok(events) => events,
        Err(answer) => return Checked::refused(answer),
    };
    let target = match parse_trace(&listed, target, side::TARGET, target_room.len(), &mut checked.target_memory) {
        Ok(events) => events,
        Err(answer) => return Checked::refused(answer),
    };
    let entries = match parse_matching(matching, entry_room.len()) {
        Ok(entries) => entries,
        Err(answer) => return Checked::refused(answer),
    };
    store_events(&source, source_room);
    store_events(&target, target_room);
    store_entries(&entries, entry_room);
    checked.source_events = source.len();
    checked.target_events = target.len();
    checked.entries = entries.len();
    let judged = compare_starts(&listed, &checked.source_memory, &checked.target_memory)
        .and_then(|()| match_up(source.len(), target.len(), &entries))
        .and_then(|matched| {
            judge_source(&listed, &source, &target, &entries)?;
            judge_target(&listed, &target, &matched)
        });
    if let Err(answer) = judged {
        checked.answer = answer;
    }
    checked
}

// ------------------------------------------------------------ offending line

/// The lines of a text, without their LF.
fn lines(text: &[u8]) -> impl Iterator<Item = &[u8]> {
    text.split(|&byte| byte == LF)
}

/// The line of a number counted from 1.
fn line_at(text: &[u8], line: u32) -> Option<&[u8]> {
    lines(text).nth((line as usize).checked_sub(1)?)
}

/// The line of an event. The text is taken to be lawful, line by line, as it
/// is where an answer names an event of it.
fn event_line(text: &[u8], event: u32) -> Option<&[u8]> {
    lines(text)
        .skip(1)
        .skip_while(|line| line.starts_with(b"init\t"))
        .nth((event as usize).checked_sub(1)?)
}

/// The line that an answer of a check finds fault with, without its LF, as a
/// part of its text; an empty part of the source where there is none.
pub fn offending_line<'a>(source: &'a [u8], target: &'a [u8], answer: Answer) -> &'a [u8] {
    let text = match answer.side {
        side::SOURCE => source,
        side::TARGET => target,
        _ => return &source[..0],
    };
    let line = match answer.number {
        number::BAD_LINE | number::TOO_MANY | number::INIT_OUT_OF_ORDER => line_at(text, answer.place),
        number::MIXED_USE | number::NOT_LATEST => event_line(text, answer.place),
        number::KEPT_DIFFERS..=number::NOTHING_NEAR => event_line(text, answer.place),
        _ => None,
    };
    line.unwrap_or(&source[..0])
}
