//! The run of a matching by the ordinary Rust implementation.
//!
//! `run SOURCE TARGET MATCHING [--list FILE [--group N]]` prints it, as `laprunto_run` does.
//! `run --beside PROGRAM COUNT [SEED]` runs PROGRAM on the known cases and on
//! COUNT random ones, every other with a list, compares every byte, and replays the
//! steps by the rules. The first difference is printed, and ends the program with
//! status 1.

#[allow(dead_code)]
mod cases;
#[allow(dead_code)]
mod exchanges;
#[allow(dead_code)]
mod forms;
#[allow(dead_code)]
mod generate;
#[allow(dead_code)]
mod groups;
#[allow(dead_code)]
mod lists;
#[allow(dead_code)]
mod peer;
mod random;
mod rules;
mod steps;
#[allow(dead_code)]
mod texts;
#[allow(dead_code)]
mod zeros;

use cases::Case;
use generate::Lists;
use peer::{offending_line, ListFor, Word, EVENT_WORDS, MAX_EVENTS};
use random::Random;
use std::io::Write;
use std::process::{exit, Command};

/// What is printed of three texts under a list or none, and how many steps it has.
fn printed(list: Option<&ListFor>, texts: [&[u8]; 3]) -> Result<(Vec<u8>, usize), String> {
    let run = steps::run(list, texts)?;
    let answer = run.answer;
    let word = if answer.number == 0 { "accepted" } else { "refused" };
    let mut out = format!("{word}\t{}\t{}\t{}\n", answer.number, answer.side, answer.place).into_bytes();
    let line = offending_line(texts[0], texts[1], answer);
    if !line.is_empty() {
        out.extend_from_slice(line);
        out.push(b'\n');
    }
    out.extend_from_slice(steps::lines(&run).as_bytes());
    Ok((out, run.steps.len()))
}

/// The replay of the steps that another program printed.
fn replayed(list: Option<&ListFor>, source: &[u8], target: &[u8], lines: &[u8]) -> Result<(), String> {
    let mut room = vec![0; MAX_EVENTS * EVENT_WORDS];
    let count = peer::read_trace(list, source, &mut room).events;
    let source = steps::events(&room, count);
    let count = peer::read_trace(list, target, &mut room).events;
    let target = steps::events(&room, count);
    let number = |field: &str| field.parse::<usize>().map_err(|_| format!("no number: {field}"));
    let mut steps = Vec::new();
    for line in String::from_utf8_lossy(lines).lines().skip(2) {
        let fields: Vec<&str> = line.split('\t').collect();
        steps.push(match fields[0] {
            "remove" => steps::Step::Remove { place: number(fields[1])?, number: number(fields[2])? },
            "swap" => steps::Step::Swap { place: number(fields[1])? },
            "insert" => steps::Step::Insert { place: number(fields[1])? },
            word => return Err(format!("no step: {word}")),
        });
    }
    steps::replay(&steps::listed(list), &source, &target, &steps)
}

/// One case, beside the other program.
fn compared(program: &str, case: &Case) -> Result<usize, String> {
    let (list, texts) = (case.list(), case.texts());
    let folder = std::env::temp_dir();
    let name_of = |name: &str| folder.join(format!("run-{}-{name}", std::process::id()));
    let names = ["source", "target", "matching"].map(name_of);
    for (name, text) in names.iter().zip(texts) {
        std::fs::write(name, text).map_err(|error| error.to_string())?;
    }
    let mut call = Command::new(program);
    call.args(&names);
    if let Some(list) = list {
        std::fs::write(name_of("list"), &list.text).map_err(|error| error.to_string())?;
        call.arg("--list").arg(name_of("list"));
        if list.group != 1 {
            call.arg("--group").arg(list.group.to_string());
        }
    }
    let ours = call.output().map_err(|error| error.to_string())?.stdout;
    let (peers, count) = printed(list, texts)?;
    if ours != peers {
        return Err(format!("ours\n{}\npeer\n{}", String::from_utf8_lossy(&ours), String::from_utf8_lossy(&peers)));
    }
    if ours.starts_with(b"accepted") {
        replayed(list, texts[0], texts[1], &ours)?;
    }
    Ok(count)
}

fn beside(program: &str, count: usize, seed: u64) -> Result<(), String> {
    let mut random = Random::new(seed);
    let known = [cases::all(), forms::checks(), zeros::checks(), exchanges::checks(), lists::checks(), lists::examples(), groups::checks(), groups::examples()].concat();
    // A program is told group 1 or 2.
    let known: Vec<_> = known.into_iter().filter(|known| known.case.list().map_or(true, |list| list.group <= 2)).collect();
    let (mut steps, mut listed) = (0, 0);
    for known in &known {
        steps += compared(program, &known.case).map_err(|difference| format!("{}\n{difference}", known.name))?;
        listed += usize::from(known.case.list.is_some());
    }
    for index in 0..count {
        let events = 1 + random.below(if index % 16 < 2 { MAX_EVENTS } else { 40 });
        let lists = [Lists::Without, Lists::With, Lists::Without, Lists::Grouped(1 + index as Word / 4 % 2)][index % 4];
        let case = if index % 8 < 6 { generate::lawful_case(&mut random, lists, events) } else { generate::faulty_case(&mut random, lists) };
        steps += compared(program, &case)?;
        listed += usize::from(case.list.is_some());
    }
    println!("{} known and {count} random cases, {listed} with a list, {steps} steps: the same", known.len());
    Ok(())
}

/// The run of named files; one that cannot be opened is an empty text.
fn print(list: Option<(&str, Word)>, names: [&str; 3]) -> Result<(), String> {
    let read = |name: &str| std::fs::read(name).unwrap_or_default();
    let list = list.map(|(name, group)| ListFor { text: read(name), group });
    let texts = names.map(read);
    let (out, _) = printed(list.as_ref(), [&texts[0], &texts[1], &texts[2]])?;
    std::io::stdout().write_all(&out).map_err(|error| error.to_string())
}

fn main() {
    let words: Vec<String> = std::env::args().skip(1).collect();
    let done = match words.iter().map(String::as_str).collect::<Vec<_>>()[..] {
        ["--beside", program, count] => beside(program, count.parse().expect("a count"), 1),
        ["--beside", program, count, seed] => beside(program, count.parse().expect("a count"), seed.parse().expect("a seed")),
        [source, target, matching] => print(None, [source, target, matching]),
        [source, target, matching, "--list", list] => print(Some((list, 1)), [source, target, matching]),
        [source, target, matching, "--list", list, "--group", group] => print(Some((list, group.parse().expect("a group"))), [source, target, matching]),
        _ => Err(String::from("usage: run SOURCE TARGET MATCHING [--list FILE [--group N]], or run --beside PROGRAM COUNT [SEED]")),
    };
    if let Err(difference) = done {
        eprintln!("{difference}");
        exit(1);
    }
}
