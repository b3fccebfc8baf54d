//! Reads a trace that is known to be one.

use crate::bc_model::{Holder, Op, Setup, Slot, TurnLine};
use crate::shim;
use std::str::SplitWhitespace;

pub struct Phase {
    pub lanes: Vec<Vec<Op>>,
    pub turns: Vec<TurnLine>,
    /// Who holds which domain from the end of the phase on.
    pub changes: Vec<(usize, Holder)>,
}

pub struct Trace {
    pub setup: Setup,
    pub phases: Vec<Phase>,
}

fn number<N: std::str::FromStr>(words: &mut SplitWhitespace) -> N {
    words.next().and_then(|word| word.parse().ok()).expect("a number")
}

fn slot(words: &mut SplitWhitespace) -> Slot {
    Slot { domain: number(words), slot: number(words) }
}

/// The operation of a line.
fn operation(verb: &str, words: &mut SplitWhitespace) -> Op {
    let first = slot(words);
    match verb {
        "new" => Op::New(first, number(words)),
        "who" => Op::Who(first),
        "len" => Op::Len(first),
        "set" => Op::Set(first, number(words), number(words)),
        "cut" => Op::Cut(first, number(words)),
        "link" => Op::Link(first, number(words), slot(words)),
        "load" => Op::Load(first, number(words), slot(words)),
        "copy" => Op::Copy(first, slot(words)),
        "clear" => Op::Clear(first),
        "same" => Op::Same(first, slot(words)),
        _ => panic!("no operation: {verb}"),
    }
}

pub fn read(text: &str) -> Trace {
    let mut header = [0; 8];
    let mut lines = text.lines();
    for place in &mut header {
        let mut words = lines.next().expect("a header").split_whitespace();
        words.next();
        *place = number(&mut words);
    }
    let [_, lanes, domains, slots, superpages, nursery, buffer, frames] = header;
    let setup = Setup { lanes, domains, slots, superpages, nursery, buffer, frames };
    let mut phases = Vec::new();
    for line in lines {
        let mut words = line.split_whitespace();
        let verb = words.next().expect("a word");
        match verb {
            "phase" => phases.push(Phase { lanes: Vec::new(), turns: Vec::new(), changes: Vec::new() }),
            "done" => break,
            "end" => {}
            _ => add(phases.last_mut().expect("a phase"), verb, &mut words),
        }
    }
    Trace { setup, phases }
}

fn add(phase: &mut Phase, verb: &str, words: &mut SplitWhitespace) {
    match verb {
        "turn" => phase.turns.push(turn_line(phase.turns.last(), words)),
        "lane" => phase.lanes.push(Vec::new()),
        "give" => phase.changes.push((number(words), Holder::Lane(number(words)))),
        "freeze" => phase.changes.push((number(words), Holder::Frozen)),
        _ => phase.lanes.last_mut().expect("a lane").push(operation(verb, words)),
    }
}

/// The line after another one: an operand with a sign says how many frames more or fewer are withheld.
fn turn_line(before: Option<&TurnLine>, words: &mut SplitWhitespace) -> TurnLine {
    let mut withheld = before.map_or(0, |line| line.withheld);
    let mut hints = Vec::new();
    for word in words {
        match (word.strip_prefix('-'), word.strip_prefix('+')) {
            (Some(frames), _) => withheld += frames.parse::<u32>().expect("a number of frames"),
            (_, Some(frames)) => withheld -= frames.parse::<u32>().expect("a number of frames"),
            _ => hints.push(word.parse().expect("a hint")),
        }
    }
    TurnLine { withheld, hints: hints.into_iter().collect() }
}
