//! Random scripts for `slips`.

use std::io;

use crate::machine::{Call, Edge, Key, Machine, Node, Space, SpaceName, UNIVERSE};
use crate::operators::{self, Argument};
use crate::script::{self, read_call, CAPACITY, LIST_LENGTH, MOST_BYTES};

use super::damage::damaged;
use super::lists::{self, Forms, EDGES, NODES, SPACES};
use super::Draws;

/// Names at which the number of digits or of bytes changes, and others.
const NAMES: [u16; 16] = [
    1, 2, 9, 10, 11, 99, 100, 255, 256, 999, 1_000, 9_999, 10_000, 32_768, 65_534, 65_535,
];

/// The same for values.
const VALUES: [u32; 12] = [
    0,
    1,
    9,
    10,
    60,
    65_535,
    65_536,
    999_999_999,
    1_000_000_000,
    2_147_483_648,
    4_294_967_294,
    4_294_967_295,
];

/// Lengths of scripts around the longest one, and past it.
const LONG: [usize; 10] = [
    MOST_BYTES - 1,
    MOST_BYTES,
    MOST_BYTES,
    MOST_BYTES,
    MOST_BYTES,
    MOST_BYTES + 1,
    MOST_BYTES + 2,
    70_000,
    2 * MOST_BYTES,
    200_000,
];

/// Short scripts that few draws would give.
const TINY: [&[u8]; 17] = [
    b"",
    b"",
    b"\n",
    b"\n\n\n",
    b"SUS",
    b"SUS\n",
    b"SUS\n\n",
    b"\nSUS",
    b"CUN 1",
    b" ",
    b" \n",
    b"\0",
    b"\xff\n",
    b"CUN 1\r\nSUN\r\n",
    b"-",
    b"SUN -",
    b"SUS -\n",
];

/// Distinguishes scripts from the lists and buffers of the same seed.
const KIND: u64 = 3;

/// The script in a place of a seed, whatever else is compared.
pub fn nth(seed: u64, place: u64) -> Vec<u8> {
    draw(&mut Draws::new(seed, KIND, place))
}

/// A script: mostly some tens of lines that are answered, with damaged lines
/// or without.
fn draw(draws: &mut Draws) -> Vec<u8> {
    match draws.below(100) {
        0..=3 => tiny(draws),
        4..=7 => full(draws),
        8..=9 => long(draws),
        10..=19 => mixed(draws, 3),
        20..=59 => mixed(draws, 16),
        _ => mixed(draws, usize::MAX),
    }
}

/// Lines, one of them in so many damaged.
fn mixed(draws: &mut Draws, damage_once_in: usize) -> Vec<u8> {
    let length = 15 + draws.below(70);
    let lines = lines(draws, length, Forms::WithNothing);
    let script = join(draws, &lines, damage_once_in);
    finished(draws, script)
}

/// The script, perhaps with lines that remove something and make it again, and
/// lines that read the state; the last with or without a line feed.
fn finished(draws: &mut Draws, script: Vec<u8>) -> Vec<u8> {
    let mut script = script;
    if draws.once_in(2) {
        script.extend(renewal(draws, &state_after(&script)));
    }
    if !draws.once_in(3) {
        script.extend(description(&state_after(&script), 60));
    }
    if draws.once_in(4) {
        script.pop();
    }
    script
}

/// Lines that remove a space, a node or an edge and make it again, with the
/// nodes that a space had: what was in it must not come back.
fn renewal(draws: &mut Draws, machine: &Machine) -> Vec<u8> {
    let is_kind = draws.one_of(&[Key::is_space, Key::is_node, Key::is_edge]);
    let keys: Vec<Key> = machine.tuples().map(|(key, _)| key).collect();
    let chosen = keys[1..].iter().filter(|key| is_kind(key));
    let chosen: Vec<Key> = chosen.copied().collect();
    if chosen.is_empty() {
        return Vec::new();
    }
    let key = draws.one_of(&chosen);
    let s = space_name(key.s);
    let (n, g, m) = (key.n.0, key.g.0, key.m.0);
    let lines = if key.is_space() {
        let nodes = keys.iter().filter(|node| node.s == key.s && node.is_node());
        let nodes = nodes.map(|node| format!("CUN {} {s}\n", node.n.0));
        format!("DUS {s}\nCUS {s}\n") + &nodes.collect::<String>()
    } else if key.is_node() {
        format!("DUN {n} {s}\nSUN {s}\nCUN {n} {s}\nSAP {n} {s}\n")
    } else {
        format!("DOP {n} {g} {m} {s}\nSAP {n}\nCOP {n} {g} {m} {s}\nSOP {n} {s}\n")
    };
    lines.into_bytes()
}

/// How a line names a space.
fn space_name(s: SpaceName) -> String {
    if s == UNIVERSE {
        "U".to_string()
    } else {
        s.0.to_string()
    }
}

/// The machine as a script leaves it.
pub fn state_after(script: &[u8]) -> Machine {
    script::run(script, CAPACITY, LIST_LENGTH, &mut io::sink()).expect("a sink takes all bytes")
}

/// Lines that read a state: all spaces, then what belongs to each tuple, or of
/// many tuples to this many or a few more.
pub fn description(machine: &Machine, most: usize) -> Vec<u8> {
    let every = 1 + machine.tuples().count() / most;
    let mut lines = "SUS\n".to_string();
    for (key, _) in machine.tuples().step_by(every) {
        let Key { s, n, g, m } = key;
        let (n, g, m) = (n.0, g.0, m.0);
        let s = space_name(s);
        lines += &if key.is_space() {
            format!("SUN {s}\nVUS {s}\n")
        } else if key.is_node() {
            format!("SUS {n}\nSOP {n} {s}\nVUN {n} {s}\n")
        } else {
            format!("VOP {n} {g} {m} {s}\nSAG {m} {s}\n")
        };
    }
    lines.into_bytes()
}

/// So many calls as lines, with spaces of these forms.
pub fn lines(draws: &mut Draws, length: usize, forms: Forms) -> Vec<Vec<u8>> {
    let calls = lists::run_with(draws, CAPACITY, length, forms).calls;
    let names = Names::draw(draws);
    calls
        .iter()
        .filter_map(|call| line_of(draws, &names.renamed(call)))
        .collect()
}

/// The script of these lines, one of them in so many damaged.
fn join(draws: &mut Draws, lines: &[Vec<u8>], damage_once_in: usize) -> Vec<u8> {
    let mut script = Vec::new();
    for line in lines {
        if draws.once_in(damage_once_in) {
            script.extend(damaged(draws, line));
        } else {
            script.extend(line);
        }
        script.push(b'\n');
    }
    script
}

/// A call as a line, with any value; none where the number is no operator's.
fn line_of(draws: &mut Draws, call: &Call) -> Option<Vec<u8>> {
    let mut line = operators::letters(call.operator)?.to_string();
    for argument in operators::arguments(call.operator) {
        let word = match argument {
            Argument::FirstNode => call.n.0.to_string(),
            Argument::Edge => call.g.0.to_string(),
            Argument::SecondNode => call.m.0.to_string(),
            Argument::Value => draw_value(draws).to_string(),
            Argument::Space => match space_word(draws, call) {
                Some(word) => word,
                None => break,
            },
        };
        line += " ";
        line += &word;
    }
    Some(line.into_bytes())
}

/// The space of a call. "For 1–50 the last, s, may be missing and means
/// UNIVERSE": so it is half of the time.
fn space_word(draws: &mut Draws, call: &Call) -> Option<String> {
    match call.space {
        Space::Numbered(s) => Some(s.0.to_string()),
        Space::Universe if call.operator <= 50 && draws.once_in(2) => None,
        Space::Universe => Some("U".to_string()),
        Space::Nothing => Some("-".to_string()),
    }
}

/// A value with any number of digits.
fn draw_value(draws: &mut Draws) -> u32 {
    match draws.below(3) {
        0 => draws.one_of(&VALUES),
        1 => draws.below(100) as u32,
        _ => (draws.next() >> (32 + draws.below(32))) as u32,
    }
}

/// Other names for those that the calls of a list have, or the same.
struct Names {
    nodes: Vec<(u16, u16)>,
    edges: Vec<(u16, u16)>,
    spaces: Vec<(u16, u16)>,
}

impl Names {
    fn draw(draws: &mut Draws) -> Names {
        let is_renamed = draws.once_in(2);
        let mut others = |pools: &[&[u16]]| {
            let names: Vec<u16> = pools.concat();
            if is_renamed {
                other_names(draws, &names)
            } else {
                Vec::new()
            }
        };
        Names {
            nodes: others(&[&NODES[0], &NODES[1]]),
            edges: others(&[&EDGES[0], &EDGES[1]]),
            spaces: others(&[&SPACES[0], &SPACES[1]]),
        }
    }

    /// The call with other names; a name of 0 stays.
    fn renamed(&self, call: &Call) -> Call {
        Call {
            n: Node(other_name(&self.nodes, call.n.0)),
            g: Edge(other_name(&self.edges, call.g.0)),
            m: Node(other_name(&self.nodes, call.m.0)),
            space: match call.space {
                Space::Numbered(s) => Space::Numbered(SpaceName(other_name(&self.spaces, s.0))),
                space => space,
            },
            ..*call
        }
    }
}

/// Each name with another one; different names stay different.
fn other_names(draws: &mut Draws, names: &[u16]) -> Vec<(u16, u16)> {
    let mut pairs: Vec<(u16, u16)> = Vec::new();
    for &name in names {
        if pairs.iter().all(|&(known, _)| known != name) {
            let other = new_name(draws, &pairs);
            pairs.push((name, other));
        }
    }
    pairs
}

/// A name that no other one has got.
fn new_name(draws: &mut Draws, pairs: &[(u16, u16)]) -> u16 {
    loop {
        let name = match draws.below(3) {
            0 => 1 + draws.below(65_535) as u16,
            _ => draws.one_of(&NAMES),
        };
        if pairs.iter().all(|&(_, taken)| taken != name) {
            return name;
        }
    }
}

fn other_name(pairs: &[(u16, u16)], name: u16) -> u16 {
    let found = pairs.iter().find(|&&(known, _)| known == name);
    found.map_or(name, |&(_, other)| other)
}

/// A short script: one of those above, one damaged line, or any bytes.
fn tiny(draws: &mut Draws) -> Vec<u8> {
    match draws.below(4) {
        0 => damaged(draws, b"BOP 1 5 2 60 9"),
        1 => {
            let length = draws.below(40);
            let bytes = b"CUNSOPVXBDAIG 0123456789-\n\n\r\t\0\xff";
            (0..length).map(|_| draws.one_of(bytes)).collect()
        }
        _ => draws.one_of(&TINY).to_vec(),
    }
}

/// A script of a length around the longest: calls, again and again, or one
/// byte. It can end within a line.
fn long(draws: &mut Draws) -> Vec<u8> {
    let length = draws.one_of(&LONG);
    if draws.once_in(6) {
        let byte = draws.one_of(b"\n1U- ");
        return [b"CUN ", &vec![byte; length - 4][..]].concat();
    }
    let count = 300 + draws.below(500);
    let lines = lines(draws, count, Forms::WithNothing);
    let damage_once_in = draws.one_of(&[8, 40, usize::MAX]);
    let mut script = Vec::new();
    while script.len() < length {
        script.extend(join(draws, &lines, damage_once_in));
    }
    script.truncate(length);
    script
}

/// A script that fills the store, or all but a few records, and goes on from
/// there; then perhaps once more.
fn full(draws: &mut Draws) -> Vec<u8> {
    let mut written = Written {
        lines: Vec::new(),
        machine: Machine::new(CAPACITY),
    };
    for _ in 0..1 + draws.below(2) {
        written.fill(draws);
        written.go_on(draws);
    }
    let damage_once_in = draws.one_of(&[300, usize::MAX]);
    let script = join(draws, &written.lines, damage_once_in);
    finished(draws, script)
}

/// Lines and the machine after them.
struct Written {
    lines: Vec<Vec<u8>>,
    machine: Machine,
}

impl Written {
    fn write(&mut self, line: Vec<u8>) {
        let call = read_call(&line, LIST_LENGTH).expect("the line is readable");
        self.machine.step(&call);
        self.lines.push(line);
    }

    fn count(&self) -> usize {
        self.machine.tuples().count()
    }

    /// Creates nodes, spaces or edges until at most a few records are free.
    fn fill(&mut self, draws: &mut Draws) {
        let style = draws.below(5);
        let side = 20 + draws.below(20);
        let enough = CAPACITY - draws.below(4);
        let places = (0..2 * CAPACITY).map(|place| fill_line(style, side, place));
        for line in fill_opening(style, side).into_iter().chain(places) {
            if self.count() < enough {
                self.write_if_new(line.into_bytes());
            }
        }
    }

    /// Writes a line that adds a tuple, and no other.
    fn write_if_new(&mut self, line: Vec<u8>) {
        let before = self.count();
        self.write(line);
        if self.count() == before {
            self.lines.pop();
        }
    }

    /// Calls with names that are there or not.
    fn go_on(&mut self, draws: &mut Draws) {
        for _ in 0..20 + draws.below(60) {
            let call = lists::next_call(draws, 0, &self.machine);
            if let Some(line) = line_of(draws, &call) {
                self.write(line);
            }
        }
    }
}

/// The lines before the store is filled in a style: the nodes of its edges.
fn fill_opening(style: usize, side: usize) -> Vec<String> {
    match style {
        0 | 1 => Vec::new(),
        2 => vec!["CUS 9".to_string()],
        3 => (1..=side).map(|n| format!("CUN {n}")).collect(),
        _ => {
            let nodes = (1..=side).map(|n| format!("CUN {n} 9"));
            std::iter::once("CUS 9".to_string()).chain(nodes).collect()
        }
    }
}

/// The line in a place of those that fill the store: nodes, spaces, nodes of a
/// space, edges, edges in a space.
fn fill_line(style: usize, side: usize, place: usize) -> String {
    let operator = ["COP", "CIP", "CAP"][place % 3];
    let (g, n, m) = (place / (side * side), place / side % side, place % side);
    let (g, n, m) = (g + 1, n + 1, m + 1);
    match style {
        0 => format!("CUN {}", place + 1),
        1 => format!("CUS {}", place + 1),
        2 => format!("CUN {} 9", place + 1),
        3 => format!("{operator} {n} {g} {m}"),
        _ => format!("{operator} {n} {g} {m} 9"),
    }
}

#[cfg(test)]
mod tests {
    use super::*;

    #[test]
    fn equal_draws_give_equal_scripts() {
        for place in 0..50 {
            assert_eq!(nth(1, place), nth(1, place));
        }
    }

    #[test]
    fn other_names_are_all_different() {
        let names: Vec<u16> = [&NODES[0][..], &NODES[1][..]].concat();
        for place in 0..200 {
            let pairs = other_names(&mut Draws::new(1, 4, place), &names);
            let mut others: Vec<u16> = pairs.iter().map(|&(_, other)| other).collect();
            others.sort_unstable();
            others.dedup();
            assert_eq!((pairs.len(), others.len()), (7, 7));
            assert!(!others.contains(&0));
        }
    }

    #[test]
    fn a_full_store_is_filled() {
        for place in 0..10 {
            let mut written = Written {
                lines: Vec::new(),
                machine: Machine::new(CAPACITY),
            };
            written.fill(&mut Draws::new(1, 5, place));
            let count = written.count();
            assert!(count > CAPACITY - 4, "{count}");
        }
    }
}
