//! Long lists of calls: what holds after each call, and the manual's formulas
//! that build one operator from others (those that document 01 keeps).

use gaffdamson_reference::buffer;
use gaffdamson_reference::machine::{Answer, Call, Edge, Machine, Node, Space, SpaceName};
use gaffdamson_reference::operators::{kind, Kind};

/// A small generator of numbers.
struct Draws(u32);

impl Draws {
    fn next(&mut self, limit: u32) -> u32 {
        self.0 = self.0.wrapping_mul(1_664_525).wrapping_add(1_013_904_223);
        (self.0 >> 16) % limit
    }

    fn name(&mut self) -> u16 {
        // Once in a while 0.
        let drawn = self.next(40);
        if drawn == 0 {
            0
        } else {
            (drawn % 4 + 1) as u16
        }
    }

    fn operator(&mut self) -> u32 {
        // Creates twice as often, so that there is something to look at.
        match self.next(70) {
            drawn @ 0..=58 => drawn,
            59..=61 => 3,
            62..=66 => 45,
            67 | 68 => 51,
            _ => 1,
        }
    }

    fn call(&mut self) -> Call {
        let space = match self.next(12) {
            0..=3 => Space::Universe,
            4 => Space::Nothing,
            _ => Space::Numbered(SpaceName(self.name().min(2))),
        };
        Call {
            operator: self.operator(),
            n: Node(self.name()),
            g: Edge(self.name()),
            m: Node(self.name()),
            v: self.next(5),
            space,
            list_length: self.next(12) as usize,
        }
    }
}

/// The state as a buffer whose records stand in the order of their keys.
fn as_buffer(machine: &Machine, capacity: usize) -> Vec<u32> {
    let mut words = vec![0; 4 + 6 * capacity];
    buffer::prepare(&mut words).expect("the length is right");
    let count = machine.tuples().count();
    for (place, (key, value)) in machine.tuples().enumerate() {
        let next = if place + 1 < count { place + 2 } else { 0 };
        let record = [
            next as u32,
            key.s.0.into(),
            key.n.0.into(),
            key.g.0.into(),
            key.m.0.into(),
            value,
        ];
        words[4 + 6 * place..][..6].copy_from_slice(&record);
    }
    words[2] = if count < capacity {
        count as u32 + 1
    } else {
        0
    };
    words[3] = count as u32;
    words
}

fn check_step(machine: &mut Machine, capacity: usize, call: &Call) {
    let before = machine.clone();
    let answer = machine.step(call);
    let may_change = matches!(
        kind(call.operator),
        Some(Kind::Create | Kind::Bind | Kind::Destroy)
    );
    if matches!(answer, Answer::Refusal(_)) || !may_change {
        assert_eq!(*machine, before, "{call:?}");
    }
    if let Answer::List(entries) = &answer {
        assert!(entries.len() <= call.list_length);
        assert!(entries.windows(2).all(|two| two[0] < two[1]));
    }
    let words = as_buffer(machine, capacity);
    assert!(buffer::is_store(&words), "{call:?}");
    let tuples: Vec<_> = machine.tuples().collect();
    assert_eq!(buffer::tuples(&words), tuples);
    assert_eq!(buffer::free_count(&words), capacity - tuples.len());
}

#[test]
fn after_every_call_the_tuples_make_a_store() {
    for seed in 0..40 {
        let capacity = [1, 2, 5, 12, 30, 100][seed as usize % 6];
        let mut machine = Machine::new(capacity);
        let mut draws = Draws(seed);
        for _ in 0..500 {
            check_step(&mut machine, capacity, &draws.call());
        }
    }
}

/// Every refusal but 1 and 11, and every kind of answer, comes up.
#[test]
fn the_lists_of_calls_reach_every_answer() {
    let mut refusals = std::collections::BTreeSet::new();
    let mut answered = std::collections::BTreeSet::new();
    for seed in 0..40 {
        let mut machine = Machine::new(if seed % 2 == 0 { 12 } else { 100 });
        let mut draws = Draws(seed);
        for _ in 0..500 {
            let call = draws.call();
            match machine.step(&call) {
                Answer::Refusal(number) => refusals.insert(number),
                _ => answered.insert(call.operator),
            };
        }
    }
    assert!(refusals.into_iter().eq((2..=10).chain([12])));
    assert!(answered.into_iter().eq(1..=57));
}

/// The call with another operator and a list long enough for all.
fn with_operator(call: &Call, operator: u32) -> Call {
    Call {
        operator,
        list_length: 1000,
        ..*call
    }
}

fn entries(machine: &mut Machine, call: &Call, operator: u32) -> Vec<(u16, u16)> {
    match machine.step(&with_operator(call, operator)) {
        Answer::List(entries) => entries,
        other => panic!("{operator} gives {other:?}"),
    }
}

/// One call of the operator `part` for each entry of the set `set`; `fill`
/// puts the entry in its fields.
fn for_each(
    machine: &mut Machine,
    call: &Call,
    set: u32,
    part: u32,
    fill: fn(&mut Call, Edge, Node),
) -> Vec<Call> {
    let mut calls = Vec::new();
    for (edge, node) in entries(machine, call, set) {
        let mut filled = with_operator(call, part);
        fill(&mut filled, Edge(edge), Node(node));
        calls.push(filled);
    }
    calls
}

/// The calls that the manual's formula of CAP or of a D operator makes; the
/// sets are taken before the first of them.
fn formula(machine: &mut Machine, call: &Call) -> Option<Vec<Call>> {
    let operator = call.operator;
    let (set, part, fill): (u32, u32, fn(&mut Call, Edge, Node)) = match operator {
        // CAP: COP, CIP. DAP: DOP, DIP. DAG, DAGG, DAGN likewise.
        3 | 14 | 17 | 20 | 23 => {
            let parts = [operator - 2, operator - 1];
            return Some(parts.map(|part| with_operator(call, part)).to_vec());
        }
        // DOG and DIG: DOP or DIP of each pair of SOP or SIP.
        15 | 16 => (operator + 15, operator - 3, |part, g, m| {
            (part.g, part.m) = (g, m);
        }),
        // DOGG and DIGG: DOP or DIP of g and each node of SONG or SING.
        18 | 19 => (operator + 24, operator - 6, |part, _, m| part.m = m),
        // DOGN and DIGN: DOP or DIP of each edge of SOGN or SIGN and m.
        21 | 22 => (operator + 15, operator - 9, |part, g, _| part.g = g),
        // DON to DANG: DUN of each node of SON to SANG.
        24..=29 => (operator + 15, 49, |part, _, m| part.n = m),
        _ => return None,
    };
    Some(for_each(machine, call, set, part, fill))
}

/// How many tuples an answer of C or D says were added or removed.
fn changed(answer: &Answer) -> Option<usize> {
    match answer {
        Answer::Added(_, count) | Answer::Removed(_, count) => Some(*count),
        _ => None,
    }
}

/// Makes a call of C or D, and says how many tuples it added or removed.
fn made(machine: &mut Machine, call: &Call) -> usize {
    changed(&machine.step(call)).expect("an answer of C or D")
}

/// What the parts add or remove is what the operator adds or removes.
#[test]
fn operators_are_built_from_others() {
    let mut compared = 0;
    for seed in 100..140 {
        let mut machine = Machine::new(1000);
        let mut draws = Draws(seed);
        for _ in 0..500 {
            let call = draws.call();
            let mut at_once = machine.clone();
            let answer = at_once.step(&call);
            if changed(&answer).is_some() {
                if let Some(calls) = formula(&mut machine.clone(), &call) {
                    let parts: usize = calls.iter().map(|part| made(&mut machine, part)).sum();
                    assert_eq!(machine, at_once, "{call:?}");
                    assert_eq!(Some(parts), changed(&answer), "{call:?}");
                    compared += 1;
                }
            }
            machine = at_once;
        }
    }
    assert!(compared > 1000, "{compared}");
}

/// Whether an X operator says yes.
fn says_yes(machine: &mut Machine, call: &Call, operator: u32) -> bool {
    machine.step(&with_operator(call, operator)) == Answer::YesNo(true)
}

/// For one node and space, the sets hold exactly what X operators confirm.
fn check_sets(machine: &mut Machine, call: &Call) {
    for (exists, pairs) in [(9, 30), (10, 31), (11, 32)] {
        let mut expected = Vec::new();
        for g in 1..=5 {
            for m in 1..=5 {
                let pair = Call {
                    g: Edge(g),
                    m: Node(m),
                    ..*call
                };
                if says_yes(machine, &pair, exists) {
                    expected.push((g, m));
                }
            }
        }
        assert_eq!(entries(machine, call, pairs), expected);
        let mut edges: Vec<_> = expected.iter().map(|&(g, _)| (g, 0)).collect();
        edges.dedup();
        assert_eq!(entries(machine, call, pairs + 3), edges);
        let mut nodes: Vec<_> = expected.iter().map(|&(_, m)| (0, m)).collect();
        nodes.sort_unstable();
        nodes.dedup();
        assert_eq!(entries(machine, call, pairs + 9), nodes);
    }
}

#[test]
fn sets_hold_what_exists() {
    let mut compared = 0;
    for seed in 200..220 {
        let mut machine = Machine::new(1000);
        let mut draws = Draws(seed);
        for _ in 0..300 {
            let call = draws.call();
            machine.step(&call);
            let is_there = call.n != Node(0)
                && call.space != Space::Numbered(SpaceName(0))
                && says_yes(&mut machine, &call, 48);
            if is_there {
                check_sets(&mut machine, &call);
                compared += 1;
            }
        }
    }
    assert!(compared > 500, "{compared}");
}
