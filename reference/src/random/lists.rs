//! Random lists of calls, run on the tuple machine.

use crate::machine::{Answer, Call, Edge, Key, Machine, Node, Space, SpaceName, UNIVERSE};
use crate::operators::{kind, Kind};

use super::Draws;

/// A list of calls, its answers, and the machine after the last.
pub struct Run {
    pub capacity: usize,
    pub calls: Vec<Call>,
    pub answers: Vec<Answer>,
    pub machine: Machine,
}

impl Run {
    /// How many tuples the answers say were added, and how many were removed.
    pub fn changes(&self) -> (usize, usize) {
        self.answers
            .iter()
            .fold((0, 0), |(added, removed), answer| match answer {
                Answer::Added(_, count) => (added + count, removed),
                Answer::Removed(_, count) => (added, removed + count),
                _ => (added, removed),
            })
    }
}

/// The forms that the spaces of drawn calls have.
#[derive(Clone, Copy, PartialEq, Eq, Debug)]
pub enum Forms {
    /// UNIVERSE and numbers. Scripts that are measured have these two.
    WithoutNothing,
    /// All three.
    WithNothing,
}

/// One call in so many has no selection.
const NOTHING_ONCE_IN: usize = 10;

/// The names of a list: small ones, or some of several digits.
pub(super) const NODES: [[u16; 4]; 2] = [[1, 2, 3, 4], [2, 10, 300, 65_535]];
pub(super) const EDGES: [[u16; 3]; 2] = [[1, 2, 3], [5, 40, 65_535]];
pub(super) const SPACES: [[u16; 3]; 2] = [[1, 2, 3], [9, 10, 65_535]];

const VALUES: [u32; 6] = [0, 1, 2, 7, 60, u32::MAX];
const LONG_LISTS: [usize; 4] = [8, 2048, 2049, 4_294_967_295];

/// C operators, as often as they are to be drawn.
const CREATES: [u32; 12] = [1, 1, 1, 2, 2, 2, 3, 3, 3, 45, 45, 51];

/// Numbers that are no operators, some of them one in their lower half.
const NO_OPERATORS: [u32; 16] = [
    0,
    58,
    59,
    65_535,
    65_536,
    65_537,
    65_536 + 45,
    65_536 + 57,
    0x7fff_ffff,
    0x8000_0000,
    0x8000_0001,
    0x8000_0000 + 50,
    0x8000_0000 + 58,
    0xffff_0000 + 51,
    u32::MAX - 1,
    u32::MAX,
];

/// A list of about 25 calls; a short one now and then.
pub fn draw(draws: &mut Draws) -> Run {
    let capacity = match draws.below(8) {
        0 => 1 + draws.below(12),
        1 | 2 => 8 + draws.below(20),
        _ => 2048,
    };
    let length = match draws.below(20) {
        0 => draws.below(5),
        _ => 20 + draws.below(15),
    };
    run(draws, capacity, length)
}

/// A list of so many calls, on a fresh machine with this C.
pub fn run(draws: &mut Draws, capacity: usize, length: usize) -> Run {
    run_with(draws, capacity, length, Forms::WithNothing)
}

/// The same, with spaces of these forms.
pub fn run_with(draws: &mut Draws, capacity: usize, length: usize, forms: Forms) -> Run {
    let pool = draws.below(4) / 3;
    let mut run = Run {
        capacity,
        calls: Vec::new(),
        answers: Vec::new(),
        machine: Machine::new(capacity),
    };
    let building = if draws.once_in(6) {
        draws.below(4)
    } else {
        length / 2
    };
    for place in 0..length {
        let draw = |draws: &mut Draws| {
            if place < building {
                building_call(draws, pool, place)
            } else {
                aimed_call(draws, pool, &run.machine)
            }
        };
        // The first space and its nodes are made in any case.
        let may_be_nothing = forms == Forms::WithNothing && place >= building.min(4);
        let call = if may_be_nothing && draws.once_in(NOTHING_ONCE_IN) {
            let call = draw(draws);
            with_nothing(draws, call)
        } else {
            mostly_answered(draws, &run.machine, draw)
        };
        run.answers.push(run.machine.step(&call));
        run.calls.push(call);
    }
    run
}

/// Creates a space, then three nodes, then edges, mostly in the pool's first
/// space.
fn building_call(draws: &mut Draws, pool: usize, place: usize) -> Call {
    let mut call = draw_call(draws, pool);
    if place == 0 || !draws.once_in(4) {
        call.space = Space::Numbered(SpaceName(SPACES[pool][0]));
    }
    call.operator = match place {
        0 => 51,
        1..=3 => 45,
        _ => draws.one_of(&CREATES),
    };
    if call.operator == 45 {
        call.n = Node(NODES[pool][place % NODES[pool].len()]);
    }
    call
}

/// A call that would be refused is mostly drawn again with the same operator,
/// a few times.
fn mostly_answered(
    draws: &mut Draws,
    machine: &Machine,
    draw: impl Fn(&mut Draws) -> Call,
) -> Call {
    let mut call = draw(draws);
    for _ in 0..8 {
        let is_kept = match machine.clone().step(&call) {
            Answer::Refusal(8 | 9) => draws.once_in(2),
            Answer::Refusal(_) => draws.once_in(10),
            _ => true,
        };
        if is_kept {
            break;
        }
        let operator = call.operator;
        call = draw(draws);
        call.operator = operator;
    }
    call
}

/// The call with no selection, and with any operator, as none removes anything
/// then.
fn with_nothing(draws: &mut Draws, call: Call) -> Call {
    let operator = match kind(call.operator) {
        Some(_) => 1 + draws.below(57) as u32,
        None => call.operator,
    };
    Call {
        operator,
        space: Space::Nothing,
        ..call
    }
}

/// A call with any names of any list, or with those of a tuple that is present;
/// its space has any form.
pub fn any_call(draws: &mut Draws, machine: &Machine) -> Call {
    let pool = draws.below(NODES.len());
    let call = aimed_call(draws, pool, machine);
    if draws.once_in(NOTHING_ONCE_IN) {
        with_nothing(draws, call)
    } else {
        call
    }
}

/// A call with names of a pool or of a tuple that is present, most often one
/// that is answered; its space has any form.
pub(super) fn next_call(draws: &mut Draws, pool: usize, machine: &Machine) -> Call {
    if draws.once_in(NOTHING_ONCE_IN) {
        let call = aimed_call(draws, pool, machine);
        with_nothing(draws, call)
    } else {
        mostly_answered(draws, machine, |draws| aimed_call(draws, pool, machine))
    }
}

/// A call with names of a pool, or with those of a tuple that is present.
fn aimed_call(draws: &mut Draws, pool: usize, machine: &Machine) -> Call {
    let mut call = draw_call(draws, pool);
    if !draws.once_in(4) {
        let mut keys: Vec<Key> = machine.tuples().map(|(key, _)| key).collect();
        if keys.iter().any(Key::is_edge) && !draws.once_in(3) {
            keys.retain(Key::is_edge);
        }
        let key = draws.one_of(&keys);
        aim(&mut call, &key);
        if key.is_edge() && draws.once_in(2) {
            (call.n, call.m) = (call.m, call.n);
        }
    }
    call
}

/// Takes the names of a key that are there.
fn aim(call: &mut Call, key: &Key) {
    call.space = match key.s {
        UNIVERSE => Space::Universe,
        name => Space::Numbered(name),
    };
    if !key.is_space() {
        call.n = key.n;
    }
    if key.is_edge() {
        (call.g, call.m) = (key.g, key.m);
    }
}

fn draw_call(draws: &mut Draws, pool: usize) -> Call {
    let n = draw_name(draws, &NODES[pool]);
    let m = if draws.once_in(5) {
        n
    } else {
        draw_name(draws, &NODES[pool])
    };
    Call {
        operator: draw_operator(draws),
        n: Node(n),
        g: Edge(draw_name(draws, &EDGES[pool])),
        m: Node(m),
        v: draws.one_of(&VALUES),
        space: draw_space(draws, &SPACES[pool]),
        list_length: draw_list_length(draws),
    }
}

/// Any operator number; creates more often than removals.
fn draw_operator(draws: &mut Draws) -> u32 {
    if draws.once_in(40) {
        return draws.one_of(&NO_OPERATORS);
    }
    if draws.once_in(6) {
        return draws.one_of(&CREATES);
    }
    let operator = 1 + draws.below(57) as u32;
    match kind(operator) {
        Some(Kind::Destroy) if !draws.once_in(3) => draws.one_of(&CREATES),
        _ => operator,
    }
}

/// The first names of a pool more often than the last; once in a while 0.
fn draw_name(draws: &mut Draws, pool: &[u16]) -> u16 {
    if draws.once_in(40) {
        return 0;
    }
    pool[draws.below(pool.len()).min(draws.below(pool.len() + 2))]
}

fn draw_space(draws: &mut Draws, pool: &[u16]) -> Space {
    if draws.below(5) < 2 {
        Space::Universe
    } else {
        Space::Numbered(SpaceName(draw_name(draws, pool)))
    }
}

fn draw_list_length(draws: &mut Draws) -> usize {
    if draws.once_in(2) {
        draws.below(4)
    } else {
        draws.one_of(&LONG_LISTS)
    }
}
