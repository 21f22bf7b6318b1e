//! Lists of calls to measure with.

use crate::machine::{Call, Edge, Node, Space, SpaceName, NIL};
use crate::operators::{direction, kind, Direction, Kind};

/// The length of every answer list of a load.
pub const LIST_LENGTH: usize = 2_048;

/// The calls of request 11 for a seed and a K: "a call takes six draws in all
/// cases, in the order operator, n, g, m, v, s".
pub struct Drawn {
    state: u32,
    k: u32,
}

impl Drawn {
    /// K is 1 to 1,000.
    pub fn new(seed: u32, k: u32) -> Drawn {
        Drawn { state: seed, k }
    }

    fn draw(&mut self) -> u32 {
        self.state = self
            .state
            .wrapping_mul(1_664_525)
            .wrapping_add(1_013_904_223);
        self.state
    }

    /// A draw divided by 65,536, modulo a limit.
    fn below(&mut self, limit: u32) -> u32 {
        self.draw() / 65_536 % limit
    }

    fn name(&mut self) -> u16 {
        1 + self.below(self.k) as u16
    }
}

impl Iterator for Drawn {
    type Item = Call;

    fn next(&mut self) -> Option<Call> {
        Some(Call {
            operator: 1 + self.below(57),
            n: Node(self.name()),
            g: Edge(self.name()),
            m: Node(self.name()),
            v: self.draw(),
            space: space(self.below(self.k + 1) as u16),
            list_length: LIST_LENGTH,
        })
    }
}

/// Drawn calls of which three in four create or list, so that the store fills.
pub fn dense(seed: u32, k: u32) -> impl Iterator<Item = Call> {
    Drawn::new(seed, k).enumerate().map(|(place, call)| {
        let operator = match place % 4 {
            0 => call.operator,
            1 => 1 + call.operator % 3,
            2 => [45, 51, 3][place / 4 % 3],
            _ => 30 + call.operator % 15,
        };
        Call { operator, ..call }
    })
}

/// The same without removals.
pub fn filling(seed: u32, k: u32) -> impl Iterator<Item = Call> {
    dense(seed, k).filter(|call| kind(call.operator) != Some(Kind::Destroy))
}

/// The space of this number, where 0 is UNIVERSE.
fn space(number: u16) -> Space {
    match number {
        0 => Space::Universe,
        _ => Space::Numbered(SpaceName(number)),
    }
}

/// A call of an operator that reads no edge and no second node.
fn unit(operator: u32, n: u16, s: u16) -> Call {
    Call {
        operator,
        n: Node(n),
        g: Edge(0),
        m: Node(0),
        v: NIL,
        space: space(s),
        list_length: LIST_LENGTH,
    }
}

/// CUN of nodes 1 to 2,047 in UNIVERSE, ascending: with it the store is full.
pub fn full_bed() -> Vec<Call> {
    (1..=2_047).map(|n| unit(45, n, 0)).collect()
}

/// SUN of UNIVERSE, so many times.
pub fn lists_of_nodes(times: usize) -> Vec<Call> {
    vec![unit(50, 1, 0); times]
}

/// A panel of so many rows of so many loops, node numbers row by row.
const SIDE: u16 = 22;

/// The yarn within a row, and from a row to the next.
const ALONG: Edge = Edge(1);
const TURN: Edge = Edge(2);

/// The loops in the order of knitting: there and back.
fn knitted() -> Vec<u16> {
    let row = |row: u16| {
        let first = row * SIDE + 1;
        let loops: Vec<u16> = (first..first + SIDE).collect();
        if row.is_multiple_of(2) {
            loops
        } else {
            loops.into_iter().rev().collect()
        }
    };
    (0..SIDE).flat_map(row).collect()
}

/// The space of the row of a loop, from 1.
fn row_of(node: u16) -> u16 {
    (node - 1) / SIDE + 1
}

/// The yarn from a loop to the next one.
fn yarn(operator: u32, from: u16, to: u16, s: u16) -> Call {
    let is_turn = row_of(from) != row_of(to);
    Call {
        g: if is_turn { TURN } else { ALONG },
        m: Node(to),
        ..unit(operator, from, s)
    }
}

/// The tuples of a panel, UNIVERSE with them: 484 loops and 483 pieces of yarn
/// in UNIVERSE; 22 rows as spaces, with 484 loops and 462 pieces.
pub const PANEL_TUPLES: usize = 1 + 484 + 483 + 22 + 484 + 462;

/// Knits a panel: each row is a space, and each loop and each piece of yarn
/// within a row is in it.
pub fn panel() -> Vec<Call> {
    let mut calls: Vec<Call> = (1..=SIDE).map(|s| unit(51, 1, s)).collect();
    let knitted = knitted();
    calls.extend(knitted.iter().map(|&n| unit(45, n, row_of(n))));
    calls.extend(knitted.windows(2).map(|two| {
        let is_turn = row_of(two[0]) != row_of(two[1]);
        let s = if is_turn { 0 } else { row_of(two[0]) };
        yarn(1, two[0], two[1], s)
    }));
    calls
}

/// Reads a panel: for each loop SOP, SIN, VUN and XOP to the next loop, in
/// UNIVERSE and in its row.
pub fn panel_reads(rounds: usize) -> Vec<Call> {
    let knitted = knitted();
    let mut round = Vec::new();
    for (place, &n) in knitted.iter().enumerate() {
        let next = knitted.get(place + 1).copied().unwrap_or(n);
        for s in [0, row_of(n)] {
            round.extend([30, 40, 47].map(|operator| unit(operator, n, s)));
            round.push(yarn(9, n, next, s));
        }
    }
    round.repeat(rounds)
}

/// Operators 30 to 44 along the edge of a call: those of inpointing pairs at
/// the node that it comes to, the others at the node that it leaves. Each
/// lists something if the edge is there.
fn lists_along(edge: Call) -> impl Iterator<Item = Call> {
    (30..=44).map(move |operator| match direction(operator) {
        Some(Direction::Inpointing) => Call {
            operator,
            n: edge.m,
            m: edge.n,
            ..edge
        },
        _ => Call { operator, ..edge },
    })
}

/// Lists a panel. For each third loop: along the yarn to the next one in
/// UNIVERSE and, unless that turns, in its row; and the spaces of the loop.
/// For each row: its loops, and all spaces.
pub fn panel_lists() -> Vec<Call> {
    let mut calls = Vec::new();
    for two in knitted().windows(2).step_by(3) {
        let [from, to] = [two[0], two[1]];
        let row = row_of(from);
        calls.extend(lists_along(yarn(1, from, to, 0)));
        if row_of(to) == row {
            calls.extend(lists_along(yarn(1, from, to, row)));
        }
        calls.push(unit(57, from, 0));
    }
    let rows = (1..=SIDE).flat_map(|s| [50, 56].map(|operator| unit(operator, 1, s)));
    calls.extend(rows);
    calls
}

/// The nodes of a dense graph, the names of its edges, and how often an edge
/// is drawn; some are drawn twice.
const DENSE_NODES: u16 = 40;
const DENSE_NAMES: u16 = 8;
const DENSE_DRAWS: usize = 2_000;

/// COP of the edges of a dense graph, in UNIVERSE.
fn dense_edges() -> Vec<Call> {
    Drawn::new(1, DENSE_NODES.into())
        .take(DENSE_DRAWS)
        .map(|drawn| Call {
            g: Edge(1 + drawn.g.0 % DENSE_NAMES),
            m: drawn.m,
            ..unit(1, drawn.n.0, 0)
        })
        .collect()
}

/// The tuples of a dense graph, UNIVERSE with them: 40 nodes, 1,845 edges.
pub const DENSE_TUPLES: usize = 1 + 40 + 1_845;

/// Makes a dense graph: few nodes, and most pairs of them have an edge.
pub fn dense_graph() -> Vec<Call> {
    let mut calls: Vec<Call> = (1..=DENSE_NODES).map(|n| unit(45, n, 0)).collect();
    calls.extend(dense_edges());
    calls
}

/// Lists a dense graph. For each node: along the first edge from it and the
/// first to it, so that each of 30 to 44 is called at it; and SUN and both SUS.
pub fn dense_graph_lists() -> Vec<Call> {
    let edges = dense_edges();
    let mut calls = Vec::new();
    for n in (1..=DENSE_NODES).map(Node) {
        let from = edges.iter().find(|edge| edge.n == n);
        let to = edges.iter().find(|edge| edge.m == n);
        let along = from.into_iter().chain(to);
        calls.extend(along.flat_map(|&edge| lists_along(edge)));
        calls.extend([50, 56, 57].map(|operator| unit(operator, n.0, 0)));
    }
    calls
}

/// The node that has all edges of a hub, and how many these are.
const HUB: u16 = 1;
const SPOKES: u16 = 900;

/// The tuples of a hub, UNIVERSE with them.
pub const HUB_TUPLES: usize = 1 + 901 + 900;

/// The name of a spoke's edge, of so many names. Where there are several, they
/// neither ascend nor descend from spoke to spoke.
fn spoke_name(spoke: u16, names: u16) -> Edge {
    let mixed = u32::from(spoke) * 487 % u32::from(names);
    Edge(1 + mixed as u16)
}

/// Makes a hub for an S operator of pairs: node 1 has 900 edges of so many
/// names, each from it to another node if the operator lists outpointing
/// pairs, else from another node to it.
pub fn hub(operator: u32, names: u16) -> Vec<Call> {
    let create = match direction(operator) {
        Some(Direction::Outpointing) => 1,
        _ => 2,
    };
    let nodes = (HUB..=HUB + SPOKES).map(|n| unit(45, n, 0));
    let edges = (1..=SPOKES).map(|spoke| Call {
        g: spoke_name(spoke, names),
        m: Node(HUB + spoke),
        ..unit(create, HUB, 0)
    });
    nodes.chain(edges).collect()
}

/// An operator that reads no edge and no second node, at a hub, so many times.
pub fn hub_lists(operator: u32, times: usize) -> Vec<Call> {
    vec![unit(operator, HUB, 0); times]
}

#[cfg(test)]
mod tests {
    use std::collections::BTreeSet;

    use super::*;
    use crate::machine::{Answer, Machine};

    #[test]
    fn the_first_draw_is_that_of_the_request() {
        assert_eq!(Drawn::new(1, 20).draw(), 1_015_568_748);
    }

    #[test]
    fn the_panel_fits() {
        let mut machine = Machine::new(2_048);
        for call in panel() {
            let answer = machine.step(&call);
            let name = first_name(&call);
            assert!(matches!(answer, Answer::Added(found, 1..) if found == name));
        }
        assert_eq!(machine.tuples().count(), PANEL_TUPLES);
        for call in panel_reads(1) {
            // A turn of the yarn leads out of its row: 7.
            let answer = machine.step(&call);
            let leaves_row = call.operator == 9 && call.g == TURN && call.space != Space::Universe;
            assert_eq!(answer == Answer::Refusal(7), leaves_row, "{call:?}");
        }
    }

    /// A machine in which all these calls have been answered.
    fn machine_after(calls: Vec<Call>) -> Machine {
        let mut machine = Machine::new(2_048);
        for call in calls {
            let answer = machine.step(&call);
            assert!(matches!(answer, Answer::Added(..)), "{call:?}");
        }
        machine
    }

    /// What a call lists; nothing for another answer.
    fn listed(machine: &mut Machine, call: &Call) -> Vec<(u16, u16)> {
        match machine.step(call) {
            Answer::List(entries) => entries,
            _ => Vec::new(),
        }
    }

    /// All S operators.
    fn all_lists() -> impl Iterator<Item = u32> {
        (1..=57).filter(|&operator| kind(operator) == Some(Kind::SetOf))
    }

    #[test]
    fn all_operators_list_something_of_the_panel() {
        let mut machine = machine_after(panel());
        let mut operators = BTreeSet::new();
        for call in panel_lists() {
            assert!(!listed(&mut machine, &call).is_empty(), "{call:?}");
            operators.insert((call.operator, call.space == Space::Universe));
        }
        let in_both = (30..=44).flat_map(|operator| [(operator, true), (operator, false)]);
        let others = [(50, false), (56, false), (57, true)];
        assert_eq!(operators, in_both.chain(others).collect());
    }

    #[test]
    fn all_operators_list_something_at_each_node_of_the_dense_graph() {
        let mut machine = machine_after(dense_graph());
        assert_eq!(machine.tuples().count(), DENSE_TUPLES);
        let mut operators = BTreeSet::new();
        for call in dense_graph_lists() {
            assert!(!listed(&mut machine, &call).is_empty(), "{call:?}");
            operators.insert((call.operator, call.n));
        }
        let nodes = || (1..=DENSE_NODES).map(Node);
        let expected = all_lists().flat_map(|operator| nodes().map(move |n| (operator, n)));
        assert_eq!(operators, expected.collect());
    }

    /// As many pairs and nodes as edges; as many edge names as were asked for.
    #[test]
    fn a_hub_has_its_edges() {
        for names in [1, 8, 900] {
            for operator in (30..=35).chain(39..=41) {
                let mut machine = machine_after(hub(operator, names));
                assert_eq!(machine.tuples().count(), HUB_TUPLES);
                let lists_edges = (33..=35).contains(&operator);
                let expected = if lists_edges { names } else { SPOKES };
                for call in hub_lists(operator, 2) {
                    let count = listed(&mut machine, &call).len();
                    assert_eq!(count, expected.into(), "{call:?}");
                }
            }
        }
    }

    fn first_name(call: &Call) -> u16 {
        match (call.operator, call.space) {
            (51, Space::Numbered(s)) => s.0,
            _ => call.n.0,
        }
    }
}
