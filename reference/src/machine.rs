//! The tuple machine of document 01: a set of tuples, a constant C, and one
//! step for each operator.

use std::collections::{BTreeMap, BTreeSet};

use crate::operators::{self, Argument, Direction, Kind};

/// The name of a node. In a key, 0 stands where there is none.
#[derive(Clone, Copy, PartialEq, Eq, PartialOrd, Ord, Debug)]
pub struct Node(pub u16);

/// The name of an edge. In a key, 0 stands where there is none.
#[derive(Clone, Copy, PartialEq, Eq, PartialOrd, Ord, Debug)]
pub struct Edge(pub u16);

/// The name of a space as tuples and answers have it, where UNIVERSE is
/// written 0.
#[derive(Clone, Copy, PartialEq, Eq, PartialOrd, Ord, Debug)]
pub struct SpaceName(pub u16);

/// "In tuples and answers UNIVERSE is written 0."
pub const UNIVERSE: SpaceName = SpaceName(0);

/// The value of a tuple.
pub type Value = u32;

/// "A value is a 32-bit word; 0 is NIL."
pub const NIL: Value = 0;

/// A pair (edge, node) of some node.
pub type Pair = (Edge, Node);

/// The key of a tuple. Keys are ordered by s, then n, then g, then m.
#[derive(Clone, Copy, PartialEq, Eq, PartialOrd, Ord, Debug)]
pub struct Key {
    pub s: SpaceName,
    pub n: Node,
    pub g: Edge,
    pub m: Node,
}

impl Key {
    /// "(s,0,0,0) is space s"
    pub fn space(s: SpaceName) -> Key {
        Key::node(s, Node(0))
    }

    /// "(s,n,0,0) is node n in s"
    pub fn node(s: SpaceName, n: Node) -> Key {
        Key::edge(s, n, Edge(0), Node(0))
    }

    /// "(s,n,g,m) is edge g from n to m in s"
    pub fn edge(s: SpaceName, n: Node, g: Edge, m: Node) -> Key {
        Key { s, n, g, m }
    }

    pub fn is_space(&self) -> bool {
        self.n == Node(0)
    }

    pub fn is_node(&self) -> bool {
        self.n != Node(0) && self.g == Edge(0)
    }

    pub fn is_edge(&self) -> bool {
        self.n != Node(0) && self.g != Edge(0)
    }
}

/// "The space of a call is either UNIVERSE or a number", or, by request 1,
/// nothing.
#[derive(Clone, Copy, PartialEq, Eq, Debug)]
pub enum Space {
    Universe,
    Numbered(SpaceName),
    Nothing,
}

impl Space {
    /// The space as keys and answers have it. Nothing stands in no key and in
    /// no answer: where it is read, `step_on_nothing` has answered.
    fn written(self) -> SpaceName {
        match self {
            Space::Universe => UNIVERSE,
            Space::Numbered(name) => name,
            Space::Nothing => panic!("nothing is not written"),
        }
    }
}

/// A call: an operator number, its fields, and the length of its answer list.
#[derive(Clone, Copy, PartialEq, Eq, Debug)]
pub struct Call {
    pub operator: u32,
    pub n: Node,
    pub g: Edge,
    pub m: Node,
    pub v: Value,
    pub space: Space,
    pub list_length: usize,
}

/// The answer to a call.
#[derive(Clone, PartialEq, Eq, Debug)]
pub enum Answer {
    /// The number of the condition that stopped the call.
    Refusal(u32),
    /// The name of a node or a space: the answer of B.
    Name(u16),
    /// Of C: that name, and how many tuples were added.
    Added(u16, usize),
    /// Of D: that name, and how many tuples were removed.
    Removed(u16, usize),
    Value(Value),
    YesNo(bool),
    /// Entries (edge, node), ascending, each once.
    List(Vec<(u16, u16)>),
}

/// The tuple machine.
#[derive(Clone, PartialEq, Eq, Debug)]
pub struct Machine {
    tuples: BTreeMap<Key, Value>,
    capacity: usize,
}

impl Machine {
    /// The machine at first: "only (0,0,0,0) with NIL, and a constant C".
    pub fn new(capacity: usize) -> Machine {
        Machine {
            tuples: BTreeMap::from([(Key::space(UNIVERSE), NIL)]),
            capacity,
        }
    }

    /// A machine in a later state.
    pub fn with_tuples(capacity: usize, tuples: impl IntoIterator<Item = (Key, Value)>) -> Machine {
        Machine {
            tuples: tuples.into_iter().collect(),
            capacity,
        }
    }

    /// How many more tuples it can hold.
    pub fn free_count(&self) -> usize {
        self.capacity - self.tuples.len()
    }

    /// The tuples of the state, ascending by key.
    pub fn tuples(&self) -> impl Iterator<Item = (Key, Value)> + '_ {
        self.tuples.iter().map(|(&key, &value)| (key, value))
    }

    /// One step. A call that is stopped leaves the state as it is.
    pub fn step(&mut self, call: &Call) -> Answer {
        let Some(kind) = operators::kind(call.operator) else {
            return Answer::Refusal(2);
        };
        if call.space == Space::Nothing && operators::reads(call.operator, Argument::Space) {
            return step_on_nothing(kind, call);
        }
        if let Some(number) = self.first_refusal(call) {
            return Answer::Refusal(number);
        }
        match kind {
            Kind::Create => self.create(call),
            Kind::Bind => self.bind(call),
            Kind::Destroy => self.destroy(call),
            Kind::Value => Answer::Value(self.value(call)),
            Kind::Exists => Answer::YesNo(self.exists(call)),
            Kind::SetOf => Answer::List(self.listed(call).into_iter().collect()),
        }
    }
}

/// Request 1: the step where the space is nothing. "Nothing is looked up in the
/// graph, so conditions 5 to 10 are not tested. C, B and D change nothing and
/// return the first argument; X says no; S, SUN included, answers an empty
/// list." 12, after 3: "a V operator, or any of 51–55". Request 2: the number
/// is "0 where nothing changed".
fn step_on_nothing(kind: Kind, call: &Call) -> Answer {
    if reads_name_zero(call) {
        return Answer::Refusal(3);
    }
    match (call.operator, kind) {
        (51..=55, _) | (_, Kind::Value) => Answer::Refusal(12),
        (_, Kind::Create) => Answer::Added(call.n.0, 0),
        (_, Kind::Bind) => Answer::Name(call.n.0),
        (_, Kind::Destroy) => Answer::Removed(call.n.0, 0),
        (_, Kind::Exists) => Answer::YesNo(false),
        (_, Kind::SetOf) => Answer::List(Vec::new()),
    }
}

/// 3: "a name that is read is 0". Nothing is no name.
fn reads_name_zero(call: &Call) -> bool {
    operators::arguments(call.operator)
        .iter()
        .any(|argument| match argument {
            Argument::FirstNode => call.n == Node(0),
            Argument::Edge => call.g == Edge(0),
            Argument::SecondNode => call.m == Node(0),
            Argument::Space => call.space == Space::Numbered(SpaceName(0)),
            Argument::Value => false,
        })
}

/// Where a call on UNIVERSE or a number is stopped: conditions 3 to 10 (2 is
/// judged in `step`).
impl Machine {
    /// "The first that applies wins."
    fn first_refusal(&self, call: &Call) -> Option<u32> {
        let conditions = [
            (
                3,
                (|_, call| reads_name_zero(call)) as fn(&Machine, &Call) -> bool,
            ),
            (4, Machine::destroys_universe),
            (5, Machine::lacks_space),
            (6, Machine::lacks_first_node),
            (7, Machine::lacks_second_node),
            (8, Machine::lacks_pair),
            (9, Machine::list_is_too_short),
            (10, Machine::is_full),
        ];
        conditions
            .into_iter()
            .find(|(_, applies)| applies(self, call))
            .map(|(number, _)| number)
    }

    /// 4: "55 on UNIVERSE"
    fn destroys_universe(&self, call: &Call) -> bool {
        call.operator == 55 && call.space == Space::Universe
    }

    /// 5: "s absent (not for 51, 54, 55)"
    fn lacks_space(&self, call: &Call) -> bool {
        operators::reads(call.operator, Argument::Space)
            && !matches!(call.operator, 51 | 54 | 55)
            && !self.has(Key::space(call.space.written()))
    }

    /// 6: "n absent from s (1–44, 46, 47), or from 0 (57)"
    fn lacks_first_node(&self, call: &Call) -> bool {
        match call.operator {
            1..=44 | 46 | 47 => !self.has(Key::node(call.space.written(), call.n)),
            57 => !self.has(Key::node(UNIVERSE, call.n)),
            _ => false,
        }
    }

    /// 7: "m, where it is read, absent from s"
    fn lacks_second_node(&self, call: &Call) -> bool {
        operators::reads(call.operator, Argument::SecondNode)
            && !self.has(Key::node(call.space.written(), call.m))
    }

    /// 8: "4–8: no such edge; 6 only if both are absent"
    fn lacks_pair(&self, call: &Call) -> bool {
        matches!(call.operator, 4..=8) && self.edges_of_named_pair(call).is_empty()
    }

    /// 9: "shorter than k"
    fn list_is_too_short(&self, call: &Call) -> bool {
        call.list_length < self.listed(call).len()
    }

    /// 10: "full: tuples present + tuples to add > C"
    fn is_full(&self, call: &Call) -> bool {
        let to_add = self.missing_keys(call).len();
        to_add > 0 && self.tuples.len() + to_add > self.capacity
    }
}

/// What is present.
impl Machine {
    fn has(&self, key: Key) -> bool {
        self.tuples.contains_key(&key)
    }

    /// All spaces, UNIVERSE among them. Both forms of SUS list from these.
    fn spaces(&self) -> Vec<SpaceName> {
        self.tuples
            .keys()
            .filter(|key| key.is_space())
            .map(|key| key.s)
            .collect()
    }

    /// The nodes of s.
    fn nodes(&self, s: SpaceName) -> Vec<Node> {
        self.tuples
            .keys()
            .filter(|key| key.s == s && key.is_node())
            .map(|key| key.n)
            .collect()
    }

    /// "Pairs of n in s: outpointing, each (g,m) with (s,n,g,m) present;
    /// inpointing, each (g,m) with (s,m,g,n) present; adjacent, either."
    fn pairs(&self, s: SpaceName, n: Node, direction: Direction) -> BTreeSet<Pair> {
        let mut pairs = BTreeSet::new();
        for key in self.tuples.keys() {
            if key.s != s || !key.is_edge() {
                continue;
            }
            if key.n == n && direction != Direction::Inpointing {
                pairs.insert((key.g, key.m));
            }
            if key.m == n && direction != Direction::Outpointing {
                pairs.insert((key.g, key.n));
            }
        }
        pairs
    }

    /// "A pair's edge is that tuple (for A, each of the two that is present)."
    fn edges_of_pair(
        &self,
        s: SpaceName,
        n: Node,
        (g, m): Pair,
        direction: Direction,
    ) -> BTreeSet<Key> {
        edge_keys(s, n, (g, m), direction)
            .into_iter()
            .filter(|&key| self.has(key))
            .collect()
    }

    /// The edges that are present of the pair (g,m) of n that a call names.
    fn edges_of_named_pair(&self, call: &Call) -> BTreeSet<Key> {
        let Some(direction) = operators::direction(call.operator) else {
            return BTreeSet::new();
        };
        self.edges_of_pair(call.space.written(), call.n, (call.g, call.m), direction)
    }

    /// The pairs of n that a call is about: all of them, those with edge g,
    /// those with node m, or the one pair (g,m).
    fn chosen_pairs(&self, call: &Call) -> BTreeSet<Pair> {
        let Some(direction) = operators::direction(call.operator) else {
            return BTreeSet::new();
        };
        let edge_is_given = operators::reads(call.operator, Argument::Edge);
        let node_is_given = operators::reads(call.operator, Argument::SecondNode);
        self.pairs(call.space.written(), call.n, direction)
            .into_iter()
            .filter(|&(g, _)| !edge_is_given || g == call.g)
            .filter(|&(_, m)| !node_is_given || m == call.m)
            .collect()
    }
}

/// The keys that a pair (g,m) of n in s can have: n to m (O), m to n (I) or
/// both (A). For a loop both are one key.
fn edge_keys(s: SpaceName, n: Node, (g, m): Pair, direction: Direction) -> BTreeSet<Key> {
    let outpointing = Key::edge(s, n, g, m);
    let inpointing = Key::edge(s, m, g, n);
    match direction {
        Direction::Outpointing => BTreeSet::from([outpointing]),
        Direction::Inpointing => BTreeSet::from([inpointing]),
        Direction::Adjacent => BTreeSet::from([outpointing, inpointing]),
    }
}

/// C operators.
impl Machine {
    /// Adds what is missing, with NIL; "a present one keeps its value".
    /// Request 2: "The number is the difference of the tuple counts before and
    /// after."
    fn create(&mut self, call: &Call) -> Answer {
        let before = self.tuples.len();
        for key in self.missing_keys(call) {
            self.tuples.insert(key, NIL);
        }
        Answer::Added(first_argument(call), self.tuples.len() - before)
    }

    /// The tuples to add: "the keys that the step would add and that are
    /// missing".
    fn missing_keys(&self, call: &Call) -> BTreeSet<Key> {
        created_keys(call)
            .into_iter()
            .filter(|&key| !self.has(key))
            .collect()
    }
}

/// The keys that are present after a C operator: in s and in 0.
fn created_keys(call: &Call) -> BTreeSet<Key> {
    let s = || call.space.written();
    match (call.operator, operators::direction(call.operator)) {
        (1..=3, Some(direction)) => {
            let mut keys = edge_keys(s(), call.n, (call.g, call.m), direction);
            keys.extend(edge_keys(UNIVERSE, call.n, (call.g, call.m), direction));
            keys
        }
        (45, _) => BTreeSet::from([Key::node(s(), call.n), Key::node(UNIVERSE, call.n)]),
        (51, _) => BTreeSet::from([Key::space(s())]),
        _ => BTreeSet::new(),
    }
}

/// The name that C, B and D return: "the first argument (51, 52, 55: the
/// space)".
fn first_argument(call: &Call) -> u16 {
    match call.operator {
        51 | 52 | 55 => call.space.written().0,
        _ => call.n.0,
    }
}

/// B, V and X operators.
impl Machine {
    /// The tuples that a B, V or X operator is about, as far as they are
    /// present.
    fn named_tuples(&self, call: &Call) -> BTreeSet<Key> {
        let s = call.space.written();
        let named = match call.operator {
            4..=11 => self.edges_of_named_pair(call),
            46..=48 => BTreeSet::from([Key::node(s, call.n)]),
            52..=54 => BTreeSet::from([Key::space(s)]),
            _ => BTreeSet::new(),
        };
        named.into_iter().filter(|&key| self.has(key)).collect()
    }

    /// Sets the value in s; "A sets whichever are present".
    fn bind(&mut self, call: &Call) -> Answer {
        for key in self.named_tuples(call) {
            self.tuples.insert(key, call.v);
        }
        Answer::Name(first_argument(call))
    }

    /// "the value in s". The conditions have made sure of the one tuple.
    fn value(&self, call: &Call) -> Value {
        let named = self.named_tuples(call);
        let key = named.first().expect("the tuple is present");
        self.tuples[key]
    }

    /// Whether the pair, the node or the space is there.
    fn exists(&self, call: &Call) -> bool {
        !self.named_tuples(call).is_empty()
    }
}

/// D operators.
impl Machine {
    /// The number is again the difference of the tuple counts, in all spaces.
    fn destroy(&mut self, call: &Call) -> Answer {
        let before = self.tuples.len();
        match call.operator {
            12..=23 => self.destroy_edges(call),
            24..=29 => self.destroy_nodes(call),
            49 => self.remove_node(call.space.written(), call.n),
            55 => self.remove_space(call.space.written()),
            _ => (),
        }
        Answer::Removed(first_argument(call), before - self.tuples.len())
    }

    /// Removes the edges of the chosen pairs of n.
    fn destroy_edges(&mut self, call: &Call) {
        let Some(direction) = operators::direction(call.operator) else {
            return;
        };
        let s = call.space.written();
        for pair in self.chosen_pairs(call) {
            for edge in self.edges_of_pair(s, call.n, pair, direction) {
                self.remove_edge(edge);
            }
        }
    }

    /// "The nodes of such pairs are collected first, then each is removed as
    /// by DUN."
    fn destroy_nodes(&mut self, call: &Call) {
        let nodes: BTreeSet<Node> = self.chosen_pairs(call).iter().map(|&(_, m)| m).collect();
        for node in nodes {
            self.remove_node(call.space.written(), node);
        }
    }

    /// "Removing an edge from a numbered s takes its tuple in s; from
    /// UNIVERSE, its tuples in all spaces."
    fn remove_edge(&mut self, edge: Key) {
        self.tuples.retain(|key, _| {
            let same_edge = (key.n, key.g, key.m) == (edge.n, edge.g, edge.m);
            !(same_edge && is_taken_with(key.s, edge.s))
        });
    }

    /// "Removing a node from s takes its edges, those from it and those to
    /// it, in s too; from UNIVERSE, all in all spaces."
    fn remove_node(&mut self, s: SpaceName, n: Node) {
        self.tuples.retain(|key, _| {
            let node_or_edge_of_it = key.n == n || (key.is_edge() && key.m == n);
            !(node_or_edge_of_it && is_taken_with(key.s, s))
        });
    }

    /// "remove s and all tuples in it"
    fn remove_space(&mut self, s: SpaceName) {
        self.tuples.retain(|key, _| key.s != s);
    }
}

/// Whether a removal from a space takes the tuples in `s`: its own only, or
/// for UNIVERSE those in all spaces.
fn is_taken_with(s: SpaceName, removed_from: SpaceName) -> bool {
    removed_from == UNIVERSE || removed_from == s
}

/// S operators.
impl Machine {
    /// The entries (edge, node) that the step lists, ascending, each once.
    /// Operators other than S list nothing.
    fn listed(&self, call: &Call) -> BTreeSet<(u16, u16)> {
        match call.operator {
            30..=32 => self.listed_pairs(call),
            33..=38 => self.listed_edges(call),
            39..=44 => self.listed_nodes(call),
            50 => self.listed_nodes_of_space(call.space.written()),
            56 => self.listed_spaces(|_| true),
            57 => self.listed_spaces(|s| self.has(Key::node(s, call.n))),
            _ => BTreeSet::new(),
        }
    }

    fn listed_pairs(&self, call: &Call) -> BTreeSet<(u16, u16)> {
        let pairs = self.chosen_pairs(call);
        pairs.iter().map(|&(g, m)| (g.0, m.0)).collect()
    }

    /// "An edge name [fills] the edge place with node 0."
    fn listed_edges(&self, call: &Call) -> BTreeSet<(u16, u16)> {
        let pairs = self.chosen_pairs(call);
        pairs.iter().map(|&(g, _)| (g.0, 0)).collect()
    }

    /// "A node or space name fills the node place with edge 0."
    fn listed_nodes(&self, call: &Call) -> BTreeSet<(u16, u16)> {
        let pairs = self.chosen_pairs(call);
        pairs.iter().map(|&(_, m)| (0, m.0)).collect()
    }

    fn listed_nodes_of_space(&self, s: SpaceName) -> BTreeSet<(u16, u16)> {
        self.nodes(s).iter().map(|n| (0, n.0)).collect()
    }

    fn listed_spaces(&self, is_chosen: impl Fn(SpaceName) -> bool) -> BTreeSet<(u16, u16)> {
        self.spaces()
            .into_iter()
            .filter(|&s| is_chosen(s))
            .map(|s| (0, s.0))
            .collect()
    }
}

#[cfg(test)]
mod tests {
    use super::*;

    fn call(operator: u32) -> Call {
        Call {
            operator,
            n: Node(1),
            g: Edge(5),
            m: Node(2),
            v: 60,
            space: Space::Universe,
            list_length: 8,
        }
    }

    fn machine_with_nodes(nodes: &[u16]) -> Machine {
        let mut machine = Machine::new(100);
        for &n in nodes {
            let create = Call {
                n: Node(n),
                ..call(45)
            };
            assert_eq!(machine.step(&create), Answer::Added(n, 1));
        }
        machine
    }

    #[test]
    fn at_first_there_is_only_universe_with_nil() {
        let machine = Machine::new(7);
        let tuples: Vec<_> = machine.tuples().collect();
        assert_eq!(tuples, [(Key::space(UNIVERSE), NIL)]);
    }

    #[test]
    fn keys_are_ordered_by_space_then_node_then_edge_then_second_node() {
        let key = |s, n, g, m| Key::edge(SpaceName(s), Node(n), Edge(g), Node(m));
        let ascending = [
            key(0, 0, 0, 0),
            key(0, 1, 0, 0),
            key(0, 1, 1, 9),
            key(0, 1, 2, 1),
            key(0, 1, 2, 2),
            key(0, 2, 0, 0),
            key(1, 0, 0, 0),
        ];
        assert!(ascending.windows(2).all(|two| two[0] < two[1]));
    }

    #[test]
    fn an_adjacent_pair_has_both_edges_that_are_present() {
        let mut machine = machine_with_nodes(&[1, 2]);
        machine.step(&call(3));
        let edges =
            machine.edges_of_pair(UNIVERSE, Node(1), (Edge(5), Node(2)), Direction::Adjacent);
        assert_eq!(edges.len(), 2);
        machine.step(&call(12));
        let edges = machine.edges_of_named_pair(&call(14));
        let back = Key::edge(UNIVERSE, Node(2), Edge(5), Node(1));
        assert_eq!(edges, BTreeSet::from([back]));
    }

    #[test]
    fn a_loop_is_one_pair_in_every_direction() {
        let mut machine = machine_with_nodes(&[1]);
        let create = Call {
            m: Node(1),
            ..call(3)
        };
        machine.step(&create);
        for direction in [
            Direction::Outpointing,
            Direction::Inpointing,
            Direction::Adjacent,
        ] {
            let pairs = machine.pairs(UNIVERSE, Node(1), direction);
            assert_eq!(pairs, BTreeSet::from([(Edge(5), Node(1))]));
        }
        assert_eq!(machine.tuples().count(), 3);
    }

    #[test]
    fn a_call_that_is_stopped_changes_nothing() {
        let mut machine = machine_with_nodes(&[1]);
        let before = machine.clone();
        assert_eq!(machine.step(&call(1)), Answer::Refusal(7));
        assert_eq!(machine.step(&call(58)), Answer::Refusal(2));
        assert_eq!(machine, before);
    }

    #[test]
    fn fields_that_are_not_read_have_no_effect() {
        let mut machine = machine_with_nodes(&[1]);
        let odd = Call {
            n: Node(0),
            g: Edge(0),
            m: Node(0),
            v: u32::MAX,
            ..call(51)
        };
        let space_9 = Call {
            space: Space::Numbered(SpaceName(9)),
            ..odd
        };
        assert_eq!(machine.step(&space_9), Answer::Added(9, 1));
        for space in [Space::Numbered(SpaceName(0)), Space::Nothing] {
            let sus = Call {
                operator: 56,
                space,
                ..odd
            };
            assert_eq!(machine.step(&sus), Answer::List(vec![(0, 0), (0, 9)]));
            let sus_of_node = Call {
                operator: 57,
                n: Node(1),
                ..sus
            };
            assert_eq!(machine.step(&sus_of_node), Answer::List(vec![(0, 0)]));
        }
    }
}
