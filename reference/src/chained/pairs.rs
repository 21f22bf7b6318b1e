//! Operators 1 to 14, on the pair (g,m) of n. One walk looks for the lesser
//! of the two nodes, its edge, the greater and its edge, in the order of keys.

use super::chain::{Found, Place, Store, G, M, N, VALUE};
use super::{direction, Answer, Fields};
use crate::operators::Direction;

/// The edges that a call means, in the order of their keys.
struct Edges {
    low: u32,
    high: u32,
    g: u32,
    /// Whether the edge from low to high is meant.
    up: bool,
    /// Whether the edge from high to low is meant; never for a loop.
    down: bool,
}

impl Edges {
    fn of(call: &Fields) -> Edges {
        let (low, high) = (call.n.min(call.m), call.n.max(call.m));
        let is_loop = low == high;
        let starts_low = call.n == low;
        let (up, down) = match direction(call.operator) {
            Direction::Outpointing => (starts_low, !starts_low),
            Direction::Inpointing => (!starts_low || is_loop, starts_low && !is_loop),
            Direction::Adjacent => (true, !is_loop),
        };
        let g = call.g;
        Edges {
            low,
            high,
            g,
            up,
            down,
        }
    }

    fn up_key(&self, s: u32) -> [u32; 4] {
        [s, self.low, self.g, self.high]
    }

    fn down_key(&self, s: u32) -> [u32; 4] {
        [s, self.high, self.g, self.low]
    }
}

/// Where the meant edges stand, as far as they are meant.
struct Places {
    up: Option<Found>,
    down: Option<Found>,
}

impl Places {
    fn all(&self) -> impl Iterator<Item = Found> + '_ {
        self.up.into_iter().chain(self.down)
    }

    fn present(&self) -> impl Iterator<Item = Place> + '_ {
        self.all()
            .filter(|found| found.is_there)
            .map(|found| found.place)
    }
}

/// The places of edges in a space, which has their nodes if it is there.
fn places_in(store: &Store, from: Place, s: u32, edges: &Edges) -> Places {
    let Edges { low, high, g, .. } = *edges;
    let mut place = from;
    let mut look = |is_meant: bool, key| {
        is_meant.then(|| {
            let found = store.edge(place, s, key);
            place = found.place;
            found
        })
    };
    let up = look(edges.up, [low, g, high]);
    let down = look(edges.down, [high, g, low]);
    Places { up, down }
}

/// Conditions 5 to 7, and the places of the edges in s. An edge has both its
/// nodes, so a walk that finds the one edge that is meant ends there.
fn find(store: &Store, from: Place, call: &Fields, edges: &Edges) -> Result<Places, u32> {
    let Edges { low, high, g, .. } = *edges;
    let s = call.s;
    let start = store.space(from, s);
    if !start.is_there {
        return Err(5);
    }
    let low_node = store.node(start.place, s, low);
    if !low_node.is_there {
        return Err(missing_low(store, low_node.place, call, low));
    }
    let mut place = low_node.place;
    let mut up = None;
    if edges.up {
        let found = store.edge(place, s, [low, g, high]);
        place = found.place;
        up = Some(found);
        if low == high || found.is_there && !edges.down {
            return Ok(Places { up, down: None });
        }
    }
    let high_node = store.node(place, s, high);
    if !high_node.is_there {
        return Err(if call.n == high { 6 } else { 7 });
    }
    let down = edges
        .down
        .then(|| store.edge(high_node.place, s, [high, g, low]));
    Ok(Places { up, down })
}

/// The refusal where the lesser node is absent: if that is m, n comes first.
fn missing_low(store: &Store, from: Place, call: &Fields, low: u32) -> u32 {
    if call.n == low || !store.node(from, call.s, call.n).is_there {
        6
    } else {
        7
    }
}

/// C 1 to 3. What is present in s is present in 0, so the walk to s notes the
/// places in 0 on its way.
pub fn create(store: &mut Store, call: &Fields) -> Result<Answer, u32> {
    let edges = Edges::of(call);
    let mut from = store.first();
    let mut in_universe = None;
    if call.s != 0 {
        let places = places_in(store, from, 0, &edges);
        if let Some(last) = places.all().last() {
            from = last.place;
        }
        in_universe = Some(places);
    }
    let in_space = find(store, from, call, &edges)?;
    let missing = |places: &Places| places.all().filter(|found| !found.is_there).count();
    let to_add = missing(&in_space) + in_universe.as_ref().map_or(0, missing);
    if store.is_full_for(to_add) {
        return Err(10);
    }
    if to_add > 0 {
        add(store, call.s, &edges, &in_space);
        if let Some(places) = in_universe {
            add(store, 0, &edges, &places);
        }
    }
    Ok(Answer::Added(call.first_argument(), to_add))
}

/// Adds the edges of a space that are missing, the last first.
fn add(store: &mut Store, s: u32, edges: &Edges, places: &Places) {
    if let Some(found) = places.down {
        store.insert_missing(found, edges.down_key(s));
    }
    if let Some(found) = places.up {
        store.insert_missing(found, edges.up_key(s));
    }
}

/// B 4 to 6.
pub fn bind(store: &mut Store, call: &Fields) -> Result<Answer, u32> {
    let places = find(store, store.first(), call, &Edges::of(call))?;
    let mut is_absent = true;
    for place in places.present() {
        store.set_value(place.at, call.v);
        is_absent = false;
    }
    if is_absent {
        Err(8)
    } else {
        Ok(Answer::Name(call.first_argument()))
    }
}

/// V 7 and 8.
pub fn value(store: &Store, call: &Fields) -> Result<Answer, u32> {
    let places = find(store, store.first(), call, &Edges::of(call))?;
    let place = places.present().next().ok_or(8u32)?;
    Ok(Answer::Value(store.record(place.at)[VALUE]))
}

/// X 9 to 11.
pub fn exists(store: &Store, call: &Fields) -> Result<Answer, u32> {
    let places = find(store, store.first(), call, &Edges::of(call))?;
    let is_there = places.present().next().is_some();
    Ok(Answer::YesNo(is_there))
}

/// D 12 to 14. From UNIVERSE the same walk goes on through all spaces; where
/// UNIVERSE has no such edge, no space has.
pub fn destroy(store: &mut Store, call: &Fields) -> Result<(), u32> {
    let edges = Edges::of(call);
    let places = find(store, store.first(), call, &edges)?;
    let Some(first) = places.present().next() else {
        return Ok(());
    };
    if call.s == 0 {
        let Edges { low, high, g, .. } = edges;
        store.sweep(
            first,
            |_| true,
            |record| {
                let [n, m] = [record[N], record[M]];
                let is_up = edges.up && n == low && m == high;
                let is_down = edges.down && n == high && m == low;
                (is_up || is_down) && record[G] == g
            },
        );
    } else {
        let found = [places.down, places.up].into_iter().flatten();
        for found in found.filter(|found| found.is_there) {
            store.remove(found.place);
        }
    }
    Ok(())
}

/// The records of n and m in s.
pub struct Nodes {
    pub n: u32,
    pub m: u32,
}

/// Conditions 5 to 7 for a call that reads two nodes and no edge.
pub fn find_nodes(store: &Store, call: &Fields) -> Result<Nodes, u32> {
    let s = call.s;
    let start = store.space(store.first(), s);
    if !start.is_there {
        return Err(5);
    }
    let low = store.node(start.place, s, call.n.min(call.m));
    if !low.is_there {
        return Err(missing_low(store, low.place, call, call.n.min(call.m)));
    }
    let high = store.node(low.place, s, call.n.max(call.m));
    let (n, m) = if call.n <= call.m {
        (low, high)
    } else {
        (high, low)
    };
    if !n.is_there {
        Err(6)
    } else if !m.is_there {
        Err(7)
    } else {
        Ok(Nodes {
            n: n.place.at,
            m: m.place.at,
        })
    }
}
