//! D 15 to 29, 49 and 55. Each is a sweep that frees what it passes, and that
//! goes on through all spaces only where UNIVERSE had something to free.

use super::chain::{Place, Store, M, N, S};
use super::names::Names;
use super::pairs::{find_nodes, Nodes};
use super::{Fields, Meant};
use crate::operators::Direction;

/// D 15 to 20. An edge to n in s has n in s, so edges to n that come before n
/// can be freed before n is seen.
pub fn edges(store: &mut Store, call: &Fields) -> Result<(), u32> {
    let meant = Meant::of(call);
    let Fields { s, n, .. } = *call;
    let used = store.used();
    let place = reach_node(store, call, |store, place| {
        if meant.into {
            store.sweep(place, |r| r[S] == s && r[N] < n, |r| meant.takes(r))
        } else {
            store.node(place, s, n).place
        }
    })?;
    let rest_of_space = store.sweep(
        place,
        |r| r[S] == s && (meant.into || r[N] == n),
        |r| meant.takes(r),
    );
    if s == 0 && store.used() < used {
        store.sweep(rest_of_space, |_| true, |r| meant.takes(r));
    }
    Ok(())
}

/// Conditions 5 and 6, where a walk from the space's start ends at n's place.
fn reach_node(
    store: &mut Store,
    call: &Fields,
    walk: impl Fn(&mut Store, Place) -> Place,
) -> Result<Place, u32> {
    let start = store.space(store.first(), call.s);
    if !start.is_there {
        return Err(5);
    }
    let place = walk(store, start.place);
    if has_node(store, place, call) {
        Ok(place)
    } else {
        Err(6)
    }
}

/// Whether n of s stands at its place.
fn has_node(store: &Store, place: Place, call: &Fields) -> bool {
    store
        .at(place)
        .is_some_and(|r| r[S] == call.s && r[N] == call.n)
}

/// D 21 to 23. The edges from n to m stand right after n, those from m to n
/// right after m.
pub fn edges_between(store: &mut Store, call: &Fields) -> Result<(), u32> {
    let Nodes { n, m } = find_nodes(store, call)?;
    let direction = super::direction(call.operator);
    let used = store.used();
    let out = direction != Direction::Inpointing;
    let into = direction != Direction::Outpointing;
    if out {
        free_edges_after(store, n, call.m);
    }
    if into {
        free_edges_after(store, m, call.n);
    }
    if call.s == 0 && store.used() < used {
        store.sweep(
            store.after(n),
            |_| true,
            |r| {
                let leaves = out && r[N] == call.n && r[M] == call.m;
                let comes = into && r[N] == call.m && r[M] == call.n;
                leaves || comes
            },
        );
    }
    Ok(())
}

/// Frees the edges to a node that stand after the node of a record.
fn free_edges_after(store: &mut Store, index: u32, to: u32) {
    let [_, s, n, ..] = *store.record(index);
    store.sweep(
        store.after(index),
        |r| r[S] == s && r[N] == n,
        |r| r[M] == to,
    );
}

/// D 24 to 29: the nodes are collected in a set, then one sweep removes all of
/// them.
pub fn nodes_of_pairs(store: &mut Store, call: &Fields) -> Result<(), u32> {
    let meant = Meant::of(call);
    let s = call.s;
    let (start, Some(first)) = meant.first_in(store, s)? else {
        return Ok(());
    };
    let mut nodes = Names::none();
    meant.each_from(store, first, s, |r| nodes.insert(meant.other(r) as u16));
    store.sweep(
        start,
        |r| s == 0 || r[S] == s,
        |r| nodes.has(r[N] as u16) || nodes.has(r[M] as u16),
    );
    Ok(())
}

/// D 49. Where n is not in s, nothing is freed and the walk ends.
pub fn node(store: &mut Store, call: &Fields) -> Result<(), u32> {
    let Fields { s, n, .. } = *call;
    let start = store.space(store.first(), s);
    if !start.is_there {
        return Err(5);
    }
    let place = store.sweep(start.place, |r| r[S] == s && r[N] < n, |r| r[M] == n);
    if has_node(store, place, call) {
        store.sweep(place, |r| s == 0 || r[S] == s, |r| r[N] == n || r[M] == n);
    }
    Ok(())
}

/// D 55.
pub fn space(store: &mut Store, call: &Fields) -> Result<(), u32> {
    let found = store.space(store.first(), call.s);
    if found.is_there {
        store.remove_space(found.place, call.s);
    }
    Ok(())
}
