//! Builds a small panel with two needle selections, the second of them empty,
//! prints the answer to each call and then what the selections hold, and a row
//! without one.

use gaffdamson::{operator, Call, Edge, Node, Pair, Refusal, Reply, Space, SpaceName, Store};

const FIRST: Space = Space::Numbered(SpaceName(1));
const SECOND: Space = Space::Numbered(SpaceName(2));
const THIRD: Space = Space::Numbered(SpaceName(3));

/// A call that reads a space alone.
fn on_space(operator: u32, space: Space) -> Call {
    Call {
        space,
        ..Call::new(operator)
    }
}

/// A call that reads a loop and a space.
fn on_loop(operator: u32, n: u16, space: Space) -> Call {
    Call {
        n: Node(n),
        ..on_space(operator, space)
    }
}

/// A call that reads the yarn from a loop to another.
fn on_yarn(operator: u32, n: u16, g: u16, m: u16, space: Space) -> Call {
    Call {
        g: Edge(g),
        m: Node(m),
        ..on_loop(operator, n, space)
    }
}

fn building() -> [(&'static str, Call); 12] {
    let length = Call {
        v: 60,
        ..on_yarn(operator::BOP, 1, 7, 2, FIRST)
    };
    [
        ("make selection 1", on_space(operator::CUS, FIRST)),
        ("make selection 2", on_space(operator::CUS, SECOND)),
        (
            "make loop 1 in selection 1",
            on_loop(operator::CUN, 1, FIRST),
        ),
        (
            "make loop 2 in selection 1",
            on_loop(operator::CUN, 2, FIRST),
        ),
        ("make loop 3", on_loop(operator::CUN, 3, Space::Universe)),
        (
            "run yarn 7 from loop 1 to loop 2 in selection 1",
            on_yarn(operator::COP, 1, 7, 2, FIRST),
        ),
        (
            "run yarn 7 from loop 2 to loop 3",
            on_yarn(operator::COP, 2, 7, 3, Space::Universe),
        ),
        (
            "set its length from loop 1 to loop 2 in selection 1 to 60",
            length,
        ),
        (
            "look for loop 3 in selection 1",
            on_loop(operator::XUN, 3, FIRST),
        ),
        (
            "make loop 4 in selection 3, which is absent",
            on_loop(operator::CUN, 4, THIRD),
        ),
        ("make loop 4", on_loop(operator::CUN, 4, Space::Universe)),
        ("remove loop 4", on_loop(operator::DUN, 4, Space::Universe)),
    ]
}

fn main() -> Result<(), Refusal> {
    let mut store = Store::new(32)?;
    for (what, call) in building() {
        println!("{what}: {}", described(store.call(&call)));
    }
    println!();
    print_space(&mut store, "selection 1", FIRST)?;
    print_space(&mut store, "selection 2", SECOND)?;
    print_space(&mut store, "a row with no selection", Space::Nothing)?;
    print_space(&mut store, "the whole panel", Space::Universe)
}

fn described(reply: Result<Reply, Refusal>) -> String {
    match reply {
        Err(refusal) => refusal.to_string(),
        Ok(Reply::Name(name)) => format!("name {name}"),
        Ok(Reply::Added { name, count }) => format!("name {name}, {count} added"),
        Ok(Reply::Removed { name, count }) => format!("name {name}, {count} removed"),
        Ok(Reply::Value(0)) => "no value".to_string(),
        Ok(Reply::Value(value)) => format!("value {value}"),
        Ok(Reply::YesNo(is_so)) => if is_so { "yes" } else { "no" }.to_string(),
        Ok(Reply::List(pairs)) => format!("list of {}", pairs.len()),
    }
}

/// The entries that a call lists.
fn listed(store: &mut Store, call: &Call) -> Result<Vec<Pair>, Refusal> {
    match store.call(call)? {
        Reply::List(pairs) => Ok(pairs),
        _ => Ok(Vec::new()),
    }
}

fn print_space(store: &mut Store, title: &str, space: Space) -> Result<(), Refusal> {
    let loops = listed(store, &on_space(operator::SUN, space))?;
    if loops.is_empty() {
        println!("{title}: no loops");
        return Ok(());
    }
    let names: Vec<String> = loops.iter().map(|pair| pair.node.to_string()).collect();
    println!("{title}: loops {}", names.join(" "));
    for from in loops {
        print_yarn(store, from.node, space)?;
    }
    Ok(())
}

/// The yarn that leaves a loop, with its length in the same space.
fn print_yarn(store: &mut Store, n: u16, space: Space) -> Result<(), Refusal> {
    for Pair { edge, node } in listed(store, &on_loop(operator::SOP, n, space))? {
        let length = match store.call(&on_yarn(operator::VOP, n, edge, node, space))? {
            Reply::Value(length @ 1..) => format!(", length {length}"),
            _ => String::new(),
        };
        println!("  yarn {edge} from loop {n} to loop {node}{length}");
    }
    Ok(())
}
