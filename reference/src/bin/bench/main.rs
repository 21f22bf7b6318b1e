//! Measures the store on some loads: the ordered map of the second
//! implementation, the hand-written store and, with the feature `rattle`, the
//! proved store. Prints a table; fails where the answers differ.

mod measure;
mod sides;

use std::env;
use std::process::ExitCode;

use gaffdamson_reference::load::{self, Drawn};
use gaffdamson_reference::operators;
use measure::{Figure, Load, Mode};

const USAGE: &str = "usage: bench [--repetitions R]";

/// How often a long load is run, if nothing else is said; short ones are run
/// more often.
const REPETITIONS: usize = 5;

fn main() -> ExitCode {
    let Some(repetitions) = repetitions() else {
        eprintln!("{USAGE}");
        return ExitCode::from(2);
    };
    let mut sides = sides::all();
    let names: Vec<&str> = sides.iter().map(|side| side.name()).collect();
    print_heading(&names);
    let mut all_agree = true;
    for load in loads() {
        for mode in [Mode::Checked, Mode::Known] {
            let figures = measure::measure(&mut sides, &load, mode, repetitions);
            print_row(&load, mode, &figures);
            all_agree &= agree(&figures);
        }
    }
    if all_agree {
        println!(
            "\nThe answers, lists and tuples of all {} are equal.",
            names.len()
        );
        ExitCode::SUCCESS
    } else {
        println!("\nwrong: other answers, lists or tuples than {}", names[0]);
        ExitCode::FAILURE
    }
}

fn repetitions() -> Option<usize> {
    let words: Vec<String> = env::args().skip(1).collect();
    match &words[..] {
        [] => Some(REPETITIONS),
        [option, number] if option == "--repetitions" => {
            number.parse().ok().filter(|&number| number > 0)
        }
        _ => None,
    }
}

fn loads() -> Vec<Load> {
    let drawn = |k| Drawn::new(1, k).take(100_000).collect();
    let dense_graph = load::dense_graph();
    let mut loads = vec![
        Load::new("drawn calls, K 20", Vec::new(), drawn(20)),
        Load::new("drawn calls, K 200", Vec::new(), drawn(200)),
        Load::new("2,047 CUN", Vec::new(), load::full_bed()),
        Load::new("SUN of 2,047", load::full_bed(), load::lists_of_nodes(200)),
        Load::new("panel knitted", Vec::new(), load::panel()),
        Load::new("panel read", load::panel(), load::panel_reads(2)),
        Load::new("panel listed", load::panel(), load::panel_lists()),
        Load::new("dense graph listed", dense_graph, load::dense_graph_lists()),
    ];
    loads.extend(HUBS.into_iter().flat_map(hub_loads));
    loads
}

/// How many names the edges of a hub have, and how often an operator lists
/// them: with many names a list can take long.
const HUBS: [(u16, usize); 3] = [(1, 50), (8, 50), (900, 20)];

/// SIP, SIG, SIN, SAP, SAG and SAN of 900 edges to a node, and SON of 900
/// edges from it. Each has a load of its own: in a mean, one that takes long
/// would not show.
const LISTED_AT_HUBS: [u32; 7] = [31, 34, 40, 32, 35, 41, 39];

fn hub_loads((names, times): (u16, usize)) -> impl Iterator<Item = Load> {
    let ending = if names == 1 { "" } else { "s" };
    LISTED_AT_HUBS.into_iter().map(move |operator| {
        let letters = operators::letters(operator).expect("it is 1 to 57");
        let name = format!("{letters}, 900 edges of {names} name{ending}");
        let hub = load::hub(operator, names);
        Load::new(name, hub, load::hub_lists(operator, times)).of_long_calls()
    })
}

/// Columns: the time of a call on each side; then each side's time in terms of
/// the hand-written store's.
fn print_heading(names: &[&str]) {
    print!("| load | calls | store |");
    for name in names {
        print!(" {name} |");
    }
    for name in ratios(names).map(|place| names[place]) {
        print!(" {name} / {} |", names[HAND_WRITTEN]);
    }
    println!();
    let columns = 3 + names.len() + ratios(names).count();
    println!("|{}", "---|".repeat(columns));
}

/// The side that the others are compared with.
const HAND_WRITTEN: usize = 1;

/// The sides that are compared with it.
fn ratios(names: &[&str]) -> impl Iterator<Item = usize> {
    (0..names.len()).filter(|&place| place != HAND_WRITTEN)
}

/// A figure stands only where the answers were those of the first side.
fn print_row(load: &Load, mode: Mode, figures: &[Figure]) {
    print!("| {} | {} | {} |", load.name, load.count(), mode.name());
    let is_right = |figure: &Figure| figure.agrees_with(&figures[0]);
    for figure in figures {
        if is_right(figure) {
            print!(" {:.0} ns |", figure.nanoseconds());
        } else {
            print!(" wrong |");
        }
    }
    let compared = &figures[HAND_WRITTEN];
    for (place, figure) in figures.iter().enumerate() {
        if place == HAND_WRITTEN {
            continue;
        }
        if is_right(figure) && is_right(compared) {
            print!(" {:.2} |", figure.nanoseconds() / compared.nanoseconds());
        } else {
            print!(" |");
        }
    }
    println!();
}

/// Whether all sides gave the same answers, lists and tuples.
fn agree(figures: &[Figure]) -> bool {
    figures.iter().all(|figure| figure.agrees_with(&figures[0]))
}
