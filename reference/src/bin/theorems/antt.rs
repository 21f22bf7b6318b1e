//! Theorems in antt, the language of the definitions.

use std::fmt::Display;
use std::fs;
use std::io;
use std::path::Path;

use gaffdamson_reference::buffer;
use gaffdamson_reference::machine::{Answer, Call, Key, Space, Value};
use gaffdamson_reference::random::lists::Run;

/// The files of the definitions that compute.
const MODULES: [&str; 13] = [
    "Numbered",
    "Numbers",
    "Ordered",
    "Keys",
    "Tuples",
    "Operators",
    "Pairs",
    "Steps",
    "Changes",
    "Refusals",
    "Machine",
    "Rules",
    "Buffer",
];

/// What the theorems name besides the definitions that unfold.
const OPENING: &str = "\
use Rattle.std.specs.Prelude.{true, false, List, [], ◌∷◌, ◌≡◌, ℕ, length}
use Rattle.std.proofs.Common.{refl}
use Rattle.std.proofs.Math.ListN.{replicate}
use Rattle.model.specs.declared.Space.{Space}
use Rattle.model.specs.declared.Space.TheVariants.{Universe, Numbered, Nothing}
use Rattle.model.specs.Keys.{Tuple}
use Rattle.model.specs.Tuples.{Tuples, fresh}
use Rattle.model.specs.Pairs.{pair}
use Rattle.model.specs.Steps.{Reply, name, added, removed, valued, yes_no, pairs}
use Rattle.model.specs.Machine.{Request, calling}
use Rattle.model.specs.Cases.{refused}
";

const ABBREVIATIONS: &str = "
abbrev call : ℕ → ℕ → ℕ → ℕ → ℕ → Space → ℕ → Request
call operator n g m v s room =
    calling (record {
      call = record { operator = operator; n = record { 0 = n }; g = record { 0 = g }; m = record { 0 = m }; v = v; s = s };
      room = room
    })

abbrev numbered : ℕ → Space
numbered s = Numbered (record { 0 = s })

abbrev tuple : ℕ → ℕ → ℕ → ℕ → ℕ → Tuple
tuple s n g m value = record { key = record { s = s; n = n; g = g; m = m }; value = value }
";

/// The definitions that a proof by computation unfolds.
pub struct Definitions {
    uses: String,
    unfolding: String,
}

impl Definitions {
    /// Reads them from the folder of the definitions.
    pub fn read(folder: &Path) -> io::Result<Definitions> {
        let mut uses = String::new();
        let mut unfolding = String::from("unfolding");
        for module in MODULES {
            let text = fs::read_to_string(folder.join(format!("{module}.antt")))?;
            let names = unfoldable_names(&text);
            if !names.is_empty() {
                let listed = names.join(", ");
                uses += &format!("use Rattle.model.specs.{module}.{{{listed}}}\n");
                unfolding += &format!(" {}", names.join(" "));
            }
        }
        Ok(Definitions { uses, unfolding })
    }

    /// What stands before the theorems of a file.
    pub fn opening(&self) -> String {
        format!("{OPENING}{}{ABBREVIATIONS}", self.uses)
    }

    /// A theorem that two sides are equal by computation.
    fn theorem(&self, name: &str, left: &str, right: &str) -> String {
        let unfolding = &self.unfolding;
        format!("\npub {name} :\n    {left}\n    ≡ {right}\n{unfolding}\n{name} = refl\n")
    }

    /// The answers of a list of calls, the state after the last, and how many
    /// tuples the answers say were added and removed.
    pub fn of_list(&self, place: usize, run: &Run) -> String {
        let calls = listed(run.calls.iter().map(written_call));
        let answers = listed(run.answers.iter().map(written_answer));
        let tuples = listed(run.machine.tuples().map(written_tuple));
        let name = format!("list-{place}");
        let given = format!("{} fresh {name}-calls", run.capacity);
        let (added, removed) = run.changes();
        let theorems = [
            ("answers", format!("answers {given}"), answers.clone()),
            ("state", format!("final {given}"), tuples),
            ("added", format!("all_added {answers}"), added.to_string()),
            (
                "removed",
                format!("all_removed {answers}"),
                removed.to_string(),
            ),
        ];
        let theorems = theorems
            .map(|(part, left, right)| self.theorem(&format!("{name}-{part}"), &left, &right));
        abbreviation(&format!("{name}-calls"), "List Request", &calls) + &theorems.concat()
    }

    /// Whether a buffer is a store; of a store, its tuples and how many
    /// records are free.
    pub fn of_buffer(&self, place: usize, words: &[u32]) -> String {
        let name = format!("buffer-{place}");
        let given = format!("{name}-words");
        let is_store = buffer::is_store(words);
        let test = format!("is_store {given}");
        let mut text = abbreviation(&given, "List ℕ", &listed(words.iter()))
            + &self.theorem(&format!("{name}-test"), &test, &is_store.to_string());
        if is_store {
            let tuples = listed(buffer::tuples(words).into_iter().map(written_tuple));
            let free = buffer::free_count(words).to_string();
            text += &self.theorem(
                &format!("{name}-tuples"),
                &format!("tuples_of {given}"),
                &tuples,
            );
            text += &self.theorem(
                &format!("{name}-free"),
                &format!("length (free_of {given})"),
                &free,
            );
        }
        text
    }

    /// Whether a store can have this length, and its C.
    pub fn of_length(&self, length: usize) -> String {
        let name = format!("length-{length}");
        let zeros = format!("(replicate {length} 0)");
        let prepared = buffer::prepare(&mut vec![0; length]);
        let fits = prepared.is_ok().to_string();
        let mut text = self.theorem(
            &format!("{name}-fits"),
            &format!("fits_length {zeros}"),
            &fits,
        );
        if let Ok(capacity) = prepared {
            text += &self.theorem(
                &format!("{name}-capacity"),
                &format!("capacity_of {zeros}"),
                &capacity.to_string(),
            );
        }
        text
    }
}

/// The names in lines `unfoldable pub NAME : ..`.
fn unfoldable_names(text: &str) -> Vec<&str> {
    text.lines()
        .filter_map(|line| line.trim_start().strip_prefix("unfoldable pub "))
        .filter_map(|rest| rest.split_whitespace().next())
        .collect()
}

fn abbreviation(name: &str, of_type: &str, meaning: &str) -> String {
    format!("\nabbrev {name} : {of_type}\n{name} = {meaning}\n")
}

/// A list with its brackets.
fn listed<T: Display>(entries: impl Iterator<Item = T>) -> String {
    let entries: String = entries.map(|entry| format!("{entry} ∷ ")).collect();
    format!("({entries}[])")
}

fn written_call(call: &Call) -> String {
    let space = match call.space {
        Space::Universe => "Universe".to_string(),
        Space::Numbered(name) => format!("(numbered {})", name.0),
        Space::Nothing => "Nothing".to_string(),
    };
    format!(
        "call {} {} {} {} {} {space} {}",
        call.operator, call.n.0, call.g.0, call.m.0, call.v, call.list_length
    )
}

fn written_answer(answer: &Answer) -> String {
    match answer {
        Answer::Refusal(number) => format!("refused {number}"),
        Answer::Name(name) => format!("name {name}"),
        Answer::Added(name, count) => format!("added {name} {count}"),
        Answer::Removed(name, count) => format!("removed {name} {count}"),
        Answer::Value(value) => format!("valued {value}"),
        Answer::YesNo(yes) => format!("yes_no {yes}"),
        Answer::List(entries) => {
            let pairs = listed(entries.iter().map(|(g, m)| format!("pair {g} {m}")));
            format!("pairs {} {pairs}", entries.len())
        }
    }
}

fn written_tuple((key, value): (Key, Value)) -> String {
    let Key { s, n, g, m } = key;
    format!("tuple {} {} {} {} {value}", s.0, n.0, g.0, m.0)
}
