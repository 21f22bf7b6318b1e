//! `docs/FROM-LISP.md`: its table of operators, its scripts, and the graph that
//! is ported whole.

mod common;

use std::collections::BTreeMap;

use common::{page, printed};
use gaffdamson_reference::operators::{self, Argument, Kind};

const PAGE: &str = "FROM-LISP.md";
const OPERATORS: &str = "| number | Lisp | script | C | Rust |";
const SCRIPT: &str = "| Lisp | its answer | line | answer |";
const PORTED: &str = "Railroad, ported whole";

/// The fields of a call in C and Rust.
const FIELDS: [(Argument, &str, &str); 5] = [
    (Argument::FirstNode, ".n = n", "n"),
    (Argument::Edge, ".g = g", "g"),
    (Argument::SecondNode, ".m = m", "m"),
    (
        Argument::Value,
        ".value_form = GAFFDAMSON_NUMBER, .v = v",
        "v",
    ),
    (Argument::Space, ".space_form = form, .s = s", "space"),
];

/// The row of an operator, as it must stand in the table.
fn row_of(operator: u32) -> Vec<String> {
    let letters = operators::letters(operator).expect("an operator");
    let reads = |argument| operators::reads(operator, argument);
    let mut line = letters.to_string();
    for argument in operators::arguments(operator) {
        line += match argument {
            Argument::FirstNode => " n",
            Argument::Edge => " g",
            Argument::SecondNode => " m",
            Argument::Value => " v",
            Argument::Space if operator <= 50 => " [s]",
            Argument::Space => " s",
        };
    }
    let name = if operator == 57 {
        "SUS_OF_NODE"
    } else {
        letters
    };
    let mut for_c = format!("{{.op = GAFFDAMSON_{name}");
    let mut for_rust = Vec::new();
    for (argument, in_c, in_rust) in FIELDS {
        if reads(argument) {
            for_c += ", ";
            for_c += in_c;
            for_rust.push(in_rust);
        }
    }
    for_c += "}";
    let mut for_rust = for_rust.join(", ");
    for_rust = match for_rust.as_str() {
        "" => format!("Call::new(operator::{name})"),
        fields => format!("Call {{ {fields}, ..Call::new(operator::{name}) }}"),
    };
    let codes = [format!("({line})"), line, for_c, for_rust];
    let codes = codes.into_iter().map(|code| format!("`{code}`"));
    [operator.to_string()].into_iter().chain(codes).collect()
}

#[test]
fn every_operator_has_its_row() {
    let page = page::read(PAGE);
    let lines: Vec<&str> = page.lines().collect();
    let rows = page::rows(&lines, OPERATORS);
    assert_eq!(rows.len(), 57);
    for (operator, row) in (1..).zip(rows) {
        assert_eq!(row, row_of(operator));
    }
}

/// A row of a script: the Lisp call and its answer where the manual has them,
/// the line and its answer.
struct Row<'a> {
    lisp: &'a str,
    lisp_answer: &'a str,
    line: &'a str,
    answer: &'a str,
}

/// The script that the tables of a section are.
fn script_of<'a>(page: &'a str, title: &str) -> Vec<Row<'a>> {
    let row = |cells: Vec<&'a str>| {
        let [lisp, lisp_answer, line, answer] = cells[..] else {
            panic!("not a row of a script: {cells:?}");
        };
        let (line, answer) = (page::code(line), page::code(answer));
        Row {
            lisp,
            lisp_answer,
            line,
            answer,
        }
    };
    let rows = page::rows(&page::section(page, title), SCRIPT);
    rows.into_iter().map(row).collect()
}

#[test]
fn every_script_prints_its_answers() {
    let page = page::read(PAGE);
    let mut scripts = 0;
    for title in page.lines().filter_map(|line| line.strip_prefix("## ")) {
        let rows = script_of(&page, title);
        let lines: Vec<&str> = rows.iter().map(|row| row.line).collect();
        let answers = printed(lines.join("\n").as_bytes());
        assert_eq!(answers.lines().count(), rows.len());
        for (row, answer) in rows.iter().zip(answers.lines()) {
            assert_eq!(row.answer, answer, "{title}: {}", row.line);
        }
        scripts += usize::from(!rows.is_empty());
    }
    assert_eq!(scripts, 7);
}

/// The numbers of names and values, from the tables of the ported graph.
fn numbers(page: &str) -> BTreeMap<String, String> {
    let section = page::section(page, PORTED);
    let names = "| node | number | edge | number | space | number |";
    let mut rows = page::rows(&section, names);
    rows.extend(page::rows(&section, "| value | number |"));
    let cells = rows.iter().flat_map(|row| row.chunks_exact(2));
    cells
        .filter(|cell| !cell[0].is_empty())
        .map(|cell| (cell[0].to_string(), cell[1].to_string()))
        .collect()
}

/// The parts of a Lisp list: words, and lists as a whole.
fn parts(list: &str) -> Vec<String> {
    let inner = list
        .strip_prefix('(')
        .and_then(|rest| rest.strip_suffix(')'))
        .unwrap_or_else(|| panic!("not a list: {list}"));
    let mut parts: Vec<String> = Vec::new();
    let mut depth = 0;
    for word in inner.split(' ') {
        match parts.last_mut() {
            Some(part) if depth > 0 => *part += &format!(" {word}"),
            _ => parts.push(word.to_string()),
        }
        depth += word.matches('(').count();
        depth -= word.matches(')').count();
    }
    parts
}

/// What the port makes of a Lisp call, its answer in Lisp and its names.
struct Port {
    numbers: BTreeMap<String, String>,
}

impl Port {
    /// The number of a name or a value; another number is its own.
    fn number(&self, thing: &str) -> String {
        let thing = thing.trim_start_matches('\'');
        self.numbers
            .get(thing)
            .cloned()
            .unwrap_or_else(|| thing.to_string())
    }

    fn line(&self, call: &str) -> String {
        let parts = parts(call);
        let numbers = parts[1..].iter().map(|part| self.number(part));
        let words: Vec<String> = [parts[0].clone()].into_iter().chain(numbers).collect();
        words.join(" ")
    }

    fn answer(&self, call: &str, answer: &str) -> String {
        let parts = parts(call);
        if let Some((_, message)) = answer.split_once(" ERROR: ") {
            return refusal(&parts, message).to_string();
        }
        if call == "(DUS 'UNIVERSE)" {
            return "R 4".to_string();
        }
        let operator = operators::number(parts[0].as_bytes()).expect("an operator");
        let number = self.number(answer);
        match operators::kind(operator).expect("an operator") {
            Kind::Create | Kind::Bind | Kind::Destroy if number == "U" => "= 0".to_string(),
            Kind::Create | Kind::Bind | Kind::Destroy => format!("= {number}"),
            Kind::Value => format!("V {number}"),
            Kind::Exists => answer.to_string(),
            Kind::SetOf => self.list(&parts[0], answer),
        }
    }

    fn list(&self, letters: &str, answer: &str) -> String {
        let set = match answer {
            "NIL" => Vec::new(),
            list => self::parts(list),
        };
        let mut entries: Vec<String> = set.iter().map(|part| self.entry(part)).collect();
        if letters == "SUS" {
            entries.insert(0, "0:0".to_string());
        }
        let head = [format!("L {}", entries.len())];
        let words: Vec<String> = head.into_iter().chain(entries).collect();
        words.join(" ")
    }

    /// A pair, an edge, or a node or a space.
    fn entry(&self, part: &str) -> String {
        if part.starts_with('(') {
            let pair = parts(part);
            format!("{}:{}", self.number(&pair[0]), self.number(&pair[1]))
        } else if part.starts_with('T') {
            format!("{}:0", self.number(part))
        } else {
            format!("0:{}", self.number(part))
        }
    }
}

/// The refusal that takes the place of a message.
fn refusal(call: &[String], message: &str) -> &'static str {
    match message.split_once(" IS NOT A ") {
        Some((_, "SPACE")) => "R 5",
        Some((node, _)) if call[1] == format!("'{node}") => "R 6",
        Some(_) => "R 7",
        None => "R 8",
    }
}

/// An answer as the manual has it: without the number of tuples.
fn without_number(answer: &str) -> &str {
    match answer
        .strip_prefix("= ")
        .and_then(|rest| rest.split_once(' '))
    {
        Some((name, _)) => &answer[.."= ".len() + name.len()],
        None => answer,
    }
}

/// Each line is its Lisp call in numbers, each answer that of the manual.
#[test]
fn the_ported_graph_is_that_of_the_manual() {
    let page = page::read(PAGE);
    let numbers = numbers(&page);
    let port = Port { numbers };
    let rows = script_of(&page, PORTED);
    assert!(rows.len() > 80, "only {} rows were found", rows.len());
    for row in rows {
        let call = page::code(row.lisp);
        assert_eq!(row.line, port.line(call));
        if row.lisp_answer != "–" {
            let answer = page::code(row.lisp_answer);
            let given = without_number(row.answer);
            assert_eq!(given, port.answer(call, answer), "{call}");
        }
    }
}
