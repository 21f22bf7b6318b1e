//! Runs a load on one side and takes the time.

use std::time::{Duration, Instant};

use gaffdamson_reference::machine::Call;
use gaffdamson_reference::packed::{self, LIST, WORDS_IN_AN_ANSWER, WORDS_IN_A_CALL};

use crate::sides::{Run, Side};

/// As many calls as have 16 MB of answer lists.
const MOST_CALLS: usize = 2_048;

/// Whether each call checks the store, or one check serves many calls.
#[derive(Clone, Copy, PartialEq, Eq)]
pub enum Mode {
    Checked,
    Known,
}

impl Mode {
    pub fn name(self) -> &'static str {
        match self {
            Mode::Checked => "checked at each call",
            Mode::Known => "known",
        }
    }

    /// How many calls are timed together. On a known store one check serves
    /// them all; with a check for each, few take as long.
    fn calls_together(self) -> usize {
        match self {
            Mode::Checked => MOST_CALLS / 32,
            Mode::Known => MOST_CALLS,
        }
    }
}

/// Calls that make the graph, and calls that are timed.
pub struct Load {
    pub name: String,
    before: Calls,
    timed: Calls,
    /// At most so often it is run for each repetition.
    most_times: usize,
}

impl Load {
    pub fn new(name: impl Into<String>, before: Vec<Call>, timed: Vec<Call>) -> Load {
        Load {
            name: name.into(),
            before: Calls::new(before),
            timed: Calls::new(timed),
            most_times: 8,
        }
    }

    /// The same load, run less often: its calls may take long.
    pub fn of_long_calls(self) -> Load {
        Load {
            most_times: 2,
            ..self
        }
    }

    /// How often the load is run for each repetition: a short one is sooner
    /// disturbed throughout.
    fn times(&self) -> usize {
        (100_000 / self.count()).clamp(1, self.most_times)
    }

    /// How many calls are timed.
    pub fn count(&self) -> usize {
        self.timed.calls.len()
    }
}

struct Calls {
    calls: Vec<Call>,
    packed: Vec<u32>,
}

impl Calls {
    fn new(calls: Vec<Call>) -> Calls {
        let packed = calls.iter().flat_map(packed::call).collect();
        Calls { calls, packed }
    }
}

/// What one side took for a load.
#[derive(Clone)]
pub struct Figure {
    /// For each part of the calls that is timed together, the least time over
    /// all repetitions: what else the machine does then weighs little.
    least: Vec<Duration>,
    calls: usize,
    /// Of all answers, lists and tuples; none if the repetitions differ.
    hash: Option<u64>,
}

impl Figure {
    fn new(load: &Load, mode: Mode) -> Figure {
        let calls = load.timed.calls.len();
        Figure {
            least: vec![Duration::MAX; calls.div_ceil(mode.calls_together())],
            calls,
            hash: None,
        }
    }

    /// The time of a call.
    pub fn nanoseconds(&self) -> f64 {
        let time: Duration = self.least.iter().sum();
        time.as_nanos() as f64 / self.calls as f64
    }

    pub fn agrees_with(&self, other: &Figure) -> bool {
        self.hash.is_some() && self.hash == other.hash
    }

    /// Runs the load once more.
    fn repeat(&mut self, side: &mut dyn Side, load: &Load, mode: Mode, output: &mut Output) {
        side.prepare();
        let mut hash = Hash::new();
        output.run(side, &load.before, Mode::Known, &mut hash);
        let times = output.run(side, &load.timed, mode, &mut hash);
        hash.add_tuples(side);
        let is_first = self.least.contains(&Duration::MAX);
        for (least, time) in self.least.iter_mut().zip(times) {
            *least = time.min(*least);
        }
        let is_steady = is_first || self.hash == Some(hash.0);
        self.hash = is_steady.then_some(hash.0);
    }
}

/// Runs a load on all sides, one after the other in each repetition.
pub fn measure(
    sides: &mut [Box<dyn Side>],
    load: &Load,
    mode: Mode,
    repetitions: usize,
) -> Vec<Figure> {
    let mut output = Output::new(load);
    let mut figures = vec![Figure::new(load, mode); sides.len()];
    for _ in 0..repetitions * load.times() {
        for (side, figure) in sides.iter_mut().zip(&mut figures) {
            figure.repeat(side.as_mut(), load, mode, &mut output);
        }
    }
    figures
}

/// Where a side writes: the answers and lists of the calls of one run.
struct Output {
    answers: Vec<u32>,
    lists: Vec<u32>,
}

impl Output {
    fn new(load: &Load) -> Output {
        let runs = [&load.before, &load.timed].map(|calls| calls.calls.chunks(MOST_CALLS));
        let room = runs
            .into_iter()
            .flatten()
            .map(|calls| calls.iter().map(|call| call.list_length).sum())
            .max()
            .unwrap_or(0);
        Output {
            answers: vec![0; WORDS_IN_AN_ANSWER * MOST_CALLS],
            // Written once, so that the first run finds the pages there.
            lists: vec![1; room],
        }
    }

    /// Makes all calls and gives the time of each part of them.
    fn run(
        &mut self,
        side: &mut dyn Side,
        calls: &Calls,
        mode: Mode,
        hash: &mut Hash,
    ) -> Vec<Duration> {
        let mut times = Vec::new();
        let together = mode.calls_together();
        let packed = calls.packed.chunks(together * WORDS_IN_A_CALL);
        for (calls, packed) in calls.calls.chunks(together).zip(packed) {
            // No kind of answer, so that one that is not written shows.
            self.answers.fill(u32::MAX);
            let run = Run {
                calls,
                packed,
                answers: &mut self.answers,
                lists: &mut self.lists,
            };
            let start = Instant::now();
            match mode {
                Mode::Known => side.run_known(run),
                Mode::Checked => side.run_checked(run),
            }
            times.push(start.elapsed());
            hash.add_answers(calls, &self.answers, &self.lists);
        }
        times
    }
}

/// FNV-1a over words.
struct Hash(u64);

impl Hash {
    fn new() -> Hash {
        Hash(0xcbf2_9ce4_8422_2325)
    }

    fn add(&mut self, word: u32) {
        self.0 = (self.0 ^ u64::from(word)).wrapping_mul(0x100_0000_01b3);
    }

    fn add_answers(&mut self, calls: &[Call], answers: &[u32], lists: &[u32]) {
        let mut lists = lists;
        for (call, answer) in calls.iter().zip(answers.chunks(WORDS_IN_AN_ANSWER)) {
            let (list, others) = lists.split_at(call.list_length);
            lists = others;
            answer.iter().for_each(|&word| self.add(word));
            if answer[0] == LIST {
                let count = list.len().min(answer[1] as usize);
                list[..count].iter().for_each(|&entry| self.add(entry));
            }
        }
    }

    fn add_tuples(&mut self, side: &dyn Side) {
        for (key, value) in side.tuples() {
            for word in [key.s.0, key.n.0, key.g.0, key.m.0] {
                self.add(word.into());
            }
            self.add(value);
        }
    }
}
