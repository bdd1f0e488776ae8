//! The second opinion: an independent telemetry bench for NVMe pages 07h and 08h, and the program that compares the library with it.
//!
//! Written from the rules document (document 01), the requests of document 02 that have landed, their source documents,
//! docs/DECISIONS.md where they leave a choice, and the C header file alone, and not from the library's definitions or code, so that a rule
//! misread there is not misread here in the same way.
//! `rules`, `controller`, `host`, `sheet` and `boundary` are the bench, as plain as the paper's words. The rest lends the same bytes to the
//! library and to that bench, from a seed, and compares every answer and every lent byte after every call.

mod boundary;
mod controller;
mod faults;
mod generate;
mod host;
mod large;
mod lent;
mod library;
mod orders;
mod outside;
mod pair;
mod plans;
mod random;
mod rules;
mod runs;
mod seen;
mod sheet;
mod sheets;
mod singles;
mod steps;

use std::process::ExitCode;
use std::time::{Duration, Instant};

use pair::{Difference, Pair, Same};
use random::Random;

type Case = fn(&mut Pair, &mut Random) -> Same<()>;

/// A kind of comparison. `share` is how many of its cases run in ten rounds; one of 0 has no random inputs to speak of and runs once.
struct Kind {
    name: &'static str,
    share: u64,
    case: Case,
}

const KINDS: [Kind; 69] = [
    Kind { name: "01: rows of a page", share: 0, case: outside::page_rows },
    Kind { name: "01: rows of trimming", share: 0, case: outside::trimming_rows },
    Kind { name: "01: rows and listing", share: 0, case: outside::collection_rows },
    Kind { name: "01: statuses", share: 0, case: outside::status_table },
    Kind { name: "000, 001, 003: headers", share: 0, case: outside::header_tables },
    Kind { name: "001: scopes", share: 0, case: outside::scope_table },
    Kind { name: "001: MCDA", share: 0, case: outside::mcda_table },
    Kind { name: "000, 001: page sizes", share: 0, case: outside::size_table },
    Kind { name: "002: candidates", share: 0, case: outside::candidate_table },
    Kind { name: "004: builder's fields", share: 0, case: outside::builder_fields },
    Kind { name: "004: command's fields", share: 0, case: outside::controller_fields },
    Kind { name: "004: no extended data", share: 0, case: outside::without_extended_data },
    Kind { name: "004: identifiers", share: 0, case: outside::identifier_table },
    Kind { name: "02: a commit in a run", share: 0, case: outside::commit_in_a_run },
    Kind { name: "02: which field", share: 0, case: outside::which_field },
    Kind { name: "02: check and plan in one", share: 0, case: outside::check_and_plan },
    Kind { name: "02: old drives", share: 0, case: outside::old_drives },
    Kind { name: "02: the month's sheet", share: 0, case: outside::months_sheet },
    Kind { name: "02: attempts", share: 0, case: outside::attempts_table },
    Kind { name: "02: attempts used up", share: 0, case: outside::attempts_used_up },
    Kind { name: "02: mixed copies", share: 0, case: outside::mixed_copies },
    Kind { name: "classes", share: 0, case: singles::classes },
    Kind { name: "statuses", share: 0, case: singles::statuses },
    Kind { name: "drops and store lengths", share: 0, case: singles::store_lengths },
    Kind { name: "bytes of fields", share: 0, case: faults::field_bytes },
    Kind { name: "faults at plans", share: 0, case: faults::plans },
    Kind { name: "faults in collections", share: 0, case: faults::collections },
    Kind { name: "limits of plans", share: 0, case: plans::limits },
    Kind { name: "order of plans", share: 0, case: plans::orders },
    Kind { name: "every order at headers", share: 0, case: orders::headers },
    Kind { name: "long lists of chunks", share: 0, case: plans::long_lists },
    Kind { name: "scripted runs", share: 0, case: runs::scripts },
    Kind { name: "limits of areas", share: 0, case: large::limits },
    Kind { name: "endings in sheets", share: 0, case: sheets::endings },
    Kind { name: "limits of entries", share: 0, case: sheets::limits_of_entries },
    Kind { name: "limits of additions", share: 0, case: sheets::limits_of_additions },
    Kind { name: "flipped bits of sheets", share: 0, case: sheets::flipped_bits },
    Kind { name: "marks and checks", share: 0, case: sheets::marks_and_checks },
    Kind { name: "totals of no runs", share: 0, case: sheets::totals_of_no_runs },
    Kind { name: "means of powers of two", share: 0, case: sheets::means_of_powers },
    Kind { name: "large copies", share: 1, case: large::copies },
    Kind { name: "fresh records", share: 200, case: singles::fresh },
    Kind { name: "headers", share: 1_500, case: singles::headers },
    Kind { name: "headers near the limits", share: 1_300, case: faults::near_limits },
    Kind { name: "plans", share: 2_600, case: plans::plans },
    Kind { name: "plans and collections", share: 800, case: plans::collections },
    Kind { name: "builder", share: 1_000, case: singles::builder },
    Kind { name: "setups", share: 650, case: singles::setups },
    Kind { name: "damaged records", share: 600, case: singles::damaged },
    Kind { name: "commands", share: 1_000, case: singles::commands },
    Kind { name: "captures", share: 400, case: singles::captures },
    Kind { name: "drops", share: 500, case: singles::drops },
    Kind { name: "steps", share: 2_600, case: steps::steps },
    Kind { name: "order of commands", share: 1_000, case: orders::commands },
    Kind { name: "order of captures", share: 200, case: orders::captures },
    Kind { name: "order of drops", share: 200, case: orders::drops },
    Kind { name: "order of setups", share: 260, case: orders::setups },
    Kind { name: "order of steps", share: 520, case: orders::steps },
    Kind { name: "order at first headers", share: 400, case: orders::first_headers },
    Kind { name: "order at later headers", share: 800, case: orders::later_headers },
    Kind { name: "matching headers", share: 800, case: orders::matches },
    Kind { name: "runs", share: 520, case: runs::runs },
    Kind { name: "runs of k", share: 400, case: runs::runs_of_k },
    Kind { name: "soak tests", share: 30, case: runs::soaks },
    Kind { name: "months of runs", share: 30, case: runs::months },
    Kind { name: "entries", share: 1_000, case: sheets::entries },
    Kind { name: "damaged sheets", share: 500, case: sheets::damaged },
    Kind { name: "additions", share: 500, case: sheets::additions },
    Kind { name: "lists of runs", share: 100, case: sheets::lists },
];

const USAGE: &str =
    "usage: second [--seed N] [--seconds N | --cases N] [--kind NAME [--case N]] [--keep-going] [--trace]
  --seed N       another stream of cases (default 1)
  --seconds N    for so many seconds (default: a fixed number of cases, a few seconds' worth)
  --cases N      until there were N cases of all kinds together
  --kind NAME    this kind alone
  --case N       this case of it alone
  --keep-going   go on with the other kinds after a difference
  --trace        name each case before it runs, to find one in which the library crashes or hangs";

struct Options {
    seed: u64,
    seconds: Option<u64>,
    cases: Option<u64>,
    kind: Option<String>,
    case: Option<u64>,
    keep_going: bool,
    trace: bool,
}

fn options() -> Result<Options, String> {
    let mut options =
        Options { seed: 1, seconds: None, cases: None, kind: None, case: None, keep_going: false, trace: false };
    let mut arguments = std::env::args().skip(1);
    while let Some(argument) = arguments.next() {
        let mut value = || arguments.next().ok_or(format!("{argument} needs a value"));
        let number = |text: String| text.parse::<u64>().map_err(|_| format!("{text} is not a number"));
        match argument.as_str() {
            "--seed" => options.seed = number(value()?)?,
            "--seconds" => options.seconds = Some(number(value()?)?),
            "--cases" => options.cases = Some(number(value()?)?),
            "--kind" => options.kind = Some(value()?),
            "--case" => options.case = Some(number(value()?)?),
            "--keep-going" => options.keep_going = true,
            "--trace" => options.trace = true,
            "--help" => return Err("what can be asked for:".to_string()),
            _ => return Err(format!("{argument} is not an option")),
        }
    }
    match &options.kind {
        Some(name) if KINDS.iter().all(|kind| kind.name != name) => Err(format!("there is no kind '{name}'")),
        _ => Ok(options),
    }
}

/// How a kind fares.
#[derive(Clone, Copy, Default)]
struct Fare {
    cases: u64,
    failed: bool,
}

struct Session {
    options: Options,
    pair: Pair,
    fares: Vec<Fare>,
    begun: Instant,
}

impl Session {
    fn one_case(&mut self, index: usize, case: u64) {
        let kind = &KINDS[index];
        if self.options.trace {
            println!("{} case {case}", kind.name);
        }
        let mut random = Random::of_case(self.options.seed, kind.name, case);
        let result = (kind.case)(&mut self.pair, &mut random);
        self.fares[index].cases += 1;
        if let Err(Difference(told)) = result {
            self.fares[index].failed = true;
            println!("DIFFERENCE in {}, seed {}, case {case}", kind.name, self.options.seed);
            println!("{told}");
            println!("again: --seed {} --kind '{}' --case {case}", self.options.seed, kind.name);
        }
    }

    fn must_stop(&self) -> bool {
        !self.options.keep_going && self.fares.iter().any(|fare| fare.failed)
    }

    fn is_chosen(&self, index: usize) -> bool {
        match &self.options.kind {
            Some(name) => name == KINDS[index].name,
            None => true,
        }
    }

    /// One round: each kind's share of cases. The first round has those that run once.
    fn round(&mut self, round: u64) {
        for (index, kind) in KINDS.iter().enumerate() {
            let cases = match (kind.share, round) {
                (0, 0) => 0..1,
                (0, _) => 0..0,
                (share, round) => (round * share).div_ceil(10)..((round + 1) * share).div_ceil(10),
            };
            for case in cases {
                if !self.is_chosen(index) || self.fares[index].failed || self.must_stop() {
                    break;
                }
                self.one_case(index, case);
            }
        }
    }

    fn cases(&self) -> u64 {
        self.fares.iter().map(|fare| fare.cases).sum()
    }

    fn is_done(&self, rounds: u64) -> bool {
        if let Some(seconds) = self.options.seconds {
            return self.begun.elapsed() >= Duration::from_secs(seconds);
        }
        match self.options.cases {
            // Ten rounds have a case of every kind but those that run once, so a chosen one of these ends too.
            Some(cases) => self.cases() >= cases || rounds >= 10 * cases,
            None => rounds >= 100,
        }
    }

    fn run(&mut self) {
        if let Some(case) = self.options.case {
            for index in 0..KINDS.len() {
                if self.is_chosen(index) {
                    self.one_case(index, case);
                }
            }
            return;
        }
        let mut rounds = 0;
        loop {
            self.round(rounds);
            rounds += 1;
            if self.is_done(rounds) || self.must_stop() {
                break;
            }
        }
    }

    /// Tells how it went; answers how many kinds passed and failed.
    fn tell(&self) -> (usize, usize) {
        let seconds = self.begun.elapsed().as_secs_f64();
        println!("cases of each kind:");
        for (index, fare) in self.fares.iter().enumerate().filter(|(_, fare)| fare.cases > 0) {
            println!("  {:<25} {:>9}{}", KINDS[index].name, fare.cases, if fare.failed { "  FAILED" } else { "" });
        }
        self.pair.seen.print();
        let cases = self.cases();
        println!("{cases} cases in {seconds:.1} s, {:.0} a second", cases as f64 / seconds);
        let run = || self.fares.iter().filter(|fare| fare.cases > 0);
        let (mut passed, mut failed) =
            (run().filter(|fare| !fare.failed).count(), run().filter(|fare| fare.failed).count());
        if self.options.kind.is_none() && failed == 0 {
            let missing = self.pair.seen.missing();
            missing.iter().for_each(|what| println!("NEVER SEEN: {what}"));
            passed += missing.is_empty() as usize;
            failed += !missing.is_empty() as usize;
        }
        (passed, failed)
    }
}

fn main() -> ExitCode {
    let options = match options() {
        Ok(options) => options,
        Err(problem) => {
            eprintln!("{problem}\n{USAGE}");
            return ExitCode::from(2);
        }
    };
    println!("seed {}", options.seed);
    let fares = vec![Fare::default(); KINDS.len()];
    let mut session = Session { options, pair: Pair::new(), fares, begun: Instant::now() };
    session.run();
    let (passed, failed) = session.tell();
    println!("{passed} passed, {failed} failed");
    ExitCode::from((failed > 0 || passed == 0) as u8)
}
