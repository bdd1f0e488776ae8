//! Which answers each function gave, and which faults bad headers had. A comparison that never sees an answer has not tried it.

use crate::generate::EXTENDED;
use crate::rules::{CONTROLLER_PAGE, HOST_PAGE, TOTAL_FULL};

#[derive(Clone, Copy)]
pub enum Function {
    Class,
    Status,
    Plan,
    /// a plan, a setup and a step without extended data
    OldPlan,
    Words,
    Fresh,
    Setup,
    OldSetup,
    Step,
    OldStep,
    Command,
    Capture,
    Drop,
    Enter,
    Add,
    Mean,
}

const FUNCTIONS: usize = 16;

impl Function {
    /// A function of the host, which tells old runs apart by the capabilities.
    pub fn of(self, caps: u8) -> Function {
        match self {
            // No drive has more than the five bits.
            _ if caps & EXTENDED != 0 || caps > 31 => self,
            Function::Plan => Function::OldPlan,
            Function::Setup => Function::OldSetup,
            Function::Step => Function::OldStep,
            _ => self,
        }
    }
}

/// Answers go up to this.
const LAST_ANSWER: usize = TOTAL_FULL as usize;

/// Each function with the answers that it can give: document 01's table and document 02's additions to it, and for class and status
/// their own numbers.
const LISTED: [(&str, &[u8]); FUNCTIONS] = [
    ("class", &[0, 1, 2, 3]),
    ("status", &[0, 1, 2, 3]),
    ("plan", &[0, 6, 7, 8, 11, 13]),
    ("old plan", &[0, 6, 7, 8, 11, 13, 19]),
    ("words", &[0, 13]),
    ("fresh", &[0, 4]),
    ("setup", &[6, 13]),
    ("old setup", &[6, 13]),
    ("step", &[0, 7, 8, 9, 10, 11, 12, 13, 14, 15]),
    ("old step", &[0, 7, 8, 9, 10, 11, 12, 13, 14, 15, 19]),
    ("command", &[0, 1, 2, 3, 4, 5]),
    ("capture", &[0, 4, 5]),
    ("drop", &[0, 4]),
    ("enter", &[0, 13, 20]),
    ("add", &[0, 13, 20]),
    ("mean", &[0, 13]),
];

/// Where a bad header is met.
#[derive(Clone, Copy)]
pub enum Place {
    Plan,
    FirstHeader,
    ClosingHeader,
    AfterRefusal,
}

const PLACES: [&str; 4] = ["a plan", "a first header", "a closing header", "a header after a refused chunk"];
const PAGES: [u8; 2] = [HOST_PAGE, CONTROLLER_PAGE];

/// The numbers of `bumbazeel.h` for what is at fault go up to this.
const LAST_FAULT: usize = 8;

/// Whether such a fault can be met there: other lengths are 15 in a collection, and 07h may be available but empty.
fn can_be_met(place: usize, page: u8, fault: usize) -> bool {
    match fault {
        1 => place == Place::Plan as usize,
        8 => page == CONTROLLER_PAGE,
        _ => true,
    }
}

pub struct Seen {
    answers: [[u64; LAST_ANSWER + 1]; FUNCTIONS],
    /// what was at fault in bad headers, by place, page and number
    faults: [[[u64; LAST_FAULT + 1]; PAGES.len()]; PLACES.len()],
    /// a setup or a step that gave a command
    sent: [u64; FUNCTIONS],
    /// endings that acknowledged a newer capture unread
    pub newer: u64,
    /// sheets that have no mean, and those that have one
    pub means: [u64; 2],
}

impl Seen {
    pub fn new() -> Seen {
        Seen {
            answers: [[0; LAST_ANSWER + 1]; FUNCTIONS],
            faults: [[[0; LAST_FAULT + 1]; PAGES.len()]; PLACES.len()],
            sent: [0; FUNCTIONS],
            newer: 0,
            means: [0; 2],
        }
    }

    pub fn note(&mut self, function: Function, answer: u8) {
        self.answers[function as usize][answer as usize] += 1;
    }

    /// A bad header of one of the two pages: no other is judged.
    pub fn note_fault(&mut self, place: Place, page: u8, fault: u8) {
        if let Some(index) = PAGES.iter().position(|named| *named == page) {
            self.faults[place as usize][index][fault as usize] += 1;
        }
    }

    pub fn note_sent(&mut self, function: Function) {
        self.sent[function as usize] += 1;
    }

    pub fn print(&self) {
        println!(
            "answers seen (class: its number; status: 3 is no status; sent: a command to send; newer: {}):",
            self.newer
        );
        for (index, (name, _)) in LISTED.iter().enumerate() {
            let mut line = format!("  {name:<9}");
            if self.sent[index] > 0 {
                line += &format!(" sent:{}", self.sent[index]);
            }
            for (answer, times) in self.answers[index].iter().enumerate().filter(|(_, times)| **times > 0) {
                line += &format!(" {answer}:{times}");
            }
            println!("{line}");
        }
        println!("sheets seen: {} without a mean, {} with one", self.means[0], self.means[1]);
        println!("faults seen in bad headers, fields 1 to 8:");
        for (place, name) in PLACES.iter().enumerate() {
            for (index, page) in PAGES.iter().enumerate() {
                println!("  {page:02X}h at {name}: {:?}", &self.faults[place][index][1..]);
            }
        }
    }

    /// What was listed and never seen.
    pub fn missing(&self) -> Vec<String> {
        let mut missing = Vec::new();
        for (index, (name, listed)) in LISTED.iter().enumerate() {
            let never = listed.iter().filter(|answer| self.answers[index][**answer as usize] == 0);
            missing.extend(never.map(|answer| format!("{name} never answered {answer}")));
        }
        for function in [Function::Setup, Function::OldSetup, Function::Step, Function::OldStep] {
            if self.sent[function as usize] == 0 {
                missing.push(format!("{} never gave a command", LISTED[function as usize].0));
            }
        }
        for (place, name) in PLACES.iter().enumerate() {
            for (index, page) in PAGES.iter().enumerate() {
                let never = (1..=LAST_FAULT)
                    .filter(|fault| can_be_met(place, *page, *fault) && self.faults[place][index][*fault] == 0);
                missing.extend(never.map(|fault| format!("{page:02X}h at {name}: never field {fault}")));
            }
        }
        for (times, what) in self.means.iter().zip(["had no mean", "had a mean"]) {
            if *times == 0 {
                missing.push(format!("no intact sheet {what}"));
            }
        }
        if self.newer == 0 {
            missing.push("no ending acknowledged a newer capture unread".to_string());
        }
        missing
    }
}
