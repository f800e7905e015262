//! What the comparison has been through, and whether that is enough.

use crate::cross::{Crossed, Tally};
use crate::request::{Function, Made, Reply, Request, FUNCTIONS, NULL_IF_EMPTY};
use crate::scenes::policies::SIZES;

/// Each number for no is to be seen that often.
const OFTEN: u64 = 1000;

pub struct Counts {
    answers: [[u64; 15]; FUNCTIONS.len()],
    made: [[u64; 3]; FUNCTIONS.len()],
    /// Calls with an empty slice for which the pointer was null.
    null: [u64; FUNCTIONS.len()],
    sizes: Vec<u8>,
}

const READ: u8 = 1;
const WRITTEN: u8 = 2;
const RUN: u8 = 4;

/// A part of the comparison by name, and whether it holds.
pub type Part = (String, bool);

impl Counts {
    pub fn new() -> Counts {
        Counts {
            answers: Default::default(),
            made: Default::default(),
            null: Default::default(),
            sizes: vec![0; SIZES as usize],
        }
    }

    pub fn note(&mut self, request: &Request, reply: &Reply) {
        let function = request.function as usize;
        self.answers[function][reply.number as usize] += 1;
        self.made[function][request.made as usize] += 1;
        let (takes, lent) = (request.function.takes_bytes(), request.function.is_lent_bytes());
        if request.place == NULL_IF_EMPTY && (takes && request.bytes.is_empty() || lent && request.room == 0) {
            self.null[function] += 1;
        }
        if reply.number == 0 {
            self.note_size(request.function, &reply.policy);
        }
    }

    /// Marks a policy of that size and start as read, written or run under.
    fn note_size(&mut self, function: Function, policy: &[u64]) {
        let mark = match function {
            Function::PolicyRead => READ,
            Function::PolicyWrite => WRITTEN,
            Function::PassedRun => RUN,
            _ => return,
        };
        let size = policy[0] * 2048 + (policy[2] - 1) * 32 + policy[1] - 1;
        self.sizes[size as usize] |= mark;
    }

    pub fn calls(&self) -> u64 {
        self.answers.iter().flatten().sum()
    }

    fn seen(&self, number: usize) -> u64 {
        self.answers.iter().map(|answers| answers[number]).sum()
    }

    pub fn print(&self) {
        println!("{:<16} {:>9} {:>9} {:>9} {:>9}  answers", "function", "calls", "sound", "damaged", "invented");
        for function in FUNCTIONS {
            let (answers, made) = (self.answers[function as usize], self.made[function as usize]);
            let of = |made_so: Made| made[made_so as usize];
            let [sound, damaged, invented] = [of(Made::Sound), of(Made::Damaged), of(Made::Invented)];
            let calls: u64 = made.iter().sum();
            let name = format!("{function:?}");
            println!("{name:<16} {calls:>9} {sound:>9} {damaged:>9} {invented:>9}  {}", listed(answers));
        }
        let mut all = [0; 15];
        all.iter_mut().enumerate().for_each(|(number, count)| *count = self.seen(number));
        println!("{:<16} {:>9} {:>29}  {}", "all", self.calls(), "", listed(all));
    }

    pub fn parts(&self, crossed: &Crossed) -> Vec<Part> {
        let often = (1..15).all(|number| self.seen(number) >= OFTEN);
        let each = |f: &Function| f.refusals().iter().all(|&number| self.answers[*f as usize][number as usize] > 0);
        let sliced = |f: &&Function| f.takes_bytes() || f.is_lent_bytes();
        let null = FUNCTIONS.iter().filter(sliced).all(|&f| self.null[f as usize] > 0);
        let sizes = self.sizes.iter().all(|&marks| marks == READ | WRITTEN | RUN);
        vec![
            ("every call answers as the model does".into(), self.calls() > 0),
            (format!("every number for no was answered {OFTEN} times"), often),
            ("every function answered every number that it can".into(), FUNCTIONS.iter().all(each)),
            ("a policy of every size and start was read, written and run under".into(), sizes),
            ("every function was given an empty slice at a null pointer".into(), null),
            held("the three ways answer as the belief sets do", &crossed.verdicts),
            held("the state values follow the belief sets", &crossed.states),
            held("a derivation is written exactly where a check is granted, and accepted", &crossed.written),
            held("no accepted derivation is shorter than ours", &crossed.accepted),
        ]
    }
}

/// Something was looked at, and all of it held.
fn held(name: &str, tally: &Tally) -> Part {
    (format!("{name} ({} looked at)", tally.held + tally.failed), tally.held > 0 && tally.failed == 0)
}

fn listed(answers: [u64; 15]) -> String {
    let given = answers.iter().enumerate().filter(|(_, &count)| count > 0);
    given.map(|(number, count)| format!("{number}:{count}")).collect::<Vec<_>>().join(" ")
}
