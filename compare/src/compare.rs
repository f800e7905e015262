//! Case after case: what the library leaves against what the model expects, byte by byte.

use crate::counts::Counts;
use crate::expect::Model;
use crate::host::Host;
use crate::request::{Reply, Request};
use crate::scenes::{scene, sound_trace};
use std::io;
use std::time::{Duration, Instant};

/// Cases in a batch: some four hundred calls, so that the pipes cost little.
pub const BATCH: u64 = 6;

/// Every so many cases the model's own parts are held against each other on one more trace.
const FOLLOWED: u64 = 8;

pub struct Mismatch {
    pub case: u64,
    pub request: Request,
    pub expected: Reply,
    /// None where the host ended.
    pub got: Option<Reply>,
}

pub struct Comparison {
    pub seed: u64,
    pub model: Model,
    pub counts: Counts,
    host: Host,
}

/// Where to stop: after that many cases, or after that time.
pub enum Until {
    Cases(u64),
    Time(Duration),
}

impl Until {
    /// How many cases the next batch has.
    fn next(&self, done: u64, began: Instant) -> u64 {
        match *self {
            Until::Cases(cases) => BATCH.min(cases - done),
            Until::Time(time) if began.elapsed() < time => BATCH,
            Until::Time(_) => 0,
        }
    }
}

impl Comparison {
    pub fn new(seed: u64, model: Model, host: Host) -> Comparison {
        Comparison { seed, model, counts: Counts::new(), host }
    }

    /// Goes on from a case until there is a mismatch or enough was done; gives the number of cases.
    pub fn run(&mut self, from: u64, until: &Until) -> io::Result<Result<u64, Box<Mismatch>>> {
        let (began, mut done) = (Instant::now(), 0);
        loop {
            let cases = until.next(done, began);
            if cases == 0 {
                return Ok(Ok(done));
            }
            if let Some(first) = self.batch(from + done, cases)?.into_iter().next() {
                return Ok(Err(Box::new(first)));
            }
            done += cases;
        }
    }

    /// Every mismatch among the calls of some cases.
    pub fn batch(&mut self, from: u64, cases: u64) -> io::Result<Vec<Mismatch>> {
        let scenes = (from..from + cases).map(|case| (case, scene(self.seed, case)));
        let calls = scenes.flat_map(|(case, requests)| requests.into_iter().map(move |request| (case, request)));
        let (numbers, requests): (Vec<u64>, Vec<Request>) = calls.unzip();
        (from..from + cases).filter(|case| case % FOLLOWED == 0).for_each(|case| self.follow(case));
        let replies = match self.host.ask(&requests) {
            Ok(replies) => replies.into_iter().map(Some).collect(),
            Err(_) => self.one_by_one(&requests)?,
        };
        let mut mismatches = Vec::new();
        for ((case, request), got) in numbers.into_iter().zip(requests).zip(replies) {
            let expected = self.model.expect(&request);
            if got.as_ref() == Some(&expected) {
                self.counts.note(&request, &expected);
            } else {
                mismatches.push(Mismatch { case, request, expected, got });
            }
        }
        Ok(mismatches)
    }

    fn follow(&mut self, case: u64) {
        let (policy, trace) = sound_trace(self.seed, case);
        self.model.crossed.follow(&policy, &trace);
    }

    /// The host ended within a batch: asks a new one request by request, to find the one at which it does.
    fn one_by_one(&mut self, requests: &[Request]) -> io::Result<Vec<Option<Reply>>> {
        let mut replies = Vec::new();
        for request in requests {
            self.host = self.host.again()?;
            replies.push(self.host.ask(std::slice::from_ref(request)).ok().and_then(|mut replies| replies.pop()));
        }
        Ok(replies)
    }
}

impl Mismatch {
    pub fn print(&self, seed: u64, host: &[String]) {
        println!(
            "mismatch: seed {seed}, case {}, {:?} of {:?} input",
            self.case, self.request.function, self.request.made
        );
        let mut bytes = Vec::new();
        self.request.encode(&mut bytes);
        println!("  request  {}", hex(&bytes, 0));
        match &self.got {
            None => println!("  the host ended without a reply; expected number {}", self.expected.number),
            Some(got) => differences(&self.expected, got),
        }
        println!(
            "  replay: target/compare/release/compare run --seed {seed} --case {} -- {}",
            self.case,
            host.join(" ")
        );
    }
}

fn differences(expected: &Reply, got: &Reply) {
    let show = |name: &str, expected: String, got: String| {
        if expected != got {
            println!("  {name:<8} expected {expected}\n  {:<8} got      {got}", "");
        }
    };
    show("number", expected.number.to_string(), got.number.to_string());
    show("guards", expected.guarded.to_string(), got.guarded.to_string());
    show("answer", hex(&[expected.answer], 0), hex(&[got.answer], 0));
    show("figure", expected.figure.to_string(), got.figure.to_string());
    show("policy", format!("{:x?}", expected.policy), format!("{:x?}", got.policy));
    show("state", format!("{:x?}", expected.state), format!("{:x?}", got.state));
    let first = expected.lent.iter().zip(&got.lent).position(|(e, g)| e != g).unwrap_or(0);
    show("lent", hex(&expected.lent, first), hex(&got.lent, first));
}

/// Short ones whole, of long ones some bytes from a place on; the replay has them all.
fn hex(bytes: &[u8], from: usize) -> String {
    const SHOWN: usize = 1024;
    let digits = |bytes: &[u8]| -> String { bytes.iter().map(|byte| format!("{byte:02x}")).collect() };
    if bytes.len() <= SHOWN {
        return digits(bytes);
    }
    let end = bytes.len().min(from + SHOWN);
    format!("{} ({} bytes, from byte {from})", digits(&bytes[from..end]), bytes.len())
}
