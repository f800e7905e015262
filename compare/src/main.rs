//! Holds the library against a second reading of document 01.
//!
//!     compare document -- HOST..
//!     compare self-test -- HOST..
//!     compare run [--seed X] [--cases N | --seconds T | --case K] -- HOST..

#![forbid(unsafe_code)]

mod compare;
mod counts;
mod cross;
mod dice;
mod document;
mod expect;
mod host;
mod model;
mod mutants;
mod request;
mod scenes;

use compare::{Comparison, Until};
use counts::Part;
use expect::Model;
use host::Host;
use model::rules::LAW;
use mutants::Mutant;
use scenes::policies::SIZES;
use std::process::ExitCode;
use std::time::Duration;

const SEED: u64 = 1;

/// A mutant that lives through so many cases would not have been noticed.
const MUTANT_CASES: u64 = 4096;

struct Options {
    mode: String,
    seed: u64,
    from: u64,
    until: Until,
    host: Vec<String>,
}

fn options() -> Result<Options, String> {
    let mut arguments = std::env::args().skip(1);
    let mode = arguments.next().ok_or("document, self-test or run?")?;
    let mut options = Options { mode, seed: SEED, from: 0, until: Until::Cases(SIZES), host: Vec::new() };
    while let Some(name) = arguments.next() {
        if name == "--" {
            options.host = arguments.collect();
            break;
        }
        let number = arguments.next().and_then(|text| text.parse().ok()).ok_or(format!("{name} needs a number"))?;
        match name.as_str() {
            "--seed" => options.seed = number,
            "--cases" => options.until = Until::Cases(number),
            "--seconds" => options.until = Until::Time(Duration::from_secs(number)),
            "--case" => (options.from, options.until) = (number, Until::Cases(1)),
            _ => return Err(format!("no option {name}")),
        }
    }
    Ok(options)
}

/// Names the parts that do not hold; the last line counts.
fn report(parts: &[Part]) -> bool {
    let failed = parts.iter().filter(|(_, holds)| !holds).count();
    parts.iter().filter(|(_, holds)| !holds).for_each(|(name, _)| println!("failed: {name}"));
    println!("{} passed, {failed} failed", parts.len() - failed);
    failed == 0
}

/// Wrong models in turn, each until every function that must show it has done so. A host that differs from the right one shows nothing.
fn self_test(options: &Options) -> std::io::Result<Vec<Part>> {
    let agreed = Comparison::new(options.seed, Model::new(LAW), Host::start(&options.host)?)
        .batch(0, compare::BATCH)?
        .is_empty();
    let mut parts = vec![("the right model agrees".into(), agreed)];
    if !agreed {
        return Ok(parts);
    }
    for Mutant { name, rules, shown_by: mut left } in mutants::mutants() {
        let mut comparison = Comparison::new(options.seed, Model::new(rules), Host::start(&options.host)?);
        let mut cases = 0;
        while !left.is_empty() && cases < MUTANT_CASES {
            let mismatches = comparison.batch(cases, compare::BATCH)?;
            left.retain(|&function| !mismatches.iter().any(|m| m.request.function == function));
            cases += compare::BATCH;
        }
        println!("{name:<42} noticed within {cases} cases");
        parts.push((format!("{name}: not noticed by {left:?}"), left.is_empty()));
    }
    Ok(parts)
}

fn compare(options: Options) -> std::io::Result<Vec<Part>> {
    let mut comparison = Comparison::new(options.seed, Model::new(LAW), Host::start(&options.host)?);
    println!("seed {}", options.seed);
    let cases = match comparison.run(options.from, &options.until)? {
        Ok(cases) => cases,
        Err(mismatch) => {
            mismatch.print(options.seed, &options.host);
            return Ok(vec![("every call answers as the model does".into(), false)]);
        }
    };
    println!("{cases} cases, {} calls, no mismatch", comparison.counts.calls());
    comparison.counts.print();
    let mut parts = comparison.counts.parts(&comparison.model.crossed);
    if cases < SIZES {
        println!("fewer than {SIZES} cases: whether they went through everything is not asked");
        parts.truncate(1);
    }
    Ok(parts)
}

fn main() -> ExitCode {
    let done = options().and_then(|options| {
        let parts = match options.mode.as_str() {
            "document" => Host::start(&options.host).and_then(|mut host| document::parts(&mut host)),
            "self-test" => self_test(&options),
            "run" => compare(options),
            mode => return Err(format!("no mode {mode}")),
        };
        parts.map_err(|error| error.to_string())
    });
    match done {
        Ok(parts) if report(&parts) => ExitCode::SUCCESS,
        Ok(_) => ExitCode::FAILURE,
        Err(error) => {
            println!("compare: {error}");
            ExitCode::FAILURE
        }
    }
}
