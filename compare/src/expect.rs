//! What document 01 has a call leave, by the model.

use crate::cross::Crossed;
use crate::model::policy::{self, Policy};
use crate::model::refusals::No;
use crate::model::rules::Rules;
use crate::model::runs::{self, Run};
use crate::model::walk::{self, Walk};
use crate::model::words::{Answer, Operation};
use crate::model::{derivation, passed, record};
use crate::request::{trimmed, Function, Function::*, Reply, Request};

/// The model under some rules. One trace is asked of three engines, so the last run is kept.
pub struct Model {
    pub rules: Rules,
    pub crossed: Crossed,
    last: Option<(Vec<u64>, Vec<u8>, Run)>,
}

impl Model {
    pub fn new(rules: Rules) -> Model {
        Model { rules, crossed: Crossed::default(), last: None }
    }

    pub fn expect(&mut self, request: &Request) -> Reply {
        let reply = self.reply(request);
        self.crossed.call(request, &reply);
        reply
    }

    fn reply(&mut self, request: &Request) -> Reply {
        let rules = self.rules;
        let (policy, mut reply) = (Policy::from_words(&request.policy), request.untouched());
        match request.function {
            PolicyRead => match policy::read(&rules, &request.bytes) {
                Ok(policy) => reply.policy = trimmed(&policy.words()).to_vec(),
                Err(no) => reply.number = no as u8,
            },
            PolicyWrite => written(&mut reply, policy::write(&rules, &policy, request.room)),
            PolicyCut => reply.figure = policy::cut(&request.bytes) as u64,
            WalkRun | RecordRun | PassedRun => self.run(request, &policy, &mut reply),
            DerivationWrite => {
                let walk = Walk::from_words(&request.state);
                let steps = derivation::write(&rules, &policy, &walk, request.argument.into(), request.room);
                written(&mut reply, steps);
            }
            DerivationCheck => checked(&rules, request, &policy, &mut reply),
            _ => operated(&rules, request, &policy, &mut reply),
        }
        reply
    }

    fn run(&mut self, request: &Request, policy: &Policy, reply: &mut Reply) {
        reply.figure = 0;
        if let Err(no) = runs::begin(&self.rules, policy, &request.bytes, request.room) {
            reply.number = no as u8;
            return;
        }
        let by_walk = request.function == WalkRun;
        let run = self.run_of(request, policy);
        for (byte, answers) in reply.lent.iter_mut().zip(&run.answers) {
            *byte = if by_walk { answers.walk.byte() } else { answers.beliefs.byte() };
        }
        reply.figure = run.answers.len() as u64;
        reply.number = run.refused.map_or(0, |no| no as u8);
    }

    fn run_of(&mut self, request: &Request, policy: &Policy) -> &Run {
        let kept =
            matches!(&self.last, Some((policy, trace, _)) if *policy == request.policy && *trace == request.bytes);
        if !kept {
            let run = runs::run(&self.rules, policy, &request.bytes);
            self.crossed.run(&run);
            self.last = Some((request.policy.clone(), request.bytes.clone(), run));
        }
        &self.last.as_ref().expect("just run").2
    }
}

/// Bytes at the front of the lent buffer and their number as the figure, or a refusal with figure 0.
fn written(reply: &mut Reply, result: Result<Vec<u8>, No>) {
    reply.figure = 0;
    match result {
        Ok(bytes) => {
            reply.lent[..bytes.len()].copy_from_slice(&bytes);
            reply.figure = bytes.len() as u64;
        }
        Err(no) => reply.number = no as u8,
    }
}

fn checked(rules: &Rules, request: &Request, policy: &Policy, reply: &mut Reply) {
    let walk = Walk::from_words(&request.state);
    match derivation::check(rules, policy, &walk, request.argument.into(), &request.bytes) {
        Ok(()) => reply.figure = request.bytes.len() as u64,
        Err((no, figure)) => {
            reply.number = no as u8;
            reply.figure = figure;
        }
    }
}

/// One operation on a state value. Only three of the functions have an answer byte to write.
fn operated(rules: &Rules, request: &Request, policy: &Policy, reply: &mut Reply) {
    let mut state = request.state.clone();
    let result = match request.function {
        WalkOperate => walk::operate(rules, policy, &mut state, request.argument),
        RecordOperate => record::operate(rules, policy, &mut state, request.argument),
        function => passed::operate(rules, policy, &mut state, passed_operation(function, request.argument.into())),
    };
    match result {
        Ok(answer) => {
            reply.state = trimmed(&state).to_vec();
            give(request.function, answer, reply);
        }
        Err(no) => reply.number = no as u8,
    }
}

fn give(function: Function, answer: Answer, reply: &mut Reply) {
    if matches!(function, WalkOperate | RecordOperate | PassedCheck) {
        reply.answer = answer.byte();
    }
}

fn passed_operation(function: Function, number: u64) -> Operation {
    match function {
        PassedCall => Operation::Call(number),
        PassedEnable => Operation::Enable(number),
        PassedDisable => Operation::Disable(number),
        PassedRevert => Operation::Revert(number),
        _ => Operation::Check(number),
    }
}
