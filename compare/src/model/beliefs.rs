//! A belief, literally: a chain of frames saying Ok(T).

use std::rc::Rc;

/// A frame is a principal: its place in the stack, 0 at the bottom, and the signer of its code.
#[derive(Clone, Copy, PartialEq, Eq, Debug)]
pub struct Principal {
    pub place: u64,
    pub signer: u64,
}

/// Principals, newest first. The rest is shared, so that to put a name in front costs the same for every chain.
#[derive(Clone, PartialEq, Eq)]
pub struct Chain(Option<Rc<(Principal, Chain)>>);

impl Chain {
    pub const EMPTY: Chain = Chain(None);

    pub fn is_empty(&self) -> bool {
        self.0.is_none()
    }

    pub fn behind(&self, frame: Principal) -> Chain {
        Chain(Some(Rc::new((frame, self.clone()))))
    }

    pub fn frames(&self) -> impl Iterator<Item = Principal> + '_ {
        std::iter::successors(self.0.as_deref(), |link| link.1 .0.as_deref()).map(|link| link.0)
    }
}

#[derive(Clone, PartialEq, Eq)]
pub struct Belief {
    pub chain: Chain,
    pub target: u64,
}
