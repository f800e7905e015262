//! The numbers for no, by name.

#[derive(Clone, Copy, PartialEq, Eq, Debug)]
#[repr(u8)]
pub enum No {
    TooFew = 1,
    LeftOver,
    SpareBit,
    Unknown,
    NoSigner,
    NoTarget,
    NoFrame,
    TooDeep,
    NoRoom,
    StepNotAllowed,
    ChainLeft,
    Forbidden,
    BadPolicy,
    BadState,
}

/// The first of these, in their order, that is given.
pub fn refuse(order: &[No], given: impl Fn(No) -> bool) -> Result<(), No> {
    match order.iter().find(|&&no| given(no)) {
        Some(&no) => Err(no),
        None => Ok(()),
    }
}
