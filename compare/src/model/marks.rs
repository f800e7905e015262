//! The walk's frames: a signer, and an enabled and a disabled mark for each target.

#[derive(Clone, Copy, Default, PartialEq, Eq)]
pub struct Frame {
    pub signer: u64,
    pub enabled: u64,
    pub disabled: u64,
}
