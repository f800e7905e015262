//! The C host as a child process: a batch of requests down one pipe, its replies up the other.

use crate::request::{Replies, Reply, Request};
use std::io::{Error, ErrorKind, Read, Result, Write};
use std::process::{Child, ChildStdin, ChildStdout, Command, Stdio};

pub struct Host {
    command: Vec<String>,
    child: Child,
    down: Option<ChildStdin>,
    up: ChildStdout,
}

impl Host {
    pub fn start(command: &[String]) -> Result<Host> {
        let (program, arguments) =
            command.split_first().ok_or_else(|| Error::new(ErrorKind::NotFound, "no host named"))?;
        let mut child = Command::new(program).args(arguments).stdin(Stdio::piped()).stdout(Stdio::piped()).spawn()?;
        let (down, up) = (child.stdin.take(), child.stdout.take().expect("piped"));
        Ok(Host { command: command.to_vec(), child, down, up })
    }

    pub fn again(&self) -> Result<Host> {
        Host::start(&self.command)
    }

    /// The host reads a batch to its end before it writes, so neither side waits for the other.
    pub fn ask(&mut self, requests: &[Request]) -> Result<Vec<Reply>> {
        let mut batch = vec![0; 4];
        requests.iter().for_each(|request| request.encode(&mut batch));
        let length = batch.len() as u32 - 4;
        batch[..4].copy_from_slice(&length.to_le_bytes());
        let down = self.down.as_mut().expect("open until dropped");
        down.write_all(&batch)?;
        down.flush()?;
        let mut length = [0; 4];
        self.up.read_exact(&mut length)?;
        let mut bytes = vec![0; u32::from_le_bytes(length) as usize];
        self.up.read_exact(&mut bytes)?;
        let mut replies = Replies(&bytes);
        let read: Option<Vec<Reply>> = requests.iter().map(|_| replies.reply()).collect();
        read.filter(|_| replies.0.is_empty()).ok_or_else(|| Error::new(ErrorKind::InvalidData, "replies cut short"))
    }
}

impl Drop for Host {
    fn drop(&mut self) {
        drop(self.down.take());
        // A host that ended badly has been noticed by the one who asked.
        let _ = self.child.wait();
    }
}
