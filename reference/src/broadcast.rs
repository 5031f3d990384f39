//! The ordered broadcast, oldest first (docs/broadcast.md).

use crate::statements::Statement;
use std::collections::VecDeque;

/// How many messages may be ordered and waiting together.
pub const CAPACITY: usize = 128;

/// A message with the server that sent it and the epoch that server was in.
#[derive(Clone)]
pub struct Message {
    pub sender: usize,
    pub epoch: u64,
    pub body: Body,
}

/// What a message says.
#[derive(Clone)]
pub enum Body {
    /// The sender wants the epoch to end.
    Epoch,
    /// A transaction: each statement with the result that its run answered.
    Transaction { client: usize, job: u64, noted: Vec<(Statement, u64)> },
}

/// The log of ordered messages, and those that wait.
#[derive(Default)]
pub struct Broadcast {
    log: Vec<Message>,
    waiting: VecDeque<Message>,
}

impl Broadcast {
    /// The ordered messages; the position is the index.
    pub fn log(&self) -> &[Message] {
        &self.log
    }

    /// Whether the next offer would be refused.
    pub fn is_full(&self) -> bool {
        self.log.len() + self.waiting.len() >= CAPACITY
    }

    /// Puts a message among those that wait.
    pub fn offer(&mut self, message: Message) {
        assert!(!self.is_full(), "an offer needs room");
        self.waiting.push_back(message);
    }

    /// Moves the oldest waiting message to the end of the log and tells its position.
    pub fn order(&mut self) -> Option<usize> {
        self.log.push(self.waiting.pop_front()?);
        Some(self.log.len() - 1)
    }
}
