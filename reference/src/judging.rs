//! Judging the log: every judgement follows from the log alone (docs/judging.md).

use crate::broadcast::{Body, Message};

/// What a message of the log comes to.
#[derive(Clone, Copy, Debug, PartialEq, Eq)]
pub enum Judgement {
    Accepted,
    Stale,
    Committed,
    Late,
    /// The client and job were committed at this earlier position.
    Again(usize),
}

/// The primary of an epoch among `servers` servers, numbered from 1.
pub fn primary(epoch: u64, servers: usize) -> usize {
    ((epoch - 1) % servers as u64) as usize + 1
}

/// Judges every message of a log, from position 0 on.
pub fn judge(log: &[Message]) -> Vec<Judgement> {
    let mut in_force = 1;
    let mut committed: Vec<(usize, u64, usize)> = Vec::new();
    let mut judgements = Vec::with_capacity(log.len());
    for (position, message) in log.iter().enumerate() {
        let timely = message.epoch == in_force;
        judgements.push(match &message.body {
            Body::Epoch if timely => {
                in_force += 1;
                Judgement::Accepted
            }
            Body::Epoch => Judgement::Stale,
            Body::Transaction { .. } if !timely => Judgement::Late,
            Body::Transaction { client, job, .. } => {
                match committed.iter().find(|earlier| (earlier.0, earlier.1) == (*client, *job)) {
                    Some(&(_, _, earlier)) => Judgement::Again(earlier),
                    None => {
                        committed.push((*client, *job, position));
                        Judgement::Committed
                    }
                }
            }
        });
    }
    judgements
}
