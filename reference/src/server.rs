//! One server with its database: what an obeyed act leaves there (docs/acts.md).

use crate::broadcast::{Body, Message};
use crate::database::{Database, Make, SLOTS};
use crate::judging::{primary, Judgement};
use crate::refusals::{require, Refusal};
use crate::statements::Statement;

/// How many statements a transaction may note.
const NOTES: usize = 6;

/// An open transaction: executing, until it is committing.
struct Transaction {
    client: usize,
    job: u64,
    slot: usize,
    noted: Vec<(Statement, u64)>,
    committing: bool,
}

/// A server. Its calls look only for refusals from 4 on; 1, 2 and 3 are the ensemble's.
pub struct Server {
    pub number: usize,
    pub running: bool,
    pub delivered: usize,
    pub database: Database,
    epoch: u64,
    bar: Option<usize>,
    transactions: Vec<Transaction>,
}

impl Server {
    /// A running server in epoch 1, with nothing open or delivered and no bar.
    pub fn new(number: usize, make: Make) -> Self {
        let database = Database::new(make);
        Server { number, running: true, delivered: 0, database, epoch: 1, bar: None, transactions: Vec::new() }
    }

    /// The place of the open transaction of that client and job.
    fn place(&self, client: usize, job: u64) -> Option<usize> {
        self.transactions.iter().position(|open| open.client == client && open.job == job)
    }

    /// The place of the executing transaction of that client and job; else 10 or 11.
    fn executing(&self, client: usize, job: u64) -> Result<usize, Refusal> {
        let place = self.place(client, job).ok_or(Refusal::NotOpen)?;
        require(!self.transactions[place].committing, Refusal::Committing)?;
        Ok(place)
    }

    /// Opens an executing transaction; else 6, 7, 8 or 9.
    pub fn begin(&mut self, client: usize, job: u64, servers: usize) -> Result<(), Refusal> {
        require(primary(self.epoch, servers) == self.number, Refusal::NotPrimary)?;
        require(self.bar.is_none(), Refusal::Barred)?;
        require(self.place(client, job).is_none(), Refusal::OpenAlready)?;
        require(self.transactions.len() < SLOTS, Refusal::AllOpen)?;
        let slot = self.database.open().expect("fewer than eight transactions leave a slot free");
        self.transactions.push(Transaction { client, job, slot, noted: Vec::new(), committing: false });
        Ok(())
    }

    /// Runs a statement and notes it with its result; else 10, 11, 12 or 13.
    pub fn run(&mut self, client: usize, job: u64, statement: Statement) -> Result<u64, Refusal> {
        let place = self.executing(client, job)?;
        let open = &mut self.transactions[place];
        require(open.noted.len() < NOTES, Refusal::AllNoted)?;
        let result = self.database.run(open.slot, &statement).ok_or(Refusal::Busy)?;
        open.noted.push((statement, result));
        Ok(result)
    }

    /// The transaction becomes committing, and its message is told; else 10, 11 or, where the broadcast is full, 14.
    pub fn commit(&mut self, client: usize, job: u64, full: bool) -> Result<Message, Refusal> {
        let place = self.executing(client, job)?;
        require(!full, Refusal::Full)?;
        let open = &mut self.transactions[place];
        open.committing = true;
        let noted = open.noted.clone();
        Ok(Message { sender: self.number, epoch: self.epoch, body: Body::Transaction { client, job, noted } })
    }

    /// Undoes an executing transaction; else 10 or 11.
    pub fn abort(&mut self, client: usize, job: u64) -> Result<(), Refusal> {
        let place = self.executing(client, job)?;
        self.undo(place);
        Ok(())
    }

    /// The message that the server's epoch should end.
    pub fn suspicion(&self) -> Message {
        Message { sender: self.number, epoch: self.epoch, body: Body::Epoch }
    }

    /// Stops: all but the cells and the mark is lost.
    pub fn stop(&mut self) {
        self.running = false;
        self.epoch = 1;
        self.delivered = 0;
        self.bar = None;
        self.transactions.clear();
        self.database.lose();
    }

    /// Starts, with a bar at the count of ordered messages.
    pub fn start(&mut self, ordered: usize) {
        self.running = true;
        self.bar = Some(ordered);
    }

    /// Handles the message at the delivered count.
    pub fn deliver(&mut self, message: &Message, judgement: Judgement) {
        let position = self.delivered;
        self.delivered += 1;
        match (judgement, &message.body) {
            (Judgement::Accepted, _) => {
                while let Some(last) = self.transactions.len().checked_sub(1) {
                    self.undo(last);
                }
                self.epoch += 1;
                self.bar = self.bar.filter(|bar| position < *bar);
            }
            (Judgement::Committed, Body::Transaction { client, job, noted }) => {
                if let Some(place) = self.own(message, *client, *job) {
                    let slot = self.transactions.remove(place).slot;
                    self.database.seal(slot, position);
                } else if position >= self.database.mark() {
                    self.database.intake(noted, position);
                }
            }
            (Judgement::Again(_), Body::Transaction { client, job, .. }) => {
                if let Some(place) = self.own(message, *client, *job) {
                    self.undo(place);
                }
            }
            _ => {}
        }
    }

    /// The place of the committing transaction that makes a message the server's own.
    fn own(&self, message: &Message, client: usize, job: u64) -> Option<usize> {
        let sent_here = message.sender == self.number && message.epoch == self.epoch;
        let place = self.place(client, job).filter(|_| sent_here)?;
        self.transactions[place].committing.then_some(place)
    }

    /// Undoes and removes the transaction at a place.
    fn undo(&mut self, place: usize) {
        let slot = self.transactions.remove(place).slot;
        self.database.undo(slot);
    }
}
