//! Four servers and one broadcast: the nine acts and the one question that a run file can ask (docs/acts.md).

use crate::broadcast::{Body, Broadcast};
use crate::database::Make;
use crate::judging::{judge, Judgement};
use crate::refusals::{require, Refusal};
use crate::server::Server;
use crate::statements::{Statement, CELLS};

/// The makes of the servers' databases, server 1 first.
const MAKES: [Make; 4] = [Make::InPlace, Make::Deferred, Make::InPlace, Make::Deferred];

/// How many clients there can be.
const CLIENTS: usize = 16;

/// Whose transaction, and at which server.
#[derive(Clone, Copy, Debug)]
pub struct Whose {
    pub server: usize,
    pub client: usize,
    pub job: u64,
}

/// One step: an act, or the question for a cell.
#[derive(Clone, Copy, Debug)]
pub enum Step {
    Begin(Whose),
    Run(Whose, Statement),
    Commit(Whose),
    Abort(Whose),
    Suspect { server: usize },
    Order,
    Deliver { server: usize },
    Stop { server: usize },
    Start { server: usize },
    Cell { server: usize, cell: usize },
}

/// The answer to an obeyed step.
pub enum Answer {
    Done,
    Value(u64),
    /// A delivered message: its position, its judgement and, for a transaction, its client and job.
    Delivered {
        position: usize,
        judgement: Judgement,
        transaction: Option<(usize, u64)>,
    },
}

/// The whole state.
pub struct Ensemble {
    servers: Vec<Server>,
    broadcast: Broadcast,
}

impl Ensemble {
    /// A new ensemble of four servers.
    pub fn new() -> Self {
        let servers = MAKES.iter().zip(1..).map(|(make, number)| Server::new(number, *make)).collect();
        Ensemble { servers, broadcast: Broadcast::default() }
    }

    /// Takes one step. A refused step changes nothing.
    pub fn take(&mut self, step: Step) -> Result<Answer, Refusal> {
        let servers = self.servers.len();
        let full = self.broadcast.is_full();
        match step {
            Step::Begin(whose) => self.serving(whose)?.begin(whose.client, whose.job, servers)?,
            Step::Run(whose, statement) => {
                let server = self.serving(whose)?;
                require(statement.exists(), Refusal::NoCell)?;
                return server.run(whose.client, whose.job, statement).map(Answer::Value);
            }
            Step::Commit(whose) => {
                let message = self.serving(whose)?.commit(whose.client, whose.job, full)?;
                self.broadcast.offer(message);
            }
            Step::Abort(whose) => self.serving(whose)?.abort(whose.client, whose.job)?,
            Step::Suspect { server } => {
                let message = self.running(server)?.suspicion();
                require(!full, Refusal::Full)?;
                self.broadcast.offer(message);
            }
            Step::Order => {
                let position = self.broadcast.order().ok_or(Refusal::NoneWaiting)?;
                return Ok(Answer::Value(position as u64));
            }
            Step::Deliver { server } => return self.deliver(server),
            Step::Stop { server } => self.running(server)?.stop(),
            Step::Start { server } => {
                let ordered = self.broadcast.log().len();
                let server = self.server(server)?;
                require(!server.running, Refusal::Running)?;
                server.start(ordered);
            }
            Step::Cell { server, cell } => {
                let server = self.server(server)?;
                require(cell < CELLS, Refusal::NoCell)?;
                return Ok(Answer::Value(server.database.cell(cell)));
            }
        }
        Ok(Answer::Done)
    }

    /// Hands a server the next message of the log, with the judgement that the log gives it.
    fn deliver(&mut self, server: usize) -> Result<Answer, Refusal> {
        let position = self.running(server)?.delivered;
        let message = self.broadcast.log().get(position).cloned().ok_or(Refusal::AllDelivered)?;
        let judgement = judge(self.broadcast.log())[position];
        self.running(server)?.deliver(&message, judgement);
        let transaction = match message.body {
            Body::Transaction { client, job, .. } => Some((client, job)),
            Body::Epoch => None,
        };
        Ok(Answer::Delivered { position, judgement, transaction })
    }

    /// The server of that number; else 1.
    fn server(&mut self, number: usize) -> Result<&mut Server, Refusal> {
        self.servers.iter_mut().find(|server| server.number == number).ok_or(Refusal::NoServer)
    }

    /// The server of that number, if it runs; else 1 or 2.
    fn running(&mut self, number: usize) -> Result<&mut Server, Refusal> {
        let server = self.server(number)?;
        require(server.running, Refusal::Stopped)?;
        Ok(server)
    }

    /// The running server of a transaction's act, where the client exists; else 1, 2 or 4.
    fn serving(&mut self, whose: Whose) -> Result<&mut Server, Refusal> {
        let server = self.running(whose.server)?;
        require(whose.client < CLIENTS, Refusal::NoClient)?;
        Ok(server)
    }
}
