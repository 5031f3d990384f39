//! The lines that are printed (docs/run-file.md).

use crate::ensemble::{Answer, Ensemble, Step};
use crate::judging::Judgement;
use crate::refusals::Refusal;
use crate::run_file::{self, Fault};

/// Everything that a run file prints.
pub fn output(file: &[u8]) -> String {
    let run = match run_file::read(file) {
        Ok(run) => run,
        Err(Fault { number, line }) => return format!("file {number} {line}\n"),
    };
    let mut ensemble = Ensemble::new();
    let mut printed = String::new();
    for (line, step) in &run.steps {
        let answer = match ensemble.take(*step) {
            Ok(answer) => obeyed(&answer, &run.names),
            Err(refusal) => refused(refusal, step),
        };
        printed += &format!("{line} -> {answer}\n");
    }
    printed
}

/// The answer to an obeyed step.
fn obeyed(answer: &Answer, names: &[&str]) -> String {
    match answer {
        Answer::Done => "ok".to_string(),
        Answer::Value(value) => format!("ok {value}"),
        Answer::Delivered { position, judgement, transaction } => {
            let whose = transaction.map_or(String::new(), |(client, job)| format!(" {} {job}", names[client]));
            match judgement {
                Judgement::Accepted => format!("ok {position} epoch"),
                Judgement::Stale => format!("ok {position} stale"),
                Judgement::Committed => format!("ok {position} commit{whose}"),
                Judgement::Late => format!("ok {position} late{whose}"),
                Judgement::Again(earlier) => format!("ok {position} again{whose} {earlier}"),
            }
        }
    }
}

/// The answer to a refused step; a busy database is busy with the cell of the step's statement.
fn refused(refusal: Refusal, step: &Step) -> String {
    match (refusal, step) {
        (Refusal::Busy, Step::Run(_, statement)) => format!("no 13 {}", statement.cell),
        _ => format!("no {}", refusal as u8),
    }
}
