//! Makes calls that may want memory, each on a small scene of its own, and tells what each answered and what stands
//! then.
//! `tests/refused_memory` runs it, and refuses one request for memory after another.
//!
//! With no word on the command line all calls are made, else those that the words name. These lines tell of a call:
//!
//! | line | what it says |
//! |---|---|
//! | `begin CALL` | the call is made now; the memory of its scene was found before |
//! | `answer TEXT` | what it answered; the first word is written before anything else asks for memory |
//! | ` before TEXT` | what the public calls showed, before it, of what it works on |
//! | ` after TEXT` | what they show after it |
//! | `again TEXT` | what the same call then answers, on the same scene where it had found no memory, else on one made
//! anew |
//! | ` after TEXT` | what is shown then |
//! | ` rest TEXT` | what is shown in the end, once all that is due to subscribers was done |
//!
//! A call has those of the lines that there is something to say in. `run_events-submit-commit` is `run_events` without
//! these two events; `subscribe` may be left out too.
//!
//! The exit status is 0; 2 where there is no such call; 3 where no memory was found outside a call, which the last line
//! says, or where standard output can't be written.
#![tactic(auto)]

mod core_calls;
mod core_scene;
mod event_calls;
mod fault;
mod history_calls;
mod hub_calls;
mod list_calls;
mod program_calls;
mod shown;
mod stage;
mod text_calls;

use crate::fault::Fault;
use crate::stage::{Stage, Turn};
use std::alloc::{AllocError, Global};
use std::env;
use std::process::ExitCode;
use std::sync::Wait;
use std::thread::Threads;

/// The calls that are made with no word on the command line.
static CALLS: [&str; 24] = [
    "read_change",
    "write_change",
    "assemble",
    "disassemble",
    "verify",
    "verify-2",
    "state_before",
    "accept",
    "flatten",
    "format_at",
    "publish",
    "publish_program",
    "queue",
    "Core::new",
    "submit",
    "subscribe",
    "subscribe_from",
    "compute",
    "commit",
    "run_events",
    "filter",
    "Hub::new",
    "ingest",
    "catch_up",
];

/// Makes a call. It answers whether that found no memory, and was then made once more.
fn make<R: Print + Threads + Wait + Copy + Send + Sync>(
    stage: &Stage<'_, R>,
) -> Result<bool, Fault> {
    match stage.call {
        "read_change" | "write_change" => text_calls::play(stage),
        "assemble" | "disassemble" | "verify" | "verify-2" | "state_before" => {
            program_calls::play(stage)
        }
        "accept" | "flatten" | "format_at" => history_calls::play(stage),
        "publish" | "publish_program" | "queue" | "Core::new" => list_calls::play(stage),
        "Hub::new" | "ingest" | "catch_up" => hub_calls::play(stage),
        _ => core_calls::play(stage),
    }
}

/// Makes a call twice.
fn make_twice<R: Print + Threads + Wait + Copy + Send + Sync>(
    rt: &R,
    alloc: Global,
    call: &str,
) -> Result<(), Fault> {
    let stage = Stage {
        rt,
        alloc,
        call,
        turn: Turn::First,
    };
    if !make(&stage)? {
        make(&stage.again())?;
    }
    Ok(())
}

/// Makes the calls that the words behind the first name, or all.
fn make_each<R: Print + Threads + Wait + Copy + Send + Sync>(
    rt: &R,
    alloc: Global,
    words: &[String],
) -> Result<(), Fault> {
    if words.len() <= 1 {
        for call in CALLS {
            make_twice(rt, alloc, call)?;
        }
    }
    for word in words.iter().skip(1) {
        make_twice(rt, alloc, word.as_str())?;
    }
    Ok(())
}

/// The words that the program was called with.
fn words(rt: &HostRuntime) -> Result<Vec<String>, Fault> {
    let words: Result<Vec<String>, AllocError> = env::args(rt)?.collect(rt.alloc());
    Ok(words?)
}

fn main(rt: HostRuntime) -> ExitCode {
    let outcome = match words(&rt) {
        Ok(words) => make_each(&rt, rt.alloc(), words.as_slice()),
        Err(fault) => Err(fault),
    };
    let status = match outcome {
        Ok(()) => 0,
        Err(Fault::NoCall) => 2,
        Err(Fault::Output) => 3,
        Err(Fault::Scene) => {
            let _ = rt.println("no memory outside the call");
            3
        }
    };
    ExitCode::from(status)
}
