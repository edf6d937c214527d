ghost use Rattle.std.specs.Prelude.{All, IfOk};
ghost use Rattle.feeds.specs.Orderly.{ListSink as ListSinkValue};
ghost use Rattle.hub_core.specs.Runs.{IsFreshEvent};

use crate::core_scene::{Board, ROOM, state, third};
use crate::fault::Fault;
use crate::stage::{Answer, Stage};
use feeds::item::Job;
use feeds::sink::ListSink;
use hub_core::hub::Core;
use hub_core::run::{Event, Reply, run_events};
use std::alloc::{AllocError, Global};
use std::sync::Wait;
use version_history::published::{Naming, ProgramToken, VersionToken};

type Asked<N> = Event<ProgramToken<N>, ListSink<N>>;

type Replied<N> = Reply<VersionToken<N>, Job<N>>;

/// Appends an event, if it is not left out.
fn push_event<N: Naming>(
    events: &mut Vec<Asked<N>>,
    is_left_out: bool,
    event: Asked<N>,
) -> Result<(), AllocError>
    requires fresh { IsFreshEvent (λ (s : ListSinkValue). s.sent) (λ (s : ListSinkValue). None) N.size event }
    requires all { All (IsFreshEvent (λ (s : ListSinkValue). s.sent) (λ (s : ListSinkValue). None) N.size)
        events.old.items }
    ensures { IfOk result (λ _. All (IsFreshEvent (λ (s : ListSinkValue). s.sent) (λ (s : ListSinkValue). None)
        N.size) events.new.items) }
{
    if is_left_out {
        return Ok(());
    }
    events.push(event)?;
    Ok(())
}

/// A change, a subscriber, a job, its batch and its items.
fn events<N: Naming>(
    alloc: Global,
    call: &str,
    program: ProgramToken<N>,
) -> Result<Vec<Asked<N>>, Fault>
    ensures { IfOk result (λ events. All (IsFreshEvent (λ (s : ListSinkValue). s.sent) (λ (s : ListSinkValue). None)
        N.size) events.items) }
{
    let mut events = Vec::new(alloc);
    let change = third(alloc)?;
    let sink = ListSink::new(alloc, ROOM)?;
    push_event(&mut events, call.contains("-submit"), Event::Submit(change))?;
    push_event(
        &mut events,
        call.contains("-subscribe"),
        Event::SubscribeFrom(program, sink, 0),
    )?;
    push_event(&mut events, false, Event::TakeJob)?;
    push_event(&mut events, call.contains("-commit"), Event::Commit(0))?;
    push_event(&mut events, false, Event::Pump(0))?;
    Ok(events)
}

/// A reply by its event's word, with what it has or its error.
fn reply_text<N: Naming>(
    alloc: Global,
    board: &Board<'_, N>,
    reply: &Replied<N>,
) -> Result<String, AllocError> {
    match reply {
        Reply::Submitted(Ok(token)) => {
            format!(in alloc; "submit {}", board.published.look(token).number())
        }
        Reply::Submitted(Err(error)) => format!(in alloc; "submit {error}"),
        Reply::Subscribed(Ok(id)) => format!(in alloc; "subscribe {id}"),
        Reply::Subscribed(Err(error)) => format!(in alloc; "subscribe {error}"),
        Reply::Handed(Some(job)) => format!(in alloc; "job {} {}", job.subscriber, job.number),
        Reply::Handed(None) => String::from_str(alloc, "job none"),
        Reply::Committed(Ok(())) => String::from_str(alloc, "commit done"),
        Reply::Committed(Err(error)) => format!(in alloc; "commit {error}"),
        Reply::Pumped(Ok(count)) => format!(in alloc; "pump {count}"),
        Reply::Pumped(Err(error)) => format!(in alloc; "pump {error}"),
        Reply::Reissued(_) | Reply::Closed(_) => String::from_str(alloc, "no event"),
    }
}

fn replies_text<N: Naming>(
    alloc: Global,
    board: &Board<'_, N>,
    replies: &[Replied<N>],
) -> Result<String, AllocError> {
    let mut text = String::new(alloc);
    for reply in replies {
        if !text.is_empty() {
            text.push_str(", ")?;
        }
        text.push_str(reply_text(alloc, board, reply)?.as_str())?;
    }
    Ok(text)
}

/// Runs the events that the call's name does not leave out. It may answer while some of them find no memory.
pub fn run_events_once<N: Naming, R: Print + Wait>(
    stage: &Stage<'_, R>,
    board: &Board<'_, N>,
    core: &mut Core<'_, N, ListSink<N>>,
    program: ProgramToken<N>,
) -> Result<bool, Fault> {
    let events = events(stage.alloc, stage.call, program)?;
    let before = state(stage.alloc, board, core)?;
    let mut replies = Vec::new(stage.alloc);
    stage.begin()?;
    let outcome = run_events(stage.rt, stage.alloc, core, events, &mut replies);
    stage.end()?;
    let answer = match outcome {
        Ok(()) => Answer::of(replies_text(stage.alloc, board, replies.as_slice())?),
        Err(_) => Answer::no_memory(stage.alloc)?,
    };
    let after = state(stage.alloc, board, core)?;
    stage.tell_change(&answer, before.as_str(), after.as_str())?;
    Ok(answer.is_want)
}
