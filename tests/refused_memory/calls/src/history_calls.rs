use crate::core_scene::{FIRST, SECOND, third};
use crate::fault::Fault;
use crate::shown::{change_of, version_text};
use crate::stage::{Answer, Stage};
use change_history::history::History;
use change_history::refusal::SubmitError;
use change_ops::id::OpId;
use change_ops::keys::STRONG;
use change_ops::size::Size;
use std::alloc::{AllocError, Global};

/// Makes a call on a history of two changes.
pub fn play<R: Print>(stage: &Stage<'_, R>) -> Result<bool, Fault> {
    let mut history = History::new(stage.alloc, Size::Small);
    for text in [FIRST, SECOND] {
        accept(stage.alloc, &mut history, text)?;
    }
    match stage.call {
        "flatten" => flattened(stage, &history),
        "format_at" => format_found(stage, &history),
        _ => accepted_and_again(stage, &mut history),
    }
}

fn accept(alloc: Global, history: &mut History, text: &str) -> Result<(), Fault> {
    let change = change_of(alloc, text).ok_or(Fault::Scene)?;
    history.accept(change).ok().ok_or(Fault::Scene)
}

/// `History::version` calls `flatten` on what the history keeps, and puts the spans in blocks.
fn flattened<R: Print>(stage: &Stage<'_, R>, history: &History) -> Result<bool, Fault> {
    stage.begin()?;
    let outcome = history.version(stage.alloc);
    stage.end()?;
    let answer = match outcome {
        Ok(version) => Answer::of(version_text(stage.alloc, &version)?),
        Err(_) => Answer::no_memory(stage.alloc)?,
    };
    stage.tell(&answer)?;
    Ok(false)
}

fn format_found<R: Print>(stage: &Stage<'_, R>, history: &History) -> Result<bool, Fault> {
    let id = OpId::new(1, 1).ok_or(Fault::Scene)?;
    stage.begin()?;
    let outcome = history.format_at(stage.alloc, id);
    stage.end()?;
    let answer = match &outcome {
        Ok(Some(format)) if format.has(STRONG) => {
            Answer::of(String::from_str(stage.alloc, "strong")?)
        }
        Ok(_) => Answer::of(String::from_str(stage.alloc, "not strong")?),
        Err(_) => Answer::no_memory(stage.alloc)?,
    };
    stage.tell(&answer)?;
    Ok(false)
}

fn state(alloc: Global, history: &History) -> Result<String, AllocError> {
    let version = history.version(alloc)?;
    let spans = version_text(alloc, &version)?;
    format!(in alloc; "{} changes, {spans}", history.len())
}

fn accepted_and_again<R: Print>(
    stage: &Stage<'_, R>,
    history: &mut History,
) -> Result<bool, Fault> {
    let is_want = accepted(stage, history)?;
    if is_want {
        accepted(&stage.again(), history)?;
    }
    Ok(is_want)
}

fn accepted<R: Print>(stage: &Stage<'_, R>, history: &mut History) -> Result<bool, Fault> {
    let change = third(stage.alloc)?;
    let before = state(stage.alloc, history)?;
    stage.begin()?;
    let outcome = history.accept(change);
    stage.end()?;
    let answer = match outcome {
        Ok(()) => Answer::of(String::from_str(stage.alloc, "accepted")?),
        Err(error) => Answer::refused(stage.alloc, error, error == SubmitError::OutOfMemory)?,
    };
    let after = state(stage.alloc, history)?;
    stage.tell_change(&answer, before.as_str(), after.as_str())?;
    Ok(answer.is_want)
}
