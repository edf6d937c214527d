ghost use Rattle.std.specs.Prelude.{◌≡◌};
ghost use Rattle.change_ops.specs.declared.size.Size.TheVariants.{Small};

use crate::core_scene::{Board, FIRST, LENGTH, ROOM, verified};
use crate::fault::Fault;
use crate::shown::{change_of, program_text, version_text};
use crate::stage::{Answer, Stage};
use change_history::history::History;
use change_ops::size::Size;
use feeds::sink::ListSink;
use hub_core::hub::Core;
use std::alloc::{AllocError, Global};
use std::marker::Brand;
use std::sync::Wait;
use subscriber_queues::ends::{QueueError, QueueSink, Subscription, queue};
use verifier::verify::Verified;
use version_pieces::version::PieceVersion;
use version_history::published::{Naming, Published};

/// Makes a call on a hub's lists, or one that begins a core or a queue.
pub fn play<R: Print + Wait + Copy>(stage: &Stage<'_, R>) -> Result<bool, Fault> {
    let versions = boxcar::Vec::new(stage.alloc)?;
    let programs = boxcar::Vec::new(stage.alloc)?;
    on_lists::<Brand, _>(stage, &versions, &programs)
}

fn on_lists<N: Naming, R: Print + Wait + Copy>(
    stage: &Stage<'_, R>,
    versions: &boxcar::Vec<PieceVersion>,
    programs: &boxcar::Vec<Verified>,
) -> Result<bool, Fault>
    requires named { (Small ≡ N.size) × (versions.now ≡ N.versions) × (programs.now ≡ N.programs) }
{
    let board = Board {
        published: Published::<N>::new(Size::Small, versions, programs),
        versions,
        programs,
    };
    match stage.call {
        "publish" => version_published(stage, &board),
        "publish_program" => program_published(stage, &board),
        "queue" => queue_made::<N, R>(stage),
        _ => core_made(stage, &board),
    }
}

/// How many versions and programs are published.
fn state<N: Naming>(alloc: Global, board: &Board<'_, N>) -> Result<String, AllocError> {
    format!(in alloc;
        "{} versions, {} programs",
        board.versions.count(),
        board.programs.count()
    )
}

fn new_version(alloc: Global) -> Result<PieceVersion, Fault> {
    let mut history = History::new(alloc, Size::Small);
    let change = change_of(alloc, FIRST).ok_or(Fault::Scene)?;
    history.accept(change).ok().ok_or(Fault::Scene)?;
    Ok(history.version(alloc)?)
}

/// Publishes a version, and the one that comes back once more.
fn version_published<N: Naming, R: Print + Wait>(
    stage: &Stage<'_, R>,
    board: &Board<'_, N>,
) -> Result<bool, Fault> {
    let version = new_version(stage.alloc)?;
    let back = publish_once(stage, board, version)?;
    match back {
        Some(version) => {
            publish_once(&stage.again(), board, version)?;
            Ok(true)
        }
        None => Ok(false),
    }
}

/// Publishes a version, and answers it where it comes back.
fn publish_once<N: Naming, R: Print + Wait>(
    stage: &Stage<'_, R>,
    board: &Board<'_, N>,
    version: PieceVersion,
) -> Result<Option<PieceVersion>, Fault> {
    let before = state(stage.alloc, board)?;
    stage.begin()?;
    let outcome = board.published.publish(stage.rt, version);
    stage.end()?;
    let answer = match &outcome {
        Ok(token) => Answer::of(version_text(stage.alloc, board.published.look(token))?),
        Err(version) => Answer::handed_back(
            stage.alloc,
            version_text(stage.alloc, version)?.as_str(),
        )?,
    };
    let after = state(stage.alloc, board)?;
    stage.tell_change(&answer, before.as_str(), after.as_str())?;
    Ok(outcome.err())
}

/// Publishes a program, and the one that comes back once more.
fn program_published<N: Naming, R: Print + Wait>(
    stage: &Stage<'_, R>,
    board: &Board<'_, N>,
) -> Result<bool, Fault> {
    let program = verified(stage.alloc, LENGTH)?;
    let back = publish_program_once(stage, board, program)?;
    match back {
        Some(program) => {
            publish_program_once(&stage.again(), board, program)?;
            Ok(true)
        }
        None => Ok(false),
    }
}

/// Publishes a program, and answers it where it comes back.
fn publish_program_once<N: Naming, R: Print + Wait>(
    stage: &Stage<'_, R>,
    board: &Board<'_, N>,
    program: Verified,
) -> Result<Option<Verified>, Fault> {
    let before = state(stage.alloc, board)?;
    stage.begin()?;
    let outcome = board.published.publish_program(stage.rt, program);
    stage.end()?;
    let answer = match &outcome {
        Ok(token) => Answer::of(program_text(stage.alloc, board.published.program(token))?),
        Err(program) => Answer::handed_back(
            stage.alloc,
            program_text(stage.alloc, program)?.as_str(),
        )?,
    };
    let after = state(stage.alloc, board)?;
    stage.tell_change(&answer, before.as_str(), after.as_str())?;
    Ok(outcome.err())
}

fn core_made<N: Naming, R: Print + Wait>(
    stage: &Stage<'_, R>,
    board: &Board<'_, N>,
) -> Result<bool, Fault> {
    let is_want = core_made_once(stage, board)?;
    if is_want {
        core_made_once(&stage.again(), board)?;
    }
    Ok(is_want)
}

fn core_made_once<N: Naming, R: Print + Wait>(
    stage: &Stage<'_, R>,
    board: &Board<'_, N>,
) -> Result<bool, Fault> {
    let before = state(stage.alloc, board)?;
    stage.begin()?;
    let outcome = Core::<N, ListSink<N>>::new(stage.rt, stage.alloc, &board.published);
    stage.end()?;
    let answer = match outcome {
        Ok(core) => Answer::of(format!(in stage.alloc; "{} changes", core.count())?),
        Err(_) => Answer::no_memory(stage.alloc)?,
    };
    let after = state(stage.alloc, board)?;
    stage.tell_change(&answer, before.as_str(), after.as_str())?;
    Ok(answer.is_want)
}

/// That a queue was made, in which nothing waits.
fn queue_answer<N: Naming, R: Wait + Copy>(
    alloc: Global,
    ends: (QueueSink<N, R>, Subscription<N, R>),
) -> Result<Answer, AllocError> {
    let (_sink, mut subscription) = ends;
    let is_empty = subscription.take().is_none();
    Ok(Answer::of(format!(in alloc; "empty {is_empty}")?))
}

fn queue_made<N: Naming, R: Print + Wait + Copy>(stage: &Stage<'_, R>) -> Result<bool, Fault> {
    let rt = *stage.rt;
    stage.begin()?;
    let outcome = queue::<N, R>(rt, stage.alloc, ROOM);
    stage.end()?;
    let answer = match outcome {
        Ok(ends) => queue_answer(stage.alloc, ends)?,
        Err(error) => Answer::refused(stage.alloc, error, error == QueueError::OutOfMemory)?,
    };
    stage.tell(&answer)?;
    Ok(false)
}
