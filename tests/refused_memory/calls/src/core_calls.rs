ghost use Rattle.std.specs.Prelude.{◌≡◌};
ghost use Rattle.change_ops.specs.declared.size.Size.TheVariants.{Small};

use crate::core_scene::{
    Board, ROOM, published, rest, scene, state, submitted, subscribed, third, verified,
};
use crate::event_calls::run_events_once;
use crate::fault::Fault;
use crate::shown::{change_of, items_text};
use crate::stage::{Answer, Stage, Turn};
use change_history::refusal::SubmitError;
use change_ops::change::Change;
use change_ops::size::Size;
use feeds::batch::Batch;
use feeds::item::Job;
use feeds::sink::ListSink;
use filter_workers::filter::filter;
use hub_core::error::{CommitError, SubscribeError};
use hub_core::hub::Core;
use std::alloc::{AllocError, Global};
use std::marker::Brand;
use std::sync::Wait;
use std::thread::Threads;
use verifier::verify::Verified;
use version_pieces::version::PieceVersion;
use version_history::published::{Naming, ProgramToken, Published};

/// Makes a call of a core, or on a job of one.
pub fn play<R: Print + Threads + Wait + Sync>(stage: &Stage<'_, R>) -> Result<bool, Fault> {
    let versions = boxcar::Vec::new(stage.alloc)?;
    let programs = boxcar::Vec::new(stage.alloc)?;
    on_lists::<Brand, _>(stage, &versions, &programs)
}

fn on_lists<N: Naming, R: Print + Threads + Wait + Sync>(
    stage: &Stage<'_, R>,
    versions: &boxcar::Vec<PieceVersion>,
    programs: &boxcar::Vec<Verified>,
) -> Result<bool, Fault>
    requires named { (Small ≡ N.size) × (versions.now ≡ N.versions) × (programs.now ≡ N.programs) }
{
    let board = Board {
        published: Published::<N>::new(Size::Small, versions, programs),
        versions,
        programs,
    };
    match stage.call {
        "filter" => filtered(stage, &board),
        "compute" => computed(stage, &board),
        _ => on_core(stage, &board),
    }
}

/// How many subscribers the scene of a call has: with none or four a further one needs more room for them.
fn subscribers(call: &str) -> u8 {
    match call {
        "subscribe" => 0,
        "subscribe_from" => 4,
        _ => 1,
    }
}

/// Makes a call of a core, which is made again where it finds no memory.
fn on_core<N: Naming, R: Print + Wait>(
    stage: &Stage<'_, R>,
    board: &Board<'_, N>,
) -> Result<bool, Fault> {
    let subscribers = subscribers(stage.call);
    let (mut core, program) = scene(stage.rt, stage.alloc, board, subscribers)?;
    let is_want = make_once(stage, board, &mut core, &program)?;
    if is_want {
        make_once(&stage.again(), board, &mut core, &program)?;
    }
    if is_want || stage.turn == Turn::Again {
        let rest = rest(stage.alloc, board, &mut core)?;
        stage.tell_line("rest", rest.as_str())?;
    }
    Ok(is_want)
}

fn make_once<N: Naming, R: Print + Wait>(
    stage: &Stage<'_, R>,
    board: &Board<'_, N>,
    core: &mut Core<'_, N, ListSink<N>>,
    program: &ProgramToken<N>,
) -> Result<bool, Fault> {
    match stage.call {
        "submit" => submit_once(stage, board, core),
        "subscribe" | "subscribe_from" => subscribe_once(stage, board, core, program.again()),
        "commit" => commit_once(stage, board, core),
        call if call.starts_with("run_events") => {
            run_events_once(stage, board, core, program.again())
        }
        _ => Err(Fault::NoCall),
    }
}

fn submit_once<N: Naming, R: Print + Wait>(
    stage: &Stage<'_, R>,
    board: &Board<'_, N>,
    core: &mut Core<'_, N, ListSink<N>>,
) -> Result<bool, Fault> {
    let change = third(stage.alloc)?;
    let before = state(stage.alloc, board, core)?;
    stage.begin()?;
    let outcome = core.submit(stage.rt, change);
    stage.end()?;
    let answer = match outcome {
        Ok(token) => {
            let number = board.published.look(&token).number();
            Answer::of(format!(in stage.alloc; "version {number}")?)
        }
        Err(error) => Answer::refused(stage.alloc, error, error == SubmitError::OutOfMemory)?,
    };
    let after = state(stage.alloc, board, core)?;
    stage.tell_change(&answer, before.as_str(), after.as_str())?;
    Ok(answer.is_want)
}

/// A subscriber from the latest version on, or from version 1 on.
fn subscribe_once<N: Naming, R: Print>(
    stage: &Stage<'_, R>,
    board: &Board<'_, N>,
    core: &mut Core<'_, N, ListSink<N>>,
    program: ProgramToken<N>,
) -> Result<bool, Fault> {
    let sink = ListSink::new(stage.alloc, ROOM)?;
    let before = state(stage.alloc, board, core)?;
    stage.begin()?;
    let outcome = match stage.call {
        "subscribe" => core.subscribe(program, sink),
        _ => core.subscribe_from(program, sink, 1),
    };
    stage.end()?;
    let answer = match outcome {
        Ok(id) => Answer::of(format!(in stage.alloc; "subscriber {id}")?),
        Err(error) => Answer::refused(stage.alloc, error, error == SubscribeError::OutOfMemory)?,
    };
    let after = state(stage.alloc, board, core)?;
    stage.tell_change(&answer, before.as_str(), after.as_str())?;
    Ok(answer.is_want)
}

fn commit_once<N: Naming, R: Print>(
    stage: &Stage<'_, R>,
    board: &Board<'_, N>,
    core: &mut Core<'_, N, ListSink<N>>,
) -> Result<bool, Fault> {
    let job = core.missing_job(0).ok_or(Fault::Scene)?;
    let batch = Batch::compute(stage.alloc, &board.published, &job)?;
    let before = state(stage.alloc, board, core)?;
    stage.begin()?;
    let outcome = core.commit(batch);
    stage.end()?;
    let answer = match outcome {
        Ok(()) => Answer::of(String::from_str(stage.alloc, "held")?),
        Err(error) => Answer::refused(stage.alloc, error, error == CommitError::OutOfMemory)?,
    };
    let after = state(stage.alloc, board, core)?;
    stage.tell_change(&answer, before.as_str(), after.as_str())?;
    Ok(answer.is_want)
}

fn batch_answer<N: Naming>(
    alloc: Global,
    outcome: Result<Batch<N>, AllocError>,
) -> Result<Answer, AllocError> {
    match outcome {
        Ok(batch) => Ok(Answer::of(items_text(alloc, batch.items())?)),
        Err(_) => Answer::no_memory(alloc),
    }
}

/// The batch of version 2, of three spans.
fn computed<N: Naming, R: Print + Wait>(
    stage: &Stage<'_, R>,
    board: &Board<'_, N>,
) -> Result<bool, Fault> {
    let (mut core, _program) = scene(stage.rt, stage.alloc, board, 1)?;
    let mut job = core.missing_job(0).ok_or(Fault::Scene)?;
    for _ in 0..2u8 {
        job = core.take_job().ok_or(Fault::Scene)?;
    }
    stage.begin()?;
    let outcome = Batch::compute(stage.alloc, &board.published, &job);
    stage.end()?;
    stage.tell(&batch_answer(stage.alloc, outcome)?)?;
    Ok(false)
}

/// 130 characters, of which every second one is strong.
fn long_change(alloc: Global) -> Result<Change, Fault> {
    let mut text = String::from_str(alloc, "change2 1 66\nr 1@1 - 130")?;
    for _ in 0..130u8 {
        text.push_str(" 61")?;
    }
    text.push('\n')?;
    for index in 1..66u32 {
        let character = index * 2;
        let mark = format!(in alloc;
            "m {}@1 strong - <{character}@1 >{character}@1\n",
            index + 130
        )?;
        text.push_str(mark.as_str())?;
    }
    change_of(alloc, text.as_str()).ok_or(Fault::Scene)
}

/// A program of 4,096 slots. Its verdict is the span's index and 4,094.
fn long_program(alloc: Global) -> Result<Verified, Fault> {
    let mut digits = String::from_str(alloc, "6110280000000000")?;
    for _ in 0..4094u32 {
        digits.push_str("0700000001000000")?;
    }
    digits.push_str("9500000000000000")?;
    verified(alloc, digits.as_str())
}

/// The job of a long program on many spans, which are shared out among two threads where there are two processors.
fn long_job<N: Naming, R: Wait>(
    rt: &R,
    alloc: Global,
    board: &Board<'_, N>,
) -> Result<Job<N>, Fault> {
    let mut core = Core::new(rt, alloc, &board.published)?;
    submitted(rt, &mut core, long_change(alloc)?)?;
    let program = published(rt, board, long_program(alloc)?)?;
    subscribed(alloc, &mut core, program, 1)?;
    core.take_job().ok_or(Fault::Scene)
}

fn filtered<N: Naming, R: Print + Threads + Wait + Sync>(
    stage: &Stage<'_, R>,
    board: &Board<'_, N>,
) -> Result<bool, Fault> {
    let job = long_job(stage.rt, stage.alloc, board)?;
    stage.begin()?;
    let outcome = filter(stage.rt, stage.alloc, &board.published, &job, None);
    stage.end()?;
    stage.tell(&batch_answer(stage.alloc, outcome)?)?;
    Ok(false)
}
