ghost use Rattle.std.specs.Prelude.{◌≡◌};
ghost use Rattle.change_ops.specs.declared.size.Size.TheVariants.{Small};

use crate::core_scene::{Board, FIRST, LENGTH, ROOM, SECOND, published, third, verified};
use crate::fault::Fault;
use crate::shown::items_text;
use crate::stage::{Answer, Stage, Turn};
use change_history::refusal::SubmitError;
use change_ops::refusal::ChangeError;
use change_ops::size::Size;
use change_ops::writing::write_change;
use filter_workers::work::catch_up;
use ingest_workers::hub::Hub;
use ingest_workers::ingest::{HubError, ingest};
use ingest_workers::share::Share;
use std::alloc::{AllocError, Global};
use std::marker::Brand;
use std::sync::Wait;
use std::sync::ledger::{Blank, Ledger};
use std::thread::Threads;
use subscriber_queues::ends::{Subscription, queue};
use verifier::verify::Verified;
use version_pieces::version::PieceVersion;
use version_history::published::{Naming, Published};

/// A hub with what its callers hold.
#[derive(Drop)]
struct Held<'a, 'p, N: Naming + Ledger, R: Wait + Copy> {
    board: &'a Board<'p, N>,
    hub: Hub<'p, N, R>,
    share: Share<N>,
    /// The other end of the queue of subscriber 0.
    subscription: Subscription<N, R>,
}

/// Makes a call of a hub.
pub fn play<R: Print + Threads + Wait + Copy + Sync>(stage: &Stage<'_, R>) -> Result<bool, Fault> {
    let versions = boxcar::Vec::new(stage.alloc)?;
    let programs = boxcar::Vec::new(stage.alloc)?;
    on_lists::<Brand, _>(stage, Blank::new(2), &versions, &programs)
}

fn on_lists<N: Naming + Ledger, R: Print + Threads + Wait + Copy + Sync>(
    stage: &Stage<'_, R>,
    blank: Blank,
    versions: &boxcar::Vec<PieceVersion>,
    programs: &boxcar::Vec<Verified>,
) -> Result<bool, Fault>
    requires named { (Small ≡ N.size) × (versions.now ≡ N.versions) × (programs.now ≡ N.programs) }
    requires blank { (blank.name ≡ N.name) × (blank.parts ≡ N.parts) × (N.parts ≡ 2) }
{
    let board = Board {
        published: Published::<N>::new(Size::Small, versions, programs),
        versions,
        programs,
    };
    let is_made = stage.call == "Hub::new";
    let begun = if is_made { stage.begin() } else { Ok(()) };
    let outcome = Hub::new(stage.rt, stage.alloc, blank, &board.published, 2);
    begun?;
    if is_made {
        return hub_made(stage, &board, outcome);
    }
    let (hub, shares) = outcome?;
    let mut held = scene(stage, &board, hub, shares)?;
    on_hub(stage, &mut held)
}

/// The number of the latest version, found by the question whether there is one above it.
fn latest<N: Naming + Ledger, R: Wait + Copy>(rt: &R, hub: &Hub<'_, N, R>) -> u64 {
    for number in 0..5000u64 {
        if hub.lacks_version(rt, number + 1) {
            return number;
        }
    }
    5000
}

/// How many versions and programs are published.
fn lists<N: Naming>(alloc: Global, board: &Board<'_, N>) -> Result<String, AllocError> {
    format!(in alloc;
        "{} versions, {} programs",
        board.versions.count(),
        board.programs.count()
    )
}

/// Tells of a hub that was made or not, on lists that were empty before.
fn hub_made<N: Naming + Ledger, R: Print + Wait + Copy>(
    stage: &Stage<'_, R>,
    board: &Board<'_, N>,
    outcome: Result<(Hub<'_, N, R>, Vec<Share<N>>), AllocError>,
) -> Result<bool, Fault> {
    stage.end()?;
    let answer = match outcome {
        Ok((hub, shares)) => Answer::of(format!(in stage.alloc;
            "{} shares, the latest version is {}",
            shares.len(),
            latest(stage.rt, &hub)
        )?),
        Err(_) => Answer::no_memory(stage.alloc)?,
    };
    let after = lists(stage.alloc, board)?;
    stage.tell_change(&answer, "0 versions, 0 programs", after.as_str())?;
    Ok(false)
}

fn ingested<N: Naming + Ledger, R: Wait + Copy>(
    rt: &R,
    alloc: Global,
    hub: &Hub<'_, N, R>,
    share: &mut Share<N>,
    text: &str,
) -> Result<(), Fault> {
    match ingest(rt, alloc, hub, share, text) {
        Ok(_) => Ok(()),
        Err(_) => Err(Fault::Scene),
    }
}

/// A hub with two changes, and a subscriber from version 1 on.
fn scene<'a, 'p, N: Naming + Ledger, R: Print + Wait + Copy>(
    stage: &Stage<'_, R>,
    board: &'a Board<'p, N>,
    hub: Hub<'p, N, R>,
    shares: Vec<Share<N>>,
) -> Result<Held<'a, 'p, N, R>, Fault> {
    let rt = stage.rt;
    let mut shares = shares;
    let mut share = shares.pop().ok_or(Fault::Scene)?;
    for text in [FIRST, SECOND] {
        ingested(rt, stage.alloc, &hub, &mut share, text)?;
    }
    let program = verified(stage.alloc, LENGTH)?;
    let program = published(rt, board, program)?;
    let Ok((sink, subscription)) = queue(*rt, stage.alloc, ROOM) else {
        return Err(Fault::Scene);
    };
    if hub.subscribe_from(rt, program, sink, 1).is_err() {
        return Err(Fault::Scene);
    }
    Ok(Held {
        board,
        hub,
        share,
        subscription,
    })
}

/// Makes a call on a hub, which is made again where it finds no memory, and tells what the subscriber can take then.
fn on_hub<N: Naming + Ledger, R: Print + Threads + Wait + Copy + Sync>(
    stage: &Stage<'_, R>,
    held: &mut Held<'_, '_, N, R>,
) -> Result<bool, Fault> {
    let is_want = make_once(stage, held)?;
    if is_want {
        make_once(&stage.again(), held)?;
    }
    if is_want || stage.turn == Turn::Again {
        let rest = rest(stage, held)?;
        stage.tell_line("rest", rest.as_str())?;
    }
    Ok(is_want)
}

fn make_once<N: Naming + Ledger, R: Print + Threads + Wait + Copy + Sync>(
    stage: &Stage<'_, R>,
    held: &mut Held<'_, '_, N, R>,
) -> Result<bool, Fault> {
    if stage.call == "ingest" {
        ingest_once(stage, held)
    } else {
        catch_up_once(stage, held)
    }
}

/// What the public calls show of a hub, its lists, and the share by which changes are ingested.
fn state<N: Naming + Ledger, R: Print + Wait + Copy>(
    stage: &Stage<'_, R>,
    held: &Held<'_, '_, N, R>,
) -> Result<String, AllocError> {
    let lists = lists(stage.alloc, held.board)?;
    let latest = latest(stage.rt, &held.hub);
    let text = format!(in stage.alloc;
        "{lists}, the latest version is {latest}, {} counted",
        held.share.count()
    )?;
    match held.hub.missing_job(stage.rt, 0) {
        Some(job) => format!(in stage.alloc; "{text}; 0 waits for {}", job.number),
        None => format!(in stage.alloc; "{text}; 0 waits for none"),
    }
}

/// Whether it is want of memory.
fn is_want(error: HubError) -> bool {
    error == HubError::Change(ChangeError::OutOfMemory)
        || error == HubError::Submit(SubmitError::OutOfMemory)
}

fn ingest_once<N: Naming + Ledger, R: Print + Wait + Copy>(
    stage: &Stage<'_, R>,
    held: &mut Held<'_, '_, N, R>,
) -> Result<bool, Fault> {
    let mut text = String::new(stage.alloc);
    write_change(&third(stage.alloc)?, &mut text)?;
    let before = state(stage, held)?;
    stage.begin()?;
    let outcome = ingest(
        stage.rt,
        stage.alloc,
        &held.hub,
        &mut held.share,
        text.as_str(),
    );
    stage.end()?;
    let answer = match outcome {
        Ok(number) => Answer::of(format!(in stage.alloc; "version {number}")?),
        Err(error) => Answer::refused(stage.alloc, error, is_want(error))?,
    };
    let after = state(stage, held)?;
    stage.tell_change(&answer, before.as_str(), after.as_str())?;
    Ok(answer.is_want)
}

fn catch_up_once<N: Naming + Ledger, R: Print + Threads + Wait + Copy + Sync>(
    stage: &Stage<'_, R>,
    held: &mut Held<'_, '_, N, R>,
) -> Result<bool, Fault> {
    let published = held.board.published.again();
    let before = state(stage, held)?;
    stage.begin()?;
    let outcome = catch_up(stage.rt, stage.alloc, &held.hub, &published, 0, u64::MAX, 1);
    stage.end()?;
    let answer = match outcome {
        Ok(waited) => Answer::of(format!(in stage.alloc; "waited {waited}")?),
        Err(_) => Answer::no_memory(stage.alloc)?,
    };
    let after = state(stage, held)?;
    stage.tell_change(&answer, before.as_str(), after.as_str())?;
    Ok(answer.is_want)
}

/// What the subscriber can take once it has caught up.
fn rest<N: Naming + Ledger, R: Print + Threads + Wait + Copy + Sync>(
    stage: &Stage<'_, R>,
    held: &mut Held<'_, '_, N, R>,
) -> Result<String, Fault> {
    let published = held.board.published.again();
    for _ in 0..8u8 {
        let waited = catch_up(stage.rt, stage.alloc, &held.hub, &published, 0, u64::MAX, 1)?;
        if !waited {
            break;
        }
    }
    let _ = held.hub.pump(stage.rt, 0);
    let mut items = Vec::new(stage.alloc);
    for _ in 0..64u8 {
        let Some(item) = held.subscription.take() else {
            break;
        };
        items.push(item)?;
    }
    Ok(items_text(stage.alloc, items.as_slice())?)
}
