use crate::fault::Fault;
use crate::shown::{change_of, items_text, version_text};
use bpf_words::words::Words;
use change_ops::change::Change;
use feeds::batch::Batch;
use feeds::sink::ListSink;
use hub_core::hub::Core;
use span_context::profile::Profile;
use std::alloc::{AllocError, Global};
use std::sync::Wait;
use verifier::verify::{Verified, verify};
use version_pieces::version::PieceVersion;
use version_history::published::{Naming, ProgramToken, Published};

/// The first change of each scene.
pub const FIRST: &str =
    "change 1 4\ni 1@1 - 61\ni 2@1 1@1 62\ni 3@1 2@1 63\nm 4@1 strong - <1@1 <3@1\n";

/// The second.
pub const SECOND: &str = "change2 2 2\nr 5@2 3@1 3 64 65 66\nm 8@2 code - <6@2 $\n";

/// The verdict of this program is how many bytes a span has.
pub const LENGTH: &str = "61101000000000009500000000000000";

/// The most items that a sink of a scene takes.
pub const ROOM: usize = 64;

/// The two lists of a hub, and the tokens' way into them.
#[derive(Drop)]
pub struct Board<'p, N: Naming> {
    pub published: Published<'p, N>,
    pub versions: &'p boxcar::Vec<PieceVersion>,
    pub programs: &'p boxcar::Vec<Verified>,
}

/// The change that a call is about: a run that is longer than a chunk of the text, marks, and removals, of which some are
/// taken back.
pub fn third(alloc: Global) -> Result<Change, Fault> {
    let mut text = String::from_str(alloc, "change3 3 9\nr 9@3 2@1 70")?;
    for _ in 0..70u8 {
        text.push_str(" 78")?;
    }
    text.push_str(
        "\nd 79@3 1@1\nm 80@3 link https://a.b <2@1 >3@1\nm 81@3 comment:7 - ^ $\nu 82@3 strong <2@1 $\n",
    )?;
    text.push_str("d 83@3 5@2 2\nd 85@3 1@1\nv 86@3 83@3\nv 87@3 79@3\n")?;
    change_of(alloc, text.as_str()).ok_or(Fault::Scene)
}

/// The program of these digits, accepted.
pub fn verified(alloc: Global, digits: &str) -> Result<Verified, Fault> {
    let bytes = hex::decode(alloc, digits).ok().ok_or(Fault::Scene)?;
    let words = Words::new(bytes.as_slice()).ok().ok_or(Fault::Scene)?;
    verify(alloc, &words, Profile::One).ok().ok_or(Fault::Scene)
}

pub fn submitted<N: Naming, R: Wait>(
    rt: &R,
    core: &mut Core<'_, N, ListSink<N>>,
    change: Change,
) -> Result<(), Fault> {
    match core.submit(rt, change) {
        Ok(_) => Ok(()),
        Err(_) => Err(Fault::Scene),
    }
}

/// Publishes a program.
pub fn published<N: Naming, R: Wait>(
    rt: &R,
    board: &Board<'_, N>,
    program: Verified,
) -> Result<ProgramToken<N>, Fault> {
    match board.published.publish_program(rt, program) {
        Ok(token) => Ok(token),
        Err(_) => Err(Fault::Scene),
    }
}

/// Adds a subscriber of a program, from a version on.
pub fn subscribed<N: Naming>(
    alloc: Global,
    core: &mut Core<'_, N, ListSink<N>>,
    program: ProgramToken<N>,
    first: u64,
) -> Result<(), Fault> {
    let sink = ListSink::new(alloc, ROOM)?;
    match core.subscribe_from(program, sink, first) {
        Ok(_) => Ok(()),
        Err(_) => Err(Fault::Scene),
    }
}

/// A turn of a worker: a job is taken, its batch computed and committed, and what is due is sent. It answers whether
/// there was a job.
fn turn<N: Naming>(
    alloc: Global,
    board: &Board<'_, N>,
    core: &mut Core<'_, N, ListSink<N>>,
) -> Result<bool, Fault> {
    let Some(job) = core.take_job() else {
        return Ok(false);
    };
    let batch = Batch::compute(alloc, &board.published, &job)?;
    core.commit(batch).ok().ok_or(Fault::Scene)?;
    core.pump(job.subscriber).ok().ok_or(Fault::Scene)?;
    Ok(true)
}

/// A core with two changes, and `subscribers` subscribers of one program from version 0 on, of which the first was sent
/// the end of version 0. The token of their program is beside it.
pub fn scene<'p, N: Naming, R: Wait>(
    rt: &R,
    alloc: Global,
    board: &Board<'p, N>,
    subscribers: u8,
) -> Result<(Core<'p, N, ListSink<N>>, ProgramToken<N>), Fault> {
    let mut core = Core::new(rt, alloc, &board.published)?;
    for text in [FIRST, SECOND] {
        let change = change_of(alloc, text).ok_or(Fault::Scene)?;
        submitted(rt, &mut core, change)?;
    }
    let program = published(rt, board, verified(alloc, LENGTH)?)?;
    for _ in 0..subscribers {
        subscribed(alloc, &mut core, program.again(), 0)?;
    }
    turn(alloc, board, &mut core)?;
    Ok((core, program))
}

/// The number of the latest version, found by the question whether there is one above it.
fn latest<N: Naming>(core: &Core<'_, N, ListSink<N>>) -> u64 {
    for number in 0..5000u64 {
        if core.lacks_version(number + 1) {
            return number;
        }
    }
    5000
}

/// What a subscriber was sent, and the version that it waits for.
fn push_subscriber<N: Naming>(
    alloc: Global,
    board: &Board<'_, N>,
    core: &Core<'_, N, ListSink<N>>,
    id: usize,
    text: &mut String,
) -> Result<(), AllocError> {
    let Some(sink) = core.sink(id) else {
        return Ok(());
    };
    let items = items_text(alloc, sink.sent())?;
    let sent = format!(in alloc; "; {id} was sent {items}")?;
    text.push_str(sent.as_str())?;
    let Some(job) = core.missing_job(id) else {
        return text.push_str(", waits for none");
    };
    let version = version_text(alloc, board.published.look(&job.version))?;
    let waits = format!(in alloc; ", waits for {}, {version}", job.number)?;
    text.push_str(waits.as_str())
}

/// What the public calls show of a core and its lists.
pub fn state<N: Naming>(
    alloc: Global,
    board: &Board<'_, N>,
    core: &Core<'_, N, ListSink<N>>,
) -> Result<String, AllocError> {
    let mut text = format!(in alloc;
        "{} changes, {} versions, {} programs, the latest version is {}",
        core.count(),
        board.versions.count(),
        board.programs.count(),
        latest(core)
    )?;
    for id in 0..64usize {
        push_subscriber(alloc, board, core, id, &mut text)?;
    }
    Ok(text)
}

/// What all subscribers were sent once all jobs were done, those too that were handed out before.
pub fn rest<N: Naming>(
    alloc: Global,
    board: &Board<'_, N>,
    core: &mut Core<'_, N, ListSink<N>>,
) -> Result<String, Fault> {
    for id in 0..64usize {
        let _ = core.reissue(id);
    }
    for _ in 0..64u8 {
        if !turn(alloc, board, core)? {
            break;
        }
    }
    Ok(state(alloc, board, core)?)
}
