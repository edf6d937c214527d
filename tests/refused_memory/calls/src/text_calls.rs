use crate::fault::Fault;
use crate::shown::{change_of, change_text};
use crate::stage::{Answer, Stage};
use change_ops::change::{Change, read_change};
use change_ops::refusal::ChangeError;
use change_ops::writing::write_change;
use std::alloc::{AllocError, Global};

/// A change of each kind of line.
const CHANGE: &str =
    "change3 1 9\nr 1@1 - 3 61 62 63\ni 4@1 3@1 64\nm 5@1 link https://a.b <1@1 >2@1\nm 6@1 code - >2@1 $\nu 7@1 strong ^ $\nd 8@1 4@1\nv 9@1 8@1\nd 10@1 1@1 3\nv 13@1 11@1 2\n";

/// Makes a call on the text of a change.
pub fn play<R: Print>(stage: &Stage<'_, R>) -> Result<bool, Fault> {
    if stage.call == "read_change" {
        return read(stage);
    }
    let change = change_of(stage.alloc, CHANGE).ok_or(Fault::Scene)?;
    let mut out = String::from_str(stage.alloc, "before\n")?;
    let is_want = write(stage, &change, &mut out)?;
    if is_want {
        write(&stage.again(), &change, &mut out)?;
    }
    Ok(is_want)
}

fn read<R: Print>(stage: &Stage<'_, R>) -> Result<bool, Fault> {
    stage.begin()?;
    let outcome = read_change(stage.alloc, CHANGE);
    stage.end()?;
    let answer = match outcome {
        Ok((change, _)) => Answer::of(change_text(stage.alloc, &change)?),
        Err(error) => Answer::refused(stage.alloc, error, error == ChangeError::OutOfMemory)?,
    };
    stage.tell(&answer)?;
    Ok(false)
}

fn quoted(alloc: Global, text: &String) -> Result<String, AllocError> {
    format!(in alloc; "{:?}", text.as_str())
}

fn write<R: Print>(stage: &Stage<'_, R>, change: &Change, out: &mut String) -> Result<bool, Fault> {
    let before = quoted(stage.alloc, out)?;
    stage.begin()?;
    let outcome = write_change(change, out);
    stage.end()?;
    let answer = match outcome {
        Ok(()) => Answer::of(String::from_str(stage.alloc, "written")?),
        Err(_) => Answer::no_memory(stage.alloc)?,
    };
    let after = quoted(stage.alloc, out)?;
    stage.tell_change(&answer, before.as_str(), after.as_str())?;
    Ok(answer.is_want)
}
