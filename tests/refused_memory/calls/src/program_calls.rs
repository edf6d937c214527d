use crate::fault::Fault;
use crate::shown::program_text;
use crate::stage::{Answer, Stage};
use assembler::assembly::assemble;
use assembler::fault::AsmError;
use bpf_words::words::Words;
use disassembler::disassemble::disassemble;
use span_context::profile::Profile;
use std::alloc::{AllocError, Global};
use verifier::before::state_before;
use verifier::refusal::VerifyError;
use verifier::verify::verify;

/// A program with a store, and two ways that meet.
const SOURCE: &str =
    "ldxw r2, [r1+16]\nmov r0, 1\njgt r2, 3, long\nja out\nlong:\nstxdw [r10-8], r2\nldxdw r0, [r10-8]\nout:\nexit\n";

/// A program that reads the first byte of the link's text.
const LINK_SOURCE: &str =
    "ldxdw r2, [r1+56]\nldxdw r3, [r1+64]\nmov r0, 0\nmov r4, r2\nadd r4, 1\njgt r4, r3, out\nldxb r0, [r2+0]\nout:\nexit\n";

/// Makes a call on a program, or on its source.
pub fn play<R: Print>(stage: &Stage<'_, R>) -> Result<bool, Fault> {
    if stage.call == "assemble" {
        return assembled(stage);
    }
    let source = if stage.call == "verify-2" {
        LINK_SOURCE
    } else {
        SOURCE
    };
    let bytes = assemble(stage.alloc, source).ok().ok_or(Fault::Scene)?;
    let words = Words::new(bytes.as_slice()).ok().ok_or(Fault::Scene)?;
    match stage.call {
        "verify" => verified(stage, &words, Profile::One),
        "verify-2" => verified(stage, &words, Profile::Two),
        "state_before" => known_at_end(stage, &words),
        _ => disassembled(stage, &words),
    }
}

fn assembled<R: Print>(stage: &Stage<'_, R>) -> Result<bool, Fault> {
    stage.begin()?;
    let outcome = assemble(stage.alloc, SOURCE);
    stage.end()?;
    let answer = match outcome {
        Ok(bytes) => Answer::of(hex::encode(stage.alloc, bytes)?),
        Err(error) => Answer::refused(stage.alloc, error, error == AsmError::OutOfMemory)?,
    };
    stage.tell(&answer)?;
    Ok(false)
}

fn refused(alloc: Global, error: VerifyError) -> Result<Answer, AllocError> {
    match error {
        VerifyError::OutOfMemory => Answer::refused(alloc, "27 OutOfMemory", true),
        _ => Answer::refused(alloc, "not accepted", false),
    }
}

fn verified<R: Print>(
    stage: &Stage<'_, R>,
    words: &Words<'_>,
    profile: Profile,
) -> Result<bool, Fault> {
    stage.begin()?;
    let outcome = verify(stage.alloc, words, profile);
    stage.end()?;
    let answer = match outcome {
        Ok(program) => Answer::of(program_text(stage.alloc, &program)?),
        Err(error) => refused(stage.alloc, error)?,
    };
    stage.tell(&answer)?;
    Ok(false)
}

/// What is known before the last slot, where the two ways met.
fn known_at_end<R: Print>(stage: &Stage<'_, R>, words: &Words<'_>) -> Result<bool, Fault> {
    let Some(last) = words.len().checked_sub(1) else {
        return Err(Fault::Scene);
    };
    stage.begin()?;
    let outcome = state_before(stage.alloc, words, Profile::One, last);
    stage.end()?;
    let answer = match outcome {
        Ok(Some(_)) => Answer::of(String::from_str(stage.alloc, "a state")?),
        Ok(None) => Answer::of(String::from_str(stage.alloc, "no state")?),
        Err(error) => refused(stage.alloc, error)?,
    };
    stage.tell(&answer)?;
    Ok(false)
}

fn disassembled<R: Print>(stage: &Stage<'_, R>, words: &Words<'_>) -> Result<bool, Fault> {
    let mut text = String::from_str(stage.alloc, "before\n")?;
    let is_want = disassembled_to(stage, words, &mut text)?;
    if is_want {
        disassembled_to(&stage.again(), words, &mut text)?;
    }
    Ok(is_want)
}

fn disassembled_to<R: Print>(
    stage: &Stage<'_, R>,
    words: &Words<'_>,
    text: &mut String,
) -> Result<bool, Fault> {
    let before = format!(in stage.alloc; "{:?}", text.as_str())?;
    stage.begin()?;
    let outcome = disassemble(words, text);
    stage.end()?;
    let answer = match outcome {
        Ok(()) => Answer::of(String::from_str(stage.alloc, "appended")?),
        Err(_) => Answer::no_memory(stage.alloc)?,
    };
    let after = format!(in stage.alloc; "{:?}", text.as_str())?;
    stage.tell_change(&answer, before.as_str(), after.as_str())?;
    Ok(answer.is_want)
}
