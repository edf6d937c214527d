//! Hands messages to replicas, and tells what these show and hold. tests/peers/run runs it, without proofs.
//!
//! Of the lines of standard input `replica` makes a new replica. `message PREVIOUS` hands it the change behind this
//! line; PREVIOUS is its peer's last counter before it. `look` prints the spans as `hub spans` does, `held
//! PREVIOUS@NODE for ID` of each message that waits, with an operation that it waits for, and `accepted NUMBER`.
#![tactic(auto)]

use anyhow::{Context, Result};
use change_ops::change::read_change;
use change_ops::size::Size;
use replica::message::Message;
use replica::replica::Replica;
use span_lines::printing::lines_of;
use std::alloc::Global;
use std::io;
use std::io::Write;

/// Delivers the change at the front of a text, and gives what follows it.
fn deliver<'a>(
    alloc: Global,
    replica: &mut Replica,
    previous: &str,
    text: &'a str,
) -> Result<&'a str> {
    let (change, rest) = read_change(alloc, text)?;
    let message = Message::new(previous.parse()?, change).context("no message")?;
    let _delivered = replica.deliver(message)?;
    Ok(rest)
}

/// Prints what a replica shows and holds.
fn look<W: Write>(alloc: Global, replica: &Replica, writer: &mut W) -> Result<()> {
    let version = replica.version(alloc)?;
    let lines = lines_of(alloc, &version)?;
    writer.write_all(lines.as_str().as_bytes())?;
    for (index, message) in replica.held().iter().enumerate() {
        let (previous, node) = (message.previous(), message.change().node());
        let id = replica.waiting_for(index)?.context("it waits for nothing")?;
        let (counter, of) = (id.counter(), id.node());
        writeln!(writer, "held {previous}@{node} for {counter}@{of}")?;
    }
    writeln!(writer, "accepted {}", replica.accepted_count())?;
    Ok(())
}

fn main(rt: HostRuntime) -> Result<()> {
    let alloc = rt.alloc();
    let input = io::read_to_string(alloc, rt.reader())?;
    let mut writer = io::BufWriter::new(alloc, io::writer(&rt))?;
    let mut replica = Replica::new(alloc, Size::Small);
    let mut rest = input.as_str();
    while !rest.is_empty() {
        let (line, behind) = rest.split_once('\n').context("a line has no end")?;
        rest = behind;
        if line == "replica" {
            replica = Replica::new(alloc, Size::Small);
        } else if line == "look" {
            look(alloc, &replica, &mut writer)?;
        } else {
            let previous = line.strip_prefix("message ").context("no such line")?;
            rest = deliver(alloc, &mut replica, previous, behind)?;
        }
    }
    writer.flush()?;
    Ok(())
}
