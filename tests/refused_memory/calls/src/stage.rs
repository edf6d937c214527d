use crate::fault::Fault;
use std::alloc::{AllocError, Global};
use std::fmt::Display;

/// Whether a call is made for the first time, in which its requests for memory may be refused, or once more.
#[derive(Clone, Copy, PartialEq, Eq)]
pub enum Turn {
    First,
    Again,
}

/// What a call answered.
#[derive(Drop)]
pub struct Answer {
    text: String,
    /// Whether it is want of memory.
    pub is_want: bool,
}

impl Answer {
    pub fn of(text: String) -> Answer {
        Answer {
            text,
            is_want: false,
        }
    }

    /// An error by its number and name.
    pub fn refused<E: Display + Drop>(
        alloc: Global,
        error: E,
        is_want: bool,
    ) -> Result<Answer, AllocError> {
        Ok(Answer {
            text: format!(in alloc; "{error}")?,
            is_want,
        })
    }

    /// What a call answers whose only error is want of memory.
    pub fn no_memory(alloc: Global) -> Result<Answer, AllocError> {
        Answer::refused(alloc, "OutOfMemory", true)
    }

    /// A value that comes back.
    pub fn handed_back(alloc: Global, value: &str) -> Result<Answer, AllocError> {
        Ok(Answer {
            text: format!(in alloc; "handed back {value}")?,
            is_want: true,
        })
    }
}

/// A call that is made, and where it is told of.
pub struct Stage<'a, R: Print> {
    pub rt: &'a R,
    pub alloc: Global,
    pub call: &'a str,
    pub turn: Turn,
}

// By hand, since it asks nothing of the runtime's type.
impl<'a, R: Print> Drop for Stage<'a, R> {
    fn drop(self) {
        let Stage {
            rt: _,
            alloc: _,
            call: _,
            turn: _,
        } = self;
    }
}

impl<'a, R: Print> Stage<'a, R> {
    /// The same call, once more.
    pub fn again(&self) -> Stage<'a, R> {
        Stage {
            rt: self.rt,
            alloc: self.alloc,
            call: self.call,
            turn: Turn::Again,
        }
    }

    /// Says that the call comes next.
    pub fn begin(&self) -> Result<(), Fault> {
        let rt = self.rt;
        if self.turn == Turn::First {
            println!(rt; "begin {}", self.call)?;
        }
        Ok(())
    }

    /// Says that the call is over; it takes no memory.
    pub fn end(&self) -> Result<(), Fault> {
        let rt = self.rt;
        match self.turn {
            Turn::First => rt.print("answer ")?,
            Turn::Again => rt.print("again ")?,
        }
        Ok(())
    }

    /// Tells what the call answered.
    pub fn tell(&self, answer: &Answer) -> Result<(), Fault> {
        let rt = self.rt;
        println!(rt; "{}", answer.text)?;
        Ok(())
    }

    /// Tells what the call answered, and what was shown of its subject before and after it.
    pub fn tell_change(&self, answer: &Answer, before: &str, after: &str) -> Result<(), Fault> {
        self.tell(answer)?;
        if self.turn == Turn::First {
            self.tell_line("before", before)?;
        }
        self.tell_line("after", after)
    }

    pub fn tell_line(&self, word: &str, text: &str) -> Result<(), Fault> {
        let rt = self.rt;
        println!(rt; " {word} {text}")?;
        Ok(())
    }
}
