use std::alloc::{AllocError, AllocFailed};
use std::io;

/// Why a call was not made, or not told of.
#[derive(Clone, Copy)]
pub enum Fault {
    /// The scene, or a text that tells of the call, found no memory.
    Scene,
    /// Standard output can't be written.
    Output,
    /// There is no call of this name.
    NoCall,
}

impl From<AllocError> for Fault {
    fn from(_error: AllocError) -> Fault {
        Fault::Scene
    }
}

impl<T: Drop> From<AllocFailed<T>> for Fault {
    fn from(_error: AllocFailed<T>) -> Fault {
        Fault::Scene
    }
}

impl From<io::Error> for Fault {
    fn from(error: io::Error) -> Fault {
        match error.kind() {
            io::ErrorKind::OutOfMemory => Fault::Scene,
            _ => Fault::Output,
        }
    }
}
