//! The groups of inputs. Each says what was wrong with the first input that failed, if one did.

pub mod bundles;
pub mod enumerated;
pub mod grids;
pub mod inverse;
pub mod lists;
pub mod orders;
pub mod packets;
pub mod program;
pub mod reduction;
pub mod refusals;
pub mod sheet;
pub mod streams;
pub mod unread;
pub mod views;
pub mod writer;

pub type Tried = Result<(), String>;

/// an error unless it holds
pub fn ensure(holds: bool, what: impl FnOnce() -> String) -> Tried {
    if holds {
        Ok(())
    } else {
        Err(what())
    }
}
