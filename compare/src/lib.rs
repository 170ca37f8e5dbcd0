//! The crate zuc 0.4.1 and this port, fed the same inputs.
//!
//! An [`input::Input`] is one call with all that it is given. [`check::check`] makes it
//! on the crate, on the port through its Rust package, and on the port through its C
//! interface, and says the first thing that differs. [`plan`] says which inputs are
//! tried; [`shrink`] makes a failing one small.
//!
//! The cells of the port's states stay put: [`ring`] models that, [`turn`] has one state
//! in all its turns, and [`turns`] says which are tried. They count the words drawn, up to a
//! limit: [`limits`] says which are tried about it, and [`spent`] reaches it. Clean masks in
//! turn are held to one long mask by [`blocks`], and masked once per hop by [`hops`].
//!
//! Strict forms and EEA3 in one call are held to the crate, and to the request's refusals, by
//! [`fields`].
//!
//! Sealed frames are held by [`frame`] to a model over the crate's EEA3 and EIA3, [`seal`], which
//! is written from the request; [`frames`] says which are tried.
//!
//! The guard is not the crate's: a [`walk::Walk`] is a list of calls on one table, held
//! to a model of sets; [`walks`] says which are tried.

pub mod blocks;
pub mod check;
pub mod clock;
pub mod drawn;
pub mod fields;
pub mod frame;
pub mod frames;
pub mod hex;
pub mod hops;
pub mod input;
pub mod layout;
pub mod limits;
pub mod model;
pub mod original;
pub mod plan;
pub mod plot;
pub mod port;
pub mod quiet;
pub mod record;
pub mod report;
pub mod ring;
pub mod rng;
pub mod rules;
pub mod seal;
pub mod shrink;
pub mod spent;
pub mod turn;
pub mod turns;
pub mod users;
pub mod walk;
pub mod walks;

/// Which library is linked.
pub fn library() -> &'static str {
    match option_env!("YEGETMUR_LIB_DIR") {
        None | Some("") => "libcapi.a by tools/staticlib",
        Some(_) => "libcapi.a by YEGETMUR_LIB_DIR",
    }
}
