//! One user's code, compiled twice: with the crate, and with this port's Rust package
//! in its place. So the package takes every call of the crate that it stands for as it
//! is written.

pub mod with_crate {
    use zuc as library;
    include!("user.rs");
}

pub mod with_port {
    use yegetmur as library;
    include!("user.rs");
}
