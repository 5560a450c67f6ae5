//! The livomashen library as a cargo package.  It needs neither std nor an
//! allocator; the archive beside Cargo.toml is linked by build.rs.

#![no_std]

mod livomashen;

pub use livomashen::*;
