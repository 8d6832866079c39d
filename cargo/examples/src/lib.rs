//! Types that derive their traits by `#[derive(Educe)]`. The tests of each module check what the impls do.

pub mod configs;
pub mod expressions;
pub mod graphs;
pub mod keys;
pub mod orders;
pub mod packets;
pub mod secrets;
pub mod wrappers;
