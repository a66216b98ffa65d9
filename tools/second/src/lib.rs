//! A checker of PKCS#11 token configurations.
//!
//! A file holds a policy, commands and a session. The checker reads it,
//! decides whether its commands are well typed, and plays its session against
//! a model of the token. This is the second, independent implementation: it is
//! written from the documents alone so that it can be compared with the first.

pub mod entries;
pub mod frames;
pub mod generate;
pub mod process;
pub mod report;
pub mod session;
pub mod tables;
pub mod text;
pub mod token;
pub mod types;
pub mod verdict;

pub use frames::{parse, File, Refusal};
pub use report::report;
pub use session::{run, Run};
pub use verdict::{verdict, Verdict};
