//! The independent second program: the calls of documents 01 and 02, written from the paper alone.
//!
//! The modules follow the paper: `format` (codes 1-4), `shape` (5), `scope` (6), `types` (7),
//! `ready` (8), `bound`, `state` (9, 15), `record` (12), `evaluate`, `update`, `calls`, and document 02's
//! calls `chain` (25, 26), `mend` (16), `watch` (17, 18), `tidy` (19), `pair` (27-29, 33-40), `reader` (21-24) and
//! `printer` (24). The tools around them are `assemble`, `generate`, `request` and `print`.

pub mod assemble;
pub mod bound;
pub mod calls;
pub mod card;
pub mod chain;
pub mod damage;
pub mod evaluate;
pub mod format;
pub mod generate;
pub mod grow;
pub mod hostile;
pub mod kinds;
pub mod mend;
pub mod number;
pub mod overgrow;
pub mod pair;
pub mod partner;
pub mod print;
pub mod printer;
pub mod program;
pub mod random;
pub mod reader;
pub mod ready;
pub mod record;
pub mod refusal;
pub mod request;
pub mod scope;
pub mod shape;
pub mod state;
pub mod step;
pub mod tangle;
pub mod tidy;
pub mod types;
pub mod typist;
pub mod update;
pub mod value;
pub mod watch;
pub mod wild;
pub mod words;

pub use calls::{check, run, start, Accepted, Done};
pub use chain::{explain, Explained};
pub use mend::mend;
pub use pair::paired;
pub use refusal::Refusal;
pub use tidy::{tidy, Tidied};
pub use watch::watched;
