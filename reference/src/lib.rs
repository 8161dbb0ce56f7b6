//! Reference implementation of the secure element's command set: commands and
//! responses, the object store, the session, the factory store, and the
//! programs that run and compare lists of commands; and the dock stream.

pub mod counter;
pub mod coverage;
pub mod dock;
pub mod dock_fast;
pub mod dock_replay;
pub mod engine;
pub mod expression;
pub mod factory;
pub mod generator;
pub mod kinds;
pub mod metadata;
pub mod mix_check;
pub mod program;
pub mod queue;
pub mod replay;
pub mod session;
pub mod store;
pub mod text;
pub mod whole;

pub use engine::{execute, Answer};
pub use factory::make_factory_store;
pub use session::{fresh_session, Session};
pub use store::check_store;
