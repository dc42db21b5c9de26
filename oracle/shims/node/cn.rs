//! The module `node::cn`: the node's state is the Rust's, the node around it is not.

pub mod state;

pub use state::CnContext;

pub struct ControlledNode;
