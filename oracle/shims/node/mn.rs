//! The module `node::mn`: names only, since a managing node is never made.

pub struct ManagingNode;

pub struct MnContext;

pub struct CnInfo;

pub struct CnState;
