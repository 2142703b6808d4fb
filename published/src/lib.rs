//! The modules of the published source that its sparse matrix needs, and nothing else.
#![allow(warnings)]
include!(concat!(env!("OUT_DIR"), "/modules.rs"));
