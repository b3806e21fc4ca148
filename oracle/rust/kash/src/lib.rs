//! The four unchanged sources of kash-ui as modules, compiled where they stand (build.rs).
extern crate alloc;
include!(concat!(env!("OUT_DIR"), "/sources.rs"));
