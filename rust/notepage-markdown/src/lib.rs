//! The crate markdown 1.0.0 from its own files, its modules public: build.rs says where they are.
#![allow(warnings)]
extern crate alloc;
// the crate unicode-id is a module here
extern crate self as unicode_id;

include!(concat!(env!("OUT_DIR"), "/markdown.rs"));
