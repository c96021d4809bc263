//! The Rust source that was ported, built unchanged from where it lies: see build.rs.

// The source's own tests name its macro by path, which an included root does not allow.
#![allow(macro_expanded_macro_exports_accessed_by_absolute_paths)]

include!(concat!(env!("OUT_DIR"), "/root.rs"));
