//! The files of isosurface 0.0.4, unchanged, each as a public module, so that the harness can call what the crate keeps private.
// The published files are of 2018; what today's compiler remarks on them is left as it is.
#![allow(warnings)]
#[path = "../../isosurface/src/index_cache.rs"]
pub mod index_cache;
#[path = "../../isosurface/src/marching_cubes.rs"]
pub mod marching_cubes;
#[path = "../../isosurface/src/marching_cubes_impl.rs"]
pub mod marching_cubes_impl;
#[path = "../../isosurface/src/marching_cubes_tables.rs"]
pub mod marching_cubes_tables;
#[path = "../../isosurface/src/math.rs"]
pub mod math;
#[path = "../../isosurface/src/morton.rs"]
pub mod morton;
#[path = "../../isosurface/src/source.rs"]
pub mod source;
