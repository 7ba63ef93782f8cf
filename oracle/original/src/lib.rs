//! The test copy of canadensis_can 0.6.0: its published files as build.rs puts them together with those of `added/`.
#![no_std]
include!(concat!(env!("OUT_DIR"), "/published/lib.rs"));
