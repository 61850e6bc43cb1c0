//! The independent second program. It says document 01 again in the plainest
//! code, so that another implementation can be compared with it on random tables.
//!
//! `authors`, `record`, `check`, `table`, `decide`, `settle` and `program` are the
//! rules; `rng`, `grow`, `damage`, `generate` and `shares` make random tables and
//! show what these reach; `made` and `examples` make tables by hand, and `vectors` the
//! stored tables of the crate of that name; `through` compares a built program with
//! `program`; `text` is a table to read and write by hand, `files` reads it, and `draw`
//! makes a picture of it; `answers` and `ask` compare any calls with the rules, `compare`
//! on random tables and `attack` on whole families; where answers differ, `shrink` makes the
//! case small and `shown` is what a reader sees of it.
//! `record_box` has the shape of the C interface. With the feature `library`, `library`
//! calls the proved code through it, and `bench` measures the proved check against `plain` and
//! the settlement against `plain_settle`, on honest tables and on those of `hostile`.

#![cfg_attr(not(feature = "library"), forbid(unsafe_code))]
#![deny(unsafe_code)]

pub mod answers;
pub mod ask;
pub mod attack;
pub mod authors;
#[cfg(feature = "library")]
pub mod bench;
pub mod check;
pub mod compare;
pub mod damage;
pub mod decide;
pub mod draw;
pub mod examples;
pub mod files;
pub mod generate;
pub mod grow;
#[cfg(feature = "library")]
pub mod hostile;
#[cfg(feature = "library")]
#[allow(unsafe_code)]
pub mod library;
pub mod made;
pub mod plain;
pub mod plain_settle;
pub mod program;
pub mod record;
// The declarations that every Rust program takes which links the library.
#[path = "../../include/record_box.rs"]
pub mod record_box;
pub mod rng;
pub mod settle;
pub mod shares;
pub mod shown;
pub mod shrink;
pub mod table;
pub mod text;
pub mod through;
pub mod vectors;
