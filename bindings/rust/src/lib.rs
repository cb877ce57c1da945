//! A loader of synthetic voices (`.htsvoice`) over the proved static library `larsavim`: no heap, no panic, no byte of its input trusted.
//!
//! A file is opened ([`Voice::open`]), a model of it is asked what it needs ([`Voice::needs`]) and loaded into slices that the caller lends
//! ([`Model::load`]); then its trees are walked ([`Model::walk`]). Whatever is refused is a [`Refusal`]: a number, a place, a line and a sentence.
//! A clear wrong number is worse than silence: nothing is to be spoken that stands behind a refusal.
//!
//! ```
//! use larsavim::{Model, Refusal, Tables, Voice, Which};
//!
//! /// Where a label leads in the tree of the second state: the PDF's number. The tables are of fixed size; a voice that needs more is refused (`Room`).
//! fn pdf(file: &[u8], label: &[u8]) -> Result<Option<u64>, Refusal> {
//!     let (mut questions, mut patterns, mut trees, mut records, mut values) = ([0; 4 * 16], [0; 2 * 32], [0; 6 * 8], [0; 4 * 64], [0; 1024]);
//!     let mut work = [0; 6 * 16];
//!     let voice = Voice::open(file)?;
//!     let needs = voice.needs(Which::Stream(0))?;
//!     let tables = Tables { questions: &mut questions, patterns: &mut patterns, trees: &mut trees, records: &mut records, values: &mut values };
//!     let model = Model::load(&needs, tables, &mut work)?;
//!     if !model.leaves() {
//!         return Ok(None); // a leaf names no entry of its tree: silence
//!     }
//!     let mut room = [0; 16];
//!     let answers = model.answers(label, &mut room)?;
//!     match model.tree_of_state(2) {
//!         Some(tree) => Ok(Some(model.walk(tree, answers, model.records().len() as u64)?.pdf)),
//!         None => Ok(None),
//!     }
//! }
//! assert_eq!(pdf(b"no voice", b"sil^sh-i+ch=i"), Err(Refusal::Split));
//! # let sample = std::path::Path::new(env!("CARGO_MANIFEST_DIR")).join("../../host/sample/shichi.htsvoice");
//! # if sample.exists() {
//! #     assert_eq!(pdf(&std::fs::read(sample).unwrap(), b"sil^sh-i+ch=i"), Ok(Some(5)));
//! # }
//! ```
//!
//! The C header `larsavim.h` has the whole truth of each call; what is proved is proved of the library behind it. This crate is not proved. All of its
//! `unsafe` stands in one file, `calls.rs`: each call takes slices and hands on the pointer and the length of each, so that safe code can't give a wrong one.
#![no_std]
#![deny(missing_docs)]
#![deny(unsafe_op_in_unsafe_fn)]

#[cfg(not(target_pointer_width = "64"))]
compile_error!("larsavim serves 64-bit cores alone: lengths are 64 bits wide");

#[cfg(feature = "std")]
extern crate std;

mod calls;
mod model;
mod refusal;
mod shared;
mod trail;
mod voice;

pub use calls::Job;
pub use model::{accepts, bare_walk, BareWalk, Entry, Model, Needs, Question, Record, Records, Tables, Tree, Walk};
pub use refusal::Refusal;
pub use shared::{NotHouse, Shared, Side};
pub use trail::{trailer_len, write_trailer, Trailer, TrailerRow};
pub use voice::{Position, Range, Stream, Voice, Which};

/// The version of this crate and of the library that it came with.
pub const VERSION: &str = env!("CARGO_PKG_VERSION");
