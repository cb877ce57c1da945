//! The calls of larsavim.h, each over slices: the one file with `unsafe`. Names and order of parameters are the header's; host/test holds both together.
//!
//! Every call is safe: the library is proved to stay inside what it is lent, for any bytes, numbers and lengths; pointers and lengths come from one slice each;
//! `&mut` says that nothing overlaps and that nobody else writes; no pointer is kept.

/// Numbers of a record.
pub const WORDS: usize = 647;

/// Lengths of answers.
pub const OPEN_OUT: usize = 2;
pub const COMMENT_OUT: usize = 4;
pub const GET_OUT: usize = 2;
pub const PAIR_OUT: usize = 3;
pub const NEEDS_OUT: usize = 10;
pub const LOAD_OUT: usize = 8;
pub const WALK_OUT: usize = 3;
pub const WRITE_NEEDS_OUT: usize = 2;
pub const WRITE_OUT: usize = 2;
pub const DEPTH_OUT: usize = 3;
pub const ACCEPTS_OUT: usize = 3;
pub const TRAILER_OUT: usize = 3;
pub const TRAILED_OUT: usize = 4;
pub const TRAILER_ROW: usize = 12;
pub const FILE_LIMIT: usize = 16777216;
pub const BARE_OUT: usize = 6;
pub const HOUSE_OUT: usize = 4;

/// Rows of tables, and work.
pub const QUESTION_ROW: usize = 4;
pub const PATTERN_ROW: usize = 2;
pub const TREE_ROW: usize = 6;
pub const RECORD_ROW: usize = 4;
pub const WORK_A_RECORD: usize = 4;

/// Numbers of a task's bounds, in tables that two tasks share.
pub const BOUNDS: usize = 5;

/// Fields of the record.
pub const HTS_VOICE_VERSION: u64 = 0;
pub const SAMPLING_FREQUENCY: u64 = 2;
pub const FRAME_PERIOD: u64 = 3;
pub const NUM_STATES: u64 = 4;
pub const NUM_STREAMS: u64 = 5;
pub const STREAM_TYPE: u64 = 6;
pub const STREAM_TYPE_COUNT: u64 = 22;
pub const FULLCONTEXT_FORMAT: u64 = 23;
pub const FULLCONTEXT_VERSION: u64 = 25;
pub const GV_OFF_CONTEXT: u64 = 27;
pub const GV_OFF_CONTEXT_COUNT: u64 = 91;
pub const COMMENT: u64 = 92;
pub const HAS_COMMENT: u64 = 94;
pub const STREAMS: u64 = 95;
pub const STREAM_WORDS: u64 = 39;
pub const STREAM_NAME: u64 = 0;
pub const VECTOR_LENGTH: u64 = 2;
pub const NUM_WINDOWS: u64 = 3;
pub const IS_MSD: u64 = 4;
pub const USE_GV: u64 = 5;
pub const OPTION: u64 = 6;
pub const OPTION_COUNT: u64 = 38;
pub const STREAM_COUNT: u64 = 407;
pub const DURATION_PDF: u64 = 408;
pub const DURATION_TREE: u64 = 410;
pub const POSITIONS: u64 = 412;
pub const POSITION_WORDS: u64 = 29;
pub const POSITION_NAME: u64 = 0;
pub const STREAM_WIN: u64 = 2;
pub const STREAM_WIN_COUNT: u64 = 18;
pub const STREAM_PDF: u64 = 19;
pub const STREAM_TREE: u64 = 21;
pub const GV_PDF: u64 = 23;
pub const HAS_GV_PDF: u64 = 25;
pub const GV_TREE: u64 = 26;
pub const HAS_GV_TREE: u64 = 28;
pub const POSITION_COUNT: u64 = 644;
pub const DATA_START: u64 = 645;

/// One walk of a sentence, for [`Model::walk_jobs`](crate::Model::walk_jobs): what is asked for, and room for how it ended.
#[repr(C)]
#[derive(Clone, Copy, Debug, PartialEq, Eq)]
pub struct Job {
    /// The tree, as in a walk.
    pub tree: u64,
    /// The limit, as in a walk.
    pub limit: u64,
    /// The job's first answer byte, in the shared slice.
    pub start: u64,
    /// 0, 24 or 25, when the call has filled it.
    pub number: u64,
    /// The PDF's number; 0 when refused.
    pub pdf: u64,
    /// Questions asked; 0 when refused.
    pub asked: u64,
}

mod raw {
    use super::Job;

    extern "C" {
        pub fn larsavim_open(file: *const u8, file_len: u64, words: *mut u64, words_len: u64, out: *mut u64, out_len: u64) -> u64;
        pub fn larsavim_comment(file_len: u64, words: *const u64, words_len: u64, fallback_len: u64, out: *mut u64, out_len: u64) -> u64;
        pub fn larsavim_get(words: *const u64, words_len: u64, field: u64, out: *mut u64, out_len: u64) -> u64;
        pub fn larsavim_pair(words: *const u64, words_len: u64, field: u64, out: *mut u64, out_len: u64) -> u64;
        pub fn larsavim_needs(file: *const u8, file_len: u64, words: *const u64, words_len: u64, which: u64, out: *mut u64, out_len: u64) -> u64;
        pub fn larsavim_load(file: *const u8, file_len: u64, words: *const u64, words_len: u64, which: u64, questions: *mut u64, questions_len: u64, patterns: *mut u64, patterns_len: u64, trees: *mut u64, trees_len: u64, records: *mut u64, records_len: u64, values: *mut u64, values_len: u64, work: *mut i64, work_len: u64, out: *mut u64, out_len: u64) -> u64;
        pub fn larsavim_load_shared(file: *const u8, file_len: u64, words: *const u64, words_len: u64, which: u64, side: u64, held: *mut u64, held_len: u64, other: *const u64, other_len: u64, questions: *mut u64, questions_len: u64, patterns: *mut u64, patterns_len: u64, trees: *mut u64, trees_len: u64, records: *mut u64, records_len: u64, values: *mut u64, values_len: u64, work: *mut i64, work_len: u64, out: *mut u64, out_len: u64) -> u64;
        pub fn larsavim_load_tree(file: *const u8, file_len: u64, words: *const u64, words_len: u64, which: u64, tree: u64, side: u64, held: *mut u64, held_len: u64, other: *const u64, other_len: u64, questions: *mut u64, questions_len: u64, patterns: *mut u64, patterns_len: u64, trees: *mut u64, trees_len: u64, records: *mut u64, records_len: u64, values: *mut u64, values_len: u64, work: *mut i64, work_len: u64, out: *mut u64, out_len: u64) -> u64;
        pub fn larsavim_house(file: *const u8, file_len: u64, words: *mut u64, words_len: u64, side: u64, held: *mut u64, held_len: u64, other: *const u64, other_len: u64, questions: *mut u64, questions_len: u64, patterns: *mut u64, patterns_len: u64, trees: *mut u64, trees_len: u64, records: *mut u64, records_len: u64, values: *mut u64, values_len: u64, work: *mut i64, work_len: u64, out: *mut u64, out_len: u64) -> u64;
        pub fn larsavim_unload(side: u64, held: *mut u64, held_len: u64, other: *const u64, other_len: u64, questions: *mut u64, questions_len: u64, patterns: *mut u64, patterns_len: u64, trees: *mut u64, trees_len: u64, records: *mut u64, records_len: u64, values: *mut u64, values_len: u64) -> u64;
        pub fn larsavim_answers(label: *const u8, label_len: u64, questions: *const u64, questions_len: u64, patterns: *const u64, patterns_len: u64, data: *const u8, data_len: u64, answers: *mut u8, answers_len: u64) -> u64;
        pub fn larsavim_walk(trees: *const u64, trees_len: u64, records: *const u64, records_len: u64, tree: u64, answers: *const u8, answers_len: u64, limit: u64, out: *mut u64, out_len: u64) -> u64;
        pub fn larsavim_depth(trees: *const u64, trees_len: u64, records: *const u64, records_len: u64, tree: u64, work: *mut i64, work_len: u64, out: *mut u64, out_len: u64) -> u64;
        pub fn larsavim_accepts(text: *const u8, text_len: u64, tree: u64, records: *const u64, records_len: u64, out: *mut u64, out_len: u64) -> u64;
        pub fn larsavim_trailer(file: *const u8, file_len: u64, words: *mut u64, words_len: u64, trailer: *mut u8, trailer_len: u64, out: *mut u64, out_len: u64) -> u64;
        pub fn larsavim_trailed(file: *const u8, file_len: u64, words: *mut u64, words_len: u64, out: *mut u64, out_len: u64) -> u64;
        pub fn larsavim_bare_walk(text: *const u8, text_len: u64, tree: u64, answers: *const u8, answers_len: u64, limit: u64, out: *mut u64, out_len: u64) -> u64;
        pub fn larsavim_walk_jobs(trees: *const u64, trees_len: u64, records: *const u64, records_len: u64, answers: *const u8, answers_len: u64, jobs: *mut Job, jobs_len: u64);
        pub fn larsavim_leaves(questions: *const u64, questions_len: u64, trees: *const u64, trees_len: u64, records: *const u64, records_len: u64, values: *const u64, values_len: u64, width: u64) -> u64;
        pub fn larsavim_write_needs(data: *const u8, data_len: u64, questions: *const u64, questions_len: u64, patterns: *const u64, patterns_len: u64, trees: *const u64, trees_len: u64, records: *const u64, records_len: u64, out: *mut u64, out_len: u64) -> u64;
        pub fn larsavim_write(data: *const u8, data_len: u64, questions: *const u64, questions_len: u64, patterns: *const u64, patterns_len: u64, trees: *const u64, trees_len: u64, records: *const u64, records_len: u64, buffer: *mut u8, buffer_len: u64, out: *mut u64, out_len: u64) -> u64;
    }
}

/// A call with its slices written once each: `name` stands for a number, `[name]` for a slice that is read, `[mut name]` for one that is written.
/// Each slice gives its own pointer and its own length; no other expression is possible here.
macro_rules! call {
    ($function:ident; $($arguments:tt)*) => { call!(@ $function; (); $($arguments)*) };
    (@ $function:ident; ($($done:tt)*); [mut $slice:ident] $(, $($rest:tt)*)?) => { call!(@ $function; ($($done)* $slice.as_mut_ptr(), $slice.len() as u64,); $($($rest)*)?) };
    (@ $function:ident; ($($done:tt)*); [$slice:ident] $(, $($rest:tt)*)?) => { call!(@ $function; ($($done)* $slice.as_ptr(), $slice.len() as u64,); $($($rest)*)?) };
    (@ $function:ident; ($($done:tt)*); $number:ident $(, $($rest:tt)*)?) => { call!(@ $function; ($($done)* $number,); $($($rest)*)?) };
    (@ $function:ident; ($($done:tt)*);) => {
        // SAFETY: see the head of this file
        unsafe { raw::$function($($done)*) }
    };
}

/// The tables of a model, cut to the rows that a load returned.
#[derive(Clone, Copy)]
pub struct Rows<'t> {
    pub questions: &'t [u64],
    pub patterns: &'t [u64],
    pub trees: &'t [u64],
    pub records: &'t [u64],
    pub values: &'t [u64],
}

pub fn open(file: &[u8], words: &mut [u64; WORDS]) -> [u64; OPEN_OUT] {
    let mut out = [0; OPEN_OUT];
    call!(larsavim_open; [file], [mut words], [mut out]);
    out
}

pub fn comment(file: &[u8], words: &[u64; WORDS], fallback: &[u8]) -> [u64; COMMENT_OUT] {
    let mut out = [0; COMMENT_OUT];
    let (file_len, fallback_len) = (file.len() as u64, fallback.len() as u64);
    call!(larsavim_comment; file_len, [words], fallback_len, [mut out]);
    out
}

pub fn get(words: &[u64; WORDS], field: u64) -> [u64; GET_OUT] {
    let mut out = [0; GET_OUT];
    call!(larsavim_get; [words], field, [mut out]);
    out
}

pub fn pair(words: &[u64; WORDS], field: u64) -> [u64; PAIR_OUT] {
    let mut out = [0; PAIR_OUT];
    call!(larsavim_pair; [words], field, [mut out]);
    out
}

pub fn needs(file: &[u8], words: &[u64; WORDS], which: u64) -> [u64; NEEDS_OUT] {
    let mut out = [0; NEEDS_OUT];
    call!(larsavim_needs; [file], [words], which, [mut out]);
    out
}

pub fn load(file: &[u8], words: &[u64; WORDS], which: u64, tables: &mut crate::Tables, work: &mut [i64]) -> [u64; LOAD_OUT] {
    let mut out = [0; LOAD_OUT];
    let crate::Tables { questions, patterns, trees, records, values } = tables;
    call!(larsavim_load; [file], [words], which, [mut questions], [mut patterns], [mut trees], [mut records], [mut values], [mut work], [mut out]);
    out
}

/// What a load asks for: the file, its record, and the number of the model.
pub struct Asked<'v> {
    pub file: &'v [u8],
    pub words: &'v [u64; WORDS],
    pub which: u64,
}

pub fn load_shared(asked: &Asked, side: u64, held: &mut [u64; BOUNDS], other: &[u64; BOUNDS], tables: &mut crate::Tables, work: &mut [i64]) -> [u64; LOAD_OUT] {
    let mut out = [0; LOAD_OUT];
    let Asked { file, words, which } = *asked;
    let crate::Tables { questions, patterns, trees, records, values } = tables;
    call!(larsavim_load_shared; [file], [words], which, side, [mut held], [other], [mut questions], [mut patterns], [mut trees], [mut records], [mut values], [mut work], [mut out]);
    out
}

pub fn load_tree(asked: &Asked, tree: u64, side: u64, held: &mut [u64; BOUNDS], other: &[u64; BOUNDS], tables: &mut crate::Tables, work: &mut [i64]) -> [u64; LOAD_OUT] {
    let mut out = [0; LOAD_OUT];
    let Asked { file, words, which } = *asked;
    let crate::Tables { questions, patterns, trees, records, values } = tables;
    call!(larsavim_load_tree; [file], [words], which, tree, side, [mut held], [other], [mut questions], [mut patterns], [mut trees], [mut records], [mut values], [mut work], [mut out]);
    out
}

pub fn house(file: &[u8], words: &mut [u64; WORDS], side: u64, held: &mut [u64; BOUNDS], other: &[u64; BOUNDS], tables: &mut crate::Tables, work: &mut [i64]) -> [u64; HOUSE_OUT] {
    let mut out = [0; HOUSE_OUT];
    let crate::Tables { questions, patterns, trees, records, values } = tables;
    call!(larsavim_house; [file], [mut words], side, [mut held], [other], [mut questions], [mut patterns], [mut trees], [mut records], [mut values], [mut work], [mut out]);
    out
}

pub fn unload(side: u64, held: &mut [u64; BOUNDS], other: &[u64; BOUNDS], tables: &mut crate::Tables) -> u64 {
    let crate::Tables { questions, patterns, trees, records, values } = tables;
    call!(larsavim_unload; side, [mut held], [other], [mut questions], [mut patterns], [mut trees], [mut records], [mut values])
}

pub fn answers(rows: &Rows, label: &[u8], data: &[u8], answers: &mut [u8]) -> u64 {
    let Rows { questions, patterns, .. } = rows;
    call!(larsavim_answers; [label], [questions], [patterns], [data], [mut answers])
}

pub fn walk(rows: &Rows, tree: u64, answers: &[u8], limit: u64) -> [u64; WALK_OUT] {
    let mut out = [0; WALK_OUT];
    let Rows { trees, records, .. } = rows;
    call!(larsavim_walk; [trees], [records], tree, [answers], limit, [mut out]);
    out
}

pub fn depth(rows: &Rows, tree: u64, work: &mut [i64]) -> [u64; DEPTH_OUT] {
    let mut out = [0; DEPTH_OUT];
    let Rows { trees, records, .. } = rows;
    call!(larsavim_depth; [trees], [records], tree, [mut work], [mut out]);
    out
}

pub fn accepts(text: &[u8], tree: u64, records: &[u64]) -> [u64; ACCEPTS_OUT] {
    let mut out = [0; ACCEPTS_OUT];
    call!(larsavim_accepts; [text], tree, [records], [mut out]);
    out
}

pub fn trailer(file: &[u8], words: &mut [u64; WORDS], trailer: &mut [u8]) -> [u64; TRAILER_OUT] {
    let mut out = [0; TRAILER_OUT];
    call!(larsavim_trailer; [file], [mut words], [mut trailer], [mut out]);
    out
}

pub fn trailed(file: &[u8], words: &mut [u64; WORDS]) -> [u64; TRAILED_OUT] {
    let mut out = [0; TRAILED_OUT];
    call!(larsavim_trailed; [file], [mut words], [mut out]);
    out
}

pub fn bare_walk(text: &[u8], tree: u64, answers: &[u8], limit: u64) -> [u64; BARE_OUT] {
    let mut out = [0; BARE_OUT];
    call!(larsavim_bare_walk; [text], tree, [answers], limit, [mut out]);
    out
}

pub fn walk_jobs(rows: &Rows, answers: &[u8], jobs: &mut [Job]) {
    let Rows { trees, records, .. } = rows;
    call!(larsavim_walk_jobs; [trees], [records], [answers], [mut jobs]);
}

pub fn leaves(rows: &Rows, width: u64) -> u64 {
    let Rows { questions, trees, records, values, .. } = rows;
    call!(larsavim_leaves; [questions], [trees], [records], [values], width)
}

pub fn write_needs(rows: &Rows, data: &[u8]) -> [u64; WRITE_NEEDS_OUT] {
    let mut out = [0; WRITE_NEEDS_OUT];
    let Rows { questions, patterns, trees, records, .. } = rows;
    call!(larsavim_write_needs; [data], [questions], [patterns], [trees], [records], [mut out]);
    out
}

pub fn write(rows: &Rows, data: &[u8], buffer: &mut [u8]) -> [u64; WRITE_OUT] {
    let mut out = [0; WRITE_OUT];
    let Rows { questions, patterns, trees, records, .. } = rows;
    call!(larsavim_write; [data], [questions], [patterns], [trees], [records], [mut buffer], [mut out]);
    out
}
