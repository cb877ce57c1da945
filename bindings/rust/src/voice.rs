//! An opened file: the header's record by name.
use crate::calls::{self, WORDS};
use crate::{Needs, Refusal};

/// A model of a voice: the duration model, or the model or GV model of the i-th name in STREAM_TYPE.
#[derive(Clone, Copy, Debug, PartialEq, Eq, Hash)]
pub enum Which {
    /// The duration model.
    Duration,
    /// The model of a stream.
    Stream(u32),
    /// The GV model of a stream.
    Gv(u32),
}

impl Which {
    /// As larsavim.h counts models.
    pub fn number(self) -> u64 {
        match self {
            Which::Duration => 0,
            Which::Stream(i) => 2 * u64::from(i) + 1,
            Which::Gv(i) => 2 * u64::from(i) + 2,
        }
    }
}

/// A range of the data: its first and its last byte, counted from the first data byte, the last one included. 5-5 is one byte, 5-4 is none.
#[derive(Clone, Copy, Debug, PartialEq, Eq, Hash)]
pub struct Range {
    /// Its first byte.
    pub first: u64,
    /// Its last byte.
    pub last: u64,
}

impl Range {
    /// The bytes of the range, where it lies inside the data.
    pub fn of<'f>(&self, data: &'f [u8]) -> Option<&'f [u8]> {
        let (first, end) = (usize::try_from(self.first).ok()?, usize::try_from(self.last.checked_add(1)?).ok()?);
        data.get(first..end)
    }
}

/// A voice file that the library opened. It holds the header's record, 5,176 bytes, and no memory of the library's.
#[derive(Clone)]
pub struct Voice<'f> {
    file: &'f [u8],
    words: [u64; WORDS],
}

impl<'f> Voice<'f> {
    /// Opens a file: all that stands before `[DATA]` is read, judged and kept.
    pub fn open(file: &'f [u8]) -> Result<Self, Refusal> {
        let mut words = [0; WORDS];
        let [number, place] = calls::open(file, &mut words);
        Refusal::told(number, place, 0)?;
        Ok(Voice { file, words })
    }

    /// The bytes that were opened.
    pub fn file(&self) -> &'f [u8] {
        self.file
    }

    /// The file from its first data byte on.
    pub fn data(&self) -> &'f [u8] {
        self.bytes(calls::DATA_START)
    }

    /// Where the data begins in the file.
    pub fn data_start(&self) -> u64 {
        self.number(calls::DATA_START)
    }

    pub(crate) fn words(&self) -> &[u64; WORDS] {
        &self.words
    }

    fn number(&self, field: u64) -> u64 {
        calls::get(&self.words, field)[1]
    }

    fn flag(&self, field: u64) -> bool {
        self.number(field) == 1
    }

    fn range(&self, field: u64) -> Range {
        let [_, first, last] = calls::pair(&self.words, field);
        Range { first, last }
    }

    fn bytes(&self, field: u64) -> &'f [u8] {
        let [_, start, len] = calls::pair(&self.words, field);
        part(self.file, start, len)
    }

    /// A string of the header. The sections are UTF-8, and strings are cut at ASCII bytes.
    fn string(&self, field: u64) -> &'f str {
        core::str::from_utf8(self.bytes(field)).unwrap_or("")
    }

    fn strings(&self, field: u64, count: u64) -> impl Iterator<Item = &'f str> + '_ {
        (0..self.number(count)).map(move |k| self.string(field + 2 * k))
    }

    /// HTS_VOICE_VERSION.
    pub fn hts_voice_version(&self) -> &'f str {
        self.string(calls::HTS_VOICE_VERSION)
    }

    /// SAMPLING_FREQUENCY.
    pub fn sampling_frequency(&self) -> u64 {
        self.number(calls::SAMPLING_FREQUENCY)
    }

    /// FRAME_PERIOD.
    pub fn frame_period(&self) -> u64 {
        self.number(calls::FRAME_PERIOD)
    }

    /// NUM_STATES.
    pub fn num_states(&self) -> u64 {
        self.number(calls::NUM_STATES)
    }

    /// NUM_STREAMS.
    pub fn num_streams(&self) -> u64 {
        self.number(calls::NUM_STREAMS)
    }

    /// The names of STREAM_TYPE.
    pub fn stream_type(&self) -> impl Iterator<Item = &'f str> + '_ {
        self.strings(calls::STREAM_TYPE, calls::STREAM_TYPE_COUNT)
    }

    /// FULLCONTEXT_FORMAT.
    pub fn fullcontext_format(&self) -> &'f str {
        self.string(calls::FULLCONTEXT_FORMAT)
    }

    /// FULLCONTEXT_VERSION.
    pub fn fullcontext_version(&self) -> &'f str {
        self.string(calls::FULLCONTEXT_VERSION)
    }

    /// The items of GV_OFF_CONTEXT.
    pub fn gv_off_context(&self) -> impl Iterator<Item = &'f str> + '_ {
        self.strings(calls::GV_OFF_CONTEXT, calls::GV_OFF_CONTEXT_COUNT)
    }

    /// COMMENT, where the header has one.
    pub fn comment(&self) -> Option<&'f str> {
        self.flag(calls::HAS_COMMENT).then(|| self.string(calls::COMMENT))
    }

    /// COMMENT, or a text of the caller's own where the header has none.
    pub fn comment_or<'c>(&self, fallback: &'c str) -> &'c str
    where
        'f: 'c,
    {
        match calls::comment(self.file, &self.words, fallback.as_bytes()) {
            [0, 0, start, len] => core::str::from_utf8(part(self.file, start, len)).unwrap_or(fallback),
            _ => fallback,
        }
    }

    /// DURATION_PDF.
    pub fn duration_pdf(&self) -> Range {
        self.range(calls::DURATION_PDF)
    }

    /// DURATION_TREE.
    pub fn duration_tree(&self) -> Range {
        self.range(calls::DURATION_TREE)
    }

    /// The groups of `[STREAM]`, by first appearance.
    pub fn streams(&self) -> impl Iterator<Item = Stream<'f, '_>> + '_ {
        (0..self.number(calls::STREAM_COUNT)).map(move |i| Stream { voice: self, at: calls::STREAMS + calls::STREAM_WORDS * i })
    }

    /// The groups of `[POSITION]`, by first appearance.
    pub fn positions(&self) -> impl Iterator<Item = Position<'f, '_>> + '_ {
        (0..self.number(calls::POSITION_COUNT)).map(move |i| Position { voice: self, at: calls::POSITIONS + calls::POSITION_WORDS * i })
    }

    /// All models that the header names: the duration model, then each stream of STREAM_TYPE and its GV. Not all of them need load.
    pub fn models(&self) -> impl Iterator<Item = Which> {
        let streams = self.number(calls::STREAM_TYPE_COUNT) as u32; // 8 at most
        core::iter::once(Which::Duration).chain((0..streams).flat_map(|i| [Which::Stream(i), Which::Gv(i)]))
    }

    /// What a model needs to be loaded.
    pub fn needs(&self, which: Which) -> Result<Needs<'f, '_>, Refusal> {
        Needs::of(self, which)
    }
}

/// A group of `[STREAM]`.
#[derive(Clone, Copy)]
pub struct Stream<'f, 'v> {
    voice: &'v Voice<'f>,
    at: u64,
}

impl<'f, 'v> Stream<'f, 'v> {
    /// Its name, in brackets in the file.
    pub fn name(&self) -> &'f str {
        self.voice.string(self.at + calls::STREAM_NAME)
    }

    /// VECTOR_LENGTH.
    pub fn vector_length(&self) -> u64 {
        self.voice.number(self.at + calls::VECTOR_LENGTH)
    }

    /// NUM_WINDOWS.
    pub fn num_windows(&self) -> u64 {
        self.voice.number(self.at + calls::NUM_WINDOWS)
    }

    /// IS_MSD.
    pub fn is_msd(&self) -> bool {
        self.voice.flag(self.at + calls::IS_MSD)
    }

    /// USE_GV.
    pub fn use_gv(&self) -> bool {
        self.voice.flag(self.at + calls::USE_GV)
    }

    /// The items of OPTION.
    pub fn options(&self) -> impl Iterator<Item = &'f str> + 'v {
        let (voice, at) = (self.voice, self.at);
        (0..voice.number(at + calls::OPTION_COUNT)).map(move |k| voice.string(at + calls::OPTION + 2 * k))
    }
}

/// A group of `[POSITION]`.
#[derive(Clone, Copy)]
pub struct Position<'f, 'v> {
    voice: &'v Voice<'f>,
    at: u64,
}

impl<'f, 'v> Position<'f, 'v> {
    /// Its name, in brackets in the file.
    pub fn name(&self) -> &'f str {
        self.voice.string(self.at + calls::POSITION_NAME)
    }

    /// The ranges of STREAM_WIN.
    pub fn windows(&self) -> impl Iterator<Item = Range> + 'v {
        let (voice, at) = (self.voice, self.at);
        (0..voice.number(at + calls::STREAM_WIN_COUNT)).map(move |k| voice.range(at + calls::STREAM_WIN + 2 * k))
    }

    /// STREAM_PDF.
    pub fn pdf(&self) -> Range {
        self.voice.range(self.at + calls::STREAM_PDF)
    }

    /// STREAM_TREE.
    pub fn tree(&self) -> Range {
        self.voice.range(self.at + calls::STREAM_TREE)
    }

    /// GV_PDF, where the header has it.
    pub fn gv_pdf(&self) -> Option<Range> {
        self.voice.flag(self.at + calls::HAS_GV_PDF).then(|| self.voice.range(self.at + calls::GV_PDF))
    }

    /// GV_TREE, where the header has it.
    pub fn gv_tree(&self) -> Option<Range> {
        self.voice.flag(self.at + calls::HAS_GV_TREE).then(|| self.voice.range(self.at + calls::GV_TREE))
    }
}

/// A part of some bytes; empty where it doesn't lie inside them, which no record that an opening wrote comes to.
pub(crate) fn part(whole: &[u8], start: u64, len: u64) -> &[u8] {
    match (usize::try_from(start), usize::try_from(len)) {
        (Ok(start), Ok(len)) => whole.get(start..).and_then(|rest| rest.get(..len)).unwrap_or(&[]),
        _ => &[],
    }
}
