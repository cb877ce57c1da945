//! A trailer behind the data: one row a tree, so that a tree is found without reading the rest.
use crate::calls::{self, TRAILER_ROW, WORDS};
use crate::Refusal;

/// How many bytes the trailer of a file has, or would have: 12 a tree, and 12. [`Refusal::NoTrailer`] where the file with it would be longer than a voice may be.
pub fn trailer_len(file: &[u8]) -> Result<usize, Refusal> {
    let [number, place, bytes] = calls::trailer(file, &mut [0; WORDS], &mut []);
    let no_room = Refusal::told(number, place, 0);
    if no_room != Err(Refusal::NoTrailer) {
        no_room?;
    }
    let len = bytes as usize;
    if file.len() + len > calls::FILE_LIMIT {
        return Err(Refusal::NoTrailer);
    }
    Ok(len)
}

/// Writes the trailer of a file to the front of a buffer, for putting it behind the file; how many bytes it has. [`Refusal::NoTrailer`] where the buffer is too short, or the file
/// with its trailer longer than a voice may be; before it what is wrong with the file, or with the tree text of a model. A refusal leaves the buffer as it was.
pub fn write_trailer(file: &[u8], buffer: &mut [u8]) -> Result<usize, Refusal> {
    let [number, place, bytes] = calls::trailer(file, &mut [0; WORDS], buffer);
    Refusal::told(number, place, 0)?;
    Ok(bytes as usize)
}

/// The trailer that a file ends in.
#[derive(Clone, Copy, Debug, PartialEq, Eq)]
pub struct Trailer<'f> {
    /// Where its rows begin, in the file.
    pub begin: usize,
    rows: &'f [u8],
}

/// What a trailer says of a tree.
#[derive(Clone, Copy, Debug, PartialEq, Eq)]
pub struct TrailerRow {
    /// The model's number, as [`crate::Which::number`] has it.
    pub model: u32,
    /// Where the tree stands, from the first data byte on.
    pub offset: u32,
    /// The lines of its row.
    pub lines: u32,
}

impl<'f> Trailer<'f> {
    /// Reads and checks the trailer that a file ends in. It looks at every byte: once for a voice, when it comes.
    pub fn of(file: &'f [u8]) -> Result<Self, Refusal> {
        let [number, place, rows, begin] = calls::trailed(file, &mut [0; WORDS]);
        Refusal::told(number, place, 0)?;
        let begin = begin as usize;
        let rows = file.get(begin..begin + TRAILER_ROW * rows as usize).unwrap_or(&[]);
        Ok(Trailer { begin, rows })
    }

    /// Its rows, in order.
    pub fn rows(&self) -> impl Iterator<Item = TrailerRow> + 'f {
        self.rows.chunks_exact(TRAILER_ROW).map(|row| {
            let number = |k: usize| u32::from_le_bytes([row[k], row[k + 1], row[k + 2], row[k + 3]]);
            TrailerRow { model: number(0), offset: number(4), lines: number(8) }
        })
    }
}
