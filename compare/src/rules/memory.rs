//! Memories: lists of words of fixed length, in whole frames.

pub const FRAME_WORDS: usize = 512;
pub const FRAME_BYTES: usize = 4_096;
pub const MAX_FRAMES: usize = 4_096;

/// A word outside the memory was asked for.
#[derive(Clone, Copy, Debug, PartialEq, Eq)]
pub struct Outside;

pub trait Memory {
    /// How many words there are.
    fn words(&self) -> u64;
    fn read(&self, index: u64) -> Result<u64, Outside>;
    fn write(&mut self, index: u64, word: u64) -> Result<(), Outside>;
}

/// Where item `index` of a slice lies, if it is one.
fn place<T>(items: &[T], index: u64) -> Result<usize, Outside> {
    match usize::try_from(index) {
        Ok(place) if place < items.len() => Ok(place),
        _ => Err(Outside),
    }
}

/// The words of a memory of `items` words handed in: its first whole frames, at most 4,096.
fn shown(items: usize) -> usize {
    (items / FRAME_WORDS).min(MAX_FRAMES) * FRAME_WORDS
}

/// A memory over words handed in.
pub struct WordMemory<'a> {
    words: &'a mut [u64],
}

impl<'a> WordMemory<'a> {
    pub fn new(words: &'a mut [u64]) -> Self {
        let shown = shown(words.len());
        Self { words: &mut words[..shown] }
    }
}

impl Memory for WordMemory<'_> {
    fn words(&self) -> u64 {
        self.words.len() as u64
    }

    fn read(&self, index: u64) -> Result<u64, Outside> {
        Ok(self.words[place(self.words, index)?])
    }

    fn write(&mut self, index: u64, word: u64) -> Result<(), Outside> {
        let place = place(self.words, index)?;
        self.words[place] = word;
        Ok(())
    }
}

/// A memory over bytes handed in, eight to a word, lowest byte first.
pub struct ByteMemory<'a> {
    words: &'a mut [[u8; 8]],
}

impl<'a> ByteMemory<'a> {
    pub fn new(bytes: &'a mut [u8]) -> Self {
        let (words, _) = bytes.as_chunks_mut();
        let shown = shown(words.len());
        Self { words: &mut words[..shown] }
    }
}

impl Memory for ByteMemory<'_> {
    fn words(&self) -> u64 {
        self.words.len() as u64
    }

    fn read(&self, index: u64) -> Result<u64, Outside> {
        Ok(u64::from_le_bytes(self.words[place(self.words, index)?]))
    }

    fn write(&mut self, index: u64, word: u64) -> Result<(), Outside> {
        let place = place(self.words, index)?;
        self.words[place] = word.to_le_bytes();
        Ok(())
    }
}
