//! The reader of survey words: adds each site to a survey as it is read.
use super::assay::decode;
use mubdrax::{ReadingRecord, Site};

/// Where a fault was found.
#[derive(Clone, Copy, Debug, PartialEq, Eq)]
pub enum Layer {
    Words,
    Grading,
    Survey,
}

#[derive(Clone, Debug, PartialEq, Eq)]
pub struct Fault {
    pub number: u32,
    pub word: usize,
    pub layer: Layer,
}

/// A file that is read word by word, the latest label accepted, and how many sites there were.
pub struct Reader<'a> {
    file: &'a [u8],
    next: usize,
    pub label: Option<&'a [u8]>,
    sites: u32,
}

impl<'a> Reader<'a> {
    pub fn new(file: &'a [u8]) -> Reader<'a> {
        Reader { file, next: 0, label: None, sites: 0 }
    }

    /// Reads the file to its end, handing each site to `add` before the word after its reading is looked at.
    pub fn read(&mut self, mut add: impl FnMut(&Site) -> Result<(), u32>) -> Result<(), Fault> {
        let length = self.file.len();
        if !length.is_multiple_of(4) || !(4..=32_768).contains(&length) {
            return Err(Fault { number: 20, word: 0, layer: Layer::Words });
        }
        loop {
            let word = self.next;
            let bits = self.take()?;
            match bits >> 30 {
                0 => {
                    let site = self.site(bits)?;
                    add(&site).map_err(|number| Fault { number, word, layer: Layer::Survey })?;
                    self.sites += 1;
                }
                2 => self.label(bits, word)?,
                3 => return self.end(bits, word),
                _ => return Err(fault(21, word)),
            }
        }
    }

    /// The next word; a file that stops without an end word is at fault at the word after the last.
    fn take(&mut self) -> Result<u32, Fault> {
        let word = self.next;
        let bytes = self.file.chunks_exact(4).nth(word).ok_or(fault(21, word))?;
        self.next += 1;
        Ok(u32::from_be_bytes(bytes.try_into().expect("a chunk of four bytes")))
    }

    /// The site that begins with a site word: at most one penalty word follows it, and then a reading word.
    fn site(&mut self, bits: u32) -> Result<Site, Fault> {
        let mut penalty = 0;
        let mut word = self.next;
        let mut said = self.take()?;
        if said >> 28 == 0b0111 {
            penalty = said & 0x0fff_ffff;
            word = self.next;
            said = self.take()?;
            if said >> 28 == 0b0111 {
                return Err(fault(21, word));
            }
        }
        if said >> 30 != 1 {
            return Err(fault(21, word));
        }
        let reading = self.reading(said, word)?;
        let coordinate = |shift: u32| (bits >> shift & 0x3ff) as u16;
        Ok(Site { x: coordinate(20), y: coordinate(10), z: coordinate(0), penalty, reading })
    }

    fn reading(&self, said: u32, word: usize) -> Result<ReadingRecord, Fault> {
        decode(said >> 28 & 3, said & 0x0fff_ffff).ok_or(Fault { number: 23, word, layer: Layer::Grading })
    }

    /// Accepts a label: 1 to 12 bytes from 32 to 126, padded with zero bytes to a word.
    fn label(&mut self, bits: u32, word: usize) -> Result<(), Fault> {
        let length = (bits & 0x3fff_ffff) as usize;
        if !(1..=12).contains(&length) {
            return Err(fault(22, word));
        }
        let start = 4 * self.next;
        let padded = length.next_multiple_of(4);
        let Some(bytes) = self.file.get(start..start + padded) else {
            return Err(fault(22, word));
        };
        let (text, padding) = bytes.split_at(length);
        if !text.iter().all(|byte| (32..=126).contains(byte)) || padding.iter().any(|&byte| byte != 0) {
            return Err(fault(22, word));
        }
        self.label = Some(text);
        self.next += padded / 4;
        Ok(())
    }

    fn end(&self, bits: u32, word: usize) -> Result<(), Fault> {
        if 4 * self.next != self.file.len() || bits & 0x3fff_ffff != self.sites {
            return Err(fault(24, word));
        }
        Ok(())
    }
}

fn fault(number: u32, word: usize) -> Fault {
    Fault { number, word, layer: Layer::Words }
}
