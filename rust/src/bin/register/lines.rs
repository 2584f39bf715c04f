//! The lines of a file.
use std::io::{self, BufRead, Read};

/// How many bytes of a line are kept: one more than an entry may have, so that a longer one is refused.
const KEPT: u64 = 4_097;

/// The lines of a file, one after another in the same buffer. A line ends with byte 10, which is not part of it; the last one need not have it.
pub struct Lines<R> {
    file: R,
    line: Vec<u8>,
}

impl<R: BufRead> Lines<R> {
    pub fn new(file: R) -> Lines<R> {
        Lines {
            file,
            line: Vec::new(),
        }
    }

    /// The next line, if there is one. What stands behind the bytes that are kept is read and dropped.
    pub fn next(&mut self) -> io::Result<Option<&[u8]>> {
        self.line.clear();
        let mut front = self.file.by_ref().take(KEPT);
        if front.read_until(b'\n', &mut self.line)? == 0 {
            return Ok(None);
        }
        if self.line.pop_if(|byte| *byte == b'\n').is_none() {
            self.file.skip_until(b'\n')?;
        }
        Ok(Some(&self.line))
    }
}
