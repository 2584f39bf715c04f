//! What the program prints, and its progress.
use std::io::{self, IsTerminal, Write};
use std::time::{Duration, Instant};

/// How many bytes are gathered before they are written.
const GATHERED: usize = 1 << 16;

/// The progress is shown at most this often.
const INTERVAL: Duration = Duration::from_millis(100);

/// Standard output in large pieces; and on standard error the progress, where that is a terminal.
pub struct Output {
    gathered: Vec<u8>,
    progress: Option<Progress>,
}

struct Progress {
    /// It is not shown before.
    due: Instant,
    shown: bool,
}

impl Progress {
    /// A terminal that cannot be written to is not worth a word.
    fn write(&mut self, text: &str) {
        let _ = write!(io::stderr(), "\r\x1b[K{text}");
        self.shown = !text.is_empty();
    }
}

impl Output {
    pub fn new() -> Output {
        let progress = io::stderr().is_terminal().then(|| Progress {
            due: Instant::now() + INTERVAL,
            shown: false,
        });
        Output {
            gathered: Vec::with_capacity(GATHERED),
            progress,
        }
    }

    /// Shows how many entries were read, where that is due.
    pub fn show(&mut self, entries: u64) -> io::Result<()> {
        let due = |progress: &Progress| progress.due <= Instant::now();
        if !self.progress.as_ref().is_some_and(due) {
            return Ok(());
        }
        self.flush()?;
        if let Some(progress) = &mut self.progress {
            progress.write(&format!("{entries} entries"));
            progress.due = Instant::now() + INTERVAL;
        }
        Ok(())
    }
}

impl Write for Output {
    fn write(&mut self, bytes: &[u8]) -> io::Result<usize> {
        if self.gathered.len() + bytes.len() > GATHERED {
            self.flush()?;
        }
        self.gathered.extend_from_slice(bytes);
        Ok(bytes.len())
    }

    /// The progress is wiped before, so that the two do not mix on one terminal.
    fn flush(&mut self) -> io::Result<()> {
        if let Some(progress) = &mut self.progress
            && progress.shown
        {
            progress.write("");
        }
        let mut output = io::stdout().lock();
        output.write_all(&self.gathered)?;
        self.gathered.clear();
        output.flush()
    }
}
