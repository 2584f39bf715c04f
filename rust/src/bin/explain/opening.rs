//! How many of an entry's first bytes loop already, in words.
use crate::case::Case;
use entryreader::{Answer, Error, Pair, Reader};

/// The least number of the first bytes that loop, and how many the entry has.
#[derive(Clone, Copy, Debug, PartialEq, Eq)]
pub struct Opening {
    pub bytes: usize,
    of: usize,
    /// The pair that the round of these bytes comes back to, where the entry's comes back to another.
    other: Option<Pair>,
}

impl Opening {
    /// The opening of an entry whose round comes back to a pair; none of an entry without bytes, of which there is nothing more to say.
    pub fn new(reader: &mut Reader, entry: &[u8], named: Pair) -> Result<Option<Opening>, Error> {
        let least = reader.opening(entry)?.filter(|_| !entry.is_empty());
        let Some(bytes) = least else {
            return Ok(None);
        };
        let start = reader.start();
        let other = match reader.ask(&entry[..bytes], start, 0)? {
            Answer::Loop { named: own, .. } if own != named => Some(own),
            _ => None,
        };
        Ok(Some(Opening {
            bytes,
            of: entry.len(),
            other,
        }))
    }

    /// What is needed of the entry, and to which pair that comes back.
    pub fn sentence(self, case: Case) -> String {
        let of = self.of;
        let needed = match self.bytes {
            0 => String::from("No byte is needed: the empty entry loops too"),
            all if all == of => {
                String::from("The whole entry is needed: fewer of its first bytes do not loop")
            }
            1 => format!(
                "The first of {of} bytes is enough: it loops too, and the empty entry does not"
            ),
            bytes => {
                format!(
                    "The first {bytes} of {of} bytes are enough: they loop too, and no fewer do"
                )
            }
        };
        match self.other {
            Some(pair) => format!(
                "{needed}. There the round comes back to {}.",
                case.pair(pair)
            ),
            None => format!("{needed}."),
        }
    }

    /// The words beside the marked bytes.
    pub fn mark(self) -> String {
        match self.bytes {
            0 => String::from("the empty entry loops already"),
            all if all == self.of => String::from("only the whole entry loops"),
            1 => String::from("the first byte loops already"),
            bytes => format!("the first {bytes} bytes loop already"),
        }
    }
}
