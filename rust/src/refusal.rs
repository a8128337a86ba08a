use std::error::Error;
use std::fmt;
use std::io;

/// Why a call was refused. Later versions may have more numbers.
#[derive(Clone, Copy, Debug, PartialEq, Eq, Hash)]
#[non_exhaustive]
#[repr(u8)]
pub enum Refusal {
    /// The width is none of 224, 256, 384 and 512.
    Width = 1,
    /// More bits are asked for than the bytes have.
    Count = 2,
    /// Retired: no call answers it since bits past the count are ignored. The name stays so that
    /// callers compile.
    Spare = 3,
    /// The message would have more than [`BITS_MAX`](crate::BITS_MAX) bits; of a keyed hash, the key,
    /// or the message with one key block. A count has 64 bits, so that no message alone, given whole
    /// with its count, is refused so.
    Total = 4,
    /// Two stored forms that no keyed hash holds: of unequal widths, the inner one shorter than a key
    /// block, or the outer one not exactly so long.
    Hash = 5,
    /// The output is too short; in this crate that of a [`tape`](crate::tape) alone.
    Output = 6,
    /// A block or state has another size than the width's, or a digest another length than its width
    /// asks.
    Block = 7,
    /// A stored form has another size than the two of its width: 138 or 266 bytes, and 134 or 262 of
    /// an old one.
    Form = 8,
    /// A bit of a stored form is set past its tail.
    Tail = 9,
    /// The tape has a byte that is no command.
    Command = 10,
    /// The tape ends in a command, or before STOP.
    End = 11,
    /// The tape has OPEN while a hash is open, or FULL, PART or TAKE while none is.
    Order = 12,
    /// The number of an entry is above [`NUMBER_MAX`](crate::NUMBER_MAX).
    Entry = 14,
    /// The width, the bit length or the size of an index does not fit the given width and message, or
    /// the number of a block is above the length block's.
    Index = 15,
}

impl Refusal {
    /// All of them, by number, with the retired one.
    pub const ALL: &'static [Refusal] = &[
        Refusal::Width,
        Refusal::Count,
        Refusal::Spare,
        Refusal::Total,
        Refusal::Hash,
        Refusal::Output,
        Refusal::Block,
        Refusal::Form,
        Refusal::Tail,
        Refusal::Command,
        Refusal::End,
        Refusal::Order,
        Refusal::Entry,
        Refusal::Index,
    ];

    /// The number that the library answers.
    pub fn number(self) -> u8 {
        self as u8
    }

    /// The answer of a call: a number, 0 where nothing is refused.
    pub(crate) fn check(number: u8) -> Result<(), Refusal> {
        if number == 0 {
            return Ok(());
        }
        let known = Self::ALL.iter().find(|refusal| refusal.number() == number);
        Err(*known.unwrap_or_else(|| panic!("the library answered {number}")))
    }
}

impl fmt::Display for Refusal {
    fn fmt(&self, f: &mut fmt::Formatter<'_>) -> fmt::Result {
        f.write_str(match self {
            Refusal::Width => "the width is none of 224, 256, 384 and 512",
            Refusal::Count => "more bits than the bytes have",
            Refusal::Spare => "retired: bits past the count are ignored",
            Refusal::Total => "more than 18446744073709551615 bits in all",
            Refusal::Hash => "the open or keyed hash is none",
            Refusal::Output => "the output, or an old form fed in place, is too short",
            Refusal::Block => "the block, state or digest has not the width's size",
            Refusal::Form => "the stored form has neither of its width's sizes",
            Refusal::Tail => "a bit of the stored form is set past its tail",
            Refusal::Command => "no such command on the tape",
            Refusal::End => "the tape ends in a command or before STOP",
            Refusal::Order => "the tape opens an open hash, or uses one that is not open",
            Refusal::Entry => "the entry number is above 999999",
            Refusal::Index => "the index or the block number does not fit the message",
        })
    }
}

impl Error for Refusal {}

impl From<Refusal> for io::Error {
    fn from(refusal: Refusal) -> io::Error {
        io::Error::new(io::ErrorKind::InvalidInput, refusal)
    }
}

/// Why and where a tape was refused.
#[derive(Clone, Copy, Debug, PartialEq, Eq)]
pub struct TapeRefusal {
    /// Why.
    pub refusal: Refusal,
    /// The offset of the command byte, or the tape's length where it ends before STOP.
    pub place: u64,
    /// How many digests were written before.
    pub count: u64,
}

impl fmt::Display for TapeRefusal {
    fn fmt(&self, f: &mut fmt::Formatter<'_>) -> fmt::Result {
        write!(
            f,
            "refused {} at {}: {}",
            self.refusal.number(),
            self.place,
            self.refusal
        )
    }
}

impl Error for TapeRefusal {
    fn source(&self) -> Option<&(dyn Error + 'static)> {
        Some(&self.refusal)
    }
}
