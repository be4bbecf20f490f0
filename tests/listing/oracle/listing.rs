//! The listing, written from document 01 over the reference's `RecordParser`.

use crate::protocol::nvxs::{Record, RecordParser, RecordType};
use crate::refusal;
use std::io::{Read, Write};

/// A mistake planted in the listing, which a comparison must find.
#[derive(Clone, Copy, PartialEq)]
pub enum Slip {
    None,
    /// Open is kept at a RESET.
    Reset,
    /// A CREDIT above open leaves open.
    Credit,
    /// Offsets are one too high after the first record.
    Offset,
    /// The bytes after a refusal count as unfinished.
    Unfinished,
}

impl Slip {
    pub fn named(word: &str) -> Self {
        match word {
            "reset" => Self::Reset,
            "credit" => Self::Credit,
            "offset" => Self::Offset,
            "unfinished" => Self::Unfinished,
            _ => Self::None,
        }
    }
}

pub struct Listing {
    parser: RecordParser,
    offset: u64,
    open: u64,
    refusal: u8,
    slip: Slip,
}

impl Listing {
    pub fn new(slip: Slip, out: &mut impl Write) -> std::io::Result<Self> {
        writeln!(out, "at type epoch sequence length open")?;
        Ok(Self { parser: RecordParser::new(), offset: 0, open: 0, refusal: 0, slip })
    }

    /// Lists the records that a piece completes; false after a refusal.
    pub fn feed(&mut self, mut piece: &[u8], out: &mut impl Write) -> std::io::Result<bool> {
        while self.refusal == 0 && !piece.is_empty() {
            match self.parser.push(piece) {
                Ok((taken, record)) => {
                    piece = &piece[taken..];
                    if let Some(record) = record {
                        self.line(&record, out)?;
                    }
                }
                Err(error) => self.refusal = refusal::of_record(&error).number,
            }
        }
        Ok(self.refusal == 0)
    }

    fn line(&mut self, record: &Record, out: &mut impl Write) -> std::io::Result<()> {
        let length = record.payload().len() as u64;
        match record.record_type() {
            RecordType::Reset if self.slip != Slip::Reset => self.open = 0,
            RecordType::Data => self.open += length,
            RecordType::Credit => self.credit(record.credit().unwrap_or(0).into()),
            _ => {}
        }
        writeln!(
            out,
            "{} {} {} {} {length} {}",
            self.offset,
            record.record_type().code(),
            record.epoch(),
            record.sequence(),
            self.open
        )?;
        self.offset += 44 + length;
        if self.slip == Slip::Offset {
            self.offset += 1;
        }
        Ok(())
    }

    fn credit(&mut self, value: u64) {
        if self.slip != Slip::Credit || value <= self.open {
            self.open = self.open.saturating_sub(value);
        }
    }

    pub fn end(&self, out: &mut impl Write) -> std::io::Result<()> {
        let mut unfinished = self.parser.buffered();
        if self.slip == Slip::Unfinished && self.refusal != 0 {
            unfinished = 44;
        }
        writeln!(out, "end {} {} {unfinished}", self.offset, self.refusal)
    }
}

/// Standard input to standard output, with reads and writes as large as the port's.
pub fn list(slip: Slip) -> Result<(), String> {
    let mut out = std::io::BufWriter::with_capacity(65536, std::io::stdout().lock());
    listed(slip, &mut std::io::stdin().lock(), &mut out)
        .and_then(|()| out.flush())
        .map_err(|error| error.to_string())
}

fn listed(slip: Slip, input: &mut impl Read, out: &mut impl Write) -> std::io::Result<()> {
    let mut listing = Listing::new(slip, out)?;
    let mut buffer = vec![0; 262144];
    loop {
        let count = input.read(&mut buffer)?;
        if count == 0 || !listing.feed(&buffer[..count], out)? {
            return listing.end(out);
        }
    }
}
