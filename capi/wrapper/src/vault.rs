//! A vault that owns its buffers.
use crate::{calls, sizes, Header, Record, Refusal};

/// An opened vault: its header, raw copy, full stripe and log.
#[derive(Clone, Debug, PartialEq, Eq)]
pub struct Vault {
    header: Header,
    raw: Vec<u32>,
    full: Vec<u32>,
    log: Vec<u32>,
}

impl Vault {
    /// A vault over raw records: 2^k times s words. Those of a record may all be 0, or all [`STRUCK_WORD`](crate::STRUCK_WORD): it is struck then.
    pub fn open(k: u32, s: u32, raw: Vec<u32>) -> Result<Vault, Refusal> {
        let mut full = vec![0; sizes::full(k, s)];
        let mut log = vec![0; sizes::log(k, s)];
        let header = calls::open(k, s, &raw, &mut full, &mut log)?;
        Ok(Vault {
            header,
            raw,
            full,
            log,
        })
    }

    pub fn header(&self) -> Header {
        self.header
    }

    /// Replaces a record by a block of s words. A blank block, one whose words are all 0, is refused ([`Refusal::Blank`]): a press whose probe is unplugged
    /// writes such blocks. After a refusal the vault is as it was.
    pub fn write(&mut self, record: u32, block: &[u32]) -> Result<(), Refusal> {
        let Vault {
            header,
            raw,
            full,
            log,
        } = self;
        calls::write(header, raw, full, log, record, block)
    }

    /// Strikes a record: it has no words until it is written again. A strike is a write of the round, also where the record is struck already: it counts, is
    /// taken back, and is the origin of its record. After a refusal the vault is as it was.
    ///
    /// ```
    /// use vault_library::{Record, Refusal, Vault};
    ///
    /// let mut vault = Vault::open(2, 1, vec![5, 6, 7, 8])?;
    /// vault.strike(3)?;
    /// assert_eq!(vault.read(3)?, Record::Struck);
    /// assert_eq!(vault.header().c, 1);
    /// vault.take_back()?;
    /// assert_eq!(vault.read(3)?, Record::Words(&[8]));
    /// # Ok::<(), Refusal>(())
    /// ```
    pub fn strike(&mut self, record: u32) -> Result<(), Refusal> {
        let Vault {
            header,
            raw,
            full,
            log,
        } = self;
        calls::strike(header, raw, full, log, record)
    }

    /// Takes back the last write or strike of the round: the vault is as it was before it, each buffer and the header. So it can be done again and again, back
    /// to the round's start, where it is refused ([`Refusal::RoundStart`]). The write that ends a round cannot be taken back. After a refusal the vault is as
    /// it was.
    ///
    /// ```
    /// use vault_library::{Refusal, Vault};
    ///
    /// let mut vault = Vault::open(2, 1, vec![5, 6, 7, 8])?;
    /// let opened = vault.clone();
    /// // For record 0, but record 1 was keyed.
    /// vault.write(1, &[9])?;
    /// vault.take_back()?;
    /// assert!(vault == opened);
    /// assert_eq!(vault.take_back(), Err(Refusal::RoundStart));
    /// # Ok::<(), Refusal>(())
    /// ```
    pub fn take_back(&mut self) -> Result<(), Refusal> {
        let Vault {
            header,
            raw,
            full,
            log,
        } = self;
        let mut scratch = vec![0; sizes::take_back_scratch(header.k, header.s)];
        calls::take_back(header, raw, full, log, &mut scratch)
    }

    /// What a record holds now. That it is struck is an answer, and no error: [`Refusal::Struck`] is never given.
    pub fn read(&self, record: u32) -> Result<Record<'_>, Refusal> {
        match calls::read(self.header, &self.raw, record) {
            Err(Refusal::Struck) => Ok(Record::Struck),
            answer => answer.map(Record::Words),
        }
    }

    /// The image of the vault as it is now.
    pub fn image(&self) -> Result<Vec<u8>, Refusal> {
        let mut image = vec![0; sizes::image(self.header.k, self.header.s)];
        calls::image(self.header, &self.full, &self.log, &mut image)?;
        Ok(image)
    }
}
