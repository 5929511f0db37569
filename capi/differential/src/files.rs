//! Images and erasure lists in files: those that one implementation made are read by the other.
use crate::erasures::{self, Loss, Marks};
use crate::origins::origins;
use crate::writes::{block, earlier_block};
use random::Random;
use reference::header::Header;
use reference::record::{is_struck, STRUCK};
use reference::{explanation, image, opening, recovery, striking, taking_back, writing};
use std::path::PathBuf;
use std::{env, fs, process};
use vault_library as library;

/// A folder that is removed at the end.
struct Folder(PathBuf);

impl Folder {
    fn new(seed: u64) -> Result<Folder, String> {
        let path = env::temp_dir().join(format!("differential-{}-{seed}", process::id()));
        fs::create_dir_all(&path).map_err(|error| format!("{}: {error}", path.display()))?;
        Ok(Folder(path))
    }

    fn store(&self, image: &[u8], list: &[u8]) -> Result<(), String> {
        let put =
            |name, bytes| fs::write(self.0.join(name), bytes).map_err(|e| format!("{name}: {e}"));
        put("image", image)?;
        put("gaps", list)
    }

    fn load(&self) -> Result<(Vec<u8>, Vec<u8>), String> {
        let get = |name| fs::read(self.0.join(name)).map_err(|error| format!("{name}: {error}"));
        Ok((get("image")?, get("gaps")?))
    }
}

impl Drop for Folder {
    fn drop(&mut self) {
        let _ = fs::remove_dir_all(&self.0);
    }
}

/// What an implementation writes: records of zeros are opened, and then written to; and at the end some writes are taken back.
struct History {
    k: u32,
    s: u32,
    /// Record numbers and their blocks; that of a struck record is a strike.
    writes: Vec<(u32, Vec<u32>)>,
    /// How many of the last of them are taken back.
    taken_back: usize,
}

/// Makes histories with strikes by both, that of reference/ as an earlier vault wrote it; has each store its image and an erasure list, and the other
/// recover from these files and explain it. Gives how many files were read.
pub fn exchange(seed: u64, small: bool) -> Result<usize, String> {
    let folder = Folder::new(seed)?;
    let mut random = Random::new(seed ^ 0xf11e);
    let mut count = 0;
    for k in 1..=if small { 3 } else { 8 } {
        for s in [1, 3] {
            let history = History::drawn(&mut random, k, s, written_or_struck);
            history.by_library(&folder, &mut random)?;
            let history = History::drawn(&mut random, k, s, earlier_or_struck);
            history.by_reference(&folder, &mut random)?;
            count += 4;
        }
    }
    Ok(count)
}

/// How a block of so many words is drawn.
type Drawn = fn(&mut Random, usize) -> Vec<u32>;

fn written_or_struck(random: &mut Random, count: usize) -> Vec<u32> {
    or_struck(random, count, block)
}

fn earlier_or_struck(random: &mut Random, count: usize) -> Vec<u32> {
    or_struck(random, count, earlier_block)
}

/// A block that is drawn so, or that of a strike.
fn or_struck(random: &mut Random, count: usize, drawn: Drawn) -> Vec<u32> {
    match random.below(4) {
        0 => vec![STRUCK; count],
        _ => drawn(random, count),
    }
}

impl History {
    /// Writes of blocks that are drawn so.
    fn drawn(random: &mut Random, k: u32, s: u32, block: Drawn) -> History {
        let writes: Vec<(u32, Vec<u32>)> = (0..random.below(3 << k))
            .map(|_| {
                let record = random.below(1 << k) as u32;
                (record, block(random, s as usize))
            })
            .collect();
        let of_the_round = writes.len() % (1 << k);
        let taken_back = random.index(of_the_round.min(8) + 1);
        History {
            k,
            s,
            writes,
            taken_back,
        }
    }

    /// The writes that stay.
    fn kept(&self) -> &[(u32, Vec<u32>)] {
        &self.writes[..self.writes.len() - self.taken_back]
    }

    /// The records that the writes and the takings-back leave.
    fn book(&self) -> Vec<u32> {
        let s = self.s as usize;
        let mut records = vec![0; s << self.k];
        for (record, block) in self.kept() {
            let start = *record as usize * s;
            records[start..start + s].copy_from_slice(block);
        }
        records
    }

    /// The counts and the origins that explain a recovery, where the last c writes are those of the round.
    fn explained(&self, header: Header, marks: &Marks) -> (Vec<u32>, Vec<u32>) {
        let round = &self.kept()[self.kept().len() - header.c as usize..];
        let written: Vec<u32> = round.iter().map(|write| write.0).collect();
        (erasures::counts(header, marks), origins(header, &written))
    }

    /// The library's image, and a list that its wrapper makes of erased positions, read by the reference.
    fn by_library(&self, folder: &Folder, random: &mut Random) -> Result<(), String> {
        let vault = self
            .library_vault()
            .map_err(|refusal| refusal.to_string())?;
        let library::Header { k, s, c } = vault.header();
        let header = Header { k, s, c };
        let marks = Loss::Half.marks(random, header);
        let mut erased = Vec::new();
        for stripe in 0..=k {
            for (i, _) in marks[stripe as usize].iter().enumerate().filter(|x| *x.1) {
                erased.push(library::stripes::position(k, s, stripe, i));
            }
        }
        let image = vault.image().map_err(|refusal| refusal.to_string())?;
        folder.store(&image, &library::erasures::list(erased))?;

        let (image, list) = folder.load()?;
        self.recovered_by_reference(header, &image, &list)?;
        self.explained_by_reference(header, &image, &list, &marks)?;
        let gaps = reference::erasures::gaps(&list, image.len()).map_err(|e| format!("{e:?}"))?;
        let same = |stripe: u32| {
            reference::erasures::erased(header, stripe, &gaps) == marks[stripe as usize]
        };
        if !(0..=k).all(same) {
            return Err(format!(
                "the library's erasure list has other positions at {header:?}"
            ));
        }
        Ok(())
    }

    /// The library's vault afterwards.
    fn library_vault(&self) -> Result<library::Vault, library::Refusal> {
        let zeros = vec![0; library::sizes::raw(self.k, self.s)];
        let mut vault = library::Vault::open(self.k, self.s, zeros)?;
        for (record, block) in &self.writes {
            if is_struck(block) {
                vault.strike(*record)?;
            } else {
                vault.write(*record, block)?;
            }
        }
        for _ in 0..self.taken_back {
            vault.take_back()?;
        }
        Ok(vault)
    }

    fn recovered_by_reference(
        &self,
        header: Header,
        image: &[u8],
        list: &[u8],
    ) -> Result<(), String> {
        let mut records = vec![1; header.raw_len()];
        let mut scratch = vec![1; header.scratch_len()];
        let answer = recovery::recover(header, image, list, &mut records, &mut scratch);
        if answer != (0, None) || records != self.book() {
            return Err(format!(
                "reference, from the library's files at {header:?}: {answer:?}"
            ));
        }
        Ok(())
    }

    fn explained_by_reference(
        &self,
        header: Header,
        image: &[u8],
        list: &[u8],
        marks: &Marks,
    ) -> Result<(), String> {
        let mut counts = vec![1; header.counts_len()];
        let mut origins = vec![1; header.origins_len()];
        let mut scratch = vec![1; header.scratch_len()];
        let answer =
            explanation::explain(header, image, list, &mut counts, &mut origins, &mut scratch);
        if answer != (0, None) || (counts, origins) != self.explained(header, marks) {
            return Err(format!(
                "reference, explaining the library's files at {header:?}: {answer:?}"
            ));
        }
        Ok(())
    }

    /// The reference's image, and a list beside it, read by the library.
    fn by_reference(&self, folder: &Folder, random: &mut Random) -> Result<(), String> {
        let (k, s) = (self.k, self.s);
        let (header, raw, image) = self.reference_vault();
        let marks = Loss::HalfAndEmpty.marks(random, header);
        folder.store(&image, &erasures::list(random, header, &marks))?;

        let (image, list) = folder.load()?;
        let given = library::Header { k, s, c: header.c };
        let mut records = vec![1; library::sizes::raw(k, s)];
        let mut scratch = vec![1; library::sizes::scratch(k, s)];
        library::calls::recover(given, &image, &list, &mut records, &mut scratch).map_err(
            |fault| format!("library, from the reference's files at {header:?}: {fault}"),
        )?;
        if records != raw || records != self.book() {
            return Err(format!("library, from the reference's files at {header:?}"));
        }
        self.explained_by_library(header, &image, &list, &marks)
    }

    /// The header, the raw copy and the image that the reference has afterwards.
    fn reference_vault(&self) -> (Header, Vec<u32>, Vec<u8>) {
        let (k, s) = (self.k, self.s);
        let opened = Header { k, s, c: 0 };
        let mut raw = vec![0; opened.raw_len()];
        let mut full = vec![0; opened.full_len()];
        let mut log = vec![0; opened.log_len()];
        let (_, mut header) = opening::open(k, s, &raw, &mut full, &mut log);
        for (record, block) in &self.writes {
            let (raw, full, log) = (&mut raw, &mut full, &mut log);
            (_, header) = if is_struck(block) {
                striking::strike(header, raw, full, log, *record)
            } else {
                writing::earlier_write(header, raw, full, log, *record, block)
            };
        }
        let mut scratch = vec![1; header.double_scratch_len()];
        for _ in 0..self.taken_back {
            (_, header) = taking_back::take_back(header, &mut raw, &full, &mut log, &mut scratch);
        }
        let mut image = vec![0; header.image_len()];
        image::image(header, &full, &log, &mut image);
        (header, raw, image)
    }

    fn explained_by_library(
        &self,
        header: Header,
        image: &[u8],
        list: &[u8],
        marks: &Marks,
    ) -> Result<(), String> {
        let Header { k, s, c } = header;
        let given = library::Header { k, s, c };
        let mut counts = vec![1; library::sizes::counts(k, s)];
        let mut origins = vec![1; library::sizes::origins(k, s)];
        let mut scratch = vec![1; library::sizes::scratch(k, s)];
        let answer =
            library::calls::explain(given, image, list, &mut counts, &mut origins, &mut scratch);
        if answer.is_err() || (counts, origins) != self.explained(header, marks) {
            return Err(format!(
                "library, explaining the reference's files at {header:?}: {answer:?}"
            ));
        }
        Ok(())
    }
}
