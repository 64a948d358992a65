//! The sentences of request F-4 one by one, slowly, beside the library.

use std::collections::BTreeMap;

use compare::support::block_edges::edges;
use compare::support::block_files::{every_file, heads, letters};
use compare::support::blocks::{Bytes, Head};
use compare::support::partitions::{partition, WAY_NUMBERS};
use compare::support::random::Random;
use compare::support::vectors::{directory, read_blocks};
use compare::support::SEED;
use compare::{fetch, part, Fetched, Refusal};

/// The first check byte is the sum of bytes 0 to 509 modulo 255, the second the sum of
/// all running values of the first, modulo 255.
fn has_right_checks(block: &[u8]) -> bool {
    let mut running_values = vec![0];
    for &byte in &block[..510] {
        let before = running_values[running_values.len() - 1];
        running_values.push((before + u32::from(byte)) % 255);
    }
    let second = running_values.iter().sum::<u32>() % 255;
    u32::from(block[510]) == running_values[510] && u32::from(block[511]) == second
}

/// Used length: 2, lowest first, 1 to 502.
fn used(block: &[u8]) -> usize {
    usize::from(block[6]) + 256 * usize::from(block[7])
}

/// A block with a bad check, used length or filler is passed over.
fn is_good(block: &[u8]) -> bool {
    let has_right_length = used(block) >= 1 && used(block) <= 502;
    has_right_checks(block)
        && has_right_length
        && (8 + used(block)..510).all(|place| block[place] == 0)
}

fn is_for(block: &[u8], program: u16, edition: u16, part: u8) -> bool {
    usize::from(block[0]) + 256 * usize::from(block[1]) == usize::from(program)
        && usize::from(block[2]) + 256 * usize::from(block[3]) == usize::from(edition)
        && block[4] == part
}

/// A file that is not refused by 17.
struct Partition<'a> {
    good: Vec<&'a [u8]>,
}

impl Partition<'_> {
    fn of(file: &[u8]) -> Result<Partition<'_>, Refusal> {
        if !file.len().is_multiple_of(512) || file.len() / 512 > 64 {
            return Err(Refusal::whole(17));
        }
        let blocks = (0..file.len() / 512).map(|at| &file[512 * at..512 * at + 512]);
        let good = blocks.filter(|block| is_good(block)).collect();
        Ok(Partition { good })
    }

    /// Of two good blocks for one program, edition and part, the later in the file counts.
    fn counting(&self, program: u16, edition: u16, part: u8) -> Option<&[u8]> {
        let mut counting = None;
        for block in &self.good {
            if is_for(block, program, edition, part) {
                counting = Some(*block);
            }
        }
        counting
    }

    /// The number m of an edition that is whole: part 0 names m parts, m at least 1, the
    /// parts 0 to m − 1 all name m, and all but the last use 502 bytes.
    fn whole(&self, program: u16, edition: u16) -> Option<u8> {
        let m = self.counting(program, edition, 0)?[5];
        if m < 1 {
            return None;
        }
        for part in 0..m {
            let block = self.counting(program, edition, part)?;
            if block[5] != m || (part != m - 1 && used(block) != 502) {
                return None;
            }
        }
        Some(m)
    }

    fn content(&self, program: u16, edition: u16, part: u8) -> &[u8] {
        match self.counting(program, edition, part) {
            Some(block) => &block[8..8 + used(block)],
            None => &[],
        }
    }
}

/// The highest whole edition of the wanted program supersedes the others; its parts,
/// joined, are the table. Only editions that some block names can be whole.
fn slow_fetch(file: &[u8], program: u16) -> Result<(Vec<u8>, Fetched), Refusal> {
    let partition = Partition::of(file)?;
    let named = heads(file).into_iter().map(|head| head.edition);
    let whole = named.filter_map(|edition| Some((edition, partition.whole(program, edition)?)));
    let (edition, m) = whole.max().ok_or(Refusal::whole(18))?;
    let parts = (0..m).map(|part| partition.content(program, edition, part));
    let table = parts.collect::<Vec<_>>().concat();
    if table.len() > 2048 {
        return Err(Refusal::whole(1));
    }
    let fetched = Fetched {
        length: table.len(),
        edition,
        parts: m.into(),
    };
    Ok((table, fetched))
}

fn slow_part(file: &[u8], program: u16, edition: u16, part: u8) -> Vec<u8> {
    match Partition::of(file) {
        Ok(partition) => partition.content(program, edition, part).to_vec(),
        Err(_) => Vec::new(),
    }
}

/// How much was compared.
#[derive(Debug, Default)]
struct Counts {
    files: usize,
    /// By the number of the refusal, and 0 for a table that is fetched.
    fetches: BTreeMap<u32, usize>,
    parts: usize,
    empty_parts: usize,
}

impl Counts {
    fn fetch(&mut self, file: &[u8], program: u16) {
        let mut table = vec![200; 2048];
        let answer = fetch(file, program, &mut table).map(|fetched| {
            table.truncate(fetched.length);
            (table, fetched)
        });
        assert_eq!(answer, slow_fetch(file, program));
        let number = answer.map_or_else(|refusal| refusal.number, |_| 0);
        *self.fetches.entry(number).or_default() += 1;
    }

    fn part(&mut self, file: &[u8], program: u16, edition: u16, number: u8) {
        let content = part(file, program, edition, number);
        assert_eq!(content, slow_part(file, program, edition, number));
        self.parts += 1;
        self.empty_parts += usize::from(content.is_empty());
    }

    /// Fetches each program that is named, and takes each part and the one after it.
    fn all(&mut self, file: &[u8]) {
        self.files += 1;
        let mut before = None;
        for head in heads(file) {
            if before != Some(head.program) {
                self.fetch(file, head.program);
            }
            before = Some(head.program);
            for number in [head.part, head.part.wrapping_add(1)] {
                self.part(file, head.program, head.edition, number);
            }
        }
        self.fetch(file, 9);
    }
}

#[test]
fn edges_and_vectors() {
    let mut counts = Counts::default();
    edges().iter().for_each(|edge| counts.all(&edge.file));
    let vectors = read_blocks(&directory().join("blocks_open.jsonl"));
    for vector in &vectors {
        counts.all(&vector.file);
        counts.fetch(&vector.file, vector.program);
    }
    println!("{counts:?}");
    assert!(counts.fetches[&0] > 500, "{counts:?}");
}

#[test]
fn all_files_of_three_blocks() {
    let mut counts = Counts::default();
    every_file(&letters(), 3).for_each(|file| counts.all(&file));
    println!("{counts:?}");
    assert_eq!(counts.files, 4_369);
}

/// Whole editions of three parts, and others that lack something, with another block.
#[test]
fn all_files_of_four_blocks() {
    let letters = letters();
    let program = Head::of(&letters[0]).program;
    let mut counts = Counts::default();
    every_file(&letters, 4).for_each(|file| counts.fetch(&file, program));
    println!("{counts:?}");
    assert_eq!(counts.fetches[&0], 35_322);
}

#[test]
fn random_files() {
    let random = &mut Random::new(SEED);
    let mut counts = Counts::default();
    for number in 0..160 * WAY_NUMBERS {
        let most_blocks = *random.pick(&[1, 3, 6, 6, 12]);
        counts.all(&partition(random, number, most_blocks));
    }
    println!("{counts:?}");
    for (number, least) in [(0, 2000), (1, 50), (17, 50), (18, 2000)] {
        assert!(counts.fetches[&number] > least, "{counts:?}");
    }
    assert!(2 * counts.empty_parts < counts.parts, "{counts:?}");
}

/// Up to as many blocks as are allowed, and somewhat more.
#[test]
fn large_files() {
    let random = &mut Random::new(SEED);
    let mut counts = Counts::default();
    for number in 0..2 * WAY_NUMBERS {
        counts.all(&partition(random, number, 70));
    }
    println!("{counts:?}");
    assert!(
        counts.fetches[&0] > 20 && counts.fetches[&17] > 3,
        "{counts:?}"
    );
}

/// Every length of a file, up to a few blocks and around the most.
#[test]
fn cut_files() {
    let letters = letters();
    let blocks: Vec<Bytes> = letters.iter().cycle().take(66).copied().collect();
    let file = blocks.concat();
    let around = |count: usize| 512 * count - 2..=512 * count + 2;
    let lengths = (0..=3 * 512).chain([63, 64, 65, 66].into_iter().flat_map(around));
    let mut counts = Counts::default();
    let program = Head::of(&letters[0]).program;
    for length in lengths.filter(|&length| length <= file.len()) {
        counts.fetch(&file[..length], program);
        counts.part(&file[..length], program, 1, 0);
    }
    println!("{counts:?}");
    assert_eq!(counts.fetches[&0] + counts.fetches[&18], 6);
}
