//! Archives that are written whole and accessed, in plain Rust, over the same layout: those of the forms, and of a
//! record.

use crate::forms::{self, Archive, Archived, Context, Refused};

/// A number, a text, an option of a number, and texts.
pub struct Record {
    pub number: u64,
    pub name: String,
    pub odd: Option<u32>,
    pub tags: Vec<String>,
}

const NAME: usize = 8;
const ODD: usize = 16;
const TAGS: usize = 24;

impl Archived for Record {
    const SIZE: usize = 32;
    const ALIGN: usize = 8;

    fn check(bytes: &[u8], pos: usize, context: &mut Context) -> Result<(), Refused> {
        String::check(bytes, pos + NAME, context)?;
        Option::<u32>::check(bytes, pos + ODD, context)?;
        Vec::<String>::check(bytes, pos + TAGS, context)
    }
}

impl Archive for Record {
    const SIZE: usize = 32;
    const ALIGN: usize = 8;
    type Resolver = (usize, Option<()>, usize);

    fn serialize<const PIECES: bool>(&self, out: &mut Vec<u8>) -> Result<Self::Resolver, Refused> {
        let name = self.name.serialize::<PIECES>(out)?;
        let odd = self.odd.serialize::<PIECES>(out)?;
        let tags = self.tags.serialize::<PIECES>(out)?;
        Ok((name, odd, tags))
    }

    fn resolve(&self, resolver: Self::Resolver, pos: usize, own: &mut [u8]) -> Result<(), Refused> {
        let (name, odd, tags) = resolver;
        own[..NAME].copy_from_slice(&self.number.to_le_bytes());
        self.name.resolve(name, pos + NAME, &mut own[NAME..ODD])?;
        self.odd.resolve(odd, pos + ODD, &mut own[ODD..TAGS])?;
        self.tags.resolve(tags, pos + TAGS, &mut own[TAGS..])
    }
}

/// Checks the value that ends the bytes: its own bytes are claimed, and what it leads to lies before them.
fn check_root<T: Archived>(bytes: &[u8]) -> Result<(), Refused> {
    let mut context = Context::new(bytes.len(), usize::MAX);
    let start = bytes.len().saturating_sub(T::SIZE);
    let pos = start - start % T::ALIGN;
    context.claim(pos, T::SIZE, T::ALIGN)?;
    let pushed = context.push(pos, pos + T::SIZE)?;
    T::check(bytes, pos, &mut context)?;
    context.pop(pushed)
}

#[inline(never)]
pub fn access<T: Archived>(bytes: &[u8]) -> bool {
    check_root::<T>(bytes).is_ok()
}

pub fn access_each(bytes: &[u8], ends: &[usize]) -> usize {
    let mut start = 0;
    let mut accepted = 0;
    for end in ends {
        if start <= *end && *end <= bytes.len() && access::<Record>(&bytes[start..*end]) {
            accepted += 1;
        }
        start = *end;
    }
    accepted
}

fn record(number: u32) -> Record {
    let lengths = [number % 5, number % 9, number % 21];
    Record {
        number: u64::from(number),
        name: forms::letters(number % 17),
        odd: (number % 2 == 1).then_some(number),
        tags: forms::texts(&lengths[..(number % 4) as usize]),
    }
}

pub fn records(numbers: &[u32]) -> Vec<Record> {
    numbers.iter().map(|n| record(*n)).collect()
}

fn archived<T: Archive, const PIECES: bool>(value: &T) -> usize {
    forms::serialized::<T, PIECES>(value).map_or(0, |out| out.len())
}

pub fn write_records<const PIECES: bool>(numbers: &[u32], rounds: usize) -> usize {
    forms::serialized_again::<_, PIECES>(&records(numbers), rounds)
}

pub fn write_each<const PIECES: bool>(numbers: &[u32], rounds: usize) -> usize {
    let records = records(numbers);
    let round = |_| {
        records
            .iter()
            .map(archived::<Record, PIECES>)
            .sum::<usize>()
    };
    (0..rounds).map(round).sum()
}

/// Returns the archives of the records, one after the other, and the position at which each ends.
pub fn archived_each(numbers: &[u32]) -> (Vec<u8>, Vec<usize>) {
    let (mut bytes, mut ends) = (Vec::new(), Vec::new());
    for record in records(numbers) {
        bytes.extend(forms::serialized::<_, false>(&record).unwrap());
        ends.push(bytes.len());
    }
    (bytes, ends)
}

pub fn archived_records(numbers: &[u32]) -> Vec<u8> {
    forms::serialized::<_, false>(&records(numbers)).unwrap()
}
