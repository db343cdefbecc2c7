//! Checks, writes and reads of archived forms in plain Rust, over the same layout.

/// The reasons for which a value is refused.
#[derive(Clone, Copy, Debug, PartialEq, Eq)]
pub enum Refused {
    OutOfRange,
    Unaligned,
    TooDeep,
    PopsOutOfOrder,
    Tag,
    Utf8,
    ShortText,
    TooFar,
    TooLong,
}

#[derive(Clone, Copy, PartialEq, Eq)]
pub struct Pushed {
    pos: usize,
    end: usize,
    outer: usize,
}

/// The range that may still be claimed.
pub struct Context {
    start: usize,
    end: usize,
    most: usize,
    pushes: Vec<Pushed>,
}

impl Context {
    /// Returns a context of all bytes, in which at most `most` pushes may nest.
    pub fn new(end: usize, most: usize) -> Self {
        Context {
            start: 0,
            end,
            most,
            pushes: Vec::new(),
        }
    }

    pub fn claim(&self, pos: usize, size: usize, align: usize) -> Result<(), Refused> {
        if pos < self.start || self.end < pos || self.end - pos < size {
            return Err(Refused::OutOfRange);
        }
        if pos % align != 0 {
            return Err(Refused::Unaligned);
        }
        Ok(())
    }

    pub fn push(&mut self, pos: usize, end: usize) -> Result<Pushed, Refused> {
        if self.most <= self.pushes.len() {
            return Err(Refused::TooDeep);
        }
        let pushed = Pushed {
            pos,
            end,
            outer: self.end,
        };
        self.pushes.push(pushed);
        self.end = pos;
        Ok(pushed)
    }

    pub fn pop(&mut self, pushed: Pushed) -> Result<(), Refused> {
        if self.pushes.pop() != Some(pushed) {
            return Err(Refused::PopsOutOfOrder);
        }
        self.start = pushed.end;
        self.end = pushed.outer;
        Ok(())
    }
}

pub fn word(bytes: &[u8], pos: usize) -> u32 {
    u32::from_le_bytes(bytes[pos..pos + 4].try_into().unwrap())
}

/// Returns the position that the offset at `at` leads to from `pos`.
pub fn target(bytes: &[u8], pos: usize, at: usize) -> Option<usize> {
    pos.checked_add_signed(word(bytes, at) as i32 as isize)
}

/// An archived type.
pub trait Archived {
    const SIZE: usize;
    const ALIGN: usize;

    fn check(bytes: &[u8], pos: usize, context: &mut Context) -> Result<(), Refused>;
}

impl Archived for u32 {
    const SIZE: usize = 4;
    const ALIGN: usize = 4;

    fn check(_bytes: &[u8], _pos: usize, _context: &mut Context) -> Result<(), Refused> {
        Ok(())
    }
}

impl<T: Archived> Archived for Option<T> {
    const SIZE: usize = T::ALIGN + T::SIZE;
    const ALIGN: usize = T::ALIGN;

    fn check(bytes: &[u8], pos: usize, context: &mut Context) -> Result<(), Refused> {
        match bytes[pos] {
            0 => Ok(()),
            1 => T::check(bytes, pos + T::ALIGN, context),
            _ => Err(Refused::Tag),
        }
    }
}

impl<T: Archived> Archived for Vec<T> {
    const SIZE: usize = 8;
    const ALIGN: usize = 4;

    fn check(bytes: &[u8], pos: usize, context: &mut Context) -> Result<(), Refused> {
        let len = word(bytes, pos + 4) as usize;
        let size = len.saturating_mul(T::SIZE);
        let start = target(bytes, pos, pos).ok_or(Refused::OutOfRange)?;
        context.claim(start, size, T::ALIGN)?;
        let pushed = context.push(start, start + size)?;
        for i in 0..len {
            T::check(bytes, start + i * T::SIZE, context)?;
        }
        context.pop(pushed)
    }
}

fn is_inline(own: &[u8]) -> bool {
    own[0] < 0x80 || 0xc0 <= own[0]
}

fn before_filler(own: &[u8]) -> &[u8] {
    let end = own.iter().position(|byte| *byte == 0xff);
    &own[..end.unwrap_or(own.len())]
}

fn out_of_line_len(own: &[u8]) -> usize {
    let word = word(own, 0) as usize;
    word % 64 + word / 256 * 64
}

impl Archived for String {
    const SIZE: usize = 8;
    const ALIGN: usize = 4;

    fn check(bytes: &[u8], pos: usize, context: &mut Context) -> Result<(), Refused> {
        let own = &bytes[pos..pos + 8];
        let text = if is_inline(own) {
            before_filler(own)
        } else {
            let len = out_of_line_len(own);
            if len <= 8 {
                return Err(Refused::ShortText);
            }
            let start = target(bytes, pos, pos + 4).ok_or(Refused::OutOfRange)?;
            context.claim(start, len, 1)?;
            let pushed = context.push(start, start + len)?;
            context.pop(pushed)?;
            &bytes[start..start + len]
        };
        match std::str::from_utf8(text) {
            Ok(_) => Ok(()),
            Err(_) => Err(Refused::Utf8),
        }
    }
}

fn is_accepted<T: Archived>(bytes: &[u8], pos: usize) -> bool {
    if bytes.len() < T::SIZE || bytes.len() - T::SIZE < pos {
        return false;
    }
    let mut context = Context::new(bytes.len(), 64);
    T::check(bytes, pos, &mut context).is_ok()
}

#[inline(never)]
pub fn check_options(bytes: &[u8], pos: usize) -> bool {
    is_accepted::<Vec<Option<u32>>>(bytes, pos)
}

#[inline(never)]
pub fn check_texts(bytes: &[u8], pos: usize) -> bool {
    is_accepted::<Vec<String>>(bytes, pos)
}

#[inline(never)]
pub fn check_lists(bytes: &[u8], pos: usize) -> bool {
    is_accepted::<Vec<Vec<u32>>>(bytes, pos)
}

/// Returns the elements of the vector at `pos`, which was checked.
fn elements(bytes: &[u8], pos: usize, size: usize) -> std::slice::ChunksExact<'_, u8> {
    let len = word(bytes, pos + 4) as usize;
    let start = target(bytes, pos, pos).unwrap();
    bytes[start..start + len * size].chunks_exact(size)
}

fn start(bytes: &[u8], pos: usize) -> (usize, usize) {
    let len = word(bytes, pos + 4) as usize;
    (target(bytes, pos, pos).unwrap(), len)
}

#[inline(never)]
pub fn sum_options(bytes: &[u8], pos: usize) -> u64 {
    let mut total = 0u64;
    for own in elements(bytes, pos, 8) {
        if own[0] != 0 {
            total = total.wrapping_add(u64::from(word(own, 4)));
        }
    }
    total
}

pub fn text(bytes: &[u8], pos: usize) -> &[u8] {
    let own = &bytes[pos..pos + 8];
    if is_inline(own) {
        return before_filler(own);
    }
    let start = target(bytes, pos, pos + 4).unwrap();
    &bytes[start..start + out_of_line_len(own)]
}

#[inline(never)]
pub fn sum_texts(bytes: &[u8], pos: usize) -> u64 {
    let (first, len) = start(bytes, pos);
    let mut total = 0u64;
    for i in 0..len {
        let text = text(bytes, first + i * 8);
        let last = text.last().copied().unwrap_or(0);
        total = total.wrapping_add(text.len() as u64 + u64::from(last));
    }
    total
}

#[inline(never)]
pub fn sum_lists(bytes: &[u8], pos: usize) -> u64 {
    let (first, len) = start(bytes, pos);
    let mut total = 0u64;
    for i in 0..len {
        for own in elements(bytes, first + i * 8, 4) {
            total = total.wrapping_add(u64::from(word(own, 0)));
        }
    }
    total
}

/// A value that can be archived.
pub trait Archive: Sized {
    const SIZE: usize;
    const ALIGN: usize;
    type Resolver: Copy;

    fn serialize<const PIECES: bool>(&self, out: &mut Vec<u8>) -> Result<Self::Resolver, Refused>;

    fn resolve(&self, resolver: Self::Resolver, pos: usize, own: &mut [u8]) -> Result<(), Refused>;
}

impl Archive for u32 {
    const SIZE: usize = 4;
    const ALIGN: usize = 4;
    type Resolver = ();

    fn serialize<const PIECES: bool>(&self, _out: &mut Vec<u8>) -> Result<(), Refused> {
        Ok(())
    }

    fn resolve(&self, _resolver: (), _pos: usize, own: &mut [u8]) -> Result<(), Refused> {
        own.copy_from_slice(&self.to_le_bytes());
        Ok(())
    }
}

impl<T: Archive> Archive for Option<T> {
    const SIZE: usize = T::ALIGN + T::SIZE;
    const ALIGN: usize = T::ALIGN;
    type Resolver = Option<T::Resolver>;

    fn serialize<const PIECES: bool>(&self, out: &mut Vec<u8>) -> Result<Self::Resolver, Refused> {
        match self {
            Some(value) => Ok(Some(value.serialize::<PIECES>(out)?)),
            None => Ok(None),
        }
    }

    fn resolve(&self, resolver: Self::Resolver, pos: usize, own: &mut [u8]) -> Result<(), Refused> {
        match (self, resolver) {
            (Some(value), Some(kept)) => {
                own[0] = 1;
                value.resolve(kept, pos + T::ALIGN, &mut own[T::ALIGN..])
            }
            _ => Ok(()),
        }
    }
}

pub fn offset(from: usize, to: usize) -> Result<i32, Refused> {
    i32::try_from(to as i64 - from as i64).map_err(|_| Refused::TooFar)
}

impl<T: Archive> Archive for Vec<T> {
    const SIZE: usize = 8;
    const ALIGN: usize = 4;
    type Resolver = usize;

    fn serialize<const PIECES: bool>(&self, out: &mut Vec<u8>) -> Result<usize, Refused> {
        serialize_slice::<T, PIECES>(self, out)
    }

    fn resolve(&self, to: usize, pos: usize, own: &mut [u8]) -> Result<(), Refused> {
        let len = u32::try_from(self.len()).map_err(|_| Refused::TooLong)?;
        own[..4].copy_from_slice(&offset(pos, to)?.to_le_bytes());
        own[4..].copy_from_slice(&len.to_le_bytes());
        Ok(())
    }
}

impl Archive for String {
    const SIZE: usize = 8;
    const ALIGN: usize = 4;
    type Resolver = usize;

    fn serialize<const PIECES: bool>(&self, out: &mut Vec<u8>) -> Result<usize, Refused> {
        let pos = out.len();
        if self.len() > 8 {
            if self.len() >= 1 << 30 {
                return Err(Refused::TooLong);
            }
            if pos > u32::MAX as usize {
                return Err(Refused::TooFar);
            }
            out.extend_from_slice(self.as_bytes());
        }
        Ok(pos)
    }

    fn resolve(&self, to: usize, pos: usize, own: &mut [u8]) -> Result<(), Refused> {
        let len = self.len();
        if len <= 8 {
            own.fill(0xff);
            own[..len].copy_from_slice(self.as_bytes());
            return Ok(());
        }
        let word = (len % 64 + 128 + len / 64 * 256) as u32;
        own[..4].copy_from_slice(&word.to_le_bytes());
        own[4..].copy_from_slice(&offset(pos, to)?.to_le_bytes());
        Ok(())
    }
}

pub fn align(out: &mut Vec<u8>, align: usize) {
    let len = out.len().next_multiple_of(align);
    out.resize(len, 0);
}

/// Writes own bytes at their positions in the vector.
fn resolve_in_place<T: Archive>(
    items: &[T],
    kept: Vec<T::Resolver>,
    out: &mut Vec<u8>,
) -> Result<(), Refused> {
    let start = out.len();
    out.resize(start + items.len() * T::SIZE, 0);
    let mut pos = start;
    let places = out[start..].chunks_exact_mut(T::SIZE);
    for ((item, resolver), own) in items.iter().zip(kept).zip(places) {
        item.resolve(resolver, pos, own)?;
        pos += T::SIZE;
    }
    Ok(())
}

/// Writes own bytes as a writer does that only appends bytes: they are made elsewhere.
fn resolve_in_pieces<T: Archive>(
    items: &[T],
    kept: Vec<T::Resolver>,
    out: &mut Vec<u8>,
) -> Result<(), Refused> {
    let mut piece = [0; 256];
    let most = 256 / T::SIZE;
    let mut pos = out.len();
    for (items, kept) in items.chunks(most).zip(kept.chunks(most)) {
        let piece = &mut piece[..items.len() * T::SIZE];
        piece.fill(0);
        let places = piece.chunks_exact_mut(T::SIZE);
        for ((item, resolver), own) in items.iter().zip(kept).zip(places) {
            item.resolve(*resolver, pos, own)?;
            pos += T::SIZE;
        }
        out.extend_from_slice(piece);
    }
    Ok(())
}

fn serialize_slice<T: Archive, const PIECES: bool>(
    items: &[T],
    out: &mut Vec<u8>,
) -> Result<usize, Refused> {
    let mut kept = Vec::with_capacity(items.len());
    for item in items {
        kept.push(item.serialize::<PIECES>(out)?);
    }
    align(out, T::ALIGN);
    let start = out.len();
    if start > u32::MAX as usize {
        return Err(Refused::TooFar);
    }
    if PIECES {
        resolve_in_pieces(items, kept, out)?;
    } else {
        resolve_in_place(items, kept, out)?;
    }
    Ok(start)
}

/// Archives a value as the root.
#[inline(never)]
pub fn serialized<T: Archive, const PIECES: bool>(value: &T) -> Result<Vec<u8>, Refused> {
    let mut out = Vec::new();
    let resolver = value.serialize::<PIECES>(&mut out)?;
    align(&mut out, T::ALIGN);
    let pos = out.len();
    out.resize(pos + T::SIZE, 0);
    value.resolve(resolver, pos, &mut out[pos..])?;
    Ok(out)
}

pub fn serialized_again<T: Archive, const PIECES: bool>(value: &T, rounds: usize) -> usize {
    let mut total = 0;
    for _ in 0..rounds {
        total += serialized::<T, PIECES>(value).map_or(0, |out| out.len());
    }
    total
}

pub fn options(numbers: &[u32]) -> Vec<Option<u32>> {
    numbers.iter().map(|n| (n % 2 == 1).then_some(*n)).collect()
}

pub fn letters(count: u32) -> String {
    let letter = |i| if i % 2 == 0 { 'a' } else { 'b' };
    (0..count).map(letter).collect()
}

pub fn texts(lengths: &[u32]) -> Vec<String> {
    lengths.iter().map(|n| letters(*n)).collect()
}

pub fn lists(numbers: &[u32]) -> Vec<Vec<u32>> {
    numbers.chunks(10).map(|ten| ten.to_vec()).collect()
}

pub fn serialize_options<const PIECES: bool>(numbers: &[u32], rounds: usize) -> usize {
    serialized_again::<_, PIECES>(&options(numbers), rounds)
}

pub fn serialize_texts<const PIECES: bool>(lengths: &[u32], rounds: usize) -> usize {
    serialized_again::<_, PIECES>(&texts(lengths), rounds)
}

pub fn serialize_lists<const PIECES: bool>(numbers: &[u32], rounds: usize) -> usize {
    serialized_again::<_, PIECES>(&lists(numbers), rounds)
}

pub fn archived_options(numbers: &[u32]) -> Vec<u8> {
    serialized::<_, false>(&options(numbers)).unwrap()
}

pub fn archived_texts(lengths: &[u32]) -> Vec<u8> {
    serialized::<_, false>(&texts(lengths)).unwrap()
}

pub fn archived_lists(numbers: &[u32]) -> Vec<u8> {
    serialized::<_, false>(&lists(numbers)).unwrap()
}
