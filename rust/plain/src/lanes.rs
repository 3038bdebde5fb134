//! Searches of words, several at once.

/// So many are looked at at once, with one branch for all.
pub(crate) const LANES: usize = 64;

/// Words that are looked at at once.
pub(crate) type Block = [u64; LANES];

/// The bits that some word of a block has.
#[inline(always)]
pub(crate) fn bits(block: &Block) -> u64 {
    block.iter().fold(0, |bits, word| bits | word)
}

/// Whether it holds of some, without a branch for each.
#[inline(always)]
pub(crate) fn any<T: Copy, const N: usize>(some: &[T; N], is: impl Fn(T) -> bool) -> bool {
    some.iter().fold(false, |any, x| any | is(*x))
}

/// Where the first is that `is` holds of, among so many at once.
#[inline]
pub(crate) fn position<T: Copy, const N: usize>(items: &[T], is: impl Fn(T) -> bool) -> Option<usize> {
    let (lanes, rest) = items.as_chunks::<N>();
    match lanes.iter().position(|some| any(some, &is)) {
        Some(k) => lanes[k].iter().position(|x| is(*x)).map(|i| k * N + i),
        None => rest.iter().position(|x| is(*x)).map(|i| lanes.len() * N + i),
    }
}
