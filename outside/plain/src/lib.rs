//! The same search in plain Rust at full optimization, without proofs: the measure of the proved
//! library's speed. It works on the problem's bytes as they are lent, keeps derived pairs in two
//! arrays of 1,024 words, and allocates nothing, but for the ids of BTOR2 in a hash map.
//!
//! | module    | what it holds                                             |
//! |-----------|-----------------------------------------------------------|
//! | `member`  | the least member of a ternary word within a range         |
//! | `picking` | inverse and consistent picks and the essential test       |
//! | `layout`  | problem bytes: nodes, roots, their refusals, H            |
//! | `values`  | evaluation and fixed bits of all nodes                    |
//! | `readers` | who reads each node, and evaluation above a variable      |
//! | `search`  | the run, and many starts of one problem                   |
//! | `mending` | a shuffled problem put in order                           |
//! | `btor2`   | BTOR2 converted to problem bytes                          |
//! | `calls`   | the library's calls, in its numbers                       |

pub mod btor2;
pub mod calls;
pub mod layout;
pub mod member;
pub mod mending;
pub mod picking;
pub mod readers;
pub mod search;
pub mod values;

/// The kinds' numbers.
pub mod kind {
    pub const VARIABLE: u8 = 0;
    pub const CONSTANT: u8 = 1;
    pub const NOT: u8 = 2;
    pub const AND: u8 = 3;
    pub const XOR: u8 = 4;
    pub const ADD: u8 = 5;
    pub const MUL: u8 = 6;
    pub const SHL: u8 = 7;
    pub const LSHR: u8 = 8;
    pub const EQ: u8 = 9;
    pub const BELOW: u8 = 10;
    pub const IF: u8 = 11;
    pub const CONCAT: u8 = 12;
    pub const EXTRACT: u8 = 13;
    pub const SIGNED_BELOW: u8 = 14;
    pub const ASHR: u8 = 15;
    pub const SIGN_EXTEND: u8 = 16;
    pub const UDIV: u8 = 17;
    /// How many there are: refusal 7 begins at this number.
    pub const COUNT: u8 = 18;
}

/// The `count` low bits, for any count up to 64.
#[inline]
pub(crate) fn low_bits(count: u32) -> u64 {
    if count >= 64 {
        u64::MAX
    } else {
        (1 << count) - 1
    }
}

/// A word of `from` bits, its top bit repeated in front of it up to bit 63.
#[inline]
pub(crate) fn sign_extended(v: u64, from: u32) -> u64 {
    let above = 64 - from;
    ((v << above) as i64 >> above) as u64
}

/// The bits of a width of 1 to 64.
#[inline]
pub(crate) fn mask(width: u32) -> u64 {
    u64::MAX >> ((64 - width) & 63)
}
