//! Page headers for every length that is allowed, with a magic that is part of the type, as the original wants it.
use crate::page::Header;

/// The magics that scripts may use. The original takes a magic as a constant of a type, so there is one type for each.
pub const MAGICS: [u32; 2] = [0x0000_00A1, 0xFFFF_FFFF];

/// H opaque bytes under a magic.
pub struct Head<const MAGIC: u32, const H: usize>(pub [u8; H]);

// SAFETY: an array of bytes and nothing else.
unsafe impl<const MAGIC: u32, const H: usize> Header for Head<MAGIC, H> {
    const MAGIC: u32 = MAGIC;
}

/// Runs an expression with the constant H as the length h, or answers none where h is not allowed.
#[macro_export]
macro_rules! with_h {
    ($h:expr, $name:ident => $work:expr) => {
        $crate::with_h!($h, $name => $work, 0 4 8 12 16 20 24 28 32 36 40 44 48 52 56 60 64)
    };
    ($h:expr, $name:ident => $work:expr, $($n:literal)*) => {
        match $h {
            $($n => {
                const $name: usize = $n;
                Some($work)
            })*
            _ => None,
        }
    };
}

/// The same with the constant MAGIC as well.
#[macro_export]
macro_rules! with_magic {
    ($magic:expr, $h:expr, $m:ident, $name:ident => $work:expr) => {
        if $magic == $crate::heads::MAGICS[0] {
            const $m: u32 = $crate::heads::MAGICS[0];
            $crate::with_h!($h, $name => $work)
        } else {
            const $m: u32 = $crate::heads::MAGICS[1];
            $crate::with_h!($h, $name => $work)
        }
    };
}
