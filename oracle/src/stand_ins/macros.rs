//! For macros.rs and fmt.rs.

/// A header of plain numbers as its bytes in memory, and back.
macro_rules! impl_bytes {
    ($header:ident) => {
        impl $header {
            pub(crate) const SIZE: usize = size_of::<$header>();

            pub(crate) fn to_bytes(self) -> [u8; size_of::<$header>()] {
                // SAFETY: the headers are repr(C), all their bytes belong to numbers, and any bytes are numbers.
                unsafe { core::mem::transmute(self) }
            }

            pub(crate) fn from_bytes(bytes: [u8; size_of::<$header>()]) -> Self {
                // SAFETY: as above.
                unsafe { core::mem::transmute(bytes) }
            }
        }
    };
}

macro_rules! corrupted {
    () => {
        return Err(From::from(crate::errors::CorruptedError))
    };
}

/// Says nothing, but keeps what it names in use.
macro_rules! trace {
    ($($said:tt)*) => {
        if false {
            let _ = format_args!($($said)*);
        }
    };
}

macro_rules! unwrap {
    ($sure:expr) => {
        $sure.unwrap()
    };
}
