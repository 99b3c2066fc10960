//! Names of parts of a document: numbers of types of their own.
use std::fmt;
use std::num::NonZeroU16;

macro_rules! handle {
    ($(#[doc = $text:literal])+ $name:ident) => {
        $(#[doc = $text])+
        #[derive(Clone, Copy, Debug, PartialEq, Eq, PartialOrd, Ord, Hash)]
        pub struct $name(NonZeroU16);

        impl $name {
            /// The handle with this number; 0 is none.
            pub const fn new(number: u16) -> Option<Self> {
                match NonZeroU16::new(number) {
                    Some(number) => Some(Self(number)),
                    None => None,
                }
            }

            /// Its number.
            pub const fn get(self) -> u16 {
                self.0.get()
            }
        }

        impl From<NonZeroU16> for $name {
            fn from(number: NonZeroU16) -> Self {
                Self(number)
            }
        }

        impl From<$name> for u16 {
            fn from(handle: $name) -> u16 {
                handle.get()
            }
        }

        /// Four hexadecimal digits, as in commands and replies.
        impl fmt::Display for $name {
            fn fmt(&self, out: &mut fmt::Formatter<'_>) -> fmt::Result {
                write!(out, "{:04x}", self.0)
            }
        }
    };
}

handle! {
    /// The handle of a block, 1 to 8,192, which stays whatever happens to other blocks.
    ///
    /// One that names no block is [`Fault::NoBlock`](crate::Fault::NoBlock) where it is used; an `Option` of one takes
    /// no more room.
    BlockHandle
}

handle! {
    /// The handle of a chunk within its heap, from 16 on, which stays whatever happens to other chunks.
    ChunkHandle
}

/// The token of an element of an element array or a name array, from 0 on. It stays while the element is used.
#[derive(Clone, Copy, Debug, PartialEq, Eq, PartialOrd, Ord, Hash)]
pub struct Token(u16);

impl Token {
    /// The token with this number.
    pub const fn new(number: u16) -> Token {
        Token(number)
    }

    /// Its number.
    pub const fn get(self) -> u16 {
        self.0
    }
}

impl From<u16> for Token {
    fn from(number: u16) -> Token {
        Token(number)
    }
}

impl From<Token> for u16 {
    fn from(token: Token) -> u16 {
        token.0
    }
}

/// Four hexadecimal digits, as in commands and replies.
impl fmt::Display for Token {
    fn fmt(&self, out: &mut fmt::Formatter<'_>) -> fmt::Result {
        write!(out, "{:04x}", self.0)
    }
}
