//! What can go wrong.
use geosvm_sys as sys;
use std::ffi::{c_char, CStr};
use std::{error, fmt, io};

/// What a call gives.
pub type Result<T> = std::result::Result<T, Error>;

macro_rules! faults {
    ($($(#[doc = $text:literal])+ $name:ident = $code:ident,)+) => {
        /// Why a call was refused: a fault of the document, with its number, or a code of the library from 100 on.
        ///
        /// `docs/SCRIPT.md` says of each command which of them come, and which comes first where several apply.
        #[derive(Clone, Copy, Debug, PartialEq, Eq, Hash)]
        #[non_exhaustive]
        #[repr(i32)]
        pub enum Fault {
            $($(#[doc = $text])+ $name = sys::$code,)+
            /// The library has answered what this crate doesn't know; [`Error::code`] has its number.
            Unknown = -1,
        }

        impl Fault {
            /// All of them but `Unknown`, by their numbers.
            pub const ALL: &'static [Fault] = &[$(Fault::$name,)+];

            /// The fault with this number.
            pub const fn from_code(code: i32) -> Option<Fault> {
                match code {
                    $(sys::$code => Some(Fault::$name),)+
                    _ => None,
                }
            }
        }
    };
}

faults! {
    /// No memory.
    Memory = GEOSVM_MEMORY,
    /// A call on the file has failed; the [`io::Error`] is its [`source`](error::Error::source).
    File = GEOSVM_FILE,
    /// The file is a damaged document.
    Damaged = GEOSVM_DAMAGED,
    /// The file is no document.
    NotDocument = GEOSVM_NOT_DOCUMENT,
    /// No block has this handle.
    NoBlock = GEOSVM_NO_BLOCK,
    /// No chunk of the block has this handle.
    NoChunk = GEOSVM_NO_CHUNK,
    /// A heap where a raw block is wanted, or the reverse.
    WrongKind = GEOSVM_WRONG_KIND,
    /// The heap would need more than 65,520 bytes.
    Full = GEOSVM_FULL,
    /// Over 65,520 bytes in a raw block, 64 in a step's name, or 65,508 in an element.
    TooBig = GEOSVM_TOO_BIG,
    /// Fewer block handles are free than are needed.
    NoHandles = GEOSVM_NO_HANDLES,
    /// A place, length or size is outside its bounds.
    Range = GEOSVM_RANGE,
    /// The chunk is no array of the kind that is wanted, or the block no root of a large array.
    NotArray = GEOSVM_NOT_ARRAY,
    /// There is no such element, or the token isn't used.
    NoElement = GEOSVM_NO_ELEMENT,
    /// The element has as many references as any can have.
    CountFull = GEOSVM_COUNT_FULL,
    /// No element has the name.
    NoName = GEOSVM_NO_NAME,
    /// Another token has the name.
    NameInUse = GEOSVM_NAME_IN_USE,
    /// No chain begins at the block, or a branch isn't what the root of a large array says.
    BadChain = GEOSVM_BAD_CHAIN,
    /// The map block would be freed.
    IsMap = GEOSVM_IS_MAP,
    /// A block is locked, and this can't be done meanwhile.
    Locked = GEOSVM_LOCKED,
    /// The block isn't locked.
    NotLocked = GEOSVM_NOT_LOCKED,
    /// As many blocks are locked as may be in memory, and another one is needed there.
    CacheFull = GEOSVM_CACHE_FULL,
    /// No step is left to undo, or no two to be joined.
    NothingToUndo = GEOSVM_NOTHING_TO_UNDO,
    /// No undo is left to take back.
    NothingToRedo = GEOSVM_NOTHING_TO_REDO,
    /// A `saveas` as a command, which has no target: call [`Session::save_as`](crate::Session::save_as).
    NoTarget = GEOSVM_NO_TARGET,
    /// The line is no command.
    BadCommand = GEOSVM_BAD_COMMAND,
    /// The block is locked 255 times.
    LockLimit = GEOSVM_LOCK_LIMIT,
    /// The file was committed as often as can be told apart.
    Worn = GEOSVM_WORN,
    /// A group is open, and this can't be done meanwhile.
    GroupOpen = GEOSVM_GROUP_OPEN,
    /// No group is open, or one within it was given up.
    NoGroup = GEOSVM_NO_GROUP,
    /// The session is closed; one of this crate never is.
    NotOpen = GEOSVM_NOT_OPEN,
    /// The session is open already; no call of this crate opens one twice.
    OpenAlready = GEOSVM_OPEN_ALREADY,
    /// A number is out of its bounds, as that of frames.
    BadArgument = GEOSVM_BAD_ARGUMENT,
    /// A buffer took a part; this crate makes room and asks again, so it is never answered.
    CutOff = GEOSVM_CUT_OFF,
    /// No memory for the reply to a command, which may be done.
    Untold = GEOSVM_UNTOLD,
}

impl Fault {
    /// Its number, as `geosvm.h` and replies have it.
    pub const fn code(self) -> i32 {
        self as i32
    }

    /// Its name, as `NothingToUndo`, by the library.
    pub fn name(self) -> &'static str {
        name_of(self.code())
    }

    /// What it means, by the library: `no memory`.
    pub fn text(self) -> &'static str {
        text_of(self.code())
    }
}

impl fmt::Display for Fault {
    fn fmt(&self, out: &mut fmt::Formatter<'_>) -> fmt::Result {
        write!(out, "{}: {}", self.name(), self.text())
    }
}

/// A call was refused: which fault it was, and, where a call of the system failed, the [`io::Error`] of that.
///
/// What was refused has changed nothing, but for [`Fault::Untold`]. It is written as its name and what it means, and by
/// `{:#}` with what the system said behind that.
///
/// ```
/// use geosvm::{Fault, Session};
///
/// let error = Session::open("/nowhere/my.document").unwrap_err();
/// assert_eq!(error.fault(), Fault::File);
/// assert_eq!(error.io().unwrap().kind(), std::io::ErrorKind::NotFound);
/// println!("{error:#}");
/// ```
#[derive(Debug)]
pub struct Error {
    code: i32,
    io: Option<io::Error>,
}

impl Error {
    /// The fault.
    pub fn fault(&self) -> Fault {
        Fault::from_code(self.code).unwrap_or(Fault::Unknown)
    }

    /// Its number, as `geosvm.h` has it.
    pub fn code(&self) -> i32 {
        self.code
    }

    /// What the system said, where the fault is [`Fault::File`] and a call of the system failed.
    pub fn io(&self) -> Option<&io::Error> {
        self.io.as_ref()
    }

    /// The error for what the system has refused of a file.
    pub(crate) fn of_file(error: io::Error) -> Error {
        Error { code: sys::GEOSVM_FILE, io: Some(error) }
    }

    /// The error for what a call has answered just now.
    pub(crate) fn of_code(code: i32) -> Error {
        let io = if code == sys::GEOSVM_FILE { last_error() } else { None };
        Error { code, io }
    }
}

/// What the system said where the last call of this thread that was `GEOSVM_FILE` failed, if it said anything.
fn last_error() -> Option<io::Error> {
    // SAFETY: it takes nothing, and may be called at any time.
    match unsafe { sys::geosvm_last_error() } {
        0 => None,
        number => Some(io::Error::from_raw_os_error(number)),
    }
}

/// A call's code as a result.
pub(crate) fn check(code: i32) -> Result<()> {
    match code {
        sys::GEOSVM_OK => Ok(()),
        refused => Err(Error::of_code(refused)),
    }
}

impl From<Fault> for Error {
    fn from(fault: Fault) -> Error {
        Error { code: fault.code(), io: None }
    }
}

/// With the kind of what the system said, or that of the fault.
impl From<Error> for io::Error {
    fn from(error: Error) -> io::Error {
        let kind = match (&error.io, error.fault()) {
            (Some(cause), _) => cause.kind(),
            (None, Fault::Memory | Fault::Untold) => io::ErrorKind::OutOfMemory,
            (None, Fault::Damaged | Fault::NotDocument) => io::ErrorKind::InvalidData,
            (None, Fault::Range | Fault::TooBig | Fault::BadArgument | Fault::BadCommand) => {
                io::ErrorKind::InvalidInput
            }
            (None, _) => io::ErrorKind::Other,
        };
        io::Error::new(kind, error)
    }
}

impl PartialEq<Fault> for Error {
    fn eq(&self, fault: &Fault) -> bool {
        self.fault() == *fault
    }
}

impl fmt::Display for Error {
    fn fmt(&self, out: &mut fmt::Formatter<'_>) -> fmt::Result {
        match Fault::from_code(self.code) {
            Some(fault) => write!(out, "{fault}")?,
            None => write!(out, "the library has answered {}: {}", self.code, text_of(self.code))?,
        }
        match &self.io {
            Some(cause) if out.alternate() => write!(out, ": {cause}"),
            _ => Ok(()),
        }
    }
}

impl error::Error for Error {
    fn source(&self) -> Option<&(dyn error::Error + 'static)> {
        self.io.as_ref().map(|cause| cause as _)
    }
}

fn name_of(code: i32) -> &'static str {
    // SAFETY: the library's texts stay, and end in a zero.
    unsafe { text_at(sys::geosvm_code_name(code)) }
}

fn text_of(code: i32) -> &'static str {
    // SAFETY: the library's texts stay, and end in a zero.
    unsafe { text_at(sys::geosvm_code_text(code)) }
}

/// A text of the library, empty where there is none.
///
/// # Safety
///
/// It is null, or leads to bytes that stay, with a zero behind them.
pub(crate) unsafe fn text_at(text: *const c_char) -> &'static str {
    if text.is_null() {
        return "";
    }
    // SAFETY: as asked for.
    unsafe { CStr::from_ptr(text) }.to_str().unwrap_or_default()
}
