use std::fmt;

/// Why a call was refused: the codes of the header `telwyddus.h` that a caller of this crate can meet.
#[derive(Debug, Clone, Copy, PartialEq, Eq)]
#[non_exhaustive]
pub enum Error {
    /// There is no memory left.
    NoMemory,
    /// There is no such track, sector, cylinder number or range of memory.
    OutOfRange,
    /// The bytes are not those of such a file.
    BadImage,
    /// A medium is in the bay already.
    HasMedium,
    /// No medium is in the bay.
    NoMedium,
    /// DRQ is down, or bytes go in the other direction.
    NotAsked,
    /// A line of the plan isn't understood. Lines are counted from 1; the number is 0 if the text is too long.
    BadPlan { line: usize },
    /// The buffer is too short.
    TooShort,
    /// A name, or an argument, isn't one that the program can have.
    NotText,
    /// No file has this name.
    NoFile,
    /// No medium is in the bay that is to be acknowledged.
    NotReady,
    /// The bay wasn't acknowledged since its medium was put in.
    Changed,
    /// The medium is write-protected.
    Protected,
    /// The track has no address mark, or the sector no data, or the layout doesn't fit on the track.
    NoMark,
    /// The track has address marks, but not this sector.
    NotFound,
    /// The sector's data is damaged, or other bytes were read back than were written.
    BadCrc,
    /// A DMA request waited too long.
    Overrun,
    /// The heads didn't find track 0.
    Seek,
    /// The other file format can't hold this track; both numbers are 255 if it can't hold the whole medium.
    Unfit { cylinder: u8, head: u8 },
    /// The bytes are not a saved state.
    BadState,
    /// A code that this version of the crate doesn't know.
    Other(u32),
}

impl Error {
    /// The error of a code other than DONE. BAD_PLAN and UNFIT get their places afterwards.
    pub(crate) fn of(code: u32) -> Self {
        match code {
            3 => Error::NoMemory,
            4 => Error::OutOfRange,
            5 => Error::BadImage,
            6 => Error::HasMedium,
            7 => Error::NoMedium,
            8 => Error::NotAsked,
            9 => Error::BadPlan { line: 0 },
            10 => Error::TooShort,
            11 => Error::NotText,
            12 => Error::NoFile,
            13 => Error::NotReady,
            14 => Error::Changed,
            15 => Error::Protected,
            16 => Error::NoMark,
            17 => Error::NotFound,
            18 => Error::BadCrc,
            19 => Error::Overrun,
            20 => Error::Seek,
            21 => Error::Unfit { cylinder: 255, head: 255 },
            22 => Error::BadState,
            other => Error::Other(other),
        }
    }
}

impl fmt::Display for Error {
    fn fmt(&self, to: &mut fmt::Formatter<'_>) -> fmt::Result {
        match self {
            Error::NoMemory => write!(to, "there is no memory left"),
            Error::OutOfRange => write!(to, "there is no such track, sector or range of memory"),
            Error::BadImage => write!(to, "the bytes are not those of such a file"),
            Error::HasMedium => write!(to, "a medium is in the bay already"),
            Error::NoMedium => write!(to, "no medium is in the bay"),
            Error::NotAsked => write!(to, "DRQ is down, or bytes go in the other direction"),
            Error::BadPlan { line } => write!(to, "line {line} of the plan isn't understood"),
            Error::TooShort => write!(to, "the buffer is too short"),
            Error::NotText => write!(to, "a name, or an argument, isn't one that the program can have"),
            Error::NoFile => write!(to, "no file has this name"),
            Error::NotReady => write!(to, "no medium is in the bay that is to be acknowledged"),
            Error::Changed => write!(to, "the bay wasn't acknowledged since its medium was put in"),
            Error::Protected => write!(to, "the medium is write-protected"),
            Error::NoMark => write!(to, "the track has no address mark, or the sector no data"),
            Error::NotFound => write!(to, "the track has no such sector"),
            Error::BadCrc => write!(to, "the sector's data is damaged"),
            Error::Overrun => write!(to, "a DMA request waited too long"),
            Error::Seek => write!(to, "the heads didn't find track 0"),
            Error::Unfit { cylinder: 255, head: 255 } => write!(to, "the other file format can't hold the medium"),
            Error::Unfit { cylinder, head } => write!(to, "the other file format can't hold the track of cylinder {cylinder}, head {head}"),
            Error::BadState => write!(to, "the bytes are not a saved state"),
            Error::Other(code) => write!(to, "the code {code}"),
        }
    }
}

impl std::error::Error for Error {}

pub type Result<T> = std::result::Result<T, Error>;

/// What a code says.
pub(crate) fn done(code: u32) -> Result<()> {
    if code == 0 {
        Ok(())
    } else {
        Err(Error::of(code))
    }
}

/// A call that is always done while its object is there, which a value of this crate's types is.
pub(crate) fn must(code: u32) {
    assert_eq!(code, 0, "the library answered a code that its header doesn't list for this call");
}

/// The code of a plan's text, with the line that isn't understood.
pub(crate) fn planned(code: u32, line: usize) -> Result<()> {
    done(code).map_err(|error| if let Error::BadPlan { .. } = error { Error::BadPlan { line } } else { error })
}

/// The result of a call that says which track is unfit.
pub(crate) fn fitting<T>(result: Result<T>, cylinder: u8, head: u8) -> Result<T> {
    result.map_err(|error| if let Error::Unfit { .. } = error { Error::Unfit { cylinder, head } } else { error })
}
