//! Why a router refuses an event.

use std::error::Error;
use std::fmt;

use crate::CompositionError;

/// A refusal. The source's cases, then two of the port.
#[derive(Clone, Copy, Debug, Eq, PartialEq)]
pub enum PlatformInputError {
    /// The device's value or generation is 0.
    InvalidDevice,
    /// The sequence is 0 or not above the device's last.
    InvalidSequence,
    /// The time is before the last one.
    InvalidTimestamp,
    /// The contact is 4,294,967,295.
    InvalidPointer,
    /// The pressure is over 32,768.
    InvalidPressure,
    /// A tilt is beyond 90 degrees.
    InvalidTilt,
    /// The selection does not lie in the text.
    InvalidTextSelection,
    /// A shortcut without a class.
    InvalidShortcut,
    /// The event's window is not its view's.
    InvalidWindow,
    /// The open presses have reached their limit, or a router is started with a limit of 0.
    Capacity,
    /// The registry refuses.
    Composition(CompositionError),
    /// Not in the source: a limit of the port is passed. A router knows 32 devices and is started with at most 128
    /// presses.
    PortLimit,
    /// Not in the source: the memory handed in is damaged. No list of calls leads there.
    Damaged,
}

/// The router's own cases of the source, from number 31 on.
const ORDER: [PlatformInputError; 10] = [
    PlatformInputError::InvalidDevice,
    PlatformInputError::InvalidSequence,
    PlatformInputError::InvalidTimestamp,
    PlatformInputError::InvalidPointer,
    PlatformInputError::InvalidPressure,
    PlatformInputError::InvalidTilt,
    PlatformInputError::InvalidTextSelection,
    PlatformInputError::InvalidShortcut,
    PlatformInputError::InvalidWindow,
    PlatformInputError::Capacity,
];
const FIRST: u64 = 31;
const PORT_LIMIT: u64 = 41;
const DAMAGED: u64 = 42;

impl PlatformInputError {
    /// REFUSALS.md's number of the refusal: 31 to 42, or the registry's own.
    pub const fn number(self) -> u64 {
        match self {
            Self::InvalidDevice => 31,
            Self::InvalidSequence => 32,
            Self::InvalidTimestamp => 33,
            Self::InvalidPointer => 34,
            Self::InvalidPressure => 35,
            Self::InvalidTilt => 36,
            Self::InvalidTextSelection => 37,
            Self::InvalidShortcut => 38,
            Self::InvalidWindow => 39,
            Self::Capacity => 40,
            Self::Composition(refusal) => refusal.number(),
            Self::PortLimit => PORT_LIMIT,
            Self::Damaged => DAMAGED,
        }
    }

    /// The refusal of a number that is not 0.
    pub(crate) fn of(number: u64) -> Self {
        match number {
            PORT_LIMIT => Self::PortLimit,
            DAMAGED => Self::Damaged,
            FIRST.. => ORDER[(number - FIRST) as usize],
            _ => Self::Composition(CompositionError::of(number)),
        }
    }
}

/// What is wrong, in a few words, and the refusal's number. What the registry says is the error's source.
impl fmt::Display for PlatformInputError {
    fn fmt(&self, formatter: &mut fmt::Formatter<'_>) -> fmt::Result {
        let what = match self {
            Self::InvalidDevice => "the device's value or generation is 0",
            Self::InvalidSequence => "the sequence is 0 or not above the device's last",
            Self::InvalidTimestamp => "the time is before the last one",
            Self::InvalidPointer => "the contact is invalid",
            Self::InvalidPressure => "the pressure is over 32,768",
            Self::InvalidTilt => "a tilt is beyond 90 degrees",
            Self::InvalidTextSelection => "the selection does not lie in the text",
            Self::InvalidShortcut => "the shortcut has no class",
            Self::InvalidWindow => "the event's window is not its view's",
            Self::Capacity => "the open presses have reached their limit, or it is 0",
            Self::Composition(_) => "the registry refuses the event",
            Self::PortLimit => "a limit of the port is passed",
            Self::Damaged => "the memory is damaged",
        };
        write!(formatter, "{what} (refusal {})", self.number())
    }
}

impl Error for PlatformInputError {
    fn source(&self) -> Option<&(dyn Error + 'static)> {
        match self {
            Self::Composition(refusal) => Some(refusal),
            _ => None,
        }
    }
}
