//! Why a registry refuses a call.

use std::error::Error;
use std::fmt;

/// A refusal. The source's cases in their order, then two of the port.
#[derive(Clone, Copy, Debug, Eq, PartialEq)]
pub enum CompositionError {
    /// A start with a limit of 0, a limit over 4,294,967,295, or a first generation of 0.
    InvalidConfig,
    /// A start with an invalid session or an epoch of 0.
    InvalidOwner,
    /// A table has reached its configured limit, or over 64 registrations were handed in.
    Capacity,
    /// The view has as many surfaces as one view may have.
    PerViewCapacity,
    /// The handle never named a window.
    InvalidWindow,
    /// The window is closed.
    StaleWindow,
    /// The window still has views.
    WindowInUse,
    /// The handle never named a view.
    InvalidView,
    /// The view is closed.
    StaleView,
    /// The view still has surfaces.
    ViewInUse,
    /// The handle never named a surface.
    InvalidSurface,
    /// The surface is closed.
    StaleSurface,
    /// A rectangle with a side of 0, or a matrix with a determinant of 0.
    InvalidGeometry,
    /// Metrics that contradict themselves.
    InvalidMetrics,
    /// Kept from the source's recovery, which the port leaves out; never answered.
    InvalidSurfaceState,
    /// Kept from the source's recovery, which the port leaves out; never answered.
    StaleSurfaceGeneration,
    /// The surface stands in another view.
    WrongView,
    /// The surface does not take what it was to be given, or the pointer is invalid.
    NotInteractive,
    /// The surface does not accept text.
    TextUnsupported,
    /// The expected revision is not the present one.
    RevisionConflict,
    /// The revision cannot rise any more; RULES.md says what has been written.
    RevisionExhausted,
    /// A slot's generation cannot rise any more; RULES.md says what has been written.
    GenerationExhausted,
    /// Not in the source: a limit of the port is passed.
    PortLimit,
    /// Not in the source: the memory handed in is damaged. No list of calls leads there.
    Damaged,
}

/// The source's cases; their numbers are 1 and up.
const ORDER: [CompositionError; 22] = [
    CompositionError::InvalidConfig,
    CompositionError::InvalidOwner,
    CompositionError::Capacity,
    CompositionError::PerViewCapacity,
    CompositionError::InvalidWindow,
    CompositionError::StaleWindow,
    CompositionError::WindowInUse,
    CompositionError::InvalidView,
    CompositionError::StaleView,
    CompositionError::ViewInUse,
    CompositionError::InvalidSurface,
    CompositionError::StaleSurface,
    CompositionError::InvalidGeometry,
    CompositionError::InvalidMetrics,
    CompositionError::InvalidSurfaceState,
    CompositionError::StaleSurfaceGeneration,
    CompositionError::WrongView,
    CompositionError::NotInteractive,
    CompositionError::TextUnsupported,
    CompositionError::RevisionConflict,
    CompositionError::RevisionExhausted,
    CompositionError::GenerationExhausted,
];
const PORT_LIMIT: u64 = 41;
const DAMAGED: u64 = 42;

impl CompositionError {
    /// REFUSALS.md's number of the refusal: 1 to 22, 41 or 42.
    pub const fn number(self) -> u64 {
        match self {
            Self::PortLimit => PORT_LIMIT,
            Self::Damaged => DAMAGED,
            declared => declared as u64 + 1,
        }
    }

    /// The refusal of a number that is not 0.
    pub(crate) fn of(number: u64) -> Self {
        match number {
            PORT_LIMIT => Self::PortLimit,
            DAMAGED => Self::Damaged,
            _ => ORDER[number as usize - 1],
        }
    }
}

/// What is wrong, in a few words, and the refusal's number.
impl fmt::Display for CompositionError {
    fn fmt(&self, formatter: &mut fmt::Formatter<'_>) -> fmt::Result {
        let what = match self {
            Self::InvalidConfig => "a limit is 0 or too great, or the first generation is 0",
            Self::InvalidOwner => "the session is invalid or its epoch is 0",
            Self::Capacity => "a table is full",
            Self::PerViewCapacity => "the view has as many surfaces as it may have",
            Self::InvalidWindow => "the handle never named a window",
            Self::StaleWindow => "the window is closed",
            Self::WindowInUse => "the window still has views",
            Self::InvalidView => "the handle never named a view",
            Self::StaleView => "the view is closed",
            Self::ViewInUse => "the view still has surfaces",
            Self::InvalidSurface => "the handle never named a surface",
            Self::StaleSurface => "the surface is closed",
            Self::InvalidGeometry => "a side of a rectangle or the determinant of the matrix is 0",
            Self::InvalidMetrics => "the metrics contradict themselves",
            Self::InvalidSurfaceState => "the surface is in another state",
            Self::StaleSurfaceGeneration => "the surface is of another generation",
            Self::WrongView => "the surface stands in another view",
            Self::NotInteractive => {
                "the surface does not take this input, or the pointer is invalid"
            }
            Self::TextUnsupported => "the surface does not accept text",
            Self::RevisionConflict => "the expected revision is not the present one",
            Self::RevisionExhausted => "the revision cannot rise any more",
            Self::GenerationExhausted => "a slot's generation cannot rise any more",
            Self::PortLimit => "a limit of the port is passed",
            Self::Damaged => "the memory is damaged",
        };
        write!(formatter, "{what} (refusal {})", self.number())
    }
}

impl Error for CompositionError {}
