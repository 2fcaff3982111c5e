//! A refusal, as the document's table of numbers has it.

/// Why an input is refused, and where.
#[derive(Clone, Copy, Debug, PartialEq, Eq)]
pub struct Refusal {
    /// The number in the document's table.
    pub number: u8,
    /// The place that the table gives for that number: an offset, a wire, a pair's
    /// index or a length.
    pub place: usize,
}
