//! What taking one byte came to, and the notes with their numbers.

/// What a note is about, named for its cause.
#[derive(Clone, Copy, PartialEq, Eq, PartialOrd, Ord, Debug)]
pub enum Fault {
    UnknownCommand,
    PastLine,
    PlotPastLine,
    Checksum,
    StrayByte,
    PitchInLine,
    PlotInLine,
    ResetByte,
    SelectPair,
    PrintOnPlotLine,
    PlotEscape,
    PlotHighByte,
    DownloadRange,
    TabItem,
    IllFormedGlyph,
    /// ESC [ with another last byte.
    UnknownBracket,
    StyleValue,
    SpacingValue,
    FormSetting,
    FormOutOfPlace,
    SpacingOutOfPlace,
}

impl Fault {
    pub fn number(self) -> u8 {
        match self {
            Fault::UnknownCommand | Fault::UnknownBracket => 42,
            Fault::FormSetting | Fault::FormOutOfPlace | Fault::SpacingOutOfPlace => 43,
            Fault::PastLine | Fault::PlotPastLine => 44,
            Fault::Checksum => 45,
            Fault::StrayByte
            | Fault::PitchInLine
            | Fault::PlotInLine
            | Fault::ResetByte
            | Fault::SelectPair
            | Fault::PrintOnPlotLine
            | Fault::PlotEscape
            | Fault::PlotHighByte
            | Fault::DownloadRange
            | Fault::StyleValue
            | Fault::SpacingValue => 46,
            Fault::TabItem => 48,
            Fault::IllFormedGlyph => 80,
        }
    }
}

#[derive(Clone, Copy, PartialEq, Eq, Debug)]
pub enum Outcome {
    /// The byte is taken, and the call goes on.
    Quiet,
    /// The byte finished a form.
    Finished,
    /// The byte ended a faulty command or list item.
    Note(Fault, u32),
}
