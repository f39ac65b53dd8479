use std::fmt;

/// Why a call refused. Nothing that was lent to it was altered.
#[derive(Clone, Copy, Debug, PartialEq, Eq, Hash, PartialOrd, Ord)]
#[repr(u32)]
pub enum Refusal {
    Magic = 1,
    Header = 2,
    Side = 3,
    Maximum = 4,
    RasterShort = 5,
    RasterLong = 6,
    StageCount = 10,
    Cut = 11,
    Trailing = 12,
    Kind = 13,
    Count = 14,
    Offset = 15,
    RealWeight = 16,
    Gain = 17,
    Position = 18,
    Channels = 19,
    Room = 20,
    FileLong = 21,
    FileUnread = 22,
    StillNumber = 23,
    StillSize = 24,
    BackgroundFull = 25,
    SizesDiffer = 26,
    MovementLimit = 27,
    StageLimit = 28,
    SampleLimit = 29,
    VerdictStage = 30,
    ReceivedSize = 31,
    DistanceLimit = 32,
}

impl Refusal {
    /// Every refusal. 21 and 22 are of programs that read files: no call gives them.
    pub const ALL: [Refusal; 29] = [
        Refusal::Magic,
        Refusal::Header,
        Refusal::Side,
        Refusal::Maximum,
        Refusal::RasterShort,
        Refusal::RasterLong,
        Refusal::StageCount,
        Refusal::Cut,
        Refusal::Trailing,
        Refusal::Kind,
        Refusal::Count,
        Refusal::Offset,
        Refusal::RealWeight,
        Refusal::Gain,
        Refusal::Position,
        Refusal::Channels,
        Refusal::Room,
        Refusal::FileLong,
        Refusal::FileUnread,
        Refusal::StillNumber,
        Refusal::StillSize,
        Refusal::BackgroundFull,
        Refusal::SizesDiffer,
        Refusal::MovementLimit,
        Refusal::StageLimit,
        Refusal::SampleLimit,
        Refusal::VerdictStage,
        Refusal::ReceivedSize,
        Refusal::DistanceLimit,
    ];

    pub fn number(self) -> u32 {
        self as u32
    }

    pub fn from_number(number: u32) -> Option<Refusal> {
        Refusal::ALL.into_iter().find(|r| r.number() == number)
    }
}

impl fmt::Display for Refusal {
    fn fmt(&self, f: &mut fmt::Formatter<'_>) -> fmt::Result {
        f.write_str(match self {
            Refusal::Magic => "the file does not begin with P5 or P6",
            Refusal::Header => "the header lacks a separator, a number or the whitespace byte at its end",
            Refusal::Side => "the width or the height is not from 1 to 8,192",
            Refusal::Maximum => "the header's maximum is not 255",
            Refusal::RasterShort => "there are fewer samples than the picture's size asks for",
            Refusal::RasterLong => "there are more samples than the picture's size asks for",
            Refusal::StageCount => "the number of stages is 0 or over 8",
            Refusal::Cut => "the recipe ends before a field is complete",
            Refusal::Trailing => "the recipe goes on after its last stage",
            Refusal::Kind => "a kind is not 1 to 6, a border is over 3, or a border other than constant has a value that is not 0",
            Refusal::Count => "an axis has 0 or over 31 taps, a divisor is 0, a radius is over 15, or a plane's recipe has several stages",
            Refusal::Offset => "an offset is not -15 to 15, or not above the one before it",
            Refusal::RealWeight => "the size of a real weight is neither 0 nor from 2^-12 to 4",
            Refusal::Gain => "an axis has a gain above 4",
            Refusal::Position => "a rank's position is 0 or above the number of samples in its window",
            Refusal::Channels => "the number of channels is neither 1 nor 3",
            Refusal::Room => "a lent buffer has less room than the call needs",
            Refusal::FileLong => "the still is longer than 65,536 bytes, or the recipe longer than 4,096",
            Refusal::FileUnread => "a file cannot be opened, read or written",
            Refusal::StillNumber => "the number to add is already there, or the number to remove is not",
            Refusal::StillSize => "the still has another size or other channels than those held",
            Refusal::BackgroundFull => "a thousand stills are already held",
            Refusal::SizesDiffer => "the two stills have different sizes or channels",
            Refusal::MovementLimit => "the movement limit is over 255",
            Refusal::StageLimit => "the recipe has more stages than the caller's limit",
            Refusal::SampleLimit => "the still has more samples a plane, width times height, than the caller's limit",
            Refusal::VerdictStage => "the recipe has more than one stage, or a stage of another kind than ratios, box and rank",
            Refusal::ReceivedSize => "the received still has another size or other channels than the raw one",
            Refusal::DistanceLimit => "the distance is over 255",
        })
    }
}

impl std::error::Error for Refusal {}
