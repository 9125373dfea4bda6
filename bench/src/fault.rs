//! Faults, refusals, and what is handed back where nothing was made.

/// A field that holds what it must not hold.
#[derive(Clone, Copy, PartialEq, Eq, Debug)]
pub enum Field {
    Status,
    Reason,
    Session,
    Number,
    Start,
    End,
}

impl Field {
    /// Where the field stands in its packet.
    pub fn place(self) -> usize {
        match self {
            Field::Status | Field::Reason | Field::Number | Field::Start => 3,
            Field::Session => 4,
            Field::End => 11,
        }
    }
}

/// What is wrong with a packet.
#[derive(Clone, Copy, PartialEq, Eq, Debug)]
pub enum PacketFault {
    ZeroLength,
    LengthOverLimit,
    UnknownLetter,
    LetterOutOfPlace,
    WrongLength,
    BadField(Field),
}

impl PacketFault {
    pub fn cause(self) -> u8 {
        match self {
            PacketFault::ZeroLength => 1,
            PacketFault::LengthOverLimit => 2,
            PacketFault::UnknownLetter => 3,
            PacketFault::LetterOutOfPlace => 4,
            PacketFault::WrongLength => 5,
            PacketFault::BadField(_) => 6,
        }
    }

    pub fn place(self) -> usize {
        match self {
            PacketFault::ZeroLength | PacketFault::LengthOverLimit | PacketFault::WrongLength => 0,
            PacketFault::UnknownLetter | PacketFault::LetterOutOfPlace => 2,
            PacketFault::BadField(field) => field.place(),
        }
    }
}

/// What is wrong with a log.
#[derive(Clone, Copy, PartialEq, Eq, Debug)]
pub enum LogFault {
    /// It takes no message more.
    Full,
}

/// A fault of either layer.
#[derive(Clone, Copy, PartialEq, Eq, Debug)]
pub enum Fault {
    Packet(PacketFault),
    Log(LogFault),
}

impl Fault {
    pub fn layer(self) -> &'static str {
        match self {
            Fault::Packet(_) => "packet",
            Fault::Log(_) => "log",
        }
    }

    pub fn cause(self) -> u8 {
        match self {
            Fault::Packet(fault) => fault.cause(),
            Fault::Log(LogFault::Full) => 21,
        }
    }

    pub fn place(self) -> usize {
        match self {
            Fault::Packet(fault) => fault.place(),
            Fault::Log(LogFault::Full) => 0,
        }
    }
}

impl From<PacketFault> for Fault {
    fn from(fault: PacketFault) -> Self {
        Fault::Packet(fault)
    }
}

impl From<LogFault> for Fault {
    fn from(fault: LogFault) -> Self {
        Fault::Log(fault)
    }
}

/// A call's answer that it did nothing.
#[derive(Clone, Copy, PartialEq, Eq, Debug)]
pub enum Refusal {
    MessageTooLong,
    SessionZero,
    NoSuchMessage,
    ShortBuffer,
    SizeOutOfRange,
    BadAccountField,
    /// With the place of the first bad record.
    BrokenLog(usize),
    BadPacket(PacketFault),
    LogFull,
    LineFull,
    WrongPhase,
    SessionFinished,
    HubBusy,
    LastSession,
    NoSession,
    NothingToFetch,
    AccountTaken,
    OutOfMemory,
}

impl Refusal {
    pub fn number(self) -> u8 {
        match self {
            Refusal::MessageTooLong => 11,
            Refusal::SessionZero => 12,
            Refusal::NoSuchMessage => 13,
            Refusal::ShortBuffer => 14,
            Refusal::SizeOutOfRange => 15,
            Refusal::BadAccountField => 16,
            Refusal::BrokenLog(_) => 17,
            Refusal::BadPacket(_) => 18,
            Refusal::LogFull => 21,
            Refusal::LineFull => 22,
            Refusal::WrongPhase => 23,
            Refusal::SessionFinished => 24,
            Refusal::HubBusy => 25,
            Refusal::LastSession => 26,
            Refusal::NoSession => 27,
            Refusal::NothingToFetch => 28,
            Refusal::AccountTaken => 29,
            Refusal::OutOfMemory => 30,
        }
    }
}

impl From<PacketFault> for Refusal {
    fn from(fault: PacketFault) -> Self {
        Refusal::BadPacket(fault)
    }
}

/// Nothing was made: why, and what was given for it.
#[derive(Debug)]
pub struct Unmade<T> {
    pub refusal: Refusal,
    pub given: T,
}
