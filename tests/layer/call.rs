//! A call of the layer with its arguments, in the order of document 01.

#[derive(Clone, Debug, PartialEq)]
pub enum Call {
    Start,
    Stop,
    Send { object: u32, value: u32 },
    Initialise { object: u32, value: u32 },
    Receive { object: u32 },
    Status { object: u32 },
    Marks { object: u32 },
    ClearMarks { object: u32 },
    StartPeriodic,
    StopPeriodic,
    Indication { ipdu: u32, good: bool, bytes: Vec<u8> },
    Confirm { ipdu: u32, good: bool },
    Tick,
}

impl Call {
    /// Send and tick are lent a request area; the other calls are not.
    pub fn takes_area(&self) -> bool {
        matches!(self, Call::Send { .. } | Call::Tick)
    }

    /// Whether an answer with this number is a refusal: all but 0 and a receive's 3 are.
    pub fn refused_by(&self, number: u32) -> bool {
        number != 0 && !(number == 3 && matches!(self, Call::Receive { .. }))
    }

    /// The place of the call in the order of document 01.
    pub fn kind(&self) -> usize {
        match self {
            Call::Start => 0,
            Call::Stop => 1,
            Call::Send { .. } => 2,
            Call::Initialise { .. } => 3,
            Call::Receive { .. } => 4,
            Call::Status { .. } => 5,
            Call::Marks { .. } => 6,
            Call::ClearMarks { .. } => 7,
            Call::StartPeriodic => 8,
            Call::StopPeriodic => 9,
            Call::Indication { .. } => 10,
            Call::Confirm { .. } => 11,
            Call::Tick => 12,
        }
    }
}
