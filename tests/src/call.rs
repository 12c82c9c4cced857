//! A call to a unit, with the values that it is given besides unit and store,
//! and its answer: demand 3's calls, and those of document 02.

/// Bytes of a response that are shown.
const HEAD: usize = 300;

/// A call.
#[derive(Clone, Debug, PartialEq, Eq)]
pub enum Call {
    Tick {
        second: u64,
    },
    ClockLost,
    TakeFile {
        name: Vec<u8>,
        body: Vec<u8>,
    },
    TakeResponse {
        boundary: Vec<u8>,
        response: Vec<u8>,
    },
    UpdateFailed {
        status: u64,
    },
    FixedFailed {
        status: u64,
    },
    Due,
    Ceiling {
        slot: u64,
    },
    Command,
    FreeBlocks,
}

/// What is to be requested.
#[derive(Clone, Copy, Debug, PartialEq, Eq)]
pub enum Due {
    Nothing,
    Update,
    /// The fixed schedule with this flag.
    Fixed(u8),
}

/// The answer to a call.
#[derive(Clone, Copy, Debug, PartialEq, Eq)]
pub enum Answer {
    /// A cause's number.
    Refused(u8),
    /// Of a tick, clock lost, file or response taken, or failure.
    Accepted,
    Due(Due),
    /// Rate (percent of C) and percent of the inverter's, where there is one.
    Ceiling(Option<(u8, u32)>),
    /// Parts of the command, or free blocks.
    Number(u32),
}

impl Call {
    /// The papers' name of the call.
    pub fn title(&self) -> &'static str {
        match self {
            Call::Tick { .. } => "tick",
            Call::ClockLost => "clock lost",
            Call::TakeFile { .. } => "file taken",
            Call::TakeResponse { .. } => "response taken",
            Call::UpdateFailed { .. } => "update failed",
            Call::FixedFailed { .. } => "fixed failed",
            Call::Due => "due",
            Call::Ceiling { .. } => "ceiling",
            Call::Command => "command",
            Call::FreeBlocks => "free blocks",
        }
    }

    /// 'The store is lent to tick, file taken and ceiling', and 'taking a
    /// response is then taking that name and file'.
    pub fn is_lent_the_store(&self) -> bool {
        matches!(self, Call::Tick { .. } | Call::Ceiling { .. }) || self.takes_a_file()
    }

    /// File and response taken alone write to the store.
    pub fn takes_a_file(&self) -> bool {
        matches!(self, Call::TakeFile { .. } | Call::TakeResponse { .. })
    }

    /// The call in a line: of a file its name alone, and the body's length; of
    /// a response what stands before the file.
    pub fn line(&self) -> String {
        match self {
            Call::TakeFile { name, body } => format!(
                "file taken: {:?}, {} bytes",
                String::from_utf8_lossy(name),
                body.len()
            ),
            Call::TakeResponse { boundary, response } => format!(
                "response taken: boundary {:?}, {} bytes, {:?}",
                String::from_utf8_lossy(boundary),
                response.len(),
                String::from_utf8_lossy(&response[..response.len().min(HEAD)])
            ),
            _ => format!("{self:?}"),
        }
    }
}

impl Answer {
    /// The cause of a refusal, else 0.
    pub fn cause(&self) -> u8 {
        match self {
            Answer::Refused(cause) => *cause,
            _ => 0,
        }
    }
}
