//! What is asked of each store, and what comes back.

use std::fmt;
use store::{Answer, Stretch, hex, message};

#[derive(Clone, PartialEq, Eq, Debug)]
pub enum Call {
    Mount,
    Format,
    Step,
    /// At most so many steps.
    Run(usize),
    Request {
        host: u8,
        message: Vec<u8>,
        reply: usize,
    },
    Read {
        host: u8,
        message: Vec<u8>,
    },
}

impl Call {
    pub fn name(&self) -> &'static str {
        match self {
            Call::Mount => "mount",
            Call::Format => "format",
            Call::Step => "step",
            Call::Run(_) => "run",
            Call::Request { .. } => "request",
            Call::Read { .. } => "read",
        }
    }

    /// What the job is called that it begins.
    pub fn job(&self) -> &'static str {
        match self {
            Call::Request { message, .. } => match u16::from_le_bytes([message[2], message[3]]) {
                message::PUT => "put",
                message::DELETE => "delete",
                message::COMMIT => "commit",
                message::CONVERT => "convert",
                _ => "abort",
            },
            other => other.name(),
        }
    }

    /// Whether it goes on with the job in hand.
    pub fn goes_on(&self) -> bool {
        matches!(self, Call::Step | Call::Run(_))
    }
}

/// The call as a line for `desk replay`.
impl fmt::Display for Call {
    fn fmt(&self, f: &mut fmt::Formatter) -> fmt::Result {
        let bytes = |message: &[u8]| if message.is_empty() { "-".to_string() } else { hex::show(message) };
        match self {
            Call::Request { host, message, reply } => write!(f, "req {host} {} {reply}", bytes(message)),
            Call::Read { host, message } => write!(f, "read {host} {}", bytes(message)),
            Call::Run(most) => write!(f, "step {most}"),
            other => f.write_str(other.name()),
        }
    }
}

#[derive(Clone, PartialEq, Eq, Debug)]
pub struct Outcome {
    pub answer: Answer,
    /// Flash steps made.
    pub steps: usize,
    pub reply: Vec<u8>,
    pub stretch: Stretch,
}

/// What a lent reply holds before the call.
pub const UNWRITTEN: u8 = 0x5A;
