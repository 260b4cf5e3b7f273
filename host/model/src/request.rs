//! What a host may ask.

use crate::frame::{Id, VALUE_LIMIT};
use store::message::{ABORT, COMMIT, CONVERT, DELETE, LOG, PUT, READ};

/// What a message holds, unless it is malformed. Those of kind 0x0105 stand apart, malformed or not, as K8 answers them.
pub enum Message<'a> {
    Read(Option<Id>),
    Other(Option<Request<'a>>),
}

pub enum Request<'a> {
    Put(Id, &'a [u8]),
    Delete(Id),
    Commit,
    Abort,
    Log(Page),
    Convert,
}

pub enum Page {
    Store,
}

pub fn parse(message: &[u8]) -> Message<'_> {
    let Some((length, kind, body)) = split(message) else {
        return Message::Other(None);
    };
    let right = usize::from(length) == message.len();
    match kind {
        READ => Message::Read(only_id(body).filter(|_| right)),
        _ => Message::Other(request(kind, body).filter(|_| right)),
    }
}

fn split(message: &[u8]) -> Option<(u16, u16, &[u8])> {
    let (length, rest) = number(message)?;
    let (kind, body) = number(rest)?;
    Some((length, kind, body))
}

fn request(kind: u16, body: &[u8]) -> Option<Request<'_>> {
    match (kind, body) {
        (PUT, body) => {
            let (id, value) = id(body)?;
            (value.len() <= VALUE_LIMIT).then_some(Request::Put(id, value))
        }
        (DELETE, body) => only_id(body).map(Request::Delete),
        (COMMIT, []) => Some(Request::Commit),
        (ABORT, []) => Some(Request::Abort),
        (LOG, [1]) => Some(Request::Log(Page::Store)),
        (CONVERT, []) => Some(Request::Convert),
        _ => None,
    }
}

fn number(bytes: &[u8]) -> Option<(u16, &[u8])> {
    let (number, rest) = bytes.split_first_chunk()?;
    Some((u16::from_le_bytes(*number), rest))
}

fn id(body: &[u8]) -> Option<(Id, &[u8])> {
    let (id, rest) = number(body)?;
    Some((Id(u8::try_from(id).ok()?), rest))
}

fn only_id(body: &[u8]) -> Option<Id> {
    let (id, rest) = id(body)?;
    rest.is_empty().then_some(id)
}
