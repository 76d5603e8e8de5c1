//! Connections that carry Mux frames, nonblocking, with buffers that are used again.
#![allow(dead_code, reason = "each program uses a part")]

use crate::epoll::{Poller, READ, WRITE};
use std::io::{self, ErrorKind, Read, Write};
use std::mem;
use std::net::TcpStream;
use std::ops::Range;

pub const DISPATCH: i8 = 2;
pub const DRAIN: i8 = 64;
pub const PING: i8 = 65;
pub const DISCARDED: i8 = 66;
pub const LEASE: i8 = 67;
pub const OLD_DISCARDED: i8 = -62;
pub const INIT: i8 = 68;
pub const ERROR: i8 = -128;
pub const OLD_ERROR: i8 = 127;

pub const OK: u8 = 0;
pub const NACK: u8 = 2;

/// The text of the probe: a peer that knows of initiation sends it back.
pub const PROBE: &[u8] = b"tinit check";

/// Bytes of a frame's head: size, type and tag.
pub const HEAD: usize = 8;

const GREATEST_FRAME: usize = 16 * 1024 * 1024 + HEAD;

/// Room to read into, and that of a connection that had a frame of a quarter of it.
const ROOM: usize = 64 * 1024;
const LARGE_ROOM: usize = 512 * 1024;

/// From so many bytes on, what is gathered goes out at once.
const GATHER: usize = 64 * 1024;

/// From so many bytes on, a piece is written from where it is, if nothing waits before it.
const DIRECT: usize = 32 * 1024;

/// A connection that doesn't read isn't read either, once so many bytes wait for it.
const MOST_WAITING: usize = 4 * 1024 * 1024;

/// A frame in the bytes of an `Input`.
pub struct Frame {
    pub kind: i8,
    pub tag: u32,
    pub place: Range<usize>,
}

impl Frame {
    pub fn body(&self) -> Range<usize> {
        self.place.start + HEAD..self.place.end
    }
}

/// Its size is no frame's: what follows can't be cut.
#[derive(Debug)]
pub struct BadSize;

pub fn put_tag(frame: &mut [u8], tag: u32) {
    frame[5..HEAD].copy_from_slice(&tag.to_be_bytes()[1..]);
}

/// The head of a frame with a body of so many bytes.
pub fn head(kind: i8, tag: u32, body: usize) -> [u8; HEAD] {
    let mut head = [0; HEAD];
    head[..4].copy_from_slice(&(body as u32 + 4).to_be_bytes());
    head[4] = kind as u8;
    put_tag(&mut head, tag);
    head
}

pub fn tag_of(bytes: &[u8]) -> Option<u32> {
    let bytes = bytes.first_chunk::<3>()?;
    Some(u32::from_be_bytes([0, bytes[0], bytes[1], bytes[2]]))
}

fn behind_text(body: &[u8]) -> Option<&[u8]> {
    let (len, rest) = body.split_first_chunk::<2>()?;
    rest.get(usize::from(u16::from_be_bytes(*len))..)
}

fn behind_pairs(body: &[u8]) -> Option<&[u8]> {
    let (count, rest) = body.split_first_chunk::<2>()?;
    (0..2 * u32::from(u16::from_be_bytes(*count))).try_fold(rest, |rest, _| behind_text(rest))
}

/// What follows contexts, destination and dtab in the body of a Tdispatch.
pub fn dispatch_payload(body: &[u8]) -> Option<&[u8]> {
    behind_pairs(behind_text(behind_pairs(body)?)?)
}

/// Where the destination stands in the body of a Tdispatch.
pub fn dispatch_dst(body: &[u8]) -> Option<Range<usize>> {
    let text = behind_pairs(body)?;
    let rest = behind_text(text)?;
    behind_pairs(rest)?;
    Some(body.len() - text.len() + 2..body.len() - rest.len())
}

/// The milliseconds that a Tlease grants, if it is one of milliseconds.
pub fn lease(body: &[u8]) -> Option<u64> {
    let count = i64::from_be_bytes(*body.strip_prefix(&[0])?.first_chunk()?);
    Some(count.max(0) as u64)
}

/// Status and payload in the body of an Rdispatch.
pub fn reply_payload(body: &[u8]) -> Option<(u8, &[u8])> {
    let (status, rest) = body.split_first()?;
    Some((*status, behind_pairs(rest)?))
}

/// The bytes that came and were not looked at.
#[derive(Default)]
pub struct Input {
    pub bytes: Vec<u8>,
    start: usize,
    end: usize,
}

impl Input {
    /// The length of the frame that begins at `start`, once its size has come.
    fn announced(&self) -> Result<Option<usize>, BadSize> {
        let Some(size) = self.bytes[self.start..self.end].first_chunk::<4>() else {
            return Ok(None);
        };
        let len = u32::from_be_bytes(*size) as usize + 4;
        if (HEAD..=GREATEST_FRAME).contains(&len) {
            Ok(Some(len))
        } else {
            Err(BadSize)
        }
    }

    /// The next frame, if it is whole. The bytes of those before it stay in their places until more is
    /// read.
    pub fn next(&mut self) -> Result<Option<Frame>, BadSize> {
        let Some(len) = self.announced()? else {
            return Ok(None);
        };
        let place = self.start..self.start + len;
        if place.end > self.end {
            return Ok(None);
        }
        self.start = place.end;
        let head = &self.bytes[place.start..place.start + HEAD];
        Ok(Some(Frame {
            kind: head[4] as i8,
            tag: u32::from_be_bytes([0, head[5], head[6], head[7]]),
            place,
        }))
    }

    fn to_front(&mut self) {
        self.bytes.copy_within(self.start..self.end, 0);
        self.end -= self.start;
        self.start = 0;
    }

    /// Room to read into: for the rest of a frame that has begun, and for more behind it.
    fn free(&mut self) -> &mut [u8] {
        let len = self.announced().ok().flatten().unwrap_or(HEAD);
        let wanted = LARGE_ROOM.max(2 * len);
        if len > self.bytes.len() / 4 && self.bytes.len() < wanted {
            self.bytes.resize(wanted, 0);
        }
        if self.start == self.end {
            (self.start, self.end) = (0, 0);
        } else if self.start + len > self.bytes.len() || self.end > self.bytes.len() / 4 * 3 {
            self.to_front();
        }
        &mut self.bytes[self.end..]
    }
}

fn is_passing(error: &io::Error) -> bool {
    matches!(error.kind(), ErrorKind::WouldBlock | ErrorKind::Interrupted)
}

pub struct Link {
    stream: TcpStream,
    pub input: Input,
    out: Vec<u8>,
    written: usize,
    key: u64,
    ready: u32,
    is_full: bool,
    is_broken: bool,
    always_read: bool,
    /// For the owner, who keeps a list of those that are to be flushed.
    pub is_listed: bool,
}

impl Link {
    /// Registers the connection under `key`.
    pub fn new(stream: TcpStream, key: usize, poller: &Poller) -> io::Result<Link> {
        stream.set_nonblocking(true)?;
        stream.set_nodelay(true)?;
        poller.add(&stream, key as u64, READ)?;
        let input = Input {
            bytes: vec![0; ROOM],
            ..Input::default()
        };
        Ok(Link {
            stream,
            input,
            out: Vec::with_capacity(2 * GATHER),
            written: 0,
            key: key as u64,
            ready: READ,
            is_full: false,
            is_broken: false,
            always_read: false,
            is_listed: false,
        })
    }

    /// It is read even if it doesn't read.
    pub fn always_read(mut self) -> Link {
        self.always_read = true;
        self
    }

    /// Reads once. False if the connection has ended.
    pub fn fill(&mut self) -> bool {
        match self.stream.read(self.input.free()) {
            Ok(0) => false,
            Ok(count) => {
                self.input.end += count;
                true
            }
            Err(error) => is_passing(&error),
        }
    }

    /// How many bytes wait to be written.
    pub fn waiting(&self) -> usize {
        self.out.len() - self.written
    }

    /// How many of the bytes the system took.
    fn write(&mut self, bytes: &[u8]) -> usize {
        let count = match self.stream.write(bytes) {
            Ok(count) => count,
            Err(error) => {
                self.is_broken |= !is_passing(&error);
                0
            }
        };
        self.is_full = count < bytes.len();
        count
    }

    fn write_out(&mut self) {
        let out = mem::take(&mut self.out);
        self.written += self.write(&out[self.written..]);
        self.out = out;
        if self.written == self.out.len() {
            self.out.clear();
            self.written = 0;
        } else if self.written > self.out.len() / 2 {
            self.out.drain(..self.written);
            self.written = 0;
        }
    }

    /// Puts bytes behind those that wait, and writes if there are many.
    pub fn send(&mut self, bytes: &[u8]) {
        let mut rest = bytes;
        if rest.len() >= DIRECT && self.waiting() == 0 && !self.is_full {
            rest = &rest[self.write(rest)..];
        }
        self.out.extend_from_slice(rest);
        if self.waiting() >= GATHER && !self.is_full {
            self.write_out();
        }
    }

    /// Puts all bytes of a list behind those that wait, and empties it. If none wait, the lists are exchanged.
    pub fn take_all(&mut self, bytes: &mut Vec<u8>) {
        if self.waiting() == 0 {
            self.out.clear();
            self.written = 0;
            mem::swap(&mut self.out, bytes);
        } else {
            self.out.append(bytes);
        }
    }

    /// The system said that it takes bytes again.
    pub fn set_writable(&mut self) {
        self.is_full = false;
    }

    /// Writes what waits, once, and asks to be told when the rest can be written. False if the
    /// connection has ended.
    pub fn flush(&mut self, poller: &Poller) -> bool {
        if self.waiting() > 0 && !self.is_full {
            self.write_out();
        }
        let reads = self.always_read || self.waiting() < MOST_WAITING;
        let mut ready = if reads { READ } else { 0 };
        if self.waiting() > 0 {
            ready |= WRITE;
        }
        if ready != self.ready {
            self.ready = ready;
            self.is_broken |= poller.change(&self.stream, self.key, ready).is_err();
        }
        !self.is_broken
    }
}
