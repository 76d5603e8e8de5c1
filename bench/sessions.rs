//! A dispatch there and back, as `part_bench` does it with both sessions: a router for one client and
//! one server that keeps a `HashMap` by number, one by tag on either side, and a `VecDeque` of frames
//! on either side, and no records.

use std::collections::{HashMap, VecDeque};
use std::hint::black_box;
use std::time::Instant;

const ROUNDS: u64 = 100_000;

// Destination `/s/a`, no contexts, no dtab, body `hi`. No compiler sees through `black_box`.
const DISPATCH: &[u8] = b"\x00\x00\x00\x04/s/a\x00\x00hi";

// Status 0, no contexts, body `yo`.
const REPLY: &[u8] = b"\x00\x00\x00yo";

#[derive(Clone, Copy)]
struct Frame {
    kind: i8,
    tag: u32,
    body: &'static [u8],
}

/// The number of a dispatch at its client.
#[derive(Clone, Copy)]
struct Name {
    client: u64,
    seq: u64,
}

struct Ticket {
    name: Name,
    frame: Frame,
    dst: (usize, usize),
}

struct Placed {
    name: Name,
    server: u32,
    tag: u32,
}

struct Settled {
    name: Name,
    reply: Frame,
}

fn number(body: &[u8], at: usize) -> Option<(usize, usize)> {
    let bytes = body.get(at..at + 2)?;
    Some((
        usize::from(u16::from_be_bytes([bytes[0], bytes[1]])),
        at + 2,
    ))
}

fn field(body: &[u8], at: usize) -> Option<(usize, usize)> {
    let (len, from) = number(body, at)?;
    body.get(from..from + len)?;
    Some((from, from + len))
}

fn fields(body: &[u8], at: usize) -> Option<usize> {
    let (count, mut at) = number(body, at)?;
    for _ in 0..2 * count {
        at = field(body, at)?.1;
    }
    Some(at)
}

/// Where the destination of a dispatch lies.
fn dst(body: &[u8]) -> Option<(usize, usize)> {
    let dst = field(body, fields(body, 0)?)?;
    fields(body, dst.1)?;
    Some(dst)
}

fn is_reply(body: &[u8]) -> bool {
    body.first().is_some_and(|status| *status <= 2) && fields(body, 1).is_some()
}

struct Entry {
    tag: u32,
    place: Option<(u32, u32)>,
}

/// The side of the client.
struct Down {
    client: u64,
    window: usize,
    entries: HashMap<u64, Entry>,
    tags: HashMap<u32, u64>,
    last: u64,
    queue: VecDeque<Frame>,
}

impl Down {
    fn frame(&mut self, frame: Frame) -> Option<Ticket> {
        let dst = dst(frame.body)?;
        if frame.kind != 2
            || frame.tag == 0
            || self.tags.contains_key(&frame.tag)
            || self.entries.len() >= self.window
        {
            return None;
        }
        self.last += 1;
        self.tags.insert(frame.tag, self.last);
        self.entries.insert(
            self.last,
            Entry {
                tag: frame.tag,
                place: None,
            },
        );
        let name = Name {
            client: self.client,
            seq: self.last,
        };
        Some(Ticket { name, frame, dst })
    }

    fn note(&mut self, placed: &Placed) -> bool {
        if placed.name.client != self.client {
            return false;
        }
        match self.entries.get_mut(&placed.name.seq) {
            Some(entry) if entry.place.is_none() => {
                entry.place = Some((placed.server, placed.tag));
                true
            }
            _ => false,
        }
    }

    fn settle(&mut self, settled: Settled) -> bool {
        if settled.name.client != self.client {
            return false;
        }
        let Some(entry) = self.entries.remove(&settled.name.seq) else {
            return false;
        };
        self.tags.remove(&entry.tag);
        self.queue.push_back(Frame {
            tag: entry.tag,
            ..settled.reply
        });
        true
    }
}

/// The side of the server.
struct Up {
    server: u32,
    window: usize,
    held: HashMap<u32, Name>,
    free: VecDeque<u32>,
    next: u32,
    queue: VecDeque<Frame>,
}

impl Up {
    fn offer(&mut self, ticket: Ticket) -> Option<Placed> {
        if self.held.len() >= self.window || ticket.dst.0 == ticket.dst.1 {
            return None;
        }
        let tag = self.free.pop_front().unwrap_or_else(|| {
            self.next += 1;
            self.next
        });
        self.held.insert(tag, ticket.name);
        self.queue.push_back(Frame {
            tag,
            ..ticket.frame
        });
        Some(Placed {
            name: ticket.name,
            server: self.server,
            tag,
        })
    }

    fn frame(&mut self, reply: Frame) -> Option<Settled> {
        if reply.kind != -2 || !is_reply(reply.body) {
            return None;
        }
        let name = self.held.remove(&reply.tag)?;
        self.free.push_back(reply.tag);
        Some(Settled { name, reply })
    }
}

/// Both sides, and on which tag of the server each of the client's tags went out.
struct Router {
    down: Down,
    up: Up,
    sent: Vec<u32>,
}

impl Router {
    fn new(window: usize) -> Router {
        Router {
            down: Down {
                client: 1,
                window,
                entries: HashMap::with_capacity(window),
                tags: HashMap::with_capacity(window),
                last: 0,
                queue: VecDeque::with_capacity(1024),
            },
            up: Up {
                server: 1,
                window,
                held: HashMap::with_capacity(window),
                free: VecDeque::with_capacity(window),
                next: 1,
                queue: VecDeque::with_capacity(1024),
            },
            sent: vec![0; window + 1],
        }
    }

    /// The client sends a dispatch on this tag, and the server has it.
    fn send(&mut self, tag: u32) -> Option<()> {
        let frame = Frame {
            kind: 2,
            tag,
            body: black_box(DISPATCH),
        };
        let placed = self.up.offer(self.down.frame(frame)?)?;
        if !self.down.note(&placed) {
            return None;
        }
        let out = self.up.queue.pop_front()?;
        *self.sent.get_mut(tag as usize)? = out.tag;
        Some(())
    }

    /// The server answers what the client sent on this tag, and the client has the reply.
    fn answer(&mut self, tag: u32) -> Option<u32> {
        let reply = Frame {
            kind: -2,
            tag: *self.sent.get(tag as usize)?,
            body: black_box(REPLY),
        };
        if !self.down.settle(self.up.frame(reply)?) {
            return None;
        }
        Some(self.down.queue.pop_front()?.tag)
    }
}

fn next_seed(seed: u64) -> u64 {
    seed.wrapping_mul(6_364_136_223_846_793_005)
        .wrapping_add(1_442_695_040_888_963_407)
}

/// `window` dispatches are held. The one that is answered is the newest of them, or any.
fn time(window: u32, is_any: bool) -> Option<()> {
    let mut router = Router::new(window as usize);
    for tag in 1..=window {
        router.send(tag)?;
    }
    let start = Instant::now();
    let (mut seed, mut sum) = (1u64, 0u64);
    for _ in 0..ROUNDS {
        seed = next_seed(seed);
        let any = ((seed >> 40) as u32) % window + 1;
        let tag = if is_any { any } else { window };
        sum = sum.wrapping_add(u64::from(router.answer(tag)?));
        router.send(tag)?;
    }
    let each = start.elapsed().as_nanos() / u128::from(ROUNDS);
    let which = if is_any { "any held" } else { "the newest" };
    println!(
        "window {window}, {which}\nHashMap and VecDeque, there and back: {each} ns a call, sum {sum}"
    );
    Some(())
}

fn main() {
    for window in [1, 1_024, 65_536] {
        for is_any in [false, true] {
            time(window, is_any).expect("each step is taken");
        }
    }
}
