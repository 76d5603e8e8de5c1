//! A hub of plain Rust: sessions under a `Mutex` each, and `HashMap`s for what is open. It parses each
//! frame, keeps a record of each step and a receipt of each frame, and counts.

use crate::plain_records::{Kind, Name, Receipt, Record, SessionId};
use std::borrow::Cow;
use std::collections::{HashMap, VecDeque};
use std::mem;
use std::sync::atomic::{AtomicU32, Ordering};
use std::sync::{Mutex, RwLock};

const WINDOW: usize = 1024;

/// How many frames a session queues.
pub const OUT: usize = 2048;

#[derive(Clone, Debug)]
pub struct Frame {
    pub kind: i8,
    pub tag: u32,
    pub body: Cow<'static, [u8]>,
}

struct Ticket {
    name: Name,
    frame: Frame,
    dst: (usize, usize),
}

struct Placed {
    name: Name,
    server: usize,
    tag: u32,
}

struct Settled {
    name: Name,
    reply: Frame,
}

fn short(body: &[u8], at: usize) -> Option<usize> {
    Some(u16::from_be_bytes([*body.get(at)?, *body.get(at + 1)?]) as usize)
}

/// Where a list of so many pairs ends that begins at `at`.
fn after_pairs(body: &[u8], count: usize, mut at: usize) -> Option<usize> {
    for _ in 0..2 * count {
        at += 2 + short(body, at)?;
    }
    Some(at)
}

/// Where the destination lies, if the body is that of a dispatch.
fn parse_dispatch(body: &[u8]) -> Option<(usize, usize)> {
    let at = after_pairs(body, short(body, 0)?, 2)?;
    let dst = (at + 2, at + 2 + short(body, at)?);
    let end = after_pairs(body, short(body, dst.1)?, dst.1 + 2)?;
    (end <= body.len()).then_some(dst)
}

/// Whether the body is that of a reply.
fn is_reply(body: &[u8]) -> bool {
    let end = short(body, 1).and_then(|count| after_pairs(body, count, 3));
    end.is_some_and(|end| end <= body.len())
}

struct Entry {
    tag: u32,
    placed: Option<(usize, u32)>,
    answered: bool,
}

struct ClientSession {
    number: u64,
    seq: u64,
    entries: HashMap<u64, Entry>,
    tags: HashMap<u32, u64>,
    records: Vec<Record>,
    out: VecDeque<Frame>,
}

fn record(records: &mut Vec<Record>, kind: Kind, tag: u32, name: Name, reading: u64) -> Record {
    let kept = Record {
        kind,
        tag,
        name: Some(name),
        reading,
    };
    records.push(kept);
    kept
}

impl ClientSession {
    fn frame(&mut self, frame: Frame, now: u64) -> Option<(Receipt, Ticket)> {
        if frame.kind != 2 || self.entries.len() >= WINDOW || self.tags.contains_key(&frame.tag) {
            return None;
        }
        let dst = parse_dispatch(&frame.body)?;
        self.seq += 1;
        let name = Name {
            boot: 1,
            client: self.number,
            seq: self.seq,
        };
        let entry = Entry {
            tag: frame.tag,
            placed: None,
            answered: false,
        };
        self.entries.insert(name.seq, entry);
        self.tags.insert(frame.tag, name.seq);
        let receipt = Receipt {
            session: SessionId::Client(self.number),
            epoch: 0,
            place: self.records.len(),
            kept: record(&mut self.records, Kind::Took, frame.tag, name, now),
        };
        Some((receipt, Ticket { name, frame, dst }))
    }

    fn note(&mut self, placed: Placed) {
        let Some(entry) = self.entries.get_mut(&placed.name.seq) else {
            return;
        };
        entry.placed = Some((placed.server, placed.tag));
        let (tag, answered) = (entry.tag, entry.answered);
        if answered {
            self.entries.remove(&placed.name.seq);
        }
        let kind = Kind::Noted { recalled: false };
        record(&mut self.records, kind, tag, placed.name, 0);
    }

    fn settle(&mut self, settled: Settled) {
        let Some(entry) = self.entries.get_mut(&settled.name.seq) else {
            return;
        };
        entry.answered = true;
        let (tag, noted) = (entry.tag, entry.placed.is_some());
        if noted {
            self.entries.remove(&settled.name.seq);
        }
        self.tags.remove(&tag);
        record(&mut self.records, Kind::Passed, tag, settled.name, 0);
        self.out.push_back(Frame {
            tag,
            ..settled.reply
        });
    }
}

struct ServerSession {
    number: u64,
    next_tag: u32,
    free: Vec<u32>,
    sent: HashMap<u32, Name>,
    records: Vec<Record>,
    out: VecDeque<Frame>,
}

impl ServerSession {
    fn offer(&mut self, ticket: Ticket, now: u64) -> Option<Placed> {
        if self.sent.len() >= WINDOW {
            return None;
        }
        let tag = self.free.pop().unwrap_or_else(|| {
            self.next_tag += 1;
            self.next_tag
        });
        self.sent.insert(tag, ticket.name);
        record(&mut self.records, Kind::Offered, tag, ticket.name, now);
        self.out.push_back(Frame {
            tag,
            ..ticket.frame
        });
        Some(Placed {
            name: ticket.name,
            server: self.number as usize,
            tag,
        })
    }

    fn frame(&mut self, frame: Frame, now: u64) -> Option<(Receipt, Settled)> {
        if frame.kind != -2 || !is_reply(&frame.body) {
            return None;
        }
        let name = self.sent.remove(&frame.tag)?;
        self.free.push(frame.tag);
        let kind = Kind::Settled(frame.kind);
        let receipt = Receipt {
            session: SessionId::Server(self.number),
            epoch: 0,
            place: self.records.len(),
            kept: record(&mut self.records, kind, frame.tag, name, now),
        };
        Some((receipt, Settled { name, reply: frame }))
    }
}

/// The receipts of a session's frames, and how many records they led to.
pub struct Seat {
    receipts: Vec<Receipt>,
    share: u64,
}

impl Seat {
    pub fn with_room(receipts: usize) -> Seat {
        Seat {
            receipts: Vec::with_capacity(receipts),
            share: 0,
        }
    }
}

/// The frames of a call, and room for what their steps give, each with the place that it goes to.
#[derive(Default)]
pub struct Room {
    pub frames: Vec<Frame>,
    tickets: Vec<(usize, Ticket)>,
    other_tickets: Vec<(usize, Ticket)>,
    placed: Vec<Placed>,
    settled: Vec<Settled>,
    other_settled: Vec<Settled>,
}

pub struct Hub {
    clients: Vec<Mutex<ClientSession>>,
    servers: Vec<Mutex<ServerSession>>,
    loads: Vec<AtomicU32>,
    routes: RwLock<HashMap<Vec<u8>, Vec<usize>>>,
    count: Mutex<u64>,
}

/// The destination of a server.
pub fn destination(server: usize) -> Vec<u8> {
    format!("/s/{server}").into_bytes()
}

impl Hub {
    /// So many clients and servers, each with room for so many records.
    pub fn open(threads: usize, records: usize) -> Hub {
        let client = |number| ClientSession {
            number: number as u64,
            seq: 0,
            entries: HashMap::with_capacity(WINDOW),
            tags: HashMap::with_capacity(WINDOW),
            records: Vec::with_capacity(records),
            out: VecDeque::with_capacity(OUT),
        };
        let server = |number| ServerSession {
            number: number as u64,
            next_tag: 1,
            free: Vec::with_capacity(WINDOW),
            sent: HashMap::with_capacity(WINDOW),
            records: Vec::with_capacity(records),
            out: VecDeque::with_capacity(OUT),
        };
        Hub {
            clients: (0..threads).map(client).map(Mutex::new).collect(),
            servers: (0..threads).map(server).map(Mutex::new).collect(),
            loads: (0..threads).map(|_| AtomicU32::new(0)).collect(),
            routes: RwLock::new((0..threads).map(|n| (destination(n), vec![n])).collect()),
            count: Mutex::new(0),
        }
    }

    fn count(&self, seat: &mut Seat, records: u64) {
        *self.count.lock().unwrap() += records;
        seat.share += records;
    }

    /// The least loaded server of the ticket's destination.
    fn choose(&self, routes: &HashMap<Vec<u8>, Vec<usize>>, ticket: &Ticket) -> Option<usize> {
        let servers = routes.get(&ticket.frame.body[ticket.dst.0..ticket.dst.1])?;
        let load = |server: &usize| self.loads[*server].load(Ordering::Relaxed);
        servers.iter().copied().min_by_key(load)
    }

    fn show_load(&self, session: &ServerSession) {
        let load = session.sent.len() as u32;
        self.loads[session.number as usize].store(load, Ordering::Relaxed);
    }

    pub fn client_frame(&self, seat: &mut Seat, client: usize, frame: Frame, now: u64) {
        let step = self.clients[client].lock().unwrap().frame(frame, now);
        let Some((receipt, ticket)) = step else {
            return;
        };
        seat.receipts.push(receipt);
        let chosen = self.choose(&self.routes.read().unwrap(), &ticket);
        let placed = chosen.and_then(|server| self.offer(server, ticket, now));
        let records = if placed.is_some() { 3 } else { 1 };
        if let Some(placed) = placed {
            self.clients[client].lock().unwrap().note(placed);
        }
        self.count(seat, records);
    }

    fn offer(&self, server: usize, ticket: Ticket, now: u64) -> Option<Placed> {
        let mut session = self.servers[server].lock().unwrap();
        let placed = session.offer(ticket, now);
        self.show_load(&session);
        placed
    }

    pub fn server_frame(&self, seat: &mut Seat, server: usize, frame: Frame, now: u64) {
        let Some((receipt, settled)) = self.reply(server, frame, now) else {
            return;
        };
        seat.receipts.push(receipt);
        let client = settled.name.client as usize;
        self.clients[client].lock().unwrap().settle(settled);
        self.count(seat, 2);
    }

    fn reply(&self, server: usize, frame: Frame, now: u64) -> Option<(Receipt, Settled)> {
        let mut session = self.servers[server].lock().unwrap();
        let step = session.frame(frame, now);
        self.show_load(&session);
        step
    }

    /// The frames of the room, by one lock of each session that they go to.
    pub fn client_frames(&self, seat: &mut Seat, client: usize, room: &mut Room, now: u64) {
        let mut session = self.clients[client].lock().unwrap();
        let routes = self.routes.read().unwrap();
        let before = seat.receipts.len();
        for frame in room.frames.drain(..) {
            if let Some((receipt, ticket)) = session.frame(frame, now) {
                seat.receipts.push(receipt);
                if let Some(server) = self.choose(&routes, &ticket) {
                    room.tickets.push((server, ticket));
                }
            }
        }
        drop((session, routes));
        while let Some(server) = room.tickets.first().map(|first| first.0) {
            self.offer_all(server, room, now);
        }
        let taken = seat.receipts.len() - before + 2 * room.placed.len();
        let mut session = self.clients[client].lock().unwrap();
        room.placed
            .drain(..)
            .for_each(|placed| session.note(placed));
        drop(session);
        self.count(seat, taken as u64);
    }

    /// Offers the room's tickets for this server.
    fn offer_all(&self, server: usize, room: &mut Room, now: u64) {
        let mut session = self.servers[server].lock().unwrap();
        for (to, ticket) in room.tickets.drain(..) {
            if to != server {
                room.other_tickets.push((to, ticket));
            } else if let Some(placed) = session.offer(ticket, now) {
                room.placed.push(placed);
            }
        }
        self.show_load(&session);
        mem::swap(&mut room.tickets, &mut room.other_tickets);
    }

    pub fn server_frames(&self, seat: &mut Seat, server: usize, room: &mut Room, now: u64) {
        let mut session = self.servers[server].lock().unwrap();
        for frame in room.frames.drain(..) {
            if let Some((receipt, settled)) = session.frame(frame, now) {
                seat.receipts.push(receipt);
                room.settled.push(settled);
            }
        }
        self.show_load(&session);
        drop(session);
        let records = 2 * room.settled.len() as u64;
        while let Some(client) = room.settled.first().map(|first| first.name.client) {
            self.settle_all(client, room);
        }
        self.count(seat, records);
    }

    /// Hands the room's replies for this client over.
    fn settle_all(&self, client: u64, room: &mut Room) {
        let mut session = self.clients[client as usize].lock().unwrap();
        for settled in room.settled.drain(..) {
            if settled.name.client == client {
                session.settle(settled);
            } else {
                room.other_settled.push(settled);
            }
        }
        mem::swap(&mut room.settled, &mut room.other_settled);
    }

    pub fn client_out(&self, client: usize) -> Option<Frame> {
        self.clients[client].lock().unwrap().out.pop_front()
    }

    pub fn server_out(&self, server: usize) -> Option<Frame> {
        self.servers[server].lock().unwrap().out.pop_front()
    }

    /// Exchanges the client's queue with an empty one.
    pub fn client_outs(&self, client: usize, frames: &mut VecDeque<Frame>) {
        mem::swap(&mut self.clients[client].lock().unwrap().out, frames);
    }

    /// Exchanges the server's queue with an empty one.
    pub fn server_outs(&self, server: usize, frames: &mut VecDeque<Frame>) {
        mem::swap(&mut self.servers[server].lock().unwrap().out, frames);
    }

    /// Whether each receipt's place has its record, and the counts agree.
    pub fn close(self, seats: &[Seat]) {
        let records_of_client =
            |session: Mutex<ClientSession>| session.into_inner().unwrap().records;
        let records_of_server =
            |session: Mutex<ServerSession>| session.into_inner().unwrap().records;
        let clients: Vec<_> = self.clients.into_iter().map(records_of_client).collect();
        let servers: Vec<_> = self.servers.into_iter().map(records_of_server).collect();
        for receipt in seats.iter().flat_map(|seat| &seat.receipts) {
            let history = match receipt.session {
                SessionId::Client(number) => &clients[number as usize],
                SessionId::Server(number) => &servers[number as usize],
            };
            assert_eq!(history[receipt.place], receipt.kept);
        }
        let records = clients.iter().chain(&servers).map(Vec::len).sum::<usize>() as u64;
        assert_eq!(records, *self.count.lock().unwrap());
        assert_eq!(records, seats.iter().map(|seat| seat.share).sum());
    }
}
