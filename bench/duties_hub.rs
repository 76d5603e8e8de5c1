//! The duties router between its sockets: all sessions, each under a lock of its own, and what the frames of a
//! batch lead to.

use crate::duties_records::{Judged, Kind, Name, Seat, Writes};
use crate::duties_sessions::{Came, ClientSession, Recall, Reply, ServerSession, Step, Ticket};
use crate::mux_link::{ERROR, Frame};
use std::collections::HashMap;
use std::sync::atomic::{AtomicU32, Ordering};
use std::sync::{Mutex, MutexGuard};

/// Frames of a batch.
pub const BATCH: usize = 64;

const DST: &[u8] = b"/s/a";

/// The load that a server shows which takes no dispatches.
const NONE: u32 = u32::MAX;

/// Frames of one read, and when they are taken.
pub struct Batch<'a> {
    pub frames: &'a [Frame],
    pub bytes: &'a [u8],
    pub now: u64,
}

impl Batch<'_> {
    fn body(&self, at: usize) -> &[u8] {
        &self.bytes[self.frames[at].body()]
    }

    fn came(&self, at: usize) -> Came<'_> {
        Came {
            at,
            kind: self.frames[at].kind,
            tag: self.frames[at].tag,
            body: self.body(at),
            now: self.now,
        }
    }

    /// Its frames, one after the other.
    fn all(&self) -> impl Iterator<Item = Came<'_>> {
        (0..self.frames.len()).map(|at| self.came(at))
    }
}

/// What the frames of a batch lead to. The lists are used again.
#[derive(Default)]
pub struct Lists {
    tickets: Vec<Ticket>,
    replies: Vec<Reply>,
    recalls: Vec<Recall>,
    /// Connections that have something to write.
    pub wakes: Vec<usize>,
}

impl Lists {
    fn clear(&mut self) {
        self.tickets.clear();
        self.replies.clear();
        self.recalls.clear();
        self.wakes.clear();
    }
}

pub fn lock<T>(it: &Mutex<T>) -> MutexGuard<'_, T> {
    it.lock().expect("no thread panicked")
}

/// Acts under a session's lock, and adds how many records that made.
fn under<T: Writes, R>(it: &Mutex<T>, made: &mut u64, act: impl FnOnce(&mut T) -> R) -> R {
    let mut session = lock(it);
    let before = session.log().len();
    let result = act(&mut session);
    *made += session.log().len() - before;
    result
}

/// A server's session, and its load as others see it.
pub struct Server {
    pub session: Mutex<ServerSession>,
    load: AtomicU32,
}

impl Server {
    /// Its load is shown before the lock is given back.
    fn show(&self, session: &ServerSession) {
        let load = session.open_load().map_or(NONE, |load| load as u32);
        self.load.store(load, Ordering::Relaxed);
    }
}

/// All sessions. A connection's number counts the servers first, and then each client that ever came.
pub struct Hub {
    pub servers: Vec<Server>,
    pub clients: Vec<Mutex<ClientSession>>,
    routes: HashMap<Vec<u8>, Vec<usize>>,
    count: Mutex<u64>,
}

impl Hub {
    pub fn new(servers: usize) -> Hub {
        let server = |_| Server {
            session: Mutex::new(ServerSession::new()),
            load: AtomicU32::new(0),
        };
        Hub {
            servers: (0..servers).map(server).collect(),
            clients: vec![],
            routes: HashMap::from([(DST.to_vec(), (0..servers).collect())]),
            count: Mutex::new(0),
        }
    }

    pub fn client(&self, number: usize) -> Option<&Mutex<ClientSession>> {
        self.clients.get(number.checked_sub(self.servers.len())?)
    }

    /// Takes what a client sent. False if its session is to end.
    pub fn take_client(
        &self,
        number: usize,
        batch: &Batch,
        seat: &mut Seat,
        to: &mut Lists,
    ) -> bool {
        let Some(client) = self.client(number) else {
            return false;
        };
        to.clear();
        let mut made = 0;
        let stays = under(client, &mut made, |session| {
            batch.all().all(|came| {
                match session.frame(came, seat) {
                    Step::Nothing => {}
                    Step::Take(ticket) => to.tickets.push(ticket),
                    Step::Recall(recall) => to.recalls.push(recall),
                    Step::Close => return false,
                }
                true
            })
        });
        self.plan(&mut to.tickets, batch);
        self.offer(number, batch, to, &mut made);
        under(client, &mut made, |session| {
            for ticket in &to.tickets {
                let Ticket { seq, slot, .. } = *ticket;
                match ticket.server.zip(ticket.tag) {
                    Some((server, tag)) => to.recalls.extend(session.note(seq, slot, server, tag)),
                    None => session.nack(seq, slot),
                }
            }
        });
        self.recall(batch, to, &mut made);
        self.count(made, seat);
        to.wakes.push(number);
        stays
    }

    /// Takes what a server sent. False if its session is to end.
    pub fn take_server(
        &self,
        number: usize,
        batch: &Batch,
        seat: &mut Seat,
        to: &mut Lists,
    ) -> bool {
        to.clear();
        let mut made = 0;
        let server = &self.servers[number];
        let stays = under(&server.session, &mut made, |session| {
            let stays = batch.all().all(|came| match session.frame(came, seat) {
                Ok(reply) => {
                    to.replies.extend(reply);
                    true
                }
                Err(()) => false,
            });
            server.show(session);
            stays
        });
        self.settle(batch, to, &mut made);
        self.count(made, seat);
        to.wakes.push(number);
        stays
    }

    /// The server with the least load, which counts this choice at once.
    fn choose(&self, servers: &[usize]) -> Option<usize> {
        let load = |at: &usize| self.servers[*at].load.load(Ordering::Relaxed);
        let loads = servers.iter().map(|at| (*at, load(at)));
        let (at, least) = loads.min_by_key(|it| it.1).filter(|it| it.1 != NONE)?;
        self.servers[at].load.store(least + 1, Ordering::Relaxed);
        Some(at)
    }

    /// Chooses a server for each dispatch. The route of a destination is looked up once for those that follow
    /// each other.
    fn plan(&self, tickets: &mut [Ticket], batch: &Batch) {
        let mut last: &[u8] = &[];
        let mut servers: &[usize] = &[];
        for ticket in tickets {
            let dst = &batch.body(ticket.at)[ticket.dst.clone()];
            if dst != last || servers.is_empty() {
                servers = self.routes.get(dst).map_or(&[], |servers| servers);
                last = dst;
            }
            ticket.server = self.choose(servers);
        }
    }

    /// Offers each dispatch to its server, all of one server under one lock.
    fn offer(&self, client: usize, batch: &Batch, to: &mut Lists, made: &mut u64) {
        for first in 0..to.tickets.len() {
            let Some(at) = to.tickets[first]
                .server
                .filter(|_| !to.tickets[first].is_done)
            else {
                continue;
            };
            to.wakes.push(at);
            let server = &self.servers[at];
            under(&server.session, made, |session| {
                for ticket in to.tickets[first..]
                    .iter_mut()
                    .filter(|it| it.server == Some(at))
                {
                    let Ticket { at, seq, slot, .. } = *ticket;
                    ticket.is_done = true;
                    ticket.tag = session.offer(
                        Name::new(client as u64, seq),
                        slot,
                        batch.body(at),
                        batch.now,
                    );
                }
                server.show(session);
            });
        }
    }

    /// Hands each reply to its client, all of one client under one lock.
    fn settle(&self, batch: &Batch, to: &mut Lists, made: &mut u64) {
        for first in 0..to.replies.len() {
            let number = to.replies[first].name.client;
            let Some(client) = self
                .client(number as usize)
                .filter(|_| !to.replies[first].is_done)
            else {
                continue;
            };
            to.wakes.push(number as usize);
            under(client, made, |session| {
                for reply in to.replies[first..]
                    .iter_mut()
                    .filter(|it| it.name.client == number)
                {
                    reply.is_done = true;
                    let Came { kind, body, .. } = batch.came(reply.at);
                    session.settle(reply.name, reply.slot, Kind::Passed, kind, body);
                }
            });
        }
    }

    fn recall(&self, batch: &Batch, to: &mut Lists, made: &mut u64) {
        for recall in to.recalls.drain(..) {
            let why = recall
                .why
                .map_or(&b"discarded"[..], |at| &batch.body(at)[3..]);
            under(&self.servers[recall.server].session, made, |session| {
                session.recall(recall.tag, recall.name, why, batch.now);
            });
            to.wakes.push(recall.server);
        }
    }

    fn count(&self, made: u64, seat: &mut Seat) {
        *lock(&self.count) += made;
        seat.share += made;
    }

    /// A server is gone: whoever waits for it gets an Rerr.
    pub fn lose_server(&self, number: usize, now: u64, seat: &mut Seat, to: &mut Lists) {
        to.clear();
        let mut made = 0;
        let server = &self.servers[number];
        let held = under(&server.session, &mut made, |session| {
            let held = session.lose(now);
            server.show(session);
            held
        });
        for (name, slot) in held {
            let Some(client) = self.client(name.client as usize) else {
                continue;
            };
            under(client, &mut made, |session| {
                session.settle(name, slot, Kind::Failed, ERROR, b"upstream lost");
            });
            to.wakes.push(name.client as usize);
        }
        self.count(made, seat);
    }

    /// A client is gone: what it waits for is recalled.
    pub fn lose_client(&self, number: usize, now: u64, seat: &mut Seat, to: &mut Lists) {
        let Some(client) = self.client(number) else {
            return;
        };
        to.clear();
        let mut made = 0;
        to.recalls = under(client, &mut made, |session| session.lose(now));
        let batch = Batch {
            frames: &[],
            bytes: &[],
            now,
        };
        self.recall(&batch, to, &mut made);
        self.count(made, seat);
    }

    /// Holds all that was written down against each other.
    pub fn judge(&self, seats: &[Seat]) -> Judged {
        let mut judged = Judged::default();
        let (of_servers, of_clients) = seats.split_at(self.servers.len());
        for (server, seat) in self.servers.iter().zip(of_servers) {
            judged.take(&*lock(&server.session), seat);
        }
        for (client, seat) in self.clients.iter().zip(of_clients) {
            judged.take(&*lock(client), seat);
        }
        let shares: u64 = seats.iter().map(|seat| seat.share).sum();
        let count = *lock(&self.count);
        judged.wrong += u64::from(count != judged.records) + u64::from(count != shares);
        judged
    }
}
