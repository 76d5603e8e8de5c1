//! The yardstick with the router's duties: plain Rust, one thread, on the sockets of the plain router.
//!
//!     duties_router LISTEN SERVER.. [seconds=600] [judge=no]
//!
//! Prints `listening ADDRESS` once all servers are connected, and ends after so many seconds. With `judge=yes`
//! it prints a line whenever the last client has gone: how many records and receipts there are, and how many
//! of them are wrong.
//!
//! What it does with each dispatch and its reply, as the router does:
//!
//! | Duty | Here |
//! |---|---|
//! | parse | contexts, destination and dtab of a Tdispatch, status and contexts of an Rdispatch; what isn't whole, a fragment, tag 0 and a tag in use end the session |
//! | bounds | a session holds 4,096 dispatches and queues 16,384 frames. Places are kept for the answer of each dispatch, at a server's session for its Tdiscarded, and for all records that are still to come |
//! | names | boot, client and number: an answer is passed on for the dispatch of its name alone |
//! | tags | free ones towards a server; a client's own in a table, large ones in a map |
//! | choice | the route of the destination, looked up once for dispatches to the same; then the server with the least load, which is shown beside its lock |
//! | leases, drains | asked before each offer |
//! | locks | one for each session, one for the count. A batch of up to 64 frames takes that of its own session once or twice, each other's and the count's once |
//! | records | five of 40 bytes: taken, offered, noted, settled, passed. Each is counted by its kind; 65,536 make an epoch |
//! | receipts | two of 56 bytes: for each frame the record that its step left, and its place |
//! | counts | how many records all calls made, and those of each seat |
//!
//! A Tdiscarded is answered, and its dispatch recalled from the server; so are those of a client that is lost. Whoever
//! waits for a server that is lost gets an Rerr. What no server takes, and what finds no room, is nacked; a client that
//! lets 16,384 answers wait is closed. All that was written down stays until the end.
//!
//! The router does more: it sends again what was nacked, puts off a frame that finds no room, throws histories away while it runs, audits
//! histories, changes routes, and shows figures. Its frames share their bodies, which here are copied once.

mod arguments;
mod duties_hub;
mod duties_records;
mod duties_sessions;
mod epoll;
mod mux_link;

use arguments::Arguments;
use duties_hub::{BATCH, Batch, Hub, Lists, lock};
use duties_records::{Judged, Seat};
use duties_sessions::{ClientSession, Out};
use epoll::{Event, Poller, READ, WRITE};
use mux_link::{Frame, Input, Link};
use std::net::{TcpListener, TcpStream};
use std::sync::Mutex;
use std::time::Instant;
use std::{env, io, mem, process};

const LISTENER: u64 = u64::MAX;

struct Router {
    poller: Poller,
    links: Vec<Option<Link>>,
    seats: Vec<Seat>,
    hub: Hub,
    listed: Vec<usize>,
    frames: Vec<Frame>,
    lists: Lists,
    begun: Instant,
    clients: usize,
    judges: bool,
}

impl Router {
    fn connect(servers: &[String], judges: bool) -> io::Result<Router> {
        let poller = Poller::new()?;
        let mut links = vec![];
        for (number, server) in servers.iter().enumerate() {
            let link = Link::new(TcpStream::connect(server)?, number, &poller)?;
            links.push(Some(link.always_read()));
        }
        Ok(Router {
            poller,
            links,
            seats: servers.iter().map(|_| Seat::new()).collect(),
            hub: Hub::new(servers.len()),
            listed: vec![],
            frames: Vec::with_capacity(BATCH),
            lists: Lists::default(),
            begun: Instant::now(),
            clients: 0,
            judges,
        })
    }

    fn now(&self) -> u64 {
        self.begun.elapsed().as_millis() as u64
    }

    /// Notes that it is to be flushed.
    fn list(&mut self, at: usize) {
        if let Some(link) = &mut self.links[at]
            && !mem::replace(&mut link.is_listed, true)
        {
            self.listed.push(at);
        }
    }

    /// Cuts the next frames. False if what follows can't be cut.
    fn cut(&mut self, input: &mut Input) -> bool {
        self.frames.clear();
        while self.frames.len() < BATCH {
            match input.next() {
                Ok(Some(frame)) => self.frames.push(frame),
                Ok(None) => break,
                Err(_) => return false,
            }
        }
        true
    }

    /// Takes what came, batch by batch. False if the connection is to be closed.
    fn take(&mut self, at: usize, input: &mut Input) -> bool {
        loop {
            let is_good = self.cut(input);
            if self.frames.is_empty() {
                return is_good;
            }
            let batch = Batch {
                frames: &self.frames,
                bytes: &input.bytes,
                now: self.now(),
            };
            let seat = &mut self.seats[at];
            let stays = if at < self.hub.servers.len() {
                self.hub.take_server(at, &batch, seat, &mut self.lists)
            } else {
                self.hub.take_client(at, &batch, seat, &mut self.lists)
            };
            self.list_wakes();
            if !is_good || !stays {
                return false;
            }
        }
    }

    fn list_wakes(&mut self) {
        let wakes = mem::take(&mut self.lists.wakes);
        for at in &wakes {
            self.list(*at);
        }
        self.lists.wakes = wakes;
    }

    fn read(&mut self, at: usize) {
        let Some(link) = &mut self.links[at] else {
            return;
        };
        if !link.fill() {
            return self.lose(at);
        }
        let mut input = mem::take(&mut link.input);
        let stays = self.take(at, &mut input);
        if let Some(link) = &mut self.links[at] {
            link.input = input;
        }
        if !stays {
            self.lose(at);
        }
    }

    fn lose(&mut self, at: usize) {
        if self.links[at].take().is_none() {
            return;
        }
        let now = self.now();
        let seat = &mut self.seats[at];
        if at < self.hub.servers.len() {
            self.hub.lose_server(at, now, seat, &mut self.lists);
        } else {
            self.hub.lose_client(at, now, seat, &mut self.lists);
            self.clients -= 1;
        }
        self.list_wakes();
        if self.judges && self.clients == 0 {
            let Judged {
                records,
                receipts,
                wrong,
            } = self.hub.judge(&self.seats);
            println!("records {records} receipts {receipts} wrong {wrong}");
        }
    }

    fn accept(&mut self, listener: &TcpListener) -> io::Result<()> {
        while let Ok((stream, _)) = listener.accept() {
            let number = self.links.len();
            self.links
                .push(Some(Link::new(stream, number, &self.poller)?));
            self.hub
                .clients
                .push(Mutex::new(ClientSession::new(number as u64)));
            self.seats.push(Seat::new());
            self.clients += 1;
        }
        Ok(())
    }

    /// Writes what waits, and what the session has queued. False if the connection has ended.
    fn flush_one(hub: &Hub, poller: &Poller, link: &mut Link, at: usize) -> bool {
        if link.waiting() > 0 && !link.flush(poller) {
            return false;
        }
        if link.waiting() > 0 {
            return true;
        }
        let mut hand = |out: &mut Out| link.take_all(out.take());
        if at < hub.servers.len() {
            hand(&mut lock(&hub.servers[at].session).out);
        } else if let Some(client) = hub.client(at) {
            hand(&mut lock(client).out);
        }
        link.flush(poller)
    }

    fn flush(&mut self) {
        while let Some(at) = self.listed.pop() {
            let Some(link) = &mut self.links[at] else {
                continue;
            };
            link.is_listed = false;
            if !Router::flush_one(&self.hub, &self.poller, link, at) {
                self.lose(at);
            }
        }
    }

    fn serve(mut self, listener: &TcpListener) -> io::Result<()> {
        listener.set_nonblocking(true)?;
        self.poller.add(listener, LISTENER, READ)?;
        let mut events = vec![Event::default(); 256];
        loop {
            for &Event { ready, key } in self.poller.wait(&mut events, -1)? {
                if key == LISTENER {
                    self.accept(listener)?;
                    continue;
                }
                let at = key as usize;
                if ready & WRITE != 0 {
                    if let Some(link) = &mut self.links[at] {
                        link.set_writable();
                    }
                    self.list(at);
                }
                if ready & !WRITE != 0 {
                    self.read(at);
                }
            }
            self.flush();
        }
    }
}

fn run() -> Result<(), String> {
    let mut arguments = Arguments::new(env::args().skip(1));
    epoll::end_after(arguments.take("seconds", 600)?);
    let judges = arguments.take("judge", "no".to_string())? == "yes";
    let words = arguments.words().to_vec();
    arguments.end()?;
    let Some((listen, servers)) = words.split_first() else {
        return Err("usage: duties_router LISTEN SERVER.. [seconds=600] [judge=no]".to_string());
    };
    let serve = || {
        let router = Router::connect(servers, judges)?;
        let listener = TcpListener::bind(listen)?;
        println!("listening {}", listener.local_addr()?);
        router.serve(&listener)
    };
    serve().map_err(|error: io::Error| error.to_string())
}

fn main() {
    if let Err(error) = run() {
        eprintln!("duties_router: {error}");
        process::exit(1);
    }
}
