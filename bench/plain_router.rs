//! The yardstick for the router: one thread, no records, no promises. What clients send goes over one
//! connection to each server, to the one with the least load, under tags of its own.
//!
//!     plain_router LISTEN SERVER.. [seconds=600]
//!
//! Prints `listening ADDRESS` once all servers are connected, and ends after so many seconds.

mod arguments;
mod epoll;
mod mux_link;

use arguments::Arguments;
use epoll::{Event, Poller, READ, WRITE};
use mux_link::{
    DISCARDED, DISPATCH, DRAIN, ERROR, INIT, Input, Link, NACK, OLD_DISCARDED, OLD_ERROR, PING,
    PROBE, head, put_tag, tag_of,
};
use std::net::{TcpListener, TcpStream};
use std::ops::Range;
use std::{env, io, mem, process};

const LISTENER: u64 = u64::MAX;

/// Who waits for a reply. A client's number is the place of its link.
#[derive(Clone, Copy, PartialEq)]
enum Waiting {
    Free,
    Gone,
    Client { number: u32, tag: u32 },
}

/// The tags towards a server, from 2.
#[derive(Default)]
struct Tags {
    entries: Vec<Waiting>,
    free: Vec<u32>,
    is_lost: bool,
}

impl Tags {
    fn load(&self) -> usize {
        self.entries.len() - self.free.len()
    }

    fn take(&mut self, number: u32, tag: u32) -> u32 {
        let entry = Waiting::Client { number, tag };
        if let Some(at) = self.free.pop() {
            self.entries[at as usize] = entry;
            return at + 2;
        }
        self.entries.push(entry);
        self.entries.len() as u32 + 1
    }

    /// Who waits for the reply with this tag. The tag comes free.
    fn give(&mut self, tag: u32) -> Waiting {
        let Some(entry) = tag
            .checked_sub(2)
            .and_then(|at| self.entries.get_mut(at as usize))
        else {
            return Waiting::Free;
        };
        let was = mem::replace(entry, Waiting::Free);
        if was != Waiting::Free {
            self.free.push(tag - 2);
        }
        was
    }

    /// The tag of a client's dispatch, which from now on nobody waits for.
    fn discard(&mut self, number: u32, tag: u32) -> Option<u32> {
        let wanted = Waiting::Client { number, tag };
        let at = self.entries.iter().position(|entry| *entry == wanted)?;
        self.entries[at] = Waiting::Gone;
        Some(at as u32 + 2)
    }
}

/// Frames that follow each other in an input and go to one link.
struct Run {
    to: usize,
    place: Range<usize>,
}

struct Router {
    poller: Poller,
    /// The servers' first, then one for each client that ever came.
    links: Vec<Option<Link>>,
    tags: Vec<Tags>,
    listed: Vec<usize>,
}

impl Router {
    fn connect(servers: &[String]) -> io::Result<Router> {
        let poller = Poller::new()?;
        let mut links = vec![];
        for (number, server) in servers.iter().enumerate() {
            let link = Link::new(TcpStream::connect(server)?, number, &poller)?;
            links.push(Some(link.always_read()));
        }
        let tags = servers.iter().map(|_| Tags::default()).collect();
        Ok(Router {
            poller,
            links,
            tags,
            listed: vec![],
        })
    }

    fn send(&mut self, to: usize, bytes: &[u8]) {
        let Some(link) = &mut self.links[to] else {
            return;
        };
        link.send(bytes);
        if !mem::replace(&mut link.is_listed, true) {
            self.listed.push(to);
        }
    }

    fn send_frame(&mut self, to: usize, kind: i8, tag: u32, body: &[u8]) {
        self.send(to, &[&head(kind, tag, body.len()), body].concat());
    }

    /// Puts the frame behind the run, or sends the run and begins another.
    fn pass(&mut self, run: &mut Run, to: usize, place: Range<usize>, bytes: &[u8]) {
        if run.to == to && run.place.end == place.start {
            run.place.end = place.end;
            return;
        }
        self.send_run(run, bytes);
        *run = Run { to, place };
    }

    fn send_run(&mut self, run: &mut Run, bytes: &[u8]) {
        if !run.place.is_empty() {
            self.send(run.to, &bytes[run.place.clone()]);
            run.place = 0..0;
        }
    }

    fn least_load(&self) -> Option<usize> {
        let up = self
            .tags
            .iter()
            .enumerate()
            .filter(|(_, tags)| !tags.is_lost);
        up.min_by_key(|(_, tags)| tags.load())
            .map(|(server, _)| server)
    }

    fn discard(&mut self, client: usize, body: &[u8]) {
        let Some(tag) = tag_of(body) else { return };
        for server in 0..self.tags.len() {
            if let Some(own) = self.tags[server].discard(client as u32, tag) {
                let body = [&head(0, own, 0)[5..], &body[3..]].concat();
                self.send_frame(server, DISCARDED, 0, &body);
                self.send_frame(client, -DISCARDED, tag, &[]);
                return;
            }
        }
    }

    /// Passes on what a client sent. False if it can't be cut.
    fn client_frames(&mut self, client: usize, input: &mut Input) -> bool {
        let mut run = Run { to: 0, place: 0..0 };
        let is_good = loop {
            let frame = match input.next() {
                Ok(Some(frame)) => frame,
                Ok(None) => break true,
                Err(_) => break false,
            };
            let body = &input.bytes[frame.body()];
            match frame.kind {
                DISPATCH => {
                    let Some(server) = self.least_load() else {
                        self.send_frame(client, -DISPATCH, frame.tag, &[NACK, 0, 0]);
                        continue;
                    };
                    let tag = self.tags[server].take(client as u32, frame.tag);
                    put_tag(&mut input.bytes[frame.place.clone()], tag);
                    self.pass(&mut run, server, frame.place, &input.bytes);
                }
                PING => self.send_frame(client, -PING, frame.tag, &[]),
                INIT => self.send_frame(client, -INIT, frame.tag, &[0, 1]),
                ERROR | OLD_ERROR if frame.tag == 1 && body == PROBE => {
                    self.send(client, &input.bytes[frame.place]);
                }
                DISCARDED | OLD_DISCARDED => {
                    self.send_run(&mut run, &input.bytes);
                    self.discard(client, body);
                }
                1.. if frame.tag != 0 => {
                    self.send_frame(client, ERROR, frame.tag, b"unsupported");
                }
                _ => {}
            }
        };
        self.send_run(&mut run, &input.bytes);
        is_good
    }

    /// Passes on what a server sent. False if it can't be cut.
    fn server_frames(&mut self, server: usize, input: &mut Input) -> bool {
        let mut run = Run { to: 0, place: 0..0 };
        let is_good = loop {
            let frame = match input.next() {
                Ok(Some(frame)) => frame,
                Ok(None) => break true,
                Err(_) => break false,
            };
            match frame.kind {
                -2 | -66 | ERROR | OLD_ERROR => {
                    if let Waiting::Client { number, tag } = self.tags[server].give(frame.tag) {
                        put_tag(&mut input.bytes[frame.place.clone()], tag);
                        self.pass(&mut run, number as usize, frame.place, &input.bytes);
                    }
                }
                PING | DRAIN => self.send_frame(server, -frame.kind, frame.tag, &[]),
                _ => {}
            }
        };
        self.send_run(&mut run, &input.bytes);
        is_good
    }

    fn read(&mut self, at: usize) {
        let Some(link) = &mut self.links[at] else {
            return;
        };
        if !link.fill() {
            return self.lose(at);
        }
        let mut input = mem::take(&mut link.input);
        let is_good = if at < self.tags.len() {
            self.server_frames(at, &mut input)
        } else {
            self.client_frames(at, &mut input)
        };
        if let Some(link) = &mut self.links[at] {
            link.input = input;
        }
        if !is_good {
            self.lose(at);
        }
    }

    /// Takes the link away. Whoever waits for a server that is gone gets an Rerr.
    fn lose(&mut self, at: usize) {
        self.links[at] = None;
        let Some(tags) = self.tags.get_mut(at) else {
            return;
        };
        tags.is_lost = true;
        for entry in mem::take(&mut tags.entries) {
            if let Waiting::Client { number, tag } = entry {
                self.send_frame(number as usize, ERROR, tag, b"upstream lost");
            }
        }
        self.tags[at].free.clear();
    }

    fn accept(&mut self, listener: &TcpListener) -> io::Result<()> {
        while let Ok((stream, _)) = listener.accept() {
            let link = Link::new(stream, self.links.len(), &self.poller)?;
            self.links.push(Some(link));
        }
        Ok(())
    }

    fn flush(&mut self) {
        while let Some(at) = self.listed.pop() {
            let Some(link) = &mut self.links[at] else {
                continue;
            };
            link.is_listed = false;
            if !link.flush(&self.poller) {
                self.lose(at);
            }
        }
    }

    fn serve(mut self, listener: &TcpListener) -> io::Result<()> {
        listener.set_nonblocking(true)?;
        self.poller.add(listener, LISTENER, READ)?;
        let mut events = vec![Event::default(); 256];
        loop {
            for &Event { ready, key } in self.poller.wait(&mut events, -1)? {
                if key == LISTENER {
                    self.accept(listener)?;
                    continue;
                }
                let at = key as usize;
                if ready & WRITE != 0
                    && let Some(link) = &mut self.links[at]
                {
                    link.set_writable();
                    if !mem::replace(&mut link.is_listed, true) {
                        self.listed.push(at);
                    }
                }
                if ready & !WRITE != 0 {
                    self.read(at);
                }
            }
            self.flush();
        }
    }
}

fn run() -> Result<(), String> {
    let mut arguments = Arguments::new(env::args().skip(1));
    epoll::end_after(arguments.take("seconds", 600)?);
    let words = arguments.words().to_vec();
    arguments.end()?;
    let Some((listen, servers)) = words.split_first() else {
        return Err("usage: plain_router LISTEN SERVER.. [seconds=600]".to_string());
    };
    let serve = || {
        let router = Router::connect(servers)?;
        let listener = TcpListener::bind(listen)?;
        println!("listening {}", listener.local_addr()?);
        router.serve(&listener)
    };
    serve().map_err(|error: io::Error| error.to_string())
}

fn main() {
    if let Err(error) = run() {
        eprintln!("plain_router: {error}");
        process::exit(1);
    }
}
