//! Mux servers that answer each dispatch with its own body, on one thread.
//!
//!     mux_echo ADDRESS.. [KEY=VALUE ..]
//!
//! One server for each address. Prints `listening ADDRESS ..`, and ends after so many seconds.
//!
//! | Key | Value | Default |
//! |---|---|---|
//! | `seconds` | after which it ends | 600 |
//! | `delay_ms` | time before each answer | 0 |
//! | `slow` | each so many-th answer takes `slow_ms` | 0: none |
//! | `slow_ms` | time before each slow answer | 60,000 |
//! | `nack` | each so many-th dispatch is nacked | 0: none |
//! | `silent` | each so many-th is never answered | 0 |
//! | `spoil` | each so many-th answer has a wrong byte | 0 |
//! | `cross` | each so many-th answer goes out on the tag of the next, and the next on its tag | 0 |
//! | `twice` | each so many-th answer is sent twice | 0 |
//! | `fail` | each so many-th answer is an Rerr | 0 |
//! | `close` | the dispatch with this number closes its connection | 0 |
//! | `discarded` | `pass`: a Tdiscarded changes nothing; `answer`: its dispatch gets Rdiscarded | `pass` |
//!
//! Dispatches are counted from 1, those of all connections together.

mod arguments;
mod epoll;
mod mux_link;

use arguments::Arguments;
use epoll::{Event, Poller, READ, WRITE};
use mux_link::{
    DISCARDED, DISPATCH, DRAIN, ERROR, INIT, Input, Link, NACK, OK, OLD_DISCARDED, OLD_ERROR, PING,
    PROBE, dispatch_payload, head, put_tag, tag_of,
};
use std::collections::{HashSet, VecDeque};
use std::net::TcpListener;
use std::time::{Duration, Instant};
use std::{env, io, mem, process};

/// Added to a listener's number.
const LISTENERS: u64 = 1 << 32;

struct Faults {
    nack: u64,
    silent: u64,
    spoil: u64,
    cross: u64,
    twice: u64,
    fail: u64,
    close: u64,
    slow: u64,
}

/// Answers that wait for their time, all for equally long.
struct Waiting {
    delay: Duration,
    answers: VecDeque<(Instant, Answer)>,
}

impl Waiting {
    fn new(milliseconds: u64) -> Waiting {
        Waiting {
            delay: Duration::from_millis(milliseconds),
            answers: VecDeque::new(),
        }
    }

    fn push(&mut self, answer: Answer) {
        self.answers.push_back((Instant::now() + self.delay, answer));
    }

    /// Takes the first one if its time has come.
    fn due(&mut self, now: Instant) -> Option<Answer> {
        let (_, answer) = self.answers.pop_front_if(|(due, _)| *due <= now)?;
        Some(answer)
    }

    /// Whether the answer to this dispatch waited, and doesn't any more.
    fn forget(&mut self, link: usize, tag: u32) -> bool {
        let mut answers = self.answers.iter();
        let place = answers.position(|(_, answer)| (answer.link, answer.tag) == (link, tag));
        place.and_then(|place| self.answers.remove(place)).is_some()
    }
}

/// An answer, and the number of its dispatch.
struct Answer {
    number: u64,
    link: usize,
    tag: u32,
    bytes: Vec<u8>,
}

struct Echo {
    poller: Poller,
    links: Vec<Option<Link>>,
    listed: Vec<usize>,
    faults: Faults,
    answers_discards: bool,
    dispatches: u64,
    held: Waiting,
    slow: Waiting,
    /// Dispatches that get no answer.
    silent: HashSet<(usize, u32)>,
    crossed: Option<Answer>,
    /// The room of the last answer, to be used again.
    spare: Vec<u8>,
}

fn is_nth(count: u64, of: u64) -> bool {
    of != 0 && count.is_multiple_of(of)
}

impl Echo {
    fn list(&mut self, at: usize) {
        if let Some(link) = &mut self.links[at]
            && !mem::replace(&mut link.is_listed, true)
        {
            self.listed.push(at);
        }
    }

    fn send(&mut self, at: usize, bytes: &[u8]) {
        if let Some(link) = &mut self.links[at] {
            link.send(bytes);
        }
        self.list(at);
    }

    /// The bytes of the answer to the dispatch of this number.
    fn build(&mut self, number: u64, tag: u32, payload: &[u8]) -> Vec<u8> {
        let faults = &self.faults;
        let mut bytes = mem::take(&mut self.spare);
        bytes.clear();
        if is_nth(number, faults.nack) {
            bytes.extend_from_slice(&head(-DISPATCH, tag, 3));
            bytes.extend_from_slice(&[NACK, 0, 0]);
        } else if is_nth(number, faults.fail) {
            bytes.extend_from_slice(&head(ERROR, tag, 4));
            bytes.extend_from_slice(b"fail");
        } else {
            bytes.extend_from_slice(&head(-DISPATCH, tag, 3 + payload.len()));
            bytes.extend_from_slice(&[OK, 0, 0]);
            bytes.extend_from_slice(payload);
            if is_nth(number, faults.spoil)
                && let Some(last) = bytes.last_mut()
            {
                *last ^= 1;
            }
        }
        bytes
    }

    /// False if the connection is to be closed.
    fn dispatch(&mut self, link: usize, tag: u32, body: &[u8]) -> bool {
        self.dispatches += 1;
        let number = self.dispatches;
        let Some(payload) = dispatch_payload(body) else {
            return false;
        };
        if is_nth(number, self.faults.silent) {
            self.silent.insert((link, tag));
        } else {
            let answer = Answer {
                number,
                link,
                tag,
                bytes: self.build(number, tag, payload),
            };
            if is_nth(number, self.faults.slow) {
                self.slow.push(answer);
            } else if self.held.delay > Duration::ZERO {
                self.held.push(answer);
            } else {
                self.answer(answer);
            }
        }
        number != self.faults.close
    }

    fn answer(&mut self, mut answer: Answer) {
        if is_nth(answer.number, self.faults.cross) && self.crossed.is_none() {
            self.crossed = Some(answer);
            return;
        }
        if let Some(mut first) = self.crossed.take_if(|first| first.link == answer.link) {
            put_tag(&mut first.bytes, answer.tag);
            put_tag(&mut answer.bytes, first.tag);
            self.send(first.link, &first.bytes);
        }
        self.send(answer.link, &answer.bytes);
        if is_nth(answer.number, self.faults.twice) {
            self.send(answer.link, &answer.bytes);
        }
        self.spare = answer.bytes;
    }

    fn discard(&mut self, at: usize, tag: u32) {
        if !self.answers_discards {
            return;
        }
        if self.held.forget(at, tag) || self.slow.forget(at, tag) || self.silent.remove(&(at, tag)) {
            self.send(at, &head(-DISCARDED, tag, 0));
        }
    }

    /// Answers what came. False if the connection is to be closed.
    fn frames(&mut self, at: usize, input: &mut Input) -> bool {
        loop {
            let frame = match input.next() {
                Ok(Some(frame)) => frame,
                Ok(None) => return true,
                Err(_) => return false,
            };
            let body = &input.bytes[frame.body()];
            match frame.kind {
                DISPATCH => {
                    if !self.dispatch(at, frame.tag, body) {
                        return false;
                    }
                }
                PING | DRAIN => self.send(at, &head(-frame.kind, frame.tag, 0)),
                INIT => self.send(at, &[&head(-INIT, frame.tag, 2)[..], &[0, 1]].concat()),
                ERROR | OLD_ERROR if frame.tag == 1 && body == PROBE => {
                    self.send(at, &input.bytes[frame.place]);
                }
                DISCARDED | OLD_DISCARDED => {
                    if let Some(tag) = tag_of(body) {
                        self.discard(at, tag);
                    }
                }
                _ => {}
            }
        }
    }

    fn read(&mut self, at: usize) {
        let Some(link) = &mut self.links[at] else {
            return;
        };
        if !link.fill() {
            self.links[at] = None;
            return;
        }
        let mut input = mem::take(&mut link.input);
        let stays = self.frames(at, &mut input);
        if let Some(link) = &mut self.links[at] {
            link.input = input;
            if !stays {
                link.flush(&self.poller);
                self.links[at] = None;
            }
        }
    }

    fn accept(&mut self, listener: &TcpListener) -> io::Result<()> {
        while let Ok((stream, _)) = listener.accept() {
            let link = Link::new(stream, self.links.len(), &self.poller)?;
            self.links.push(Some(link));
        }
        Ok(())
    }

    /// Sends the answers whose time has come.
    fn send_due(&mut self) {
        if self.held.answers.is_empty() && self.slow.answers.is_empty() {
            return;
        }
        let now = Instant::now();
        while let Some(answer) = self.held.due(now).or_else(|| self.slow.due(now)) {
            self.answer(answer);
        }
    }

    fn timeout_ms(&self) -> i32 {
        let first = [&self.held, &self.slow].into_iter().filter_map(|it| it.answers.front());
        first.map(|(due, _)| due).min().map_or(-1, |due| {
            let left = due.saturating_duration_since(Instant::now());
            left.as_micros().div_ceil(1000) as i32
        })
    }

    fn flush(&mut self) {
        while let Some(at) = self.listed.pop() {
            if let Some(link) = &mut self.links[at] {
                link.is_listed = false;
                if !link.flush(&self.poller) {
                    self.links[at] = None;
                }
            }
        }
    }

    fn serve(mut self, listeners: &[TcpListener]) -> io::Result<()> {
        for (key, listener) in (LISTENERS..).zip(listeners) {
            listener.set_nonblocking(true)?;
            self.poller.add(listener, key, READ)?;
        }
        let mut events = vec![Event::default(); 256];
        loop {
            for &Event { ready, key } in self.poller.wait(&mut events, self.timeout_ms())? {
                if key >= LISTENERS {
                    self.accept(&listeners[(key - LISTENERS) as usize])?;
                    continue;
                }
                let at = key as usize;
                if ready & WRITE != 0
                    && let Some(link) = &mut self.links[at]
                {
                    link.set_writable();
                    self.list(at);
                }
                if ready & !WRITE != 0 {
                    self.read(at);
                }
            }
            self.send_due();
            self.flush();
        }
    }
}

fn read_echo(arguments: &mut Arguments) -> Result<Echo, String> {
    let mut nth = |key| arguments.take(key, 0);
    let faults = Faults {
        nack: nth("nack")?,
        silent: nth("silent")?,
        spoil: nth("spoil")?,
        cross: nth("cross")?,
        twice: nth("twice")?,
        fail: nth("fail")?,
        close: nth("close")?,
        slow: nth("slow")?,
    };
    let answers_discards = match arguments.take("discarded", "pass".to_string())?.as_str() {
        "pass" => false,
        "answer" => true,
        other => return Err(format!("bad value: discarded={other}")),
    };
    Ok(Echo {
        poller: Poller::new().map_err(|error| error.to_string())?,
        links: vec![],
        listed: vec![],
        faults,
        answers_discards,
        dispatches: 0,
        held: Waiting::new(arguments.take("delay_ms", 0)?),
        slow: Waiting::new(arguments.take("slow_ms", 60_000)?),
        silent: HashSet::new(),
        crossed: None,
        spare: vec![],
    })
}

fn listen(addresses: &[String]) -> io::Result<Vec<TcpListener>> {
    let listeners: Vec<TcpListener> = addresses
        .iter()
        .map(TcpListener::bind)
        .collect::<io::Result<_>>()?;
    let mut line = "listening".to_string();
    for listener in &listeners {
        line += &format!(" {}", listener.local_addr()?);
    }
    println!("{line}");
    Ok(listeners)
}

fn run() -> Result<(), String> {
    let mut arguments = Arguments::new(env::args().skip(1));
    epoll::end_after(arguments.take("seconds", 600)?);
    let echo = read_echo(&mut arguments)?;
    let addresses = arguments.words().to_vec();
    arguments.end()?;
    if addresses.is_empty() {
        return Err("usage: mux_echo ADDRESS.. [KEY=VALUE ..]".to_string());
    }
    let serve = || echo.serve(&listen(&addresses)?);
    serve().map_err(|error: io::Error| error.to_string())
}

fn main() {
    if let Err(error) = run() {
        eprintln!("mux_echo: {error}");
        process::exit(1);
    }
}
