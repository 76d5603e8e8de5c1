//! Sends dispatches to a Mux router or server, and checks each reply by its tag and its whole body.
//!
//!     mux_load ADDRESS [KEY=VALUE ..]
//!
//! | Key | Value | Default |
//! |---|---|---|
//! | `connections` | at once | 8 |
//! | `inflight` | dispatches that are unanswered at most, for each connection | 64 |
//! | `body` | bytes of a dispatch's body, from 12 on | 100 |
//! | `dispatches` | of all connections | 100,000 |
//! | `seconds` | after which it stops | 60 |
//! | `dst` | destinations with commas between them; a connection's dispatches take them in turn | `/s/a` |
//! | `tags` | `equal`: 1, 2, .. in each connection; `apart`: none in two of them; `spread`: over all tags | `equal` |
//! | `resend` | `yes`: a dispatch that is nacked is sent again, a millisecond later | `no` |
//! | `again` | `yes`: in place of a connection that is drained or closed another one goes on at once, and no dispatch is sent after `seconds` | `no` |
//! | `patience_ms` | a dispatch that waits for longer, up to twice as long, is discarded; 0: never | 0 |
//! | `rest_ms` | with `again`: time for replies after `seconds` | 10,000 |
//! | `linger_ms` | time in which replies may still come after the last | 20 |
//!
//! Prints one line of JSON. Times are in microseconds, from a dispatch's first sending to its answer.
//! `wrong` replies have another body than their dispatch, or another type or status; `doubled` ones have no
//! dispatch that waits for them; a `lost` dispatch was sent and not answered; an `unsent` one wasn't sent. One was
//! `discarded` if the answer was that it is.
//! Exit status: 0 if each dispatch was answered as it should be, else 1; 2 for wrong arguments. With `again` those are
//! enough that were sent.

mod arguments;
mod epoll;
mod histogram;
mod mux_link;

use arguments::Arguments;
use epoll::{Event, Poller, WRITE};
use histogram::Histogram;
use mux_link::{
    DISCARDED, DISPATCH, DRAIN, ERROR, Frame, Link, NACK, OK, OLD_ERROR, PING, head, put_tag,
    reply_payload,
};
use std::net::TcpStream;
use std::time::{Duration, Instant};
use std::{env, io, mem, process};

const GREATEST_TAG: u32 = 0x7f_ffff;

/// Between two looks at all dispatches.
const PAUSE: Duration = Duration::from_millis(100);

/// Connection and sequence number, with which each body begins.
const LABEL: usize = 12;

/// How many bodies differ behind their labels.
const PATTERNS: u64 = 4093;

/// Bytes in no order. A body has a piece of them that begins where its numbers say.
struct Pattern {
    bytes: Vec<u8>,
    size: usize,
}

impl Pattern {
    fn new(size: usize) -> Pattern {
        let mut seed = 1u64;
        let bytes = (0..PATTERNS as usize + size).map(|_| {
            seed = seed.wrapping_mul(6_364_136_223_846_793_005).wrapping_add(1);
            (seed >> 56) as u8
        });
        Pattern {
            bytes: bytes.collect(),
            size,
        }
    }

    fn parts(&self, connection: u32, seq: u64) -> ([u8; LABEL], &[u8]) {
        let mut label = [0; LABEL];
        label[..4].copy_from_slice(&connection.to_be_bytes());
        label[4..].copy_from_slice(&seq.to_be_bytes());
        let start = (seq.wrapping_mul(31) + u64::from(connection) * 17) % PATTERNS;
        let rest = &self.bytes[start as usize..start as usize + self.size - LABEL];
        (label, rest)
    }

    fn is_of(&self, body: &[u8], connection: u32, seq: u64) -> bool {
        let (label, rest) = self.parts(connection, seq);
        body.len() == self.size && body[..LABEL] == label && body[LABEL..] == *rest
    }
}

#[derive(Default)]
struct Counts {
    ok: u64,
    wrong: u64,
    nacked: u64,
    errors: u64,
    doubled: u64,
    lost: u64,
    unsent: u64,
    closed: u64,
    drained: u64,
    discarded: u64,
}

/// Which tags a connection has.
#[derive(Clone, Copy)]
enum Choice {
    Equal,
    Apart,
    Spread,
}

impl Choice {
    fn of(word: &str) -> Result<Choice, String> {
        match word {
            "equal" => Ok(Choice::Equal),
            "apart" => Ok(Choice::Apart),
            "spread" => Ok(Choice::Spread),
            other => Err(format!("bad value: tags={other}")),
        }
    }
}

/// What all connections share.
struct Plan {
    inflight: usize,
    tags: Choice,
    pattern: Pattern,
    /// For each destination what stands before the body: no contexts, the destination, no dtab.
    prefixes: Vec<Vec<u8>>,
    resends: bool,
    /// Connects anew, to this address.
    again: Option<String>,
    patience: Duration,
}

impl Plan {
    fn tags(&self, number: usize) -> Tags {
        let inflight = self.inflight as u32;
        let (first, step) = match self.tags {
            Choice::Equal => (1, 1),
            Choice::Apart => (1 + number as u32 * inflight, 1),
            Choice::Spread => (1, GREATEST_TAG / inflight),
        };
        Tags { first, step }
    }
}

struct Run {
    plan: Plan,
    counts: Counts,
    times: Histogram,
    last_reply: Instant,
}

/// A dispatch that waits for its reply.
#[derive(Clone, Copy)]
struct Open {
    seq: u64,
    sent: Instant,
    is_discarded: bool,
}

/// The tags of a connection: those of its slots, from the first on.
struct Tags {
    first: u32,
    step: u32,
}

impl Tags {
    fn of(&self, slot: usize) -> u32 {
        self.first + slot as u32 * self.step
    }

    fn slot(&self, tag: u32) -> Option<usize> {
        let above = tag.checked_sub(self.first)?;
        (above.is_multiple_of(self.step)).then_some((above / self.step) as usize)
    }
}

struct Connection {
    number: u32,
    link: Option<Link>,
    tags: Tags,
    slots: Vec<Option<Open>>,
    free: Vec<usize>,
    nacked: Vec<usize>,
    /// Dispatches that had a wrong reply.
    mistaken: Vec<u64>,
    left: u64,
    last_seq: u64,
    is_draining: bool,
    /// Another one sends what it had left.
    has_heir: bool,
}

impl Connection {
    fn new(number: usize, tags: Tags, inflight: usize) -> Connection {
        Connection {
            number: number as u32,
            link: None,
            tags,
            slots: vec![None; inflight],
            free: (0..inflight).rev().collect(),
            nacked: vec![],
            mistaken: vec![],
            left: 0,
            last_seq: 0,
            is_draining: false,
            has_heir: false,
        }
    }

    fn is_done(&self) -> bool {
        self.link.is_none() || (self.left == 0 && self.waiting() == 0)
    }

    fn waiting(&self) -> usize {
        self.slots.len() - self.free.len()
    }

    fn put(&mut self, slot: usize, seq: u64, plan: &Plan) {
        let Some(link) = &mut self.link else { return };
        let prefix = &plan.prefixes[seq as usize % plan.prefixes.len()];
        let (label, rest) = plan.pattern.parts(self.number, seq);
        let head = head(
            DISPATCH,
            self.tags.of(slot),
            prefix.len() + plan.pattern.size,
        );
        for piece in [&head[..], prefix, &label] {
            link.send(piece);
        }
        link.send(rest);
    }

    /// Sends dispatches while there are slots for them.
    fn refill(&mut self, now: Instant, plan: &Plan) {
        while self.left > 0
            && !self.is_draining
            && let Some(slot) = self.free.pop()
        {
            self.left -= 1;
            self.last_seq += 1;
            self.slots[slot] = Some(Open {
                seq: self.last_seq,
                sent: now,
                is_discarded: false,
            });
            self.put(slot, self.last_seq, plan);
        }
    }

    fn send_again(&mut self, plan: &Plan) {
        if self.is_draining {
            return;
        }
        for slot in mem::take(&mut self.nacked) {
            if let Some(open) = self.slots[slot] {
                self.put(slot, open.seq, plan);
            }
        }
    }

    /// True if it has ended, and nothing of it is left.
    fn is_idle(&self) -> bool {
        self.link.is_none() && self.left == 0 && self.waiting() == 0
    }

    /// True if it goes on.
    fn is_open(&self) -> bool {
        self.link.is_some() && !self.is_draining
    }

    /// What another connection has to send in its place.
    fn hand_over(&mut self) -> u64 {
        let nacked = mem::take(&mut self.nacked);
        for slot in &nacked {
            self.slots[*slot] = None;
        }
        let left = mem::take(&mut self.left) + nacked.len() as u64;
        self.free.extend(nacked);
        left
    }

    /// Sends so many dispatches more, over this stream if it isn't open.
    fn go_on(
        &mut self,
        left: u64,
        stream: Option<TcpStream>,
        poller: &Poller,
        run: &Run,
    ) -> io::Result<()> {
        if let Some(stream) = stream {
            self.link = Some(Link::new(stream, self.number as usize, poller)?.always_read());
            self.is_draining = false;
            self.has_heir = false;
        }
        self.left += left;
        self.refill(Instant::now(), &run.plan);
        self.flush(poller);
        Ok(())
    }

    /// What a connection that was closed has open is lost, but for what is to be sent again.
    fn lose(&mut self, counts: &mut Counts) {
        for slot in 0..self.slots.len() {
            if self.slots[slot].is_some() && !self.nacked.contains(&slot) {
                self.slots[slot] = None;
                self.free.push(slot);
                counts.lost += 1;
            }
        }
    }

    /// Discards what has waited for too long.
    fn discard_late(&mut self, now: Instant, patience: Duration) {
        let Some(link) = &mut self.link else { return };
        for (slot, open) in self.slots.iter_mut().enumerate() {
            if let Some(open) = open
                && !open.is_discarded
                && now.duration_since(open.sent) > patience
                && !self.nacked.contains(&slot)
            {
                open.is_discarded = true;
                let mut tag = [0; 8];
                put_tag(&mut tag, self.tags.of(slot));
                link.send(&head(DISCARDED, 0, 3));
                link.send(&tag[5..]);
            }
        }
    }

    /// True if the body is that of a dispatch of this connection that was answered.
    fn was_answered(&self, body: &[u8], pattern: &Pattern) -> bool {
        let Some(label) = body.get(4..).and_then(|rest| rest.first_chunk::<8>()) else {
            return false;
        };
        let seq = u64::from_be_bytes(*label);
        let waits = |open: &Option<Open>| open.is_some_and(|open| open.seq == seq);
        (1..=self.last_seq).contains(&seq)
            && pattern.is_of(body, self.number, seq)
            && !self.mistaken.contains(&seq)
            && !self.slots.iter().any(waits)
    }

    fn reply(&mut self, frame: &Frame, body: &[u8], now: Instant, run: &mut Run) {
        let found = self.tags.slot(frame.tag);
        let open = found.and_then(|slot| Some((slot, (*self.slots.get(slot)?)?)));
        let Some((slot, open)) = open else {
            run.counts.doubled += 1;
            return;
        };
        let payload = reply_payload(body).filter(|_| frame.kind == -DISPATCH);
        match (frame.kind, payload) {
            (ERROR | OLD_ERROR, _) => run.counts.errors += 1,
            (kind, _) if kind == -DISCARDED => run.counts.discarded += 1,
            (_, Some((NACK, _))) => {
                run.counts.nacked += 1;
                if run.plan.resends {
                    return self.nacked.push(slot);
                }
            }
            (_, Some((OK, body))) if run.plan.pattern.is_of(body, self.number, open.seq) => {
                run.counts.ok += 1;
                run.times.add(now.duration_since(open.sent));
            }
            (_, Some((OK, body))) if self.was_answered(body, &run.plan.pattern) => {
                run.counts.doubled += 1;
                return;
            }
            _ => {
                run.counts.wrong += 1;
                self.mistaken.push(open.seq);
            }
        }
        run.last_reply = now;
        self.slots[slot] = None;
        self.free.push(slot);
    }

    /// Reads once and looks at what came. False if the connection has ended.
    fn read(&mut self, run: &mut Run) -> bool {
        let Some(link) = &mut self.link else {
            return true;
        };
        let is_open = link.fill();
        let now = Instant::now();
        let mut input = mem::take(&mut link.input);
        let is_good = loop {
            let frame = match input.next() {
                Ok(Some(frame)) => frame,
                Ok(None) => break is_open,
                Err(_) => break false,
            };
            if frame.kind <= 0 || frame.kind == OLD_ERROR {
                self.reply(&frame, &input.bytes[frame.body()], now, run);
                continue;
            }
            if frame.kind == DRAIN && !mem::replace(&mut self.is_draining, true) {
                run.counts.drained += 1;
            }
            if let (PING | DRAIN, Some(link)) = (frame.kind, &mut self.link) {
                link.send(&head(-frame.kind, frame.tag, 0));
            }
        };
        if let Some(link) = &mut self.link {
            link.input = input;
        }
        self.refill(now, &run.plan);
        is_good
    }

    fn flush(&mut self, poller: &Poller) -> bool {
        self.link.as_mut().is_none_or(|link| link.flush(poller))
    }

    /// What is left at the end is lost, or was never sent.
    fn count_missing(&self, counts: &mut Counts) {
        counts.lost += (self.waiting() - self.nacked.len()) as u64;
        counts.unsent += self.nacked.len() as u64;
        counts.unsent += self.left;
    }
}

struct Settings {
    address: String,
    connections: usize,
    dispatches: u64,
    seconds: f64,
    rest: Duration,
    linger: Duration,
    plan: Plan,
}

fn prefix(dst: &str) -> Vec<u8> {
    let len = (dst.len() as u16).to_be_bytes();
    [&[0, 0][..], &len, dst.as_bytes(), &[0, 0]].concat()
}

fn read_settings() -> Result<Settings, String> {
    let mut arguments = Arguments::new(env::args().skip(1));
    let dst: String = arguments.take("dst", "/s/a".to_string())?;
    let size = arguments.take("body", 100)?;
    let tags: String = arguments.take("tags", "equal".to_string())?;
    let plan = Plan {
        inflight: arguments.take("inflight", 64)?,
        tags: Choice::of(&tags)?,
        pattern: Pattern::new(size),
        prefixes: dst.split(',').map(prefix).collect(),
        resends: arguments.take("resend", "no".to_string())? == "yes",
        again: (arguments.take("again", "no".to_string())? == "yes")
            .then(|| arguments.words().first().cloned().unwrap_or_default()),
        patience: Duration::from_millis(arguments.take("patience_ms", 0)?),
    };
    let settings = Settings {
        address: arguments.words().first().cloned().unwrap_or_default(),
        connections: arguments.take("connections", 8)?,
        dispatches: arguments.take("dispatches", 100_000)?,
        seconds: arguments.take("seconds", 60.0)?,
        rest: Duration::from_millis(arguments.take("rest_ms", 10_000)?),
        linger: Duration::from_millis(arguments.take("linger_ms", 20)?),
        plan,
    };
    if arguments.words().len() != 1 {
        return Err("usage: mux_load ADDRESS [KEY=VALUE ..]".to_string());
    }
    if size < LABEL || settings.plan.inflight == 0 || settings.connections == 0 {
        return Err("too small: body, inflight or connections".to_string());
    }
    if settings.plan.inflight * settings.connections > GREATEST_TAG as usize {
        return Err("too many in flight".to_string());
    }
    arguments.end()?;
    Ok(settings)
}

fn connect(settings: &Settings, poller: &Poller) -> Result<Vec<Connection>, String> {
    let (all, inflight) = (settings.connections as u64, settings.plan.inflight);
    let connection = |number: usize| {
        let link = TcpStream::connect(&settings.address)
            .and_then(|stream| Link::new(stream, number, poller))
            .map_err(|error| format!("{}: {error}", settings.address))?;
        let is_longer = (number as u64) < settings.dispatches % all;
        let mut connection = Connection::new(number, settings.plan.tags(number), inflight);
        connection.link = Some(link.always_read());
        connection.left = settings.dispatches / all + u64::from(is_longer);
        Ok(connection)
    };
    (0..settings.connections).map(connection).collect()
}

/// Has another connection go on in the place of one that was closed or asked to drain. What the latter has open is
/// answered over it.
fn replace(
    connections: &mut Vec<Connection>,
    place: usize,
    poller: &Poller,
    run: &mut Run,
) -> io::Result<()> {
    let old = &mut connections[place];
    let Some(address) = run.plan.again.clone().filter(|_| !old.is_open()) else {
        return Ok(());
    };
    if old.link.is_none() {
        old.lose(&mut run.counts);
    }
    let left = old.hand_over();
    if old.waiting() == 0 {
        old.link = None;
    }
    let has_heir = mem::replace(&mut old.has_heir, true);
    if left == 0 {
        return Ok(());
    }
    if has_heir && let Some(heir) = connections.iter_mut().find(|it| it.is_open()) {
        return heir.go_on(left, None, poller, run);
    }
    let next = connections
        .iter()
        .position(Connection::is_idle)
        .unwrap_or(connections.len());
    if next == connections.len() {
        connections.push(Connection::new(
            next,
            run.plan.tags(next),
            run.plan.inflight,
        ));
    }
    let stream = TcpStream::connect(address)?;
    connections[next].go_on(left, Some(stream), poller, run)
}

/// Handles what is ready, or what became so within the time.
fn turn(
    connections: &mut Vec<Connection>,
    poller: &Poller,
    run: &mut Run,
    timeout: Duration,
) -> io::Result<()> {
    let mut events = [Event::default(); 256];
    let waits_ms = timeout.as_micros().div_ceil(1000) as i32;
    for &Event { ready, key } in poller.wait(&mut events, waits_ms)? {
        let connection = &mut connections[key as usize];
        if ready & WRITE != 0
            && let Some(link) = &mut connection.link
        {
            link.set_writable();
        }
        let is_open = ready & !WRITE == 0 || connection.read(run);
        if !is_open || !connection.flush(poller) {
            connection.link = None;
            run.counts.closed += 1;
        }
        replace(connections, key as usize, poller, run)?;
    }
    Ok(())
}

/// Discards what is late, and ends the sending at the end of the time.
fn look(connections: &mut [Connection], poller: &Poller, plan: &Plan, is_late: bool) {
    for connection in connections {
        if is_late {
            connection.left = 0;
        }
        if plan.patience > Duration::ZERO {
            connection.discard_late(Instant::now(), plan.patience);
            connection.flush(poller);
        }
    }
}

fn run(settings: Settings) -> Result<(Run, f64), String> {
    let poller = Poller::new().map_err(|error| error.to_string())?;
    let mut connections = connect(&settings, &poller)?;
    let begun = Instant::now();
    let deadline = begun + Duration::from_secs_f64(settings.seconds);
    let mut run = Run {
        plan: settings.plan,
        counts: Counts::default(),
        times: Histogram::new(),
        last_reply: begun,
    };
    for connection in &mut connections {
        connection.refill(Instant::now(), &run.plan);
        connection.flush(&poller);
    }
    let mut sent_again = begun;
    let mut looked = begun;
    let last = deadline + run.plan.again.as_ref().map_or(Duration::ZERO, |_| settings.rest);
    while Instant::now() < last && !connections.iter().all(Connection::is_done) {
        let has_nacked = connections.iter().any(|it| !it.nacked.is_empty());
        let timeout = Duration::from_millis(if has_nacked { 1 } else { 100 });
        turn(&mut connections, &poller, &mut run, timeout).map_err(|error| error.to_string())?;
        if has_nacked && sent_again.elapsed() >= Duration::from_millis(1) {
            sent_again = Instant::now();
            for connection in &mut connections {
                connection.send_again(&run.plan);
                connection.flush(&poller);
            }
        }
        if looked.elapsed() >= run.plan.patience.max(PAUSE) {
            looked = Instant::now();
            look(&mut connections, &poller, &run.plan, looked >= deadline);
        }
    }
    let end = Instant::now() + settings.linger;
    while let Some(left) = end.checked_duration_since(Instant::now()) {
        turn(&mut connections, &poller, &mut run, left).map_err(|error| error.to_string())?;
    }
    for connection in &connections {
        connection.count_missing(&mut run.counts);
    }
    let seconds = run.last_reply.duration_since(begun).as_secs_f64();
    Ok((run, seconds))
}

fn print(run: &Run, seconds: f64) {
    let Counts {
        ok,
        wrong,
        nacked,
        errors,
        doubled,
        lost,
        unsent,
        closed,
        drained,
        discarded,
    } = run.counts;
    let rate = ok as f64 / seconds.max(1e-9);
    let [p50, p99, p999, greatest] = [0.5, 0.99, 0.999, 1.0].map(|part| run.times.part(part));
    println!(
        "{{\"messages\": {ok}, \"seconds\": {seconds:.6}, \"rate\": {rate:.0}, \
         \"p50\": {p50:.1}, \"p99\": {p99:.1}, \"p999\": {p999:.1}, \"greatest\": {greatest:.1}, \
         \"ok\": {ok}, \"wrong\": {wrong}, \"nacked\": {nacked}, \"errors\": {errors}, \
         \"doubled\": {doubled}, \"lost\": {lost}, \"unsent\": {unsent}, \"closed\": {closed}, \
         \"drained\": {drained}, \"discarded\": {discarded}}}"
    );
}

fn main() {
    let settings = read_settings().unwrap_or_else(|error| {
        eprintln!("mux_load: {error}");
        process::exit(2);
    });
    let dispatches = settings.dispatches;
    match run(settings) {
        Ok((run, seconds)) => {
            print(&run, seconds);
            let Counts {
                ok,
                wrong,
                doubled,
                lost,
                ..
            } = run.counts;
            let is_whole = if run.plan.again.is_some() {
                wrong + lost == 0
            } else {
                ok == dispatches
            };
            let is_good = is_whole && doubled == 0;
            process::exit(i32::from(!is_good));
        }
        Err(error) => {
            eprintln!("mux_load: {error}");
            process::exit(1);
        }
    }
}
