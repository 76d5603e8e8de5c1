//! Dispatches through a hub, no sockets: `hub_bench`, which is given as the argument, against the hub
//! of `plain_hub.rs`, which has the same shape. With the argument `plain` it is the plain one.
//!
//! Either reads a line `time THREADS BATCH DISPATCHES`, makes its sessions and prints `ready`. At the
//! next line each of its threads sends so many dispatches to all servers in turn, so many in a call; then
//! it prints how many frames were handed in and taken out, and the nanoseconds that it took. It ends at
//! one line more. With the word `apart` behind the numbers each thread sends to its own server alone.
//!
//! A dispatch with its reply counts as two messages: four frames in and out.

mod plain_hub;
mod plain_records;

use plain_hub::{Frame, Hub, OUT, Room, Seat, destination};
use std::borrow::Cow;
use std::collections::VecDeque;
use std::ffi::{c_int, c_long};
use std::io::{self, BufRead, BufReader, Write};
use std::process::{ChildStdin, ChildStdout, Command, Stdio};
use std::sync::atomic::{AtomicUsize, Ordering};
use std::time::Instant;
use std::{env, fmt, thread};

const ROUNDS: usize = 7;
const THREADS: [usize; 4] = [1, 2, 3, 4];
const BATCHES: [usize; 4] = [1, 4, 16, 64];

/// How many dispatches all threads of a round send together.
const DISPATCHES: usize = 480_000;

/// How many records a session keeps: what `hub_bench` is configured with.
const HISTORY: usize = 2_097_152;

/// How many dispatches of a client are unanswered at most.
const AHEAD: usize = 256;

const REPLY: &[u8] = b"\x00\x00\x00yo";

#[derive(Clone, Copy)]
struct Job {
    threads: usize,
    batch: usize,
    dispatches: usize,
    apart: bool,
}

/// The body of a dispatch to a server: no contexts, no dtab, and `hi`.
fn dispatch(server: usize) -> &'static [u8] {
    let dst = destination(server);
    let mut body = vec![0, 0, 0, dst.len() as u8];
    body.extend_from_slice(&dst);
    body.extend_from_slice(b"\x00\x00hi");
    body.leak()
}

fn reply(tag: u32) -> Frame {
    Frame {
        kind: -2,
        tag,
        body: Cow::Borrowed(REPLY),
    }
}

/// A client and a server of the plain hub.
struct Lane<'a> {
    hub: &'a Hub,
    own: usize,
    client: Seat,
    server: Seat,
    tags: Vec<u32>,
    room: Room,
    outs: VecDeque<Frame>,
    moved: usize,
}

impl<'a> Lane<'a> {
    fn new(hub: &'a Hub, own: usize) -> Lane<'a> {
        Lane {
            hub,
            own,
            client: Seat::with_room(HISTORY),
            server: Seat::with_room(HISTORY),
            tags: (1..=AHEAD as u32).collect(),
            room: Room::default(),
            outs: VecDeque::with_capacity(OUT),
            moved: 0,
        }
    }

    fn send(&mut self, body: &'static [u8], count: usize) {
        for tag in self.tags.drain(self.tags.len() - count..).rev() {
            let frame = Frame {
                kind: 2,
                tag,
                body: Cow::Borrowed(body),
            };
            if count == 1 {
                self.hub.client_frame(&mut self.client, self.own, frame, 0);
            } else {
                self.room.frames.push(frame);
            }
        }
        if count > 1 {
            self.hub
                .client_frames(&mut self.client, self.own, &mut self.room, 0);
        }
        self.moved += count;
    }

    fn answer(&mut self, batch: usize) {
        if batch == 1 {
            if let Some(frame) = self.hub.server_out(self.own) {
                let reply = reply(frame.tag);
                self.hub.server_frame(&mut self.server, self.own, reply, 0);
                self.moved += 2;
            }
            return;
        }
        self.hub.server_outs(self.own, &mut self.outs);
        self.moved += 2 * self.outs.len();
        while let Some(frame) = self.outs.pop_front() {
            self.room.frames.push(reply(frame.tag));
            if self.room.frames.len() == batch || self.outs.is_empty() {
                self.hub
                    .server_frames(&mut self.server, self.own, &mut self.room, 0);
            }
        }
    }

    fn take(&mut self, batch: usize) {
        if batch == 1 {
            self.outs.extend(self.hub.client_out(self.own));
        } else {
            self.hub.client_outs(self.own, &mut self.outs);
        }
        self.moved += self.outs.len();
        self.tags.extend(self.outs.drain(..).map(|frame| frame.tag));
    }

    /// Sends the client's dispatches, and answers what comes to the server, until all lanes have their
    /// answers.
    fn work(mut self, job: Job, done: &AtomicUsize) -> Lane<'a> {
        let bodies: Vec<&'static [u8]> = (0..job.threads).map(dispatch).collect();
        let (mut server, mut left, mut is_done) = (self.own, job.dispatches, false);
        while done.load(Ordering::SeqCst) < job.threads {
            let before = self.moved;
            if left > 0 && self.tags.len() >= job.batch {
                if !job.apart {
                    server = (server + 1) % job.threads;
                }
                left -= job.batch;
                self.send(bodies[server], job.batch);
            }
            self.answer(job.batch);
            self.take(job.batch);
            if !is_done && left == 0 && self.tags.len() == AHEAD {
                is_done = true;
                done.fetch_add(1, Ordering::SeqCst);
            }
            if self.moved == before {
                thread::yield_now();
            }
        }
        self
    }
}

impl fmt::Display for Job {
    fn fmt(&self, f: &mut fmt::Formatter) -> fmt::Result {
        let apart = if self.apart { " apart" } else { "" };
        let Job {
            threads,
            batch,
            dispatches,
            ..
        } = self;
        write!(f, "time {threads} {batch} {dispatches}{apart}")
    }
}

/// What the line `time THREADS BATCH DISPATCHES` asks for, with or without `apart`.
fn read_job(line: &str) -> Option<Job> {
    let mut words = line.strip_prefix("time ")?.split(' ');
    Some(Job {
        threads: words.next()?.parse().ok()?,
        batch: words.next()?.parse().ok()?,
        dispatches: words.next()?.parse().ok()?,
        apart: words.next() == Some("apart"),
    })
}

fn serve() -> io::Result<()> {
    let mut lines = io::stdin().lock().lines();
    let line = lines.next().expect("a line")?;
    let job = read_job(&line).expect("a job");
    let hub = Hub::open(job.threads, HISTORY);
    let lanes: Vec<Lane> = (0..job.threads).map(|own| Lane::new(&hub, own)).collect();
    let done = AtomicUsize::new(0);
    println!("ready");
    lines.next().expect("a line")?;
    let begun = Instant::now();
    let lanes: Vec<Lane> = thread::scope(|scope| {
        let done = &done;
        let threads: Vec<_> = lanes
            .into_iter()
            .map(|lane| scope.spawn(move || lane.work(job, done)))
            .collect();
        threads
            .into_iter()
            .map(|thread| thread.join().expect("a lane"))
            .collect()
    });
    let time = begun.elapsed().as_nanos();
    let moved: usize = lanes.iter().map(|lane| lane.moved).sum();
    println!("{moved} {time}");
    lines.next();
    let seats: Vec<Seat> = lanes
        .into_iter()
        .flat_map(|lane| [lane.client, lane.server])
        .collect();
    hub.close(&seats);
    Ok(())
}

#[repr(C)]
struct Time {
    seconds: c_long,
    nanos: c_long,
}

unsafe extern "C" {
    fn clock_getcpuclockid(process: c_int, clock: *mut c_int) -> c_int;
    fn clock_gettime(clock: c_int, time: *mut Time) -> c_int;
}

/// User and system time of a process, in seconds.
fn processor_time(process: u32) -> f64 {
    let mut clock = 0;
    let mut time = Time {
        seconds: 0,
        nanos: 0,
    };
    let failed = unsafe {
        clock_getcpuclockid(process as c_int, &mut clock) != 0
            || clock_gettime(clock, &mut time) != 0
    };
    assert!(!failed, "no process {process}");
    time.seconds as f64 + time.nanos as f64 / 1e9
}

fn ask(
    stdin: &mut ChildStdin,
    stdout: &mut BufReader<ChildStdout>,
    line: &str,
) -> io::Result<String> {
    writeln!(stdin, "{line}")?;
    let mut answer = String::new();
    stdout.read_line(&mut answer)?;
    Ok(answer)
}

/// Messages a second, and microseconds of processor time a message.
fn round(hub: &[String], job: Job) -> io::Result<(f64, f64)> {
    let mut child = Command::new(&hub[0])
        .args(&hub[1..])
        .stdin(Stdio::piped())
        .stdout(Stdio::piped())
        .spawn()?;
    let mut stdin = child.stdin.take().expect("a pipe");
    let mut stdout = BufReader::new(child.stdout.take().expect("a pipe"));
    let ready = ask(&mut stdin, &mut stdout, &job.to_string())?;
    assert_eq!(ready, "ready\n");
    let before = processor_time(child.id());
    let answer = ask(&mut stdin, &mut stdout, "go")?;
    let used = processor_time(child.id()) - before;
    drop(stdin);
    assert!(child.wait()?.success());
    let numbers: Vec<f64> = answer
        .split_whitespace()
        .map(|word| word.parse().expect("a number"))
        .collect();
    assert_eq!(numbers[0], 4.0 * DISPATCHES as f64);
    let messages = numbers[0] / 2.0;
    Ok((messages * 1e9 / numbers[1], used * 1e6 / messages))
}

fn median(mut values: Vec<f64>) -> f64 {
    values.sort_by(f64::total_cmp);
    values[values.len() / 2]
}

/// Times all hubs in turn, some rounds, and prints what is in the middle.
fn compare(hubs: &[(&str, Vec<String>)], job: Job) -> io::Result<()> {
    let mut rates = vec![vec![]; hubs.len()];
    let mut times = vec![vec![]; hubs.len()];
    for _ in 0..ROUNDS {
        for (at, (_, hub)) in hubs.iter().enumerate() {
            let (rate, time) = round(hub, job)?;
            rates[at].push(rate);
            times[at].push(time);
        }
    }
    for (at, (name, _)) in hubs.iter().enumerate() {
        let ratio = |all: &[Vec<f64>]| {
            let ratios = all[0].iter().zip(&all[at]).map(|(ours, its)| ours / its);
            median(ratios.collect())
        };
        println!(
            "{job}, {name}: {:.0} thousand messages a second, {:.3} us each; the first to it {:.2} and {:.2}",
            median(rates[at].clone()) / 1000.0,
            median(times[at].clone()),
            ratio(&rates),
            ratio(&times),
        );
    }
    Ok(())
}

fn main() -> io::Result<()> {
    let arguments: Vec<String> = env::args().skip(1).collect();
    if arguments == ["plain"] {
        return serve();
    }
    let own = env::current_exe()?.display().to_string();
    let mut hubs: Vec<_> = arguments
        .into_iter()
        .map(|path| ("hub_bench", vec![path]))
        .collect();
    hubs.push(("plain", vec![own, "plain".to_string()]));
    for apart in [false, true] {
        for batch in BATCHES {
            for threads in THREADS {
                let dispatches = DISPATCHES / threads;
                let job = Job {
                    threads,
                    batch,
                    dispatches,
                    apart,
                };
                compare(&hubs, job)?;
            }
        }
    }
    Ok(())
}
