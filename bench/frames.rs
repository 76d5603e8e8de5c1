//! Frames back to back over a loopback socket: `relay_bench`, which is given as the argument, against
//! two plain relays of one thread with buffers of the same sizes. `copies` copies the bytes of each
//! frame from one buffer to the other; `owns` makes each frame a value, which waits in a queue.
//!
//! With the argument `copies` or `owns` it is that relay, and reads its port from standard input.

use std::collections::VecDeque;
use std::io::{self, BufRead, Read, Write};
use std::net::{TcpListener, TcpStream};
use std::process::{Child, Command, Stdio};
use std::time::{Duration, Instant};
use std::{env, fs, thread};

const ROOM: usize = 16 * 1024;
const LARGE_ROOM: usize = 512 * 1024;
const GATHER: usize = 64 * 1024;
const ROUNDS: usize = 7;

/// Size of a body, frames in flight, and frames of a round.
const SHAPES: [(usize, usize, usize); 3] = [
    (100, 256, 2_000_000),
    (1024, 64, 500_000),
    (65_536, 16, 30_000),
];

struct Frame<B> {
    kind: i8,
    tag: u32,
    body: B,
}

fn cut(bytes: &[u8]) -> Option<(Frame<&[u8]>, &[u8])> {
    let (size, rest) = bytes.split_first_chunk::<4>()?;
    let size = u32::from_be_bytes(*size) as usize;
    if size < 4 || rest.len() < size {
        return None;
    }
    let (frame, rest) = rest.split_at(size);
    let tag = u32::from_be_bytes([0, frame[1], frame[2], frame[3]]);
    let frame = Frame {
        kind: frame[0] as i8,
        tag,
        body: &frame[4..],
    };
    Some((frame, rest))
}

fn put<B: AsRef<[u8]>>(frame: &Frame<B>, out: &mut Vec<u8>) {
    let body = frame.body.as_ref();
    out.extend_from_slice(&(body.len() as u32 + 4).to_be_bytes());
    out.push(frame.kind as u8);
    out.extend_from_slice(&frame.tag.to_be_bytes()[1..]);
    out.extend_from_slice(body);
}

fn put_or_write<B: AsRef<[u8]>>(
    frame: &Frame<B>,
    out: &mut Vec<u8>,
    stream: &mut TcpStream,
) -> io::Result<()> {
    put(frame, out);
    if out.len() >= GATHER {
        stream.write_all(out)?;
        out.clear();
    }
    Ok(())
}

/// Reads into one buffer, and writes what it gathers from it.
fn relay(mut stream: TcpStream, owns: bool) -> io::Result<()> {
    let mut buffer = vec![0; ROOM];
    let mut filled = 0;
    let mut out = Vec::with_capacity(GATHER);
    let mut queue = VecDeque::new();
    loop {
        let count = stream.read(&mut buffer[filled..])?;
        if count == 0 {
            return Ok(());
        }
        filled += count;
        let is_full = filled == buffer.len();
        let mut rest = &buffer[..filled];
        while let Some((frame, behind)) = cut(rest) {
            rest = behind;
            if owns {
                let Frame { kind, tag, body } = frame;
                queue.push_back(Frame {
                    kind,
                    tag,
                    body: body.to_vec(),
                });
            } else {
                put_or_write(&frame, &mut out, &mut stream)?;
            }
        }
        while let Some(frame) = queue.pop_front() {
            put_or_write(&frame, &mut out, &mut stream)?;
        }
        let left = rest.len();
        buffer.copy_within(filled - left..filled, 0);
        filled = left;
        if is_full && buffer.len() < LARGE_ROOM {
            buffer.resize(LARGE_ROOM, 0);
        }
        stream.write_all(&out)?;
        out.clear();
    }
}

fn start(server: &[String], port: u16) -> io::Result<(Child, TcpStream)> {
    let mut child = Command::new(&server[0])
        .args(&server[1..])
        .stdin(Stdio::piped())
        .spawn()?;
    let mut stdin = child.stdin.take().expect("a pipe");
    writeln!(stdin, "{port}")?;
    drop(stdin);
    loop {
        match TcpStream::connect(("127.0.0.1", port)) {
            Ok(stream) => return Ok((child, stream)),
            Err(_) => thread::sleep(Duration::from_millis(5)),
        }
    }
}

/// User and system time of the process, in seconds.
fn processor_time(child: &Child) -> f64 {
    let stat = fs::read_to_string(format!("/proc/{}/stat", child.id())).expect("a process");
    let fields: Vec<&str> = stat
        .rsplit(')')
        .next()
        .expect("fields")
        .split_whitespace()
        .collect();
    let ticks: u64 =
        fields[11].parse::<u64>().expect("ticks") + fields[12].parse::<u64>().expect("ticks");
    ticks as f64 / 100.0
}

/// Frames a second, and microseconds of processor time a frame.
fn round(
    server: &[String],
    port: u16,
    body: usize,
    window: usize,
    count: usize,
) -> io::Result<(f64, f64)> {
    let (mut child, mut stream) = start(server, port)?;
    stream.set_nodelay(true)?;
    let body: Vec<u8> = (0..body).map(|at| at as u8).collect();
    let mut frames = Vec::new();
    for tag in 0..window as u32 {
        put(
            &Frame {
                kind: 2,
                tag,
                body: &body,
            },
            &mut frames,
        );
    }
    let size = frames.len() / window;
    let mut reader = stream.try_clone()?;
    let begun = Instant::now();
    let (mut sent, mut received) = (window, 0);
    stream.write_all(&frames)?;
    let mut buffer = vec![0; 1024 * 1024];
    let mut bytes = 0;
    while received < count {
        bytes += reader.read(&mut buffer)?;
        let came = bytes / size;
        bytes %= size;
        received += came;
        let more = came.min(count - sent.min(count));
        stream.write_all(&frames[..more * size])?;
        sent += more;
    }
    let time = begun.elapsed().as_secs_f64();
    let used = processor_time(&child);
    drop((stream, reader));
    child.wait()?;
    Ok((count as f64 / time, used * 1e6 / count as f64))
}

fn median(mut values: Vec<f64>) -> f64 {
    values.sort_by(f64::total_cmp);
    values[values.len() / 2]
}

fn serve(owns: bool) -> io::Result<()> {
    let mut line = String::new();
    io::stdin().lock().read_line(&mut line)?;
    let port: u16 = line.trim().parse().expect("a port");
    let (stream, _) = TcpListener::bind(("127.0.0.1", port))?.accept()?;
    stream.set_nodelay(true)?;
    relay(stream, owns)
}

fn main() -> io::Result<()> {
    let argument = env::args().nth(1).expect("a relay, `copies` or `owns`");
    if argument == "copies" || argument == "owns" {
        return serve(argument == "owns");
    }
    let own = env::current_exe()?.display().to_string();
    let servers = [
        vec![argument],
        vec![own.clone(), "copies".to_string()],
        vec![own, "owns".to_string()],
    ];
    // Below the ports that the system gives to clients: one of those can be connected to itself.
    let mut port = 27_200;
    for (body, window, count) in SHAPES {
        let mut rates = [vec![], vec![], vec![]];
        let mut times = [vec![], vec![], vec![]];
        for _ in 0..ROUNDS {
            for (at, server) in servers.iter().enumerate() {
                port += 1;
                let (rate, time) = round(server, port, body, window, count)?;
                rates[at].push(rate);
                times[at].push(time);
            }
        }
        for (at, name) in ["relay_bench", "copies", "owns"].into_iter().enumerate() {
            let ratio = |all: &[Vec<f64>; 3]| {
                median(
                    all[0]
                        .iter()
                        .zip(&all[at])
                        .map(|(ours, theirs)| ours / theirs)
                        .collect(),
                )
            };
            println!(
                "{body} bytes, {name}: {:.0} a second, {:.3} us each; ours to it {:.2} and {:.2}",
                median(rates[at].clone()),
                median(times[at].clone()),
                ratio(&rates),
                ratio(&times),
            );
        }
    }
    Ok(())
}
