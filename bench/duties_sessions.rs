//! The sessions of the duties router, one for each connection: what it holds, and the frames that it queues.
//!
//! A step of a session takes or hands on one value, and writes one record.

use crate::duties_records::{Kind, Log, Name, Seat, Writes};
use crate::mux_link::{
    DISCARDED, DISPATCH, DRAIN, ERROR, HEAD, INIT, LEASE, NACK, OLD_DISCARDED, OLD_ERROR, PING,
    PROBE, dispatch_dst, head, lease, put_tag, reply_payload, tag_of,
};
use std::collections::HashMap;
use std::mem;
use std::ops::Range;

/// Dispatches that a session holds, and frames that it queues: what `bench/run-router` gives the router.
const WINDOW: usize = 4096;
const OUT: usize = 16_384;

const GREATEST_TAG: u32 = 0x7f_ffff;
const FIRST_SERVER_TAG: u32 = 2;

/// What `Out` makes room for at first.
const OUT_BYTES: usize = 256 * 1024;

/// Frames to be sent, one behind the other.
pub struct Out {
    bytes: Vec<u8>,
    frames: usize,
}

impl Out {
    fn new() -> Out {
        Out {
            bytes: Vec::with_capacity(OUT_BYTES),
            frames: 0,
        }
    }

    #[inline]
    fn push(&mut self, kind: i8, tag: u32, body: &[u8]) {
        self.bytes.extend_from_slice(&head(kind, tag, body.len()));
        self.bytes.extend_from_slice(body);
        self.frames += 1;
    }

    /// All of them, for whoever empties the list.
    pub fn take(&mut self) -> &mut Vec<u8> {
        self.frames = 0;
        &mut self.bytes
    }
}

/// The tags that a client has in use, each with its slot. Small ones stand in a table.
struct Tags {
    near: Vec<u32>,
    far: HashMap<u32, u32>,
}

impl Tags {
    fn new() -> Tags {
        Tags {
            near: vec![0; 2 * WINDOW],
            far: HashMap::new(),
        }
    }

    #[inline]
    fn slot(&self, tag: u32) -> Option<usize> {
        match self.near.get(tag as usize) {
            Some(above) => above.checked_sub(1).map(|slot| slot as usize),
            None => self.far.get(&tag).map(|slot| *slot as usize),
        }
    }

    #[inline]
    fn insert(&mut self, tag: u32, slot: usize) {
        match self.near.get_mut(tag as usize) {
            Some(above) => *above = slot as u32 + 1,
            None => {
                self.far.insert(tag, slot as u32);
            }
        }
    }

    #[inline]
    fn remove(&mut self, tag: u32) {
        match self.near.get_mut(tag as usize) {
            Some(above) => *above = 0,
            None => {
                self.far.remove(&tag);
            }
        }
    }
}

/// A dispatch that a client's session holds.
#[derive(Clone, Copy)]
struct Entry {
    seq: u64,
    tag: u32,
    server: u32,
    server_tag: u32,
    /// The client waits for its answer, and has not discarded it.
    is_open: bool,
    note_due: bool,
    answer_due: bool,
}

/// A dispatch that was taken: where its frame is in its batch, where its destination stands in that frame's
/// body, and where it goes.
pub struct Ticket {
    pub at: usize,
    pub dst: Range<usize>,
    pub seq: u64,
    pub slot: usize,
    pub server: Option<usize>,
    /// It was offered to that.
    pub is_done: bool,
    /// At the server, once that has taken it.
    pub tag: Option<u32>,
}

/// Asks a server to discard a dispatch.
pub struct Recall {
    pub server: usize,
    pub tag: u32,
    pub name: Name,
    /// The frame in the batch that says why.
    pub why: Option<usize>,
}

/// A frame that came: its place in its batch, and when that is taken.
#[derive(Clone, Copy)]
pub struct Came<'a> {
    pub at: usize,
    pub kind: i8,
    pub tag: u32,
    pub body: &'a [u8],
    pub now: u64,
}

/// What a frame of a client leads to.
pub enum Step {
    Nothing,
    Take(Ticket),
    Recall(Recall),
    /// It can't be, and ends the session.
    Close,
}

pub struct ClientSession {
    number: u64,
    log: Log,
    pub out: Out,
    is_closed: bool,
    dispatches: u64,
    entries: Vec<Entry>,
    free: Vec<usize>,
    tags: Tags,
    /// Open dispatches: each has a place in `out` kept.
    in_use: usize,
    /// Places that are kept for records of dispatches.
    kept: usize,
}

impl ClientSession {
    pub fn new(number: u64) -> ClientSession {
        ClientSession {
            number,
            log: Log::new(),
            out: Out::new(),
            is_closed: false,
            dispatches: 0,
            entries: Vec::with_capacity(WINDOW),
            free: Vec::with_capacity(WINDOW),
            tags: Tags::new(),
            in_use: 0,
            kept: 0,
        }
    }

    fn name(&self, seq: u64) -> Name {
        Name::new(self.number, seq)
    }

    fn free_out(&self) -> usize {
        OUT - self.out.frames - self.in_use
    }

    fn held(&self) -> usize {
        self.entries.len() - self.free.len()
    }

    /// Makes sure of so many places for records beside those that are kept.
    #[inline]
    fn want_places(&mut self, count: usize) {
        if self.log.free() - self.kept < count {
            self.log.next_epoch();
        }
    }

    /// Takes a frame of the client.
    #[inline]
    pub fn frame(&mut self, came: Came, seat: &mut Seat) -> Step {
        if self.is_closed || self.free_out() == 0 {
            return Step::Close;
        }
        let asks = came.kind > 0 && !matches!(came.kind, DISCARDED | OLD_ERROR);
        if came.tag > GREATEST_TAG || (asks && self.tags.slot(came.tag).is_some()) {
            return self.close(came, seat);
        }
        if came.kind == DISPATCH {
            self.dispatch(came, seat)
        } else {
            self.other(came, seat)
        }
    }

    #[inline]
    fn dispatch(&mut self, came: Came, seat: &mut Seat) -> Step {
        let Some(dst) = dispatch_dst(came.body).filter(|_| came.tag != 0) else {
            return self.close(came, seat);
        };
        self.dispatches += 1;
        let name = self.name(self.dispatches);
        if self.held() >= WINDOW {
            self.want_places(1);
            self.out.push(-DISPATCH, came.tag, &[NACK, 0, 0]);
            self.log
                .write_for(seat, Kind::TurnedAway, came, came.tag, Some(name));
            return Step::Nothing;
        }
        self.want_places(4);
        let slot = self.enter(name.seq, came.tag);
        self.log
            .write_for(seat, Kind::Took, came, came.tag, Some(name));
        Step::Take(Ticket {
            at: came.at,
            dst,
            seq: name.seq,
            slot,
            server: None,
            is_done: false,
            tag: None,
        })
    }

    #[inline]
    fn enter(&mut self, seq: u64, tag: u32) -> usize {
        let entry = Entry {
            seq,
            tag,
            server: 0,
            server_tag: 0,
            is_open: true,
            note_due: true,
            answer_due: true,
        };
        let slot = match self.free.pop() {
            Some(slot) => {
                self.entries[slot] = entry;
                slot
            }
            None => {
                self.entries.push(entry);
                self.entries.len() - 1
            }
        };
        self.tags.insert(tag, slot);
        self.in_use += 1;
        self.kept += 3;
        slot
    }

    #[cold]
    #[inline(never)]
    fn other(&mut self, came: Came, seat: &mut Seat) -> Step {
        self.want_places(1);
        let mut kind = Kind::Answered;
        match came.kind {
            DISCARDED | OLD_DISCARDED => return self.discard(came, seat),
            PING => self.out.push(-PING, came.tag, &[]),
            INIT => self.out.push(-INIT, came.tag, &[0, 1]),
            ERROR | OLD_ERROR if came.tag == 1 && came.body == PROBE => {
                self.out.push(came.kind, 1, came.body)
            }
            1.. if came.tag != 0 => self.out.push(ERROR, came.tag, b"unsupported"),
            _ => kind = Kind::Ignored,
        }
        self.log.write_for(seat, kind, came, came.tag, None);
        Step::Nothing
    }

    /// Gives the client this dispatch's tag back, unless it has it already.
    fn shut(&mut self, slot: usize) {
        let entry = &mut self.entries[slot];
        if mem::take(&mut entry.is_open) {
            self.tags.remove(entry.tag);
            self.in_use -= 1;
        }
    }

    fn recall(&self, slot: usize, why: Option<usize>) -> Recall {
        let entry = &self.entries[slot];
        Recall {
            server: entry.server as usize,
            tag: entry.server_tag,
            name: self.name(entry.seq),
            why,
        }
    }

    fn discard(&mut self, came: Came, seat: &mut Seat) -> Step {
        let tag = tag_of(came.body).unwrap_or(0);
        let Some(slot) = self.tags.slot(tag) else {
            self.log
                .write_for(seat, Kind::Ignored, came, came.tag, None);
            return Step::Nothing;
        };
        let entry = self.entries[slot];
        self.shut(slot);
        self.out.push(-DISCARDED, tag, &[]);
        let name = Some(self.name(entry.seq));
        self.log.write_for(seat, Kind::Discarded, came, tag, name);
        if entry.note_due {
            return Step::Nothing;
        }
        Step::Recall(self.recall(slot, Some(came.at)))
    }

    #[cold]
    #[inline(never)]
    fn close(&mut self, came: Came, seat: &mut Seat) -> Step {
        self.is_closed = true;
        self.log.write_for(seat, Kind::Closed, came, 0, None);
        Step::Close
    }

    /// The entry of this dispatch, if it is held.
    #[inline]
    fn entry(&mut self, seq: u64, slot: usize) -> Option<&mut Entry> {
        self.entries.get_mut(slot).filter(|entry| entry.seq == seq)
    }

    #[inline]
    fn leave(&mut self, slot: usize) {
        self.entries[slot].seq = 0;
        self.free.push(slot);
    }

    /// The dispatch went to this server. It is to be recalled if the client has discarded it.
    #[inline]
    pub fn note(
        &mut self,
        seq: u64,
        slot: usize,
        server: usize,
        server_tag: u32,
    ) -> Option<Recall> {
        let entry = self.entry(seq, slot).filter(|entry| entry.note_due)?;
        entry.note_due = false;
        entry.server = server as u32;
        entry.server_tag = server_tag;
        let Entry { tag, is_open, .. } = *entry;
        self.kept -= 1;
        let name = Some(self.name(seq));
        self.log.write(Kind::Noted, 0, tag, name, 0);
        (!is_open).then(|| self.recall(slot, None))
    }

    /// Answers a dispatch, with this frame if the client still waits. `kind` is the record of that.
    #[inline]
    pub fn settle(&mut self, name: Name, slot: usize, kind: Kind, came: i8, body: &[u8]) {
        if name != self.name(name.seq) {
            return;
        }
        let Some(entry) = self.entry(name.seq, slot).filter(|entry| entry.answer_due) else {
            return;
        };
        entry.answer_due = false;
        let Entry {
            tag,
            is_open,
            note_due,
            ..
        } = *entry;
        // Where no server took it, no note comes.
        self.kept -= if note_due { 3 } else { 2 };
        let name = Some(name);
        if is_open {
            self.tags.remove(tag);
            self.in_use -= 1;
            self.log.write(kind, came, tag, name, 0);
            let came = if came == OLD_ERROR { ERROR } else { came };
            self.out.push(came, tag, body);
        } else {
            self.log.write(Kind::Late, came, tag, name, 0);
        }
        self.leave(slot);
    }

    /// No server took the dispatch.
    pub fn nack(&mut self, seq: u64, slot: usize) {
        let name = self.name(seq);
        self.settle(name, slot, Kind::Nacked, -DISPATCH, &[NACK, 0, 0]);
    }

    /// The connection is gone: all that is open is recalled.
    pub fn lose(&mut self, now: u64) -> Vec<Recall> {
        let open = |slot: &usize| self.entries[*slot].seq != 0 && self.entries[*slot].is_open;
        let slots: Vec<usize> = (0..self.entries.len()).filter(open).collect();
        for slot in &slots {
            self.shut(*slot);
        }
        if !mem::replace(&mut self.is_closed, true) {
            self.log.write(Kind::Lost, 0, 0, None, now);
        }
        slots
            .into_iter()
            .map(|slot| self.recall(slot, None))
            .collect()
    }
}

impl Writes for ClientSession {
    #[inline]
    fn log(&self) -> &Log {
        &self.log
    }
}

/// A dispatch that a server's session holds, and its slot at its client's.
#[derive(Clone, Copy)]
struct Sent {
    name: Name,
    slot: u32,
    is_recalled: bool,
}

/// A dispatch that has its final reply, and that reply's place in its batch.
pub struct Reply {
    pub at: usize,
    pub name: Name,
    pub slot: usize,
    pub is_done: bool,
}

pub struct ServerSession {
    log: Log,
    pub out: Out,
    is_closed: bool,
    is_drained: bool,
    /// From this reading on its lease is over.
    lapse: u64,
    /// By tags.
    entries: Vec<Option<Sent>>,
    free: Vec<u32>,
    /// Dispatches that were not recalled: for each a place in `out` and one for a record are kept.
    fresh: usize,
}

impl ServerSession {
    pub fn new() -> ServerSession {
        ServerSession {
            log: Log::new(),
            out: Out::new(),
            is_closed: false,
            is_drained: false,
            lapse: u64::MAX,
            entries: Vec::with_capacity(WINDOW),
            free: Vec::with_capacity(WINDOW),
            fresh: 0,
        }
    }

    fn load(&self) -> usize {
        self.entries.len() - self.free.len()
    }

    /// Its load, if it takes dispatches at all.
    pub fn open_load(&self) -> Option<usize> {
        (!self.is_closed && !self.is_drained).then(|| self.load())
    }

    fn free_out(&self) -> usize {
        OUT - self.out.frames - self.fresh
    }

    #[inline]
    fn want_places(&mut self, count: usize) {
        if self.log.free() - self.load() - self.fresh < count {
            self.log.next_epoch();
        }
    }

    fn takes(&self, now: u64) -> bool {
        !self.is_closed
            && !self.is_drained
            && self.log.reading.max(now) < self.lapse
            && self.load() < WINDOW
            && self.free_out() >= 2
    }

    /// Sends a dispatch on. None if it is refused.
    #[inline]
    pub fn offer(&mut self, name: Name, slot: usize, body: &[u8], now: u64) -> Option<u32> {
        if !self.takes(now) {
            return None;
        }
        self.want_places(3);
        let sent = Sent {
            name,
            slot: slot as u32,
            is_recalled: false,
        };
        let at = match self.free.pop() {
            Some(at) => {
                self.entries[at as usize] = Some(sent);
                at
            }
            None => {
                self.entries.push(Some(sent));
                self.entries.len() as u32 - 1
            }
        };
        let tag = at + FIRST_SERVER_TAG;
        self.fresh += 1;
        self.log.write(Kind::Offered, 0, tag, Some(name), now);
        self.out.push(DISPATCH, tag, body);
        Some(tag)
    }

    #[inline]
    fn entry(&mut self, tag: u32) -> Option<&mut Option<Sent>> {
        self.entries
            .get_mut(tag.checked_sub(FIRST_SERVER_TAG)? as usize)
    }

    /// Takes a frame of the server. An error if it can't be, and ends the session.
    #[inline]
    pub fn frame(&mut self, came: Came, seat: &mut Seat) -> Result<Option<Reply>, ()> {
        let is_final = matches!(came.kind, -2 | -66 | ERROR | OLD_ERROR);
        if !is_final || came.tag > GREATEST_TAG || self.is_closed {
            return self.other(came, seat);
        }
        let mut kind = Kind::Settled;
        if came.kind == -DISPATCH {
            match reply_payload(came.body) {
                Some((NACK, _)) => kind = Kind::SettledNack,
                Some(_) => {}
                None => return self.close(came, seat),
            }
        }
        let Some(sent) = self.entry(came.tag).and_then(Option::take) else {
            return self.other(came, seat);
        };
        self.fresh -= usize::from(!sent.is_recalled);
        self.free.push(came.tag - FIRST_SERVER_TAG);
        self.log
            .write_for(seat, kind, came, came.tag, Some(sent.name));
        Ok(Some(Reply {
            at: came.at,
            name: sent.name,
            slot: sent.slot as usize,
            is_done: false,
        }))
    }

    #[cold]
    #[inline(never)]
    fn other(&mut self, came: Came, seat: &mut Seat) -> Result<Option<Reply>, ()> {
        if self.is_closed || self.free_out() == 0 {
            return Err(());
        }
        if came.tag > GREATEST_TAG {
            return self.close(came, seat);
        }
        self.want_places(1);
        let mut kind = Kind::Answered;
        match came.kind {
            PING => self.out.push(-PING, came.tag, &[]),
            DRAIN => {
                self.is_drained = true;
                self.out.push(-DRAIN, came.tag, &[]);
                kind = Kind::Drained;
            }
            LEASE => {
                if let Some(milliseconds) = lease(came.body) {
                    self.lapse = self.log.reading.max(came.now).saturating_add(milliseconds);
                }
                kind = Kind::Leased;
            }
            _ => kind = Kind::Ignored,
        }
        self.log.write_for(seat, kind, came, came.tag, None);
        Ok(None)
    }

    #[cold]
    #[inline(never)]
    fn close(&mut self, came: Came, seat: &mut Seat) -> Result<Option<Reply>, ()> {
        self.is_closed = true;
        self.log.write_for(seat, Kind::Closed, came, 0, None);
        Err(())
    }

    /// Sends a Tdiscarded for a dispatch that is still held.
    pub fn recall(&mut self, tag: u32, name: Name, why: &[u8], now: u64) {
        let is_closed = self.is_closed;
        let Some(Some(sent)) = self.entry(tag).filter(|_| !is_closed) else {
            return;
        };
        if sent.name != name || mem::replace(&mut sent.is_recalled, true) {
            return;
        }
        self.fresh -= 1;
        let mut lead = [0; HEAD];
        put_tag(&mut lead, tag);
        self.out.push(DISCARDED, 0, &[&lead[5..], why].concat());
        self.log.write(Kind::Recalled, 0, tag, Some(name), now);
    }

    /// The connection is gone: all that is held is lost, and each dispatch's slot at its client's session given.
    pub fn lose(&mut self, now: u64) -> Vec<(Name, usize)> {
        if !mem::replace(&mut self.is_closed, true) {
            self.log.write(Kind::Lost, 0, 0, None, now);
        }
        self.free.clear();
        self.fresh = 0;
        let held = mem::take(&mut self.entries).into_iter().flatten();
        held.map(|sent| (sent.name, sent.slot as usize)).collect()
    }
}

impl Writes for ServerSession {
    #[inline]
    fn log(&self) -> &Log {
        &self.log
    }
}
