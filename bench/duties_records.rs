//! What the duties router writes down: records of 40 bytes, receipts of 56, counts.

use crate::duties_sessions::Came;
use std::mem;

/// Records of an epoch: what the router has if its configuration says nothing.
const HISTORY: usize = 65_536;

const BOOT: u64 = 1;

/// Which dispatch it is: of which run, of which client, and its number there.
#[derive(Clone, Copy, Default, PartialEq, Eq)]
pub struct Name {
    pub boot: u64,
    pub client: u64,
    pub seq: u64,
}

impl Name {
    /// Of this run.
    #[inline]
    pub fn new(client: u64, seq: u64) -> Name {
        Name {
            boot: BOOT,
            client,
            seq,
        }
    }
}

#[derive(Clone, Copy, PartialEq, Eq)]
#[repr(u8)]
pub enum Kind {
    Took,
    TurnedAway,
    Noted,
    Passed,
    Late,
    Nacked,
    Failed,
    Discarded,
    Answered,
    Ignored,
    Closed,
    Lost,
    Offered,
    Settled,
    SettledNack,
    Recalled,
    Leased,
    Drained,
}

const KINDS: usize = Kind::Drained as usize + 1;

/// What a step did.
#[derive(Clone, Copy, PartialEq, Eq)]
pub struct Record {
    name: Name,
    reading: u64,
    tag: u32,
    kind: Kind,
    /// The type of the message that came.
    came: i8,
    is_named: bool,
}

/// That a frame's step left this record there.
#[derive(Clone, Copy)]
struct Receipt {
    kept: Record,
    place: usize,
    epoch: u32,
}

const _: () = assert!(size_of::<Record>() == 40 && size_of::<Receipt>() == 56);

/// The records of a session, those of each epoch in a list of its own, and how many there are of each kind.
pub struct Log {
    records: Vec<Record>,
    ended: Vec<Vec<Record>>,
    in_ended: u64,
    counts: [u64; KINDS],
    /// The greatest moment that a step was handed, in milliseconds.
    pub reading: u64,
}

impl Log {
    pub fn new() -> Log {
        Log {
            records: Vec::with_capacity(HISTORY),
            ended: vec![],
            in_ended: 0,
            counts: [0; KINDS],
            reading: 0,
        }
    }

    /// Places that are left, but for one with which the session ends.
    pub fn free(&self) -> usize {
        HISTORY - 1 - self.records.len()
    }

    /// Sets the records aside, and begins the next epoch.
    #[cold]
    #[inline(never)]
    pub fn next_epoch(&mut self) {
        self.in_ended = self.len();
        let records = Vec::with_capacity(HISTORY);
        self.ended.push(mem::replace(&mut self.records, records));
    }

    /// Writes a record. There has to be a place for it.
    #[inline]
    pub fn write(
        &mut self,
        kind: Kind,
        came: i8,
        tag: u32,
        name: Option<Name>,
        now: u64,
    ) -> Record {
        self.reading = self.reading.max(now);
        self.counts[kind as usize] += 1;
        let record = Record {
            name: name.unwrap_or_default(),
            reading: self.reading,
            tag,
            kind,
            came,
            is_named: name.is_some(),
        };
        self.records.push(record);
        record
    }

    /// Writes the record of a frame's step, of which the seat keeps a receipt.
    #[inline]
    pub fn write_for(
        &mut self,
        seat: &mut Seat,
        kind: Kind,
        came: Came,
        tag: u32,
        name: Option<Name>,
    ) {
        let record = self.write(kind, came.kind, tag, name, came.now);
        seat.keep(record, self);
    }

    fn at(&self, epoch: u32, place: usize) -> Option<&Record> {
        let mut epochs = self.ended.iter().chain([&self.records]);
        epochs.nth(epoch as usize)?.get(place)
    }

    /// How many records there are, of all epochs.
    pub fn len(&self) -> u64 {
        self.in_ended + self.records.len() as u64
    }
}

/// A session that writes its steps down.
pub trait Writes {
    fn log(&self) -> &Log;
}

/// What the reader of a connection keeps: receipts of its frames, and how many records its calls made.
pub struct Seat {
    receipts: Vec<Receipt>,
    full: Vec<Vec<Receipt>>,
    pub share: u64,
}

impl Seat {
    pub fn new() -> Seat {
        Seat {
            receipts: Vec::with_capacity(HISTORY),
            full: vec![],
            share: 0,
        }
    }

    #[cold]
    #[inline(never)]
    fn grow(&mut self) {
        let receipts = Vec::with_capacity(HISTORY);
        self.full.push(mem::replace(&mut self.receipts, receipts));
    }

    #[inline]
    fn keep(&mut self, kept: Record, log: &Log) {
        if self.receipts.len() == HISTORY {
            self.grow();
        }
        self.receipts.push(Receipt {
            kept,
            place: log.records.len() - 1,
            epoch: log.ended.len() as u32,
        });
    }
}

/// Records and receipts that were held against each other.
#[derive(Default)]
pub struct Judged {
    pub records: u64,
    pub receipts: u64,
    pub wrong: u64,
}

impl Judged {
    /// Each receipt has its record, and the counts have as many as there are.
    pub fn take(&mut self, session: &impl Writes, seat: &Seat) {
        let log = session.log();
        self.records += log.len();
        self.wrong += u64::from(log.counts.iter().sum::<u64>() != log.len());
        for receipt in seat.full.iter().flatten().chain(&seat.receipts) {
            self.receipts += 1;
            self.wrong += u64::from(log.at(receipt.epoch, receipt.place) != Some(&receipt.kept));
        }
    }
}
