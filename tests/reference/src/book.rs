// The book: sources, receivers and walls in their slots, and what each receiver has gathered.
// Placing into a used slot exchanges the entry there. A refused call changes nothing, so every call
// finds out all it needs before it writes.

use crate::daily::{judge_daily, Daily};
use crate::fields::{RECEIVERS, RECEIVER_SLOT, SOURCES, SOURCE_SLOT, WALLS, WALL_SLOT};
use crate::level::{energy, level};
use crate::record::{read, Record};
use crate::road::{
    emission, judge_receiver, judge_source, judge_value, refusal, shares, PeriodLevels, Receiver,
    Refusal, Shares, Source, GREATEST_SHARE,
};
use crate::wall::{judge_wall, Wall};

pub use crate::store::{decode, encode};

/// The greatest sum a receiver may hold: the greatest share from every slot.
pub const TOP: i64 = SOURCES as i64 * GREATEST_SHARE;

/// A receiver in use, with its sums for day, evening and night.
#[derive(Clone, Copy, Debug, PartialEq, Eq)]
pub struct Account {
    pub receiver: Receiver,
    pub sums: Shares,
}

/// The book.
#[derive(Clone, Debug, PartialEq, Eq)]
pub struct Book {
    pub sources: Vec<Option<Source>>,
    pub accounts: Vec<Option<Account>>,
    pub walls: Vec<Option<Wall>>,
}

/// Both indices in tenths of a decibel; none is quiet.
#[derive(Clone, Copy, Debug, PartialEq, Eq)]
pub struct Levels {
    pub den: Option<i64>,
    pub night: Option<i64>,
}

/// What a call of the book answers.
#[derive(Clone, Copy, Debug, PartialEq, Eq)]
pub enum Answer {
    Done,
    Levels(Levels),
    Refused(Refusal),
}

/// What one new or leaving source, or what all together, bring to every receiver slot.
type Round = [Shares; RECEIVERS];

const DAMAGED: Refusal = refusal(1);

fn pair_refusal(number: u8, other: usize) -> Refusal {
    Refusal {
        number,
        place: other as u16,
    }
}

fn add(sums: &mut Shares, shares: &Shares) {
    for (sum, share) in sums.iter_mut().zip(shares) {
        *sum += share;
    }
}

impl Default for Book {
    fn default() -> Self {
        Book::cleared()
    }
}

impl Book {
    /// A book with every slot unused.
    pub fn cleared() -> Book {
        Book {
            sources: vec![None; SOURCES],
            accounts: vec![None; RECEIVERS],
            walls: vec![None; WALLS],
        }
    }

    /// The walls that stand.
    pub fn standing_walls(&self) -> Vec<Wall> {
        self.walls.iter().flatten().copied().collect()
    }

    /// The walls that stand in other slots.
    fn walls_but(&self, slot: usize) -> Vec<Wall> {
        let (before, from) = self.walls.split_at(slot);
        let others = before.iter().chain(&from[1..]);
        others.flatten().copied().collect()
    }

    /// Shares of a source at every standing receiver, or the first refused pair; without a source
    /// there are none.
    fn round(&self, source: Option<&Source>) -> Result<Round, Refusal> {
        let mut round = [[0; 3]; RECEIVERS];
        let Some(source) = source else {
            return Ok(round);
        };
        let walls = self.standing_walls();
        let sent = emission(source);
        for (slot, account) in self.accounts.iter().enumerate() {
            if let Some(account) = account {
                round[slot] = shares(source, &sent, &account.receiver, &walls)
                    .map_err(|number| pair_refusal(number, slot))?;
            }
        }
        Ok(round)
    }

    /// The sums after one round came off and another one was put on, or the late 1 if there is less
    /// than what comes off, or no room for what is put on.
    fn exchanged_sums(&self, off: &Round, on: &Round) -> Result<Round, Refusal> {
        let mut sums = [[0; 3]; RECEIVERS];
        for (slot, account) in self.accounts.iter().enumerate() {
            let Some(account) = account else { continue };
            for period in 0..3 {
                let left = account.sums[period] - off[slot][period];
                let sum = left + on[slot][period];
                if left < 0 || sum > TOP {
                    return Err(DAMAGED);
                }
                sums[slot][period] = sum;
            }
        }
        Ok(sums)
    }

    fn set_sums(&mut self, sums: &Round) {
        for (account, sums) in self.accounts.iter_mut().zip(sums) {
            if let Some(account) = account {
                account.sums = *sums;
            }
        }
    }

    /// Exchanges what stands in a source slot, if anything, for what comes there, if anything. The
    /// pairs of what comes are tried first.
    fn exchange_source(&mut self, slot: usize, comes: Option<Source>) -> Result<(), Refusal> {
        let on = self.round(comes.as_ref())?;
        let goes = self.sources[slot].as_ref();
        let off = self.round(goes).map_err(|_| DAMAGED)?;
        let sums = self.exchanged_sums(&off, &on)?;
        self.set_sums(&sums);
        self.sources[slot] = comes;
        Ok(())
    }

    pub fn place_source(&mut self, slot: i64, source: &Source) -> Result<(), Refusal> {
        judge_value(slot, &SOURCE_SLOT)?;
        judge_source(source)?;
        self.exchange_source(slot as usize, Some(*source))
    }

    /// Places the source that a daily figure stands for.
    pub fn place_daily(&mut self, slot: i64, daily: &Daily) -> Result<(), Refusal> {
        judge_value(slot, &SOURCE_SLOT)?;
        judge_daily(daily)?;
        self.place_source(slot, &daily.source())
    }

    pub fn withdraw_source(&mut self, slot: i64) -> Result<(), Refusal> {
        judge_value(slot, &SOURCE_SLOT)?;
        if self.sources[slot as usize].is_none() {
            return Err(refusal(9));
        }
        self.exchange_source(slot as usize, None)
    }

    pub fn place_receiver(&mut self, slot: i64, receiver: &Receiver) -> Result<(), Refusal> {
        judge_value(slot, &RECEIVER_SLOT)?;
        judge_receiver(receiver)?;
        let sums = self.gathered(receiver)?;
        self.accounts[slot as usize] = Some(Account {
            receiver: *receiver,
            sums,
        });
        Ok(())
    }

    /// What all standing sources bring to a receiver, or the first refused pair.
    fn gathered(&self, receiver: &Receiver) -> Result<Shares, Refusal> {
        let walls = self.standing_walls();
        let mut sums = [0; 3];
        for (slot, source) in self.sources.iter().enumerate() {
            let Some(source) = source else { continue };
            let sent = emission(source);
            let brought = shares(source, &sent, receiver, &walls)
                .map_err(|number| pair_refusal(number, slot))?;
            add(&mut sums, &brought);
        }
        Ok(sums)
    }

    /// Exchanges what stands in a wall slot, if anything, for what comes there, if anything.
    fn exchange_wall(&mut self, slot: usize, comes: Option<Wall>) -> Result<(), Refusal> {
        let mut walls = self.walls_but(slot);
        walls.extend(comes);
        let sums = self.afresh(&walls)?;
        self.set_sums(&sums);
        self.walls[slot] = comes;
        Ok(())
    }

    pub fn place_wall(&mut self, slot: i64, wall: &Wall) -> Result<(), Refusal> {
        judge_value(slot, &WALL_SLOT)?;
        judge_wall(wall)?;
        self.exchange_wall(slot as usize, Some(*wall))
    }

    pub fn withdraw_wall(&mut self, slot: i64) -> Result<(), Refusal> {
        judge_value(slot, &WALL_SLOT)?;
        if self.walls[slot as usize].is_none() {
            return Err(refusal(9));
        }
        self.exchange_wall(slot as usize, None)
    }

    /// The sums of every standing receiver with these walls, or the receiver of the first pair that
    /// is refused; what a source sends out is worked out once for all receivers.
    fn afresh(&self, walls: &[Wall]) -> Result<Round, Refusal> {
        let sources = self.sources.iter().flatten();
        let sent: Vec<(&Source, PeriodLevels)> =
            sources.map(|source| (source, emission(source))).collect();
        let mut sums = [[0; 3]; RECEIVERS];
        for (slot, account) in self.accounts.iter().enumerate() {
            let Some(account) = account else { continue };
            for (source, sent) in &sent {
                let brought = shares(source, sent, &account.receiver, walls)
                    .map_err(|number| pair_refusal(number, slot))?;
                add(&mut sums[slot], &brought);
            }
        }
        Ok(sums)
    }

    pub fn withdraw_receiver(&mut self, slot: i64) -> Result<(), Refusal> {
        judge_value(slot, &RECEIVER_SLOT)?;
        self.accounts[slot as usize].take().ok_or(refusal(9))?;
        Ok(())
    }

    pub fn ask(&self, slot: i64) -> Result<Levels, Refusal> {
        judge_value(slot, &RECEIVER_SLOT)?;
        let account = self.accounts[slot as usize].as_ref().ok_or(refusal(9))?;
        Ok(indices(&account.sums))
    }

    /// A book that is given the walls of this one first, then its receivers and its sources.
    pub fn given_anew(&self) -> Book {
        let mut fresh = Book {
            walls: self.walls.clone(),
            ..Book::cleared()
        };
        for (slot, account) in (0..).zip(&self.accounts) {
            if let Some(account) = account {
                fresh.place_receiver(slot, &account.receiver).unwrap();
            }
        }
        for (slot, source) in (0..).zip(&self.sources) {
            if let Some(source) = source {
                fresh.place_source(slot, source).unwrap();
            }
        }
        fresh
    }

    /// Whether a record places something into a slot in use.
    pub fn exchanges(&self, record: &Record) -> bool {
        let slot = record.slot() as usize;
        match record {
            Record::PlaceSource(..) | Record::PlaceDaily(..) => self.sources[slot].is_some(),
            Record::PlaceReceiver(..) => self.accounts[slot].is_some(),
            Record::PlaceWall(..) => self.walls[slot].is_some(),
            _ => false,
        }
    }

    /// Does the call a record stands for.
    pub fn apply(&mut self, record: &Record) -> Answer {
        let outcome = match record {
            Record::PlaceReceiver(slot, receiver) => self.place_receiver(*slot, receiver),
            Record::WithdrawReceiver(slot) => self.withdraw_receiver(*slot),
            Record::PlaceSource(slot, source) => self.place_source(*slot, source),
            Record::PlaceDaily(slot, daily) => self.place_daily(*slot, daily),
            Record::WithdrawSource(slot) => self.withdraw_source(*slot),
            Record::PlaceWall(slot, wall) => self.place_wall(*slot, wall),
            Record::WithdrawWall(slot) => self.withdraw_wall(*slot),
            Record::Ask(slot) => match self.ask(*slot) {
                Ok(levels) => return Answer::Levels(levels),
                Err(refusal) => Err(refusal),
            },
        };
        outcome.map_or_else(Answer::Refused, |()| Answer::Done)
    }
}

/// Both indices of three sums.
pub fn indices(sums: &Shares) -> Levels {
    Levels {
        den: level(mean_energy(sums)).map(tenths),
        night: level(sums[2]).map(tenths),
    }
}

/// The energy of the whole day, of which evening and night weigh more than they last.
pub fn mean_energy(sums: &Shares) -> i64 {
    let [day, evening, night] = sums.map(level);
    let a = weighted(day, 0);
    let b = weighted(evening, 500);
    let c = weighted(night, 1000);
    (3 * a + b + 2 * c).div_euclid(6) as i64
}

/// The energy of a period's level with its addition; a quiet period brings nothing.
fn weighted(level: Option<i64>, addition: i64) -> i128 {
    level.map_or(0, |level| i128::from(energy(level + addition)))
}

fn tenths(level: i64) -> i64 {
    (level + 5).div_euclid(10)
}

/// Clears a stored state; refusal 1 only for one of the wrong length.
pub fn clear(image: &mut [u8]) -> Answer {
    if image.len() != crate::store::STORE_SIZE {
        return Answer::Refused(DAMAGED);
    }
    image.fill(0);
    Answer::Done
}

/// Does the record at the front of the bytes to a stored state. The lowest number that applies
/// is given, so damage is looked for before the record is read.
pub fn apply_stored(image: &mut [u8], bytes: &[u8]) -> Answer {
    let Some(mut book) = decode(image) else {
        return Answer::Refused(DAMAGED);
    };
    let answer = match read(bytes) {
        Ok((record, _)) => book.apply(&record),
        Err(refusal) => Answer::Refused(refusal),
    };
    if answer == Answer::Done {
        image.copy_from_slice(&encode(&book));
    }
    answer
}
