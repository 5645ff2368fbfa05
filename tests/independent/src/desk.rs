// Knows the upload desk: slots in a lent pool, tickets, and what each call answers and changes.

use crate::reader::{judge, Counts};
use crate::refusal::{refuse, Refusal, MOST_OCTETS};

/// Octets of the pool that belong to one slot.
pub const SLOT_OCTETS: usize = MOST_OCTETS;

/// The most slots a desk may have; the desk value always has this many entries.
pub const MOST_SLOTS: usize = 40;

/// The next ticket when the last one, 4,294,967,294, has been given out.
pub const USED_UP: u32 = 4_294_967_295;

/// How far the desk's tick is ahead of an idle session's at least.
pub const IDLE: u32 = 600;

/// What an open entry keeps, its opening's or last accepted add's tick too; the tram identifier is kept and never looked at.
#[derive(Clone, Copy, Debug, PartialEq, Eq)]
pub struct Session {
    pub ticket: u32,
    pub tram: u32,
    pub held: usize,
    pub tick: u32,
}

/// Each entry is either free or open.
#[derive(Clone, Copy, Debug, PartialEq, Eq)]
pub enum Entry {
    Free,
    Open(Session),
}

/// A desk value; entry number i uses octets i times 16,384 and on of the pool.
#[derive(Clone, Copy, Debug, PartialEq, Eq)]
pub struct Desk {
    pub slots: usize,
    pub entries: [Entry; MOST_SLOTS],
    pub next_ticket: u32,
    pub tick: u32,
}

impl Desk {
    /// A new desk; outside 1 to 40 slots it is refused, and the desk handed back has 0 slots.
    pub fn new(slots: u64) -> (Result<u32, Refusal>, Desk) {
        let fresh = |slots| Desk { slots, entries: [Entry::Free; MOST_SLOTS], next_ticket: 1, tick: 0 };
        match slots {
            1..=40 => (Ok(0), fresh(slots as usize)),
            _ => (refuse(26, 0), fresh(0)),
        }
    }

    /// Whether the desk value is sound.
    pub fn is_sound(&self) -> bool {
        (1..=MOST_SLOTS).contains(&self.slots)
            && self.entries[self.slots..].iter().all(|entry| *entry == Entry::Free)
            && self.sessions().all(|session| self.is_sound_session(session))
            && self.tickets_are_distinct()
            && self.next_ticket >= 1
            && self.sessions().all(|session| session.tick <= self.tick)
    }

    /// The sessions of all open entries.
    fn sessions(&self) -> impl Iterator<Item = Session> + '_ {
        self.entries.iter().filter_map(|entry| match entry {
            Entry::Free => None,
            Entry::Open(session) => Some(*session),
        })
    }

    /// Ticket at least 1 and below the next one; at most 16,384 octets held.
    fn is_sound_session(&self, session: Session) -> bool {
        session.ticket >= 1 && session.ticket < self.next_ticket && session.held <= SLOT_OCTETS
    }

    /// No ticket is open twice.
    fn tickets_are_distinct(&self) -> bool {
        let times = |ticket| self.sessions().filter(|session| session.ticket == ticket).count();
        self.sessions().all(|session| times(session.ticket) == 1)
    }

    /// The checks 25 and 24 that every call starts with.
    fn check(&self, pool: &[u8]) -> Result<(), Refusal> {
        if !self.is_sound() {
            return refuse(25, 0);
        }
        if pool.len() != self.slots * SLOT_OCTETS {
            return refuse(24, 0);
        }
        Ok(())
    }

    /// The slot and session of an open ticket, after 25, 24 and 22.
    fn find(&self, pool: &[u8], ticket: u32) -> Result<(usize, Session), Refusal> {
        self.check(pool)?;
        for (slot, entry) in self.entries.iter().enumerate() {
            match entry {
                Entry::Open(session) if session.ticket == ticket => return Ok((slot, *session)),
                _ => (),
            }
        }
        refuse(22, 0)
    }

    /// The desk with another entry in this slot.
    fn with_entry(mut self, slot: usize, entry: Entry) -> Desk {
        self.entries[slot] = entry;
        self
    }

    /// The idle slot with the lowest ticket, when the desk's tick is this.
    fn idle_slot(&self, now: u32) -> Option<usize> {
        let idle = self.entries[..self.slots].iter().enumerate().filter_map(|(slot, entry)| match entry {
            Entry::Open(session) if now - session.tick >= IDLE => Some((session.ticket, slot)),
            _ => None,
        });
        idle.min().map(|(_, slot)| slot)
    }

    /// Opens a session in the lowest free slot, or in the idle one with the lowest ticket, which is zeroed; answers its ticket.
    pub fn open(self, pool: &mut [u8], tram: u32, tick: u32) -> (Result<u32, Refusal>, Desk) {
        if let Err(refusal) = self.check(pool) {
            return (Err(refusal), self);
        }
        if self.next_ticket == USED_UP {
            return (refuse(21, 0), self);
        }
        let free = self.entries[..self.slots].iter().position(|entry| *entry == Entry::Free);
        let now = self.tick.max(tick);
        let slot = match (free, self.idle_slot(now)) {
            (Some(slot), _) => slot,
            (None, Some(slot)) => {
                pool[slot * SLOT_OCTETS..][..SLOT_OCTETS].fill(0);
                slot
            }
            (None, None) => return (refuse(20, 0), self),
        };
        let ticket = self.next_ticket;
        let mut next = self.with_entry(slot, Entry::Open(Session { ticket, tram, held: 0, tick: now }));
        next.next_ticket += 1;
        next.tick = now;
        (Ok(ticket), next)
    }

    /// Puts the chunk where the held octets end; answers the octets then held.
    pub fn add(self, pool: &mut [u8], ticket: u32, chunk: &[u8], tick: u32) -> (Result<usize, Refusal>, Desk) {
        let (slot, session) = match self.find(pool, ticket) {
            Ok(found) => found,
            Err(refusal) => return (Err(refusal), self),
        };
        let start = slot * SLOT_OCTETS + session.held;
        let held = session.held + chunk.len();
        if held > SLOT_OCTETS {
            return (refuse(23, session.held), self);
        }
        pool[start..start + chunk.len()].copy_from_slice(chunk);
        let now = self.tick.max(tick);
        let mut next = self.with_entry(slot, Entry::Open(Session { held, tick: now, ..session }));
        next.tick = now;
        (Ok(held), next)
    }

    /// The reader's verdict on the octets held.
    pub fn judge(&self, pool: &[u8], ticket: u32) -> Result<Counts, Refusal> {
        self.find(pool, ticket)?;
        judge(self.show(pool, ticket))
    }

    /// The part of the pool that holds the session's octets; an empty part on refusal.
    pub fn show<'pool>(&self, pool: &'pool [u8], ticket: u32) -> &'pool [u8] {
        match self.find(pool, ticket) {
            Ok((slot, session)) => &pool[slot * SLOT_OCTETS..][..session.held],
            Err(_) => &[],
        }
    }

    /// The count of octets held.
    pub fn held(&self, pool: &[u8], ticket: u32) -> Result<usize, Refusal> {
        let (_, session) = self.find(pool, ticket)?;
        Ok(session.held)
    }

    /// Sets the slot's octets to 0 and frees it; answers 0.
    pub fn release(self, pool: &mut [u8], ticket: u32) -> (Result<u32, Refusal>, Desk) {
        match self.find(pool, ticket) {
            Ok((slot, _)) => {
                pool[slot * SLOT_OCTETS..][..SLOT_OCTETS].fill(0);
                (Ok(0), self.with_entry(slot, Entry::Free))
            }
            Err(refusal) => (Err(refusal), self),
        }
    }
}
