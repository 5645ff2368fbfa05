// Knows the plain ledger: open tickets with their octets, and nothing of slots, pool or desk.

use std::collections::BTreeMap;

use crate::reader::{judge, Counts};
use crate::refusal::{refuse, Refusal, MOST_OCTETS};

/// The ledger of a fresh desk: its slot count, the next ticket, the open tickets' octets; the highest tick counted, and each open ticket's own.
#[derive(Clone, Debug, PartialEq, Eq)]
pub struct Ledger {
    pub slots: usize,
    pub next_ticket: u32,
    pub open_tickets: BTreeMap<u32, Vec<u8>>,
    pub tick: u32,
    pub ticks: BTreeMap<u32, u32>,
}

impl Ledger {
    /// The ledger at first: next ticket 1, none open.
    pub fn new(slots: usize) -> Ledger {
        Ledger { slots, next_ticket: 1, open_tickets: BTreeMap::new(), tick: 0, ticks: BTreeMap::new() }
    }

    /// The lowest open ticket that the tick counted is ahead of by 600 or more.
    fn idle_ticket(&self, counted: u32) -> Option<u32> {
        let is_idle = |ticket: &&u32| u64::from(self.ticks[*ticket]) + 600 <= u64::from(counted);
        self.open_tickets.keys().find(is_idle).copied()
    }

    /// 21 if tickets are used up, else 20 if as many are open as slots and none of them is idle, else the next ticket; an idle one is closed for it.
    pub fn open(&mut self, tick: u32) -> Result<u32, Refusal> {
        if self.next_ticket == 4_294_967_295 {
            return refuse(21, 0);
        }
        let counted = self.tick.max(tick);
        if self.open_tickets.len() == self.slots {
            match self.idle_ticket(counted) {
                Some(idle) => self.open_tickets.remove(&idle),
                None => return refuse(20, 0),
            };
        }
        let ticket = self.next_ticket;
        self.open_tickets.insert(ticket, Vec::new());
        self.ticks.insert(ticket, counted);
        self.tick = counted;
        self.next_ticket += 1;
        Ok(ticket)
    }

    /// 23 if octets and chunk together exceed 16,384, else the chunk joins them at the end.
    pub fn add(&mut self, ticket: u32, chunk: &[u8], tick: u32) -> Result<usize, Refusal> {
        let Some(octets) = self.open_tickets.get_mut(&ticket) else {
            return refuse(22, 0);
        };
        if octets.len() + chunk.len() > MOST_OCTETS {
            return refuse(23, octets.len());
        }
        octets.extend(chunk);
        self.tick = self.tick.max(tick);
        self.ticks.insert(ticket, self.tick);
        Ok(octets.len())
    }

    /// The reader's answer for the octets.
    pub fn judge(&self, ticket: u32) -> Result<Counts, Refusal> {
        match self.open_tickets.get(&ticket) {
            Some(octets) => judge(octets),
            None => refuse(22, 0),
        }
    }

    /// The octets; an empty part for a ticket not open.
    pub fn show(&self, ticket: u32) -> &[u8] {
        self.open_tickets.get(&ticket).map_or(&[], Vec::as_slice)
    }

    /// The count of octets.
    pub fn held(&self, ticket: u32) -> Result<usize, Refusal> {
        match self.open_tickets.get(&ticket) {
            Some(octets) => Ok(octets.len()),
            None => refuse(22, 0),
        }
    }

    /// The ticket closes; answers 0.
    pub fn release(&mut self, ticket: u32) -> Result<u32, Refusal> {
        match self.open_tickets.remove(&ticket) {
            Some(_) => Ok(0),
            None => refuse(22, 0),
        }
    }
}
