// Knows how the desk requests of CONSOLE.md are answered from the plain ledger alone.

use crate::console::{number_line, verdict_line};
use crate::hex::word_of;
use crate::ledger::Ledger;
use crate::requests::{request_of, Request};

/// The ledger of the last `desk` request, if that asked for a fresh desk with a proper pool.
#[derive(Default)]
pub struct LedgerConsole {
    ledger: Option<Ledger>,
}

impl LedgerConsole {
    /// A console that begins with this ledger.
    pub fn at(ledger: Ledger) -> LedgerConsole {
        LedgerConsole { ledger: Some(ledger) }
    }

    /// The answer to one line, or nothing where the ledger has none: requests that aren't the
    /// desk's, a look at the pool, and every call without a fresh desk and a proper pool.
    pub fn answer(&mut self, line: &[u8]) -> Option<String> {
        match request_of(line)? {
            Request::Desk { slots, pool } => self.begin(slots, pool),
            Request::Next { ticket } => self.next(ticket),
            call => answer_call(self.ledger.as_mut()?, call),
        }
    }

    /// Starts anew; a fresh desk has 1 to 40 slots, a proper pool slots times 16,384 octets.
    fn begin(&mut self, slots: u64, pool: usize) -> Option<String> {
        let proper = (1..=40).contains(&slots) && pool as u64 == slots * 16_384;
        self.ledger = proper.then(|| Ledger::new(slots as usize));
        proper.then(|| "ok 0".to_string())
    }

    /// The next ticket becomes this one; a desk on which it is 0, or not above each open ticket, is not sound, and has no ledger.
    fn next(&mut self, ticket: u32) -> Option<String> {
        let mut ledger = self.ledger.take()?;
        if ticket == 0 || ledger.open_tickets.keys().any(|&open| open >= ticket) {
            return None;
        }
        ledger.next_ticket = ticket;
        self.ledger = Some(ledger);
        Some(format!("ok {ticket}"))
    }
}

/// The ledger's answer to a call.
fn answer_call(ledger: &mut Ledger, call: Request) -> Option<String> {
    match call {
        Request::Open { tram: _, tick } => Some(number_line(ledger.open(tick))),
        Request::Add { ticket, tick, chunk } => Some(number_line(ledger.add(ticket, &chunk, tick))),
        Request::Check { ticket } => Some(verdict_line(ledger.judge(ticket))),
        Request::Show { ticket } => Some(word_of(ledger.show(ticket))),
        Request::Held { ticket } => Some(number_line(ledger.held(ticket))),
        Request::Release { ticket } => Some(number_line(ledger.release(ticket))),
        _ => None,
    }
}
