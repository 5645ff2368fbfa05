// Knows desk values with a list of calls each: next tickets near their end, entries open, and values that are refused.
//
// CONSOLE.md has a request that sets a next ticket, and none that sets any other part of a desk value. So this family
// stays inside the program, which compares desk and ledger on it (`beside`).

use crate::desk::{Desk, Entry, Session, MOST_SLOTS, SLOT_OCTETS, USED_UP};
use crate::dice::Dice;
use crate::generator::lists::calls_by_chance;
use crate::generator::{grammar, input_by_chance, source_inputs};
use crate::ledger::Ledger;

/// A desk value with its pool, the number that every call on it is refused with, if any, and the calls.
#[derive(Clone, Debug, PartialEq, Eq)]
pub struct DeskCase {
    pub desk: Desk,
    pub pool: Vec<u8>,
    pub refused: Option<u32>,
    pub calls: Vec<String>,
}

/// Next tickets: used up, nearly so, and low ones.
const NEXT_TICKETS: [u32; 10] =
    [USED_UP, USED_UP, USED_UP - 1, USED_UP - 1, USED_UP - 2, USED_UP - 5, USED_UP - 45, 1, 2, 1_000];

/// Ticks of a desk: the first ones, some later, and the last.
const TICKS: [u32; 8] = [0, 1, 599, 600, 601, 100_000, u32::MAX - 600, u32::MAX];

/// Desk values without end; one in six is not sound, one in twelve has another pool than its own.
pub fn desks(seed: u64) -> impl Iterator<Item = DeskCase> {
    let sources = source_inputs();
    let mut dice = Dice::new(seed);
    std::iter::repeat_with(move || {
        let (desk, pool) = sound_desk(&mut dice, &sources);
        let calls = calls_by_chance(&mut dice, ledger_of(&desk, &pool), pool.len(), &sources);
        let case = DeskCase { desk, pool, refused: None, calls };
        match dice.below(12) {
            0 => with_another_pool(&mut dice, case),
            1 | 2 => unsound(&mut dice, case),
            _ => case,
        }
    })
}

/// The ledger at the same value: the open tickets with the octets that the pool holds for them.
pub fn ledger_of(desk: &Desk, pool: &[u8]) -> Ledger {
    let mut ledger = Ledger { next_ticket: desk.next_ticket, tick: desk.tick, ..Ledger::new(desk.slots) };
    for (slot, entry) in desk.entries.iter().enumerate() {
        if let Entry::Open(session) = entry {
            let octets = pool[slot * SLOT_OCTETS..][..session.held].to_vec();
            ledger.open_tickets.insert(session.ticket, octets);
            ledger.ticks.insert(session.ticket, session.tick);
        }
    }
    ledger
}

/// A sound desk, with some of its slots open, and its pool.
fn sound_desk(dice: &mut Dice, sources: &[Vec<u8>]) -> (Desk, Vec<u8>) {
    let slots = *dice.pick(&[1, 1, 2, 2, 3, 5, 8, 40]);
    let (_, mut desk) = Desk::new(slots as u64);
    desk.next_ticket = *dice.pick(&NEXT_TICKETS);
    desk.tick = *dice.pick(&TICKS);
    let mut pool = vec![dice.octet(); slots * SLOT_OCTETS];
    let open_share = *dice.pick(&[0, 1, 3, 4, 4]);
    for slot in 0..slots {
        if dice.below(4) < open_share {
            if let Some(ticket) = unused_ticket(dice, &desk) {
                let held = fill(dice, &mut pool[slot * SLOT_OCTETS..][..SLOT_OCTETS], sources);
                let behind = *dice.pick(&[0, 0, 1, 300, 598, 599, 600, 601, 5_000]);
                let tick = desk.tick.saturating_sub(behind);
                desk.entries[slot] = Entry::Open(Session { ticket, tram: dice.octet().into(), held, tick });
            }
        }
    }
    (desk, pool)
}

/// A ticket below the next one that no entry has, among the newest, the oldest or any; none where the desk has none left.
fn unused_ticket(dice: &mut Dice, desk: &Desk) -> Option<u32> {
    let last = desk.next_ticket - 1;
    let newest = (0..60).map(|back| last.saturating_sub(back));
    let wanted = match dice.below(3) {
        0 => dice.below(last as usize + 1) as u32,
        1 => 1,
        _ => last.saturating_sub(dice.below(50) as u32),
    };
    let is_unused = |ticket: &u32| (1..=last).contains(ticket) && !is_open(desk, *ticket);
    std::iter::once(wanted).chain(newest).find(is_unused)
}

/// Whether an entry has this ticket.
fn is_open(desk: &Desk, ticket: u32) -> bool {
    desk.entries.iter().any(|entry| matches!(entry, Entry::Open(session) if session.ticket == ticket))
}

/// Puts an input or a part of it at the start of a slot, and answers how many octets the slot is to hold.
fn fill(dice: &mut Dice, slot: &mut [u8], sources: &[Vec<u8>]) -> usize {
    let input = match dice.once_in(2) {
        true => grammar::input(dice),
        false => input_by_chance(dice, sources),
    };
    let length = input.len().min(SLOT_OCTETS);
    slot[..length].copy_from_slice(&input[..length]);
    *dice.pick(&[length, length, length, length / 2, 0, SLOT_OCTETS - 1, SLOT_OCTETS])
}

/// The case with a pool of another length, so that every call is refused with 24.
fn with_another_pool(dice: &mut Dice, mut case: DeskCase) -> DeskCase {
    let length = case.pool.len();
    let other = *dice.pick(&[0, 1, length - SLOT_OCTETS, length - 1, length + 1, length + SLOT_OCTETS]);
    case.pool.resize(other, 0);
    DeskCase { refused: Some(24), ..case }
}

/// The case with one rule of a sound desk broken, so that every call is refused with 25, with any pool.
fn unsound(dice: &mut Dice, mut case: DeskCase) -> DeskCase {
    break_one_rule(dice, &mut case.desk);
    match dice.below(3) {
        0 => DeskCase { refused: Some(25), ..with_another_pool(dice, case) },
        _ => DeskCase { refused: Some(25), ..case },
    }
}

/// Breaks one rule; each arm is one of the papers' words for sound.
fn break_one_rule(dice: &mut Dice, desk: &mut Desk) {
    let next_ticket = desk.next_ticket;
    let tick = desk.tick;
    let open = |ticket, held| Entry::Open(Session { ticket, tram: 0, held, tick });
    match dice.below(11) {
        0 => desk.slots = 0,
        1 => desk.slots = *dice.pick(&[41, 42, usize::MAX]),
        2 => {
            desk.slots = desk.slots.min(MOST_SLOTS - 1);
            let past = dice.between(desk.slots, MOST_SLOTS - 1);
            desk.entries[past] = open(next_ticket.saturating_sub(1), 0);
        }
        3 => {
            desk.slots = desk.slots.max(2);
            let ticket = next_ticket.saturating_sub(1);
            (desk.entries[0], desk.entries[1]) = (open(ticket, 0), open(ticket, 1));
        }
        4 => desk.entries[0] = open(0, 0),
        5 => desk.entries[0] = open(next_ticket, 0),
        6 => desk.entries[0] = open(next_ticket.max(USED_UP - 1), 0),
        7 => desk.entries[0] = open(next_ticket.saturating_sub(1), SLOT_OCTETS + 1),
        8 | 9 => {
            (desk.tick, desk.next_ticket) = (tick.min(u32::MAX - 1), next_ticket.max(2));
            let ahead = desk.tick + 1;
            desk.entries[0] = Entry::Open(Session { ticket: desk.next_ticket - 1, tram: 0, held: 0, tick: ahead });
        }
        _ => (desk.entries, desk.next_ticket) = ([Entry::Free; MOST_SLOTS], 0),
    }
}
