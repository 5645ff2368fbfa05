// Knows lists of desk calls: each is a run of request lines that begins with `desk SLOTS POOL`.

use std::collections::BTreeMap;

use crate::dice::Dice;
use crate::examples::{desk_examples, m_with, CARD_M};
use crate::generator::{grammar, input_by_chance, source_inputs};
use crate::ledger::Ledger;
use crate::refusal::MOST_OCTETS;
use crate::requests::{add_line, add_line_at, at_tick_0};

/// Next tickets that a list starts at: used up, nearly so, and low ones.
const NEXT_TICKETS: [u32; 7] = [u32::MAX, u32::MAX, u32::MAX - 1, u32::MAX - 2, u32::MAX - 5, 2, 1_000];

/// Call lists without end: the paper's examples, lists by hand, then lists by chance.
pub fn lists(seed: u64) -> impl Iterator<Item = Vec<String>> {
    let sources = source_inputs();
    let examples = desk_examples().into_iter();
    let examples = examples.map(|e| e.steps.into_iter().map(|(request, _)| request).collect());
    let mut dice = Dice::new(seed);
    let by_chance = std::iter::repeat_with(move || list_by_chance(&mut dice, &sources));
    examples.chain(by_hand()).chain(by_chance)
}

/// The lists made by hand.
pub fn by_hand() -> Vec<Vec<String>> {
    let mut lists = vec![
        octet_by_octet(),
        chunks_to_the_border(),
        empty_chunks(),
        full_desk(),
        slots_used_again(),
        two_side_by_side(),
        identifiers_like_tickets(),
        releases_and_their_zeros(),
        tickets_near_their_end(),
        idle_at_600(),
        late_clocks(),
        lowest_ticket_not_slot(),
        looks_wake_nobody(),
        ticks_near_their_end(),
        last_tick(),
        full_desk_reclaimed(),
        no_ticket_for_an_idle_slot(),
    ];
    for (slots, pool) in [(1, 16_384), (2, 32_768), (40, 655_360)] {
        lists.push(every_call_on_every_ticket(slots, pool));
    }
    for (slots, pool) in [(0, 0), (0, 16_384), (41, 655_360), (100, 0), (4_294_967_295, 16_384)] {
        lists.push(every_call_on_every_ticket(slots, pool));
    }
    for (slots, pool) in [(1, 0), (1, 16_383), (1, 16_385), (2, 16_384), (2, 32_769), (40, 655_359)] {
        lists.push(every_call_on_every_ticket(slots, pool));
    }
    for (slots, pool) in [(1 << 32, 0), ((1 << 32) + 1, 16_384), ((1 << 32) + 2, 32_768)] {
        lists.push(every_call_on_every_ticket(slots, pool));
    }
    lists
}

/// Request lines as owned strings, at tick 0 where an opening or an add has none.
fn owned(lines: &[&str]) -> Vec<String> {
    lines.iter().map(|line| at_tick_0(line)).collect()
}

/// The three calls that change nothing.
fn looks(ticket: u32) -> Vec<String> {
    vec![format!("held {ticket}"), format!("show {ticket}"), format!("check {ticket}")]
}

/// Each call on tickets open, closed, not yet given out, 0 and the largest; identifier 0 everywhere.
fn every_call_on_every_ticket(slots: u64, pool: usize) -> Vec<String> {
    let mut list = vec![format!("desk {slots} {pool}")];
    list.extend(owned(&["held 1", "open 0", "add 1 61", "open 0", "open 0", "release 2", "open 0"]));
    for ticket in [1, 2, 3, 4, 5, 0, 4_294_967_294, 4_294_967_295] {
        list.extend(looks(ticket));
        list.push(add_line(ticket, b"bc"));
        list.push(add_line(ticket, b""));
        list.extend(looks(ticket));
        list.push(format!("release {ticket}"));
        list.extend(looks(ticket));
        list.push(format!("release {ticket}"));
        list.push(add_line(ticket, b"d"));
    }
    list.extend(owned(&["open 4294967295", "open 0", "pool 0 4", "pool 0 0"]));
    list
}

/// Card M an octet at a time, judged after each.
fn octet_by_octet() -> Vec<String> {
    let mut list = owned(&["desk 1 16384", "open 0"]);
    for octet in CARD_M {
        list.push(add_line(1, &[*octet]));
        list.push("check 1".to_string());
    }
    list.extend(owned(&["show 1", "held 1", "add 1 0d", "check 1", "show 1"]));
    list
}

/// Chunks that end one before, on and past 16,384 octets.
fn chunks_to_the_border() -> Vec<String> {
    let mut list = owned(&["desk 3 49152", "open 1", "open 2", "open 3"]);
    let card = m_with(&[b"NOTE:".to_vec(), vec![b'a'; MOST_OCTETS - 50]].concat());
    list.push(add_line(2, &card[..MOST_OCTETS - 1]));
    list.push(add_line(2, b"\nx"));
    list.extend(looks(2));
    list.push(add_line(2, b"\n"));
    list.extend(looks(2));
    list.extend([add_line(2, b"x"), add_line(2, b""), add_line(2, &card)]);
    list.extend([add_line(1, &[b'x'; MOST_OCTETS + 1]), add_line(1, &[b'x'; 60_000])]);
    list.extend([add_line(1, &[b'y'; MOST_OCTETS]), add_line(1, b"z")]);
    list.extend(looks(1));
    list.extend([add_line(3, b"abc"), add_line(3, &[b'd'; MOST_OCTETS - 2])]);
    list.push(add_line(3, &[b'd'; MOST_OCTETS - 3]));
    list.extend(owned(&["held 3", "pool 16380 8", "pool 32764 8", "pool 49144 8"]));
    list.extend(owned(&["release 2", "pool 16380 8", "pool 32764 8", "pool 16384 16384", "held 3"]));
    list
}

/// Empty chunks on an empty, a partly filled, a released ticket and one never given out.
fn empty_chunks() -> Vec<String> {
    owned(&[
        "desk 2 32768", "open 5", "add 1 -", "held 1", "show 1", "check 1", "add 1 41", "add 1 -", "held 1",
        "show 1", "check 1", "release 1", "add 1 -", "held 1", "show 1", "add 2 -", "add 0 -", "pool 0 2",
    ])
}

/// A desk of 40 slots, filled, emptied in part and filled again.
fn full_desk() -> Vec<String> {
    let mut list = owned(&["desk 40 655360"]);
    for tram in 0..41u32 {
        list.push(format!("open {} 0", tram % 3));
    }
    for ticket in [1, 20, 40] {
        list.push(add_line(ticket, format!("ticket {ticket}").as_bytes()));
    }
    list.extend(owned(&["open 0", "release 20", "release 3", "open 0", "open 0", "open 0", "show 20"]));
    list.extend([add_line(41, b"low"), add_line(42, b"high")]);
    list.extend(owned(&["pool 32768 4", "pool 311296 5", "pool 638976 10", "pool 655359 1", "show 40"]));
    list
}

/// A slot used again keeps nothing of its last session, and the old ticket stays closed.
fn slots_used_again() -> Vec<String> {
    let mut list = owned(&["desk 1 16384", "open 9"]);
    for ticket in 1..6u32 {
        list.push(add_line(ticket, CARD_M));
        list.extend(looks(ticket));
        list.push("open 9 0".to_string());
        list.push(format!("release {ticket}"));
        list.extend(looks(ticket));
        list.extend(owned(&["pool 0 50", "open 9"]));
        list.extend(looks(ticket + 1));
        list.extend([add_line(ticket, b"late"), add_line(ticket + 1, &CARD_M[..20])]);
        list.extend(looks(ticket + 1));
        list.extend([add_line(ticket + 1, &CARD_M[20..])]);
        list.extend(looks(ticket + 1));
        list.push(format!("release {}", ticket + 1));
        list.push("open 9 0".to_string());
        list.push(format!("release {}", ticket + 2));
    }
    list
}

/// Two sessions with the same identifier, fed by turns with different cards.
fn two_side_by_side() -> Vec<String> {
    let mut list = owned(&["desk 2 32768", "open 0", "open 0"]);
    let other = m_with(b"N:x");
    for at in 0..CARD_M.len() {
        list.push(add_line(1, &CARD_M[at..at + 1]));
        list.push(add_line(2, &other[at..at + 1]));
    }
    list.push(add_line(2, &other[CARD_M.len()..]));
    list.extend([looks(1), looks(2)].concat());
    list.extend(owned(&["pool 0 44", "pool 16384 49", "release 1", "show 2", "check 2", "pool 16384 49"]));
    list
}

/// Each session's identifier is another one's ticket.
fn identifiers_like_tickets() -> Vec<String> {
    let mut list = owned(&["desk 4 65536", "open 4", "open 3", "open 2", "open 9"]);
    for ticket in [1, 2, 3, 4, 9] {
        list.push(add_line(ticket, format!("ticket {ticket}").as_bytes()));
    }
    list.extend(owned(&["release 4", "release 9", "open 1", "add 5 61", "release 3", "add 2 62"]));
    list.extend((1..=9).flat_map(looks));
    list
}

/// Release sets all 16,384 octets of its slot to 0 and no other; open leaves the pool as it is.
fn releases_and_their_zeros() -> Vec<String> {
    owned(&[
        "desk 3 49152", "pool 0 49152", "open 0", "open 0", "open 0", "add 2 616263", "pool 16383 6",
        "release 2", "pool 0 49152", "open 0", "pool 16383 3", "release 1", "pool 16382 3", "release 3",
        "pool 0 49152", "release 4", "held 4",
    ])
}

/// An opening 599, 600 and 601 ticks after a session's opening and after its last accepted add.
fn idle_at_600() -> Vec<String> {
    owned(&[
        "desk 1 16384", "open 7 100", "open 7 699", "held 1", "open 7 700", "add 1 700 61", "show 1", "release 1",
        "add 2 700 6162", "open 7 1299", "add 2 1200 63", "open 7 1799", "show 2", "open 7 1801", "show 3", "pool 0 8",
        "held 2", "add 3 1801 64", "pool 0 8", "open 7 2400", "open 7 2401", "check 3", "held 4",
    ])
}

/// A tick lower than the highest seen counts as that; a refused call moves no tick.
fn late_clocks() -> Vec<String> {
    owned(&[
        "desk 2 32768", "open 1 1000", "open 2 10", "add 1 5 61", "open 3 1599", "add 9 5000 61", "open 3 1599",
        "add 1 5000 -", "open 3 5000", "held 2", "open 4 0", "open 4 5599", "open 4 5600", "held 1", "held 3", "held 4",
    ])
}

/// The lowest ticket is taken, not the lowest slot nor the longest idle.
fn lowest_ticket_not_slot() -> Vec<String> {
    owned(&[
        "desk 3 49152", "open 0 0", "open 0 0", "open 0 0", "add 2 0 6262", "add 3 0 636363", "release 1", "open 0 1",
        "add 4 1 64", "add 2 5 62", "open 0 605", "held 2", "held 3", "pool 16384 4", "open 0 605", "held 3", "pool 32768 4",
        "open 0 605", "held 4", "pool 0 4", "open 0 605",
    ])
}

/// Judge, show, held and release keep nobody awake and move no tick; an empty add does.
fn looks_wake_nobody() -> Vec<String> {
    owned(&[
        "desk 2 32768", "open 0 0", "open 0 0", "add 1 10 61", "check 1", "show 1", "held 1", "open 0 609", "held 2",
        "add 3 609 -", "check 3", "open 0 610", "held 1", "held 3", "release 3", "open 0 610", "open 0 1209", "open 0 1210",
    ])
}

/// Ticks at and near 4,294,967,295: they do not wrap.
fn ticks_near_their_end() -> Vec<String> {
    owned(&[
        "desk 1 16384", "open 0 4294966694", "open 0 4294967293", "open 0 4294967294", "add 2 4294967295 61",
        "open 0 0", "open 0 4294967295", "open 0 599", "show 2",
    ])
}

/// A session 600 behind the last tick, and numbers past it, which are no ticks.
fn last_tick() -> Vec<String> {
    owned(&[
        "desk 1 16384", "open 0 4294966695", "open 0 4294967294", "open 0 4294967295", "held 1", "open 0 4294967296",
        "add 2 4294967296 61", "held 2",
    ])
}

/// Forty sessions, all idle but some, reclaimed in the order of their tickets.
fn full_desk_reclaimed() -> Vec<String> {
    let mut list = owned(&["desk 40 655360"]);
    for tram in 0..40u32 {
        list.push(format!("open {tram} {tram}"));
    }
    for ticket in [1, 7, 40] {
        list.push(add_line_at(ticket, 300, b"awake"));
    }
    for tick in [599, 600, 601, 601, 602, 700, 700, 899, 900] {
        list.push(format!("open 0 {tick}"));
    }
    list.extend((1..=9).flat_map(looks));
    list.extend(owned(&["pool 0 8", "pool 16384 8", "pool 98304 8", "held 41", "add 41 900 61", "pool 16384 8"]));
    list
}

/// With tickets used up nothing is reclaimed.
fn no_ticket_for_an_idle_slot() -> Vec<String> {
    owned(&[
        "desk 1 16384", "open 0 0", "add 1 0 61", "next 4294967295", "open 0 600", "show 1", "next 4294967294", "open 0 600",
        "show 1", "held 4294967294", "open 0 1200", "held 4294967294",
    ])
}

/// What a list by chance has done so far: the ledger tells which tickets are open.
struct Caller<'a> {
    dice: &'a mut Dice,
    ledger: Ledger,
    pool: usize,
    large: bool,
    tick: u32,
    plans: BTreeMap<u32, Vec<u8>>,
    list: Vec<String>,
}

/// Next tickets set: used up, the last one, 0, one that is open, and below one that is open.
fn tickets_near_their_end() -> Vec<String> {
    owned(&[
        "desk 2 32768", "next 4294967295", "open 0", "held 1", "next 4294967294", "open 7", "open 7",
        "add 4294967294 61", "held 4294967294", "next 4294967294", "held 4294967294", "next 4294967295",
        "held 4294967294", "release 4294967294", "open 0", "next 0", "open 0", "held 1", "next 1", "open 0",
        "open 0", "open 0", "next 2", "held 1", "check 2", "show 1", "next 3", "release 1", "open 0",
        "held 3", "next 4294967296", "held 3",
    ])
}

/// A list by chance, mostly on a small proper desk.
fn list_by_chance(dice: &mut Dice, sources: &[Vec<u8>]) -> Vec<String> {
    let slots = *dice.pick(&[1, 1, 2, 2, 2, 3, 3, 4, 5, 8, 40]);
    let (asked_slots, pool) = match dice.below(12) {
        0 => (*dice.pick(&[0, 41, 64, 1000]), slots * MOST_OCTETS),
        1 => (slots, *dice.pick(&[0, 1, slots * MOST_OCTETS - 1, (slots - 1) * MOST_OCTETS])),
        _ => (slots, slots * MOST_OCTETS),
    };
    let mut list = vec![format!("desk {asked_slots} {pool}")];
    let mut ledger = Ledger::new(slots);
    if dice.once_in(4) {
        ledger.next_ticket = *dice.pick(&NEXT_TICKETS);
        list.push(format!("next {}", ledger.next_ticket));
    }
    list.extend(calls_by_chance(dice, ledger, pool, sources));
    list
}

/// Calls by chance on a desk of this ledger and so many octets of pool.
pub fn calls_by_chance(dice: &mut Dice, ledger: Ledger, pool: usize, sources: &[Vec<u8>]) -> Vec<String> {
    let large = dice.once_in(8);
    let calls = dice.between(5, 60);
    let tick = ledger.tick;
    let mut caller = Caller { dice, ledger, pool, large, tick, plans: BTreeMap::new(), list: Vec::new() };
    for _ in 0..calls {
        caller.call(sources);
    }
    caller.finish();
    caller.list
}

impl Caller<'_> {
    /// One call of any sort.
    fn call(&mut self, sources: &[Vec<u8>]) {
        let ticket = self.ticket();
        match self.dice.below(20) {
            0..=3 => self.open(sources),
            4..=11 => self.add(ticket),
            12 | 13 => self.list.push(format!("check {ticket}")),
            14 | 15 => self.list.push(format!("show {ticket}")),
            16 | 17 => self.list.push(format!("held {ticket}")),
            18 => self.look_at_pool(),
            _ => {
                self.list.push(format!("release {ticket}"));
                self.ledger.release(ticket).ok();
            }
        }
    }

    /// A ticket: mostly an open one, else a closed one, one not yet given out, or an odd one.
    fn ticket(&mut self) -> u32 {
        let open: Vec<u32> = self.ledger.open_tickets.keys().copied().collect();
        let next = self.ledger.next_ticket;
        if open.is_empty() || self.dice.once_in(7) {
            let closed = self.dice.between(1, next as usize) as u32;
            return *self.dice.pick(&[closed, closed, next, next.wrapping_add(1), 0, u32::MAX, u32::MAX - 1]);
        }
        *self.dice.pick(&open)
    }

    /// The host's tick: mostly a little later, at times by 599 to 601, a late one, or one near the end.
    fn next_tick(&mut self) -> u32 {
        let now = self.tick;
        let step = self.dice.below(300) as u32;
        let later = [now, now.saturating_add(step), now.saturating_add(599), now.saturating_add(600), now.saturating_add(601)];
        if self.dice.once_in(9) {
            return *self.dice.pick(&[0, now.saturating_sub(1), now.saturating_sub(600), now / 2]);
        }
        if self.dice.once_in(60) {
            self.tick = *self.dice.pick(&[u32::MAX, u32::MAX - 1, u32::MAX - 600, u32::MAX - 601]);
            return self.tick;
        }
        self.tick = match self.dice.below(5) {
            0 => *self.dice.pick(&later),
            1 => later[0],
            _ => now.saturating_add(step / 10),
        };
        self.tick
    }

    /// Opens with an identifier that others have too, and plans an input for the session.
    fn open(&mut self, sources: &[Vec<u8>]) {
        let tram = *self.dice.pick(&[0, 0, 1, 7, u32::MAX]);
        let tick = self.next_tick();
        self.list.push(format!("open {tram} {tick}"));
        if let Ok(ticket) = self.ledger.open(tick) {
            let plan = match self.dice.once_in(2) {
                true => grammar::input(self.dice),
                false => input_by_chance(self.dice, sources),
            };
            self.plans.insert(ticket, plan);
        }
    }

    /// Adds the next piece of the session's plan, some noise, or much at once.
    fn add(&mut self, ticket: u32) {
        let held = self.ledger.held(ticket).unwrap_or(0);
        let chunk = if self.large && self.dice.once_in(2) {
            let left = MOST_OCTETS - held;
            let length = *self.dice.pick(&[left, left + 1, left.saturating_sub(1), 5_000, MOST_OCTETS]);
            let filler = self.dice.octet();
            vec![filler; length]
        } else if self.dice.once_in(8) {
            let length = self.dice.below(30);
            (0..length).map(|_| self.dice.octet()).collect()
        } else {
            self.next_piece(ticket)
        };
        let tick = self.next_tick();
        self.list.push(add_line_at(ticket, tick, &chunk));
        self.ledger.add(ticket, &chunk, tick).ok();
    }

    /// The next piece of the plan, short or all that is left; nothing once it is used up.
    fn next_piece(&mut self, ticket: u32) -> Vec<u8> {
        let Some(plan) = self.plans.get_mut(&ticket) else {
            return b"piece".to_vec();
        };
        let most = plan.len();
        let length = *self.dice.pick(&[0, 1, 10, most / 2, most, most, most]);
        plan.drain(..length.min(most)).collect()
    }

    /// A short part of the pool near the start or the end of a slot.
    fn look_at_pool(&mut self) {
        let slot = self.dice.below(self.ledger.slots + 1) * MOST_OCTETS;
        let from = (slot + self.dice.below(40)).saturating_sub(20);
        let count = self.dice.below(48).min(self.pool.saturating_sub(from));
        self.list.push(format!("pool {from} {count}"));
    }

    /// Looks at every open ticket and at the start of every slot.
    fn finish(&mut self) {
        for ticket in self.ledger.open_tickets.keys().take(6) {
            self.list.extend(looks(*ticket));
        }
        for slot in 0..self.ledger.slots.min(6) {
            self.list.push(format!("pool {} 24", slot * MOST_OCTETS));
        }
    }
}
