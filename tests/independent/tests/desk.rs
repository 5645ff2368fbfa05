// Knows both sides of every border of the desk, and that desk and ledger agree on every list of calls.

use independent::desk::{Desk, Entry, Session, SLOT_OCTETS, USED_UP};
use independent::dice::Dice;
use independent::examples::CARD_M;
use independent::ledger::Ledger;
use independent::refusal::Refusal;

/// A refusal with place 0.
fn no<T>(number: u32) -> Result<T, Refusal> {
    Err(Refusal { number, place: 0 })
}

/// A fresh desk with a pool of octets 165.
fn fresh(slots: usize) -> (Desk, Vec<u8>) {
    let (answer, desk) = Desk::new(slots as u64);
    assert_eq!(answer, Ok(0));
    (desk, vec![165; slots * SLOT_OCTETS])
}

/// An open entry with this ticket and so many octets held.
fn entry(ticket: u32, held: usize) -> Entry {
    Entry::Open(Session { ticket, tram: 0, held, tick: 0 })
}

#[test]
fn new_desks() {
    for slots in [1, 2, 39, 40] {
        let (answer, desk) = Desk::new(slots);
        assert_eq!((answer, desk.slots as u64, desk.next_ticket), (Ok(0), slots, 1));
        assert!(desk.is_sound() && desk.entries.iter().all(|entry| *entry == Entry::Free));
    }
    for slots in [0, 41, 42, 1 << 32, (1 << 32) + 1, u64::MAX] {
        let (answer, desk) = Desk::new(slots);
        assert_eq!((answer, desk.slots, desk.next_ticket), (no(26), 0, 1));
        assert_eq!(desk.open(&mut [], 0, 0), (no(25), desk));
        assert_eq!(desk.held(&[], 1), no(25));
    }
}

#[test]
fn soundness() {
    let (desk, _) = fresh(2);
    let changed = |change: fn(&mut Desk)| {
        let mut changed = desk;
        change(&mut changed);
        changed.is_sound()
    };
    assert!(changed(|_| ()));
    assert!(!changed(|desk| desk.slots = 0));
    assert!(changed(|desk| desk.slots = 40));
    assert!(!changed(|desk| desk.slots = 41));
    assert!(!changed(|desk| desk.next_ticket = 0));
    assert!(changed(|desk| desk.next_ticket = USED_UP));
    assert!(!changed(|desk| desk.entries[0] = entry(1, 0)));
    assert!(changed(|desk| (desk.entries[0], desk.next_ticket) = (entry(1, 0), 2)));
    assert!(!changed(|desk| (desk.entries[0], desk.next_ticket) = (entry(0, 0), 2)));
    assert!(changed(|desk| (desk.entries[1], desk.next_ticket) = (entry(1, 16_384), 2)));
    assert!(!changed(|desk| (desk.entries[1], desk.next_ticket) = (entry(1, 16_385), 2)));
    assert!(!changed(|desk| (desk.entries[2], desk.next_ticket) = (entry(1, 0), 2)));
    assert!(!changed(|desk| (desk.entries[39], desk.next_ticket) = (entry(1, 0), 2)));
    assert!(!changed(|desk| {
        (desk.entries[0], desk.entries[1], desk.next_ticket) = (entry(1, 0), entry(1, 0), 3)
    }));
    assert!(changed(|desk| {
        (desk.entries[0], desk.entries[1], desk.next_ticket) = (entry(2, 0), entry(1, 0), 3)
    }));
}

#[test]
fn every_call_checks_25_before_24_before_22() {
    let (sound, mut pool) = fresh(2);
    let mut unsound = sound;
    unsound.next_ticket = 0;
    for (desk, octets, number) in
        [(unsound, 0, 25), (sound, 16_384, 24), (sound, 32_769, 24), (sound, 32_768, 22)]
    {
        pool.resize(octets, 165);
        let before = pool.clone();
        assert_eq!(desk.add(&mut pool, 1, b"a", 0), (no(number), desk));
        assert_eq!(desk.release(&mut pool, 1), (no(number), desk));
        assert_eq!(desk.judge(&pool, 1), no(number));
        assert_eq!(desk.held(&pool, 1), no(number));
        assert_eq!(desk.show(&pool, 1), b"");
        if number != 22 {
            assert_eq!(desk.open(&mut pool, 1, 0), (no(number), desk));
        }
        assert_eq!(pool, before);
    }
}

#[test]
fn opening_with_no_ticket_or_no_slot_left() {
    let (mut desk, mut pool) = fresh(1);
    desk.next_ticket = USED_UP - 1;
    let mut ledger = Ledger { next_ticket: USED_UP - 1, ..Ledger::new(1) };
    let (answer, mut full) = desk.open(&mut pool, 0, 0);
    assert_eq!((answer, ledger.open(0)), (Ok(USED_UP - 1), Ok(USED_UP - 1)));
    // Tickets used up and no slot free: 21 comes before 20.
    assert_eq!((full.open(&mut pool, 0, 0), ledger.open(0)), ((no(21), full), no(21)));
    full.next_ticket = 4_000_000_000;
    full.entries[0] = entry(7, 0);
    assert_eq!(full.open(&mut pool, 0, 0), (no(20), full));
    // Used up with a free slot.
    desk.next_ticket = USED_UP;
    assert_eq!(desk.open(&mut pool, 0, 0), (no(21), desk));
}

#[test]
fn open_takes_the_lowest_free_slot_and_leaves_the_pool() {
    let (mut desk, mut pool) = fresh(3);
    for ticket in 1..=3 {
        let (answer, next) = desk.open(&mut pool, 9, 0);
        assert_eq!(answer, Ok(ticket));
        desk = next;
    }
    let (_, desk) = desk.release(&mut pool.clone(), 2);
    let (answer, desk) = desk.open(&mut pool, 9, 0);
    assert_eq!((answer, desk.entries[1]), (Ok(4), Entry::Open(Session { ticket: 4, tram: 9, held: 0, tick: 0 })));
    assert!(pool.iter().all(|&octet| octet == 165));
}

#[test]
fn add_fills_a_slot_to_its_last_octet() {
    let (desk, mut pool) = fresh(3);
    let (_, desk) = desk.open(&mut pool, 0, 0);
    let (_, desk) = desk.open(&mut pool, 0, 0);
    let (answer, desk) = desk.add(&mut pool, 2, &[1; 16_383], 0);
    assert_eq!(answer, Ok(16_383));
    assert_eq!(desk.add(&mut pool, 2, b"ab", 0), (Err(Refusal { number: 23, place: 16_383 }), desk));
    let (answer, desk) = desk.add(&mut pool, 2, b"z", 0);
    assert_eq!(answer, Ok(16_384));
    assert_eq!(desk.add(&mut pool, 2, b"z", 0), (Err(Refusal { number: 23, place: 16_384 }), desk));
    assert_eq!(desk.add(&mut pool, 2, b"", 0), (Ok(16_384), desk));
    assert_eq!((pool[16_383], pool[16_384], pool[32_767], pool[32_768]), (165, 1, b'z', 165));
    assert_eq!(desk.add(&mut pool, 1, &[2; 16_385], 0), (Err(Refusal { number: 23, place: 0 }), desk));
    let (answer, next) = desk.release(&mut pool, 2);
    assert_eq!((answer, next.entries[1], next.next_ticket), (Ok(0), Entry::Free, 3));
    assert_eq!((pool[16_383], pool[32_768]), (165, 165));
    assert!(pool[16_384..32_768].iter().all(|&octet| octet == 0));
}

#[test]
fn show_hands_back_that_part_of_the_pool_itself() {
    let (desk, mut pool) = fresh(2);
    let (_, desk) = desk.open(&mut pool, 0, 0);
    let (_, desk) = desk.open(&mut pool, 0, 0);
    let (_, desk) = desk.add(&mut pool, 2, CARD_M, 0);
    assert_eq!(desk.show(&pool, 2), CARD_M);
    assert!(std::ptr::eq(desk.show(&pool, 2), &pool[16_384..16_384 + 43]));
    assert_eq!(desk.judge(&pool, 2).map(|counts| (counts.cards, counts.lines)), Ok((1, 4)));
    assert_eq!(desk.judge(&pool, 1), no(2));
}

/// One call of any sort on desk and ledger; both give the same answer and show the same octets.
fn same_call(dice: &mut Dice, desk: &mut Desk, ledger: &mut Ledger, pool: &mut [u8]) {
    let newest = ledger.next_ticket;
    let ticket = newest.wrapping_sub(dice.below(6) as u32);
    let chunk = vec![dice.octet(); *dice.pick(&[0, 1, 43, 8_192, 16_384, 16_385])];
    let tick = desk.tick.saturating_add(*dice.pick(&[0, 1, 100, 599, 600, 601])).saturating_sub(dice.below(50) as u32);
    let before = *desk;
    match dice.below(6) {
        0 | 1 => {
            let (answer, next) = before.open(pool, dice.octet().into(), tick);
            assert_eq!(answer, ledger.open(tick));
            *desk = next;
        }
        2 | 3 => {
            let (answer, next) = before.add(pool, ticket, &chunk, tick);
            assert_eq!(answer, ledger.add(ticket, &chunk, tick));
            *desk = next;
        }
        4 => {
            let (answer, next) = before.release(pool, ticket);
            assert_eq!(answer, ledger.release(ticket));
            *desk = next;
        }
        _ => assert_eq!(desk.judge(pool, ticket), ledger.judge(ticket)),
    }
    assert_eq!(desk.held(pool, ticket), ledger.held(ticket));
    assert_eq!(desk.show(pool, ticket), ledger.show(ticket));
    assert_eq!(desk.tick, ledger.tick);
    assert!(desk.is_sound());
}

#[test]
fn desk_and_ledger_agree_up_to_the_last_ticket() {
    let mut dice = Dice::new(9);
    for first in [1, USED_UP - 10, USED_UP - 1, USED_UP] {
        for slots in [1, 2, 3, 40] {
            let (mut desk, mut pool) = fresh(slots);
            let mut ledger = Ledger::new(slots);
            (desk.next_ticket, ledger.next_ticket) = (first, first);
            for _ in 0..150 {
                same_call(&mut dice, &mut desk, &mut ledger, &mut pool);
            }
        }
    }
}

#[test]
fn an_opening_takes_the_idle_slot_with_the_lowest_ticket() {
    let (desk, mut pool) = fresh(2);
    let (_, desk) = desk.open(&mut pool, 0, 100);
    let (_, desk) = desk.open(&mut pool, 0, 100);
    let (_, desk) = desk.add(&mut pool, 2, b"two", 101);
    let (_, desk) = desk.add(&mut pool, 1, b"one", 102);
    // 599 behind is not idle, and a refused opening moves no tick.
    assert_eq!(desk.open(&mut pool, 0, 700), (no(20), desk));
    assert_eq!(desk.tick, 102);
    // Ticket 2 is idle first; at 702 both are, and the lower ticket goes.
    assert_eq!(desk.open(&mut pool.clone(), 5, 701).1.entries[1], Entry::Open(Session { ticket: 3, tram: 5, held: 0, tick: 701 }));
    let (answer, next) = desk.open(&mut pool, 5, 702);
    assert_eq!((answer, next.entries[0]), (Ok(3), Entry::Open(Session { ticket: 3, tram: 5, held: 0, tick: 702 })));
    assert!(pool[..SLOT_OCTETS].iter().all(|&octet| octet == 0));
    assert_eq!((next.held(&pool, 1), next.show(&pool, 2)), (no(22), &b"two"[..]));
    // A lower tick counts as the highest.
    assert_eq!(next.add(&mut pool, 3, b"", 5).1.tick, 702);
}

#[test]
fn an_entry_ahead_of_its_desk_is_not_sound() {
    let (desk, mut pool) = fresh(1);
    let (_, mut desk) = desk.open(&mut pool, 0, 100);
    assert!(desk.is_sound());
    desk.tick = 99;
    assert_eq!(desk.open(&mut pool, 0, 800), (no(25), desk));
    assert_eq!(desk.held(&pool, 1), no(25));
}
