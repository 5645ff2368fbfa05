// Knows what the value of a line is held to, and the first octet from which no continuation could still satisfy it: continuations are tried.

use crate::kinds::{fits, fits_in};
use crate::properties::Edition;

/// What a value has to be: the word of BEGIN and END, the number of VERSION, or of a kind.
#[derive(Clone, Copy, Debug, PartialEq, Eq)]
pub enum Wanted {
    Vcard,
    Version,
    Kind(u32),
    /// N and ADR of edition two.
    Wider(u32),
}

impl Wanted {
    /// Whether the value is so.
    pub fn fits(self, value: &[u8]) -> bool {
        match self {
            Wanted::Vcard => value.eq_ignore_ascii_case(b"VCARD"),
            Wanted::Version => value == b"4.0",
            Wanted::Kind(kind) => fits(kind, value),
            Wanted::Wider(kind) => fits_in(Edition::Second, kind, value),
        }
    }

    /// The first octet of a value that doesn't fit with which no continuation fits any more; the value's length where it only ends too early.
    pub fn first_dead(self, value: &[u8]) -> usize {
        // What goes on after an octet goes on before it too, so the border is found by halves.
        let (mut alive, mut dead) = (0, value.len() + 1);
        while dead - alive > 1 {
            let middle = (alive + dead) / 2;
            match self.goes_on(&value[..middle]) {
                true => alive = middle,
                false => dead = middle,
            }
        }
        alive
    }

    /// Whether some continuation of these octets fits.
    pub fn goes_on(self, octets: &[u8]) -> bool {
        self.endings().iter().any(|ending| self.fits(&[octets, ending].concat()))
    }

    /// Continuations of which one fits wherever any fits: all tails of these rows. A test below tries far more continuations than these.
    fn endings(self) -> Vec<&'static [u8]> {
        let rows: &[&[u8]] = match self {
            Wanted::Vcard => &[b"VCARD"],
            Wanted::Version => &[b"4.0"],
            Wanted::Kind(0) => &[b""],
            Wanted::Kind(1 | 2 | 6 | 7) => &[b"n"],
            Wanted::Kind(3) => &[b"a:"],
            Wanted::Kind(4) | Wanted::Wider(4) => &[b"n;;;;", b"n;;;", b"n;;", b"n;", b"n"],
            Wanted::Kind(5) | Wanted::Wider(5) => &[b"n;;;;;;", b"n;;;;;", b"n;;;;", b"n;;;", b"n;;", b"n;", b"n"],
            Wanted::Kind(8) => &[b"1;a:"],
            Wanted::Kind(9) => &[b"00001101", b"00001130", b"0000", b"--01"],
            Wanted::Kind(10) => &[b"00001101T000000", b"00001130T000000"],
            Wanted::Kind(11) => &[b"+0000"],
            Wanted::Kind(_) | Wanted::Wider(_) => unreachable!("the documents have kinds 0 to 11, and 4 and 5 are wider in edition two"),
        };
        rows.iter().flat_map(|row| (0..=row.len()).map(|start| &row[start..])).collect()
    }
}

#[cfg(test)]
mod tests {
    use super::Wanted;

    /// The fixed values and every kind, each with octets that its rule tells apart, and how many of them an open value needs at most.
    fn all() -> Vec<(Wanted, &'static [u8], usize)> {
        let mut all: Vec<(Wanted, &'static [u8], usize)> =
            vec![(Wanted::Vcard, b"VvCcARDS ", 5), (Wanted::Version, b"4.0 3", 3)];
        all.extend([0, 1, 2, 6].map(|kind| (Wanted::Kind(kind), b"a\\,;nN:\xC3".as_slice(), 1)));
        all.push((Wanted::Kind(3), b"a1+:\\ \x7F\xC3", 2));
        all.push((Wanted::Kind(4), b"a\\,;n", 5));
        all.push((Wanted::Kind(5), b"\\,;n", 7));
        all.push((Wanted::Wider(4), b"a\\,;n", 5));
        all.push((Wanted::Wider(5), b"\\,;n", 7));
        all.push((Wanted::Kind(7), b"MuX;\\,n", 1));
        all.push((Wanted::Kind(8), b"1;a: \xC3", 4));
        all.push((Wanted::Kind(9), b"0123469-T+Z", 4));
        all.push((Wanted::Kind(11), b"0123569-+Z", 3));
        all
    }

    /// All rows of up to so many of these octets.
    fn rows(octets: &[u8], most: usize) -> Vec<Vec<u8>> {
        let mut rows = vec![Vec::new()];
        let mut last = rows.clone();
        for _ in 0..most {
            last = last
                .iter()
                .flat_map(|row| octets.iter().map(|&octet| [row.as_slice(), &[octet]].concat()))
                .collect();
            rows.extend(last.clone());
        }
        rows
    }

    #[test]
    fn no_other_continuation_does_more_than_these() {
        for (wanted, octets, need) in all() {
            let continuations = rows(octets, need);
            for start in rows(octets, 3) {
                let by_all =
                    continuations.iter().any(|ending| wanted.fits(&[start.as_slice(), ending].concat()));
                assert_eq!(wanted.goes_on(&start), by_all, "{wanted:?} {start:?}");
            }
        }
    }

    /// The good value with any octet put in at each place, or in the place of its own, and cut off there.
    fn changed(good: &[u8]) -> Vec<Vec<u8>> {
        let mut values = Vec::new();
        for place in 0..=good.len() {
            for octet in 0..=255 {
                values.push([&good[..place], &[octet], &good[place..]].concat());
                values.push([&good[..place], &[octet], good.get(place + 1..).unwrap_or(b"")].concat());
            }
            values.push(good[..place].to_vec());
        }
        values
    }

    /// Values with every month, day, hour, minute, second and offset near a limit; not all of them are good.
    fn dates() -> Vec<String> {
        let mut dates = Vec::new();
        for month in 1..=12 {
            dates.push(format!("1985-{month:02}"));
            for day in 1..=31 {
                dates.extend(
                    ["2023", "2024", "1900", "2000", "--"]
                        .map(|year| format!("{year}{month:02}{day:02}T235960-2359")),
                );
                dates.push(format!("---{day:02}T000000+0000"));
            }
        }
        for part in 0..=60 {
            dates.extend([
                format!("T{part:02}{part:02}{part:02}Z"),
                format!("T-{part:02}{part:02}"),
                format!("T--{part:02}"),
            ]);
            dates.extend([
                format!("T10{part:02}"),
                format!("T1022{part:02}"),
                format!("T10+00{part:02}"),
                format!("-{part:02}{part:02}"),
            ]);
        }
        dates
    }

    #[test]
    fn every_start_of_a_good_date_goes_on() {
        for wanted in [9, 10, 11].map(Wanted::Kind) {
            let dates = dates();
            let goods: Vec<&[u8]> =
                dates.iter().map(|date| date.as_bytes()).filter(|date| wanted.fits(date)).collect();
            assert!(goods.len() >= 20);
            for good in goods {
                assert!((0..=good.len()).all(|end| wanted.goes_on(&good[..end])), "{wanted:?} {good:?}");
            }
        }
    }

    #[test]
    fn the_dead_octet_is_the_first_after_which_nothing_goes_on() {
        let goods: [(Wanted, &[u8]); 11] = [
            (Wanted::Vcard, b"VCARD"),
            (Wanted::Version, b"4.0"),
            (Wanted::Kind(1), b"a\\,;b"),
            (Wanted::Kind(3), b"ab:c"),
            (Wanted::Kind(4), b"a;,;\\n;;"),
            (Wanted::Wider(4), b"a;,;\\n;;;b"),
            (Wanted::Wider(5), b";;;;;;a;;;;;;;;;\\n;;"),
            (Wanted::Kind(8), b"12;ab:c"),
            (Wanted::Kind(9), b"20240229T1059+0130"),
            (Wanted::Kind(10), b"20230430T235960Z"),
            (Wanted::Kind(11), b"-0530"),
        ];
        for (wanted, good) in goods {
            for value in changed(good).into_iter().filter(|value| !wanted.fits(value)) {
                let dead = wanted.first_dead(&value);
                assert!(wanted.goes_on(&value[..dead]), "{wanted:?} {value:?}");
                assert!(
                    (dead + 1..=value.len()).all(|end| !wanted.goes_on(&value[..end])),
                    "{wanted:?} {value:?}"
                );
            }
        }
    }
}
