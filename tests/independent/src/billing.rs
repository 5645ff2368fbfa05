// Knows the fewest physical lines that any folding of a logical line has, counted in two ways that cut nothing greedily.

/// The fewest parts of a line, the first of up to `most` octets and each later one of up to `most - 1`, cut between characters; by dynamic
/// programming from the line's end. A part may be empty, which never helps.
pub fn fewest_parts(line: &str, most: usize) -> usize {
    let cuts: Vec<usize> = line.char_indices().map(|(at, _)| at).chain([line.len()]).collect();
    let last = cuts.len() - 1;
    let mut least = vec![0; cuts.len()];
    for from in (0..last).rev() {
        let room = if from == 0 { most } else { most - 1 };
        let ends = (from + 1..=last).take_while(|&to| cuts[to] - cuts[from] <= room);
        least[from] = ends.map(|to| least[to] + 1).min().expect("a character fits");
    }
    least[0].max(1)
}

/// The same by trying every way to cut the line between characters: one bit of a number for each place.
pub fn fewest_of_all(line: &str, most: usize) -> usize {
    let places: Vec<usize> = line.char_indices().map(|(at, _)| at).skip(1).collect();
    let fits = |chosen: u32| {
        let cuts = places.iter().enumerate().filter(|(bit, _)| chosen >> bit & 1 == 1).map(|(_, at)| *at);
        let ends: Vec<usize> = [0].into_iter().chain(cuts).chain([line.len()]).collect();
        ends.windows(2).enumerate().all(|(part, pair)| pair[1] - pair[0] <= most - usize::from(part > 0))
    };
    (0..1u32 << places.len()).filter(|&chosen| fits(chosen)).map(|chosen| chosen.count_ones() as usize + 1).min().expect("a cut at every place fits")
}
