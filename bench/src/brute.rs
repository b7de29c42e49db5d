// Document 01 a second time, with 02's b), by listing: every sequence of a small plate is written out, those with a layer wholly under or over
// the plate are struck off the list, and the chosen one is picked by the definition. Errors come straight from the columns, voxel by voxel;
// no table is used, and a sheet only to be followed down. Table files, 02's c), are read by the places of their bytes, which the head alone
// settles, and not record by record; order files, 02's e), by a list of all that there are for a small plate. Shares no code with plain.rs.

use std::collections::BTreeMap;

pub struct Plate {
    pub height: i64,
    pub set: Vec<i64>,
    pub columns: Vec<Vec<u16>>,
    pub bound: u32,
}

/// Boundaries z0 < z1 < … < zn within the starts and the bound, and the sum of its layers' errors.
#[derive(Clone, Debug, PartialEq, Eq)]
pub struct Sequence {
    pub boundaries: Vec<i64>,
    pub error: u64,
}

impl Sequence {
    pub fn count(&self) -> usize {
        self.boundaries.len() - 1
    }

    pub fn end(&self) -> i64 {
        self.boundaries[self.count()]
    }

    /// From the last layer down.
    pub fn thicknesses(&self) -> Vec<i64> {
        self.boundaries.windows(2).rev().map(|pair| pair[1] - pair[0]).collect()
    }

    /// Whether no layer lies wholly under or over a plate of the height: z1 is above 0, and the last boundary but one below N.
    fn keeps_to(&self, height: i64) -> bool {
        let (z1, last_but_one) = (self.boundaries[1], self.boundaries[self.count() - 1]);
        z1 > 0 && last_but_one < height
    }

    /// Least error first, then the smallest zn, then the thinnest last layer, and so on down.
    fn better_than(&self, other: &Sequence) -> bool {
        let rank = |s: &Sequence| (s.error, s.end(), s.thicknesses());
        rank(self) < rank(other)
    }
}

fn is_inside(column: &[u16], voxel: i64) -> bool {
    let mut inside = false;
    for &boundary in column {
        if i64::from(boundary) <= voxel {
            inside = !inside;
        }
    }
    inside
}

/// A column's inside and outside counts in a layer.
pub fn inside_outside(column: &[u16], start: i64, thickness: i64) -> (u32, u32) {
    let mut counts = (0, 0);
    for voxel in start..start + thickness {
        if is_inside(column, voxel) {
            counts.0 += 1;
        } else {
            counts.1 += 1;
        }
    }
    counts
}

pub fn layer_error(columns: &[Vec<u16>], start: i64, thickness: i64) -> u32 {
    let share = |column: &Vec<u16>| {
        let (inside, outside) = inside_outside(column, start, thickness);
        inside.min(outside)
    };
    columns.iter().map(share).sum()
}

impl Plate {
    pub fn tmin(&self) -> i64 {
        *self.set.iter().min().expect("the set is not empty")
    }

    pub fn tmax(&self) -> i64 {
        *self.set.iter().max().expect("the set is not empty")
    }

    /// M, by piling up the thinnest layers: the first ends at 1, and the first that ends at N or above is the last.
    pub fn greatest_count(&self) -> usize {
        let (mut end, mut layers) = (1, 1);
        while end < self.height {
            end += self.tmin();
            layers += 1;
        }
        layers
    }

    pub fn table(&self) -> Vec<u32> {
        let mut cells = Vec::new();
        for start in 1 - self.tmax()..=self.height + self.tmax() - 2 {
            for thickness in 1..=self.tmax() {
                let allowed = self.set.contains(&thickness);
                cells.push(if allowed { layer_error(&self.columns, start, thickness) } else { 0 });
            }
        }
        cells
    }

    /// Every sequence that starts as it may, keeps to T and the bound, and ends below N+tmax; those that end below N are among them, and
    /// those with layers wholly under or over the plate.
    pub fn every_sequence(&self) -> Vec<Sequence> {
        let mut errors = BTreeMap::new();
        let mut all = Vec::new();
        for first in 1 - self.tmax()..=0 {
            let start = Sequence { boundaries: vec![first], error: 0 };
            self.extend(&start, &mut errors, &mut all);
        }
        all
    }

    fn extend(&self, below: &Sequence, errors: &mut BTreeMap<(i64, i64), u32>, all: &mut Vec<Sequence>) {
        let start = below.end();
        for &thickness in &self.set {
            let error =
                *errors.entry((start, thickness)).or_insert_with(|| layer_error(&self.columns, start, thickness));
            if start + thickness < self.height + self.tmax() && error <= self.bound {
                let mut longer = below.clone();
                longer.boundaries.push(start + thickness);
                longer.error += u64::from(error);
                self.extend(&longer, errors, all);
                all.push(longer);
            }
        }
    }

    pub fn is_admissible(&self, boundaries: &[i64]) -> bool {
        if boundaries.len() < 2 {
            return false;
        }
        let (first, last) = (boundaries[0], boundaries[boundaries.len() - 1]);
        let layer = |pair: &[i64]| {
            let thickness = pair[1] - pair[0];
            self.set.contains(&thickness) && layer_error(&self.columns, pair[0], thickness) <= self.bound
        };
        let ends = -self.tmax() < first && first <= 0 && self.height <= last && last < self.height + self.tmax();
        let on_plate = boundaries[1] > 0 && boundaries[boundaries.len() - 2] < self.height;
        ends && on_plate && boundaries.windows(2).all(layer)
    }

    /// The lowest index at which recounting finds a fault.
    pub fn first_fault(&self, boundaries: &[i64]) -> Option<usize> {
        if boundaries.len() < 2 || boundaries[0] <= -self.tmax() || boundaries[0] > 0 {
            return Some(0);
        }
        let n = boundaries.len() - 1;
        let (z, t) = (|i: usize| boundaries[i], |i: usize| boundaries[i] - boundaries[i - 1]);
        let mut faults: Vec<usize> = (1..=n).filter(|&i| !self.set.contains(&t(i))).collect();
        faults.extend((1..=n).filter(|&i| z(i) >= self.height + self.tmax()));
        faults.extend((1..=n).filter(|&i| layer_error(&self.columns, z(i - 1), t(i)) > self.bound));
        faults.extend((z(1) <= 0).then_some(1));
        faults.extend((z(n - 1) >= self.height).then_some(n));
        faults.extend((z(n) < self.height).then_some(n));
        faults.into_iter().min()
    }

    /// The heights that a thickness sheet names from an end down, as far as its layers lead.
    pub fn named(&self, end: i64, count: usize, thickness_at: impl Fn(i64, usize) -> i64) -> Vec<i64> {
        let mut heights = vec![end];
        for layer in (1..=count).rev() {
            let height = heights[count - layer];
            let thickness = thickness_at(height, layer);
            if !self.set.contains(&thickness) || height - thickness <= -self.tmax() {
                break;
            }
            heights.push(height - thickness);
        }
        heights
    }

    /// Of the faults in heights named so, the layer of the one that is met first on the way down, the highest; 0 for an end above 0.
    pub fn fault_met(&self, heights: &[i64], count: usize) -> Option<usize> {
        let z = |index: usize| heights.get(count - index).copied();
        let is_cut = heights.len() <= count;
        let mut faults = Vec::new();
        faults.extend(is_cut.then(|| count + 1 - heights.len()));
        faults.extend(z(count - 1).filter(|&z| z >= self.height).map(|_| count));
        faults.extend(z(1).filter(|&z| z <= 0).map(|_| 1));
        faults.extend(z(0).filter(|&z| z > 0).map(|_| 0));
        faults.into_iter().max()
    }
}

/// The chosen sequence of each count and end, and of each count among those that end at N or above; none has a layer with nothing on it.
pub struct Chosen {
    pub ending: BTreeMap<(i64, usize), Sequence>,
    pub whole: BTreeMap<usize, Sequence>,
}

pub fn choose(plate: &Plate, all: &[Sequence]) -> Chosen {
    let mut ending = BTreeMap::new();
    let mut whole = BTreeMap::new();
    for sequence in all.iter().filter(|sequence| sequence.keeps_to(plate.height)) {
        keep_better(&mut ending, (sequence.end(), sequence.count()), sequence);
        if sequence.end() >= plate.height {
            keep_better(&mut whole, sequence.count(), sequence);
        }
    }
    Chosen { ending, whole }
}

fn keep_better<K: Ord>(kept: &mut BTreeMap<K, Sequence>, key: K, sequence: &Sequence) {
    let better = match kept.get(&key) {
        Some(held) => sequence.better_than(held),
        None => true,
    };
    if better {
        kept.insert(key, sequence.clone());
    }
}

// ---- Table files ----

/// So many bytes from the place on, least first.
fn number_at(file: &[u8], place: usize, bytes: usize) -> u64 {
    (0..bytes).map(|i| u64::from(file[place + i]) << (8 * i)).sum()
}

/// Whether these bytes stand at the place.
fn stands(file: &[u8], place: usize, bytes: &[u8]) -> bool {
    bytes.iter().enumerate().all(|(i, byte)| file.get(place + i) == Some(byte))
}

/// Which way a file is broken at the record that begins here, of which only these kinds may come, each of one length: document 02's f).
fn broken(file: &[u8], place: usize, may_come: &[(u64, usize)]) -> u32 {
    let bytes = file.len() - place;
    if bytes < 4 {
        return 16;
    }
    let Some(&(_, due)) = may_come.iter().find(|&&(kind, _)| kind == number_at(file, place + 2, 2)) else { return 19 };
    match number_at(file, place, 2) as usize {
        length if length != due => 20,
        length if length > bytes - 4 => 16,
        _ => 21,
    }
}

/// The cells of a table file, or a refusal and its place. Where rows and end must stand follows from height and set; so the record at
/// fault is the first of these places at which something else stands, or where the file is too short.
pub fn cells_of_file(file: &[u8]) -> Result<Vec<u32>, (u32, usize)> {
    if !stands(file, 0, &[10, 0, 16, 0]) || file.len() < 14 {
        return Err((broken(file, 0, &[(16, 10)]), 0));
    }
    let (height, columns) = (number_at(file, 4, 2), number_at(file, 10, 4));
    let is_member = |thickness: usize| file[6 + (thickness - 1) / 8] & (1 << ((thickness - 1) % 8)) != 0;
    let Some(tmax) = (1..=32).rev().find(|&thickness| is_member(thickness)) else {
        return Err((if height == 0 || height > 512 { 1 } else { 2 }, 0));
    };
    if height == 0 || height > 512 {
        return Err((1, 0));
    }
    if columns > 1_000_000 {
        return Err((7, 0));
    }
    let rows = height as usize + 2 * tmax - 2;
    let place_of = |row: usize| 14 + row * (6 + 4 * tmax);
    let a_row = (17, 2 + 4 * tmax);
    let mut cells = Vec::new();
    for row in 0..rows {
        let place = place_of(row);
        let start = (65_536 + row + 1 - tmax) % 65_536;
        let opening = [(2 + 4 * tmax) as u8, 0, 17, 0, (start % 256) as u8, (start / 256) as u8];
        if !stands(file, place, &opening) || file.len() < place_of(row + 1) {
            let may_come = if row == 0 { vec![a_row] } else { vec![a_row, (18, 2)] };
            return Err((broken(file, place, &may_come), place));
        }
        for thickness in 1..=tmax {
            let cell = number_at(file, place + 2 + 4 * thickness, 4);
            let most = if is_member(thickness) { columns * (thickness as u64 / 2) } else { 0 };
            if cell > most {
                return Err((6, place));
            }
            cells.push(cell as u32);
        }
    }
    let end = place_of(rows);
    if !stands(file, end, &[2, 0, 18, 0, (rows % 256) as u8, (rows / 256) as u8]) {
        return Err((broken(file, end, &[a_row, (18, 2)]), end));
    }
    if file.len() > end + 6 {
        return Err((21, end + 6));
    }
    Ok(cells)
}

// ---- Order files ----

/// A sequence's order file, for whatever boundaries and cure times.
pub fn order_file(step: u32, cure: &[u16], boundaries: &[i64]) -> Vec<u8> {
    let mut file = Vec::new();
    for pair in boundaries.windows(2) {
        let eighths = (pair[1] - boundaries[0]) * i64::from(step);
        let sixty_fourths = cure[(pair[1] - pair[0]) as usize - 1];
        for (kind, amount) in [(48, eighths as f64 / 8.0), (49, f64::from(sixty_fourths) / 64.0)] {
            assert_eq!(f64::from(amount as f32), amount, "it is an f32");
            file.extend([4, 0, kind, 0]);
            file.extend((amount as f32).to_le_bytes());
        }
    }
    let layers = boundaries.len() - 1;
    file.extend([2, 0, 50, 0, (layers % 256) as u8, (layers / 256) as u8]);
    file
}

impl Plate {
    /// Every sequence that orders can be written of: admissible without a bound, and no layer has the cure time 0.
    pub fn printable(&self, cure: &[u16]) -> Vec<Vec<i64>> {
        let unbound = Plate { height: self.height, set: self.set.clone(), columns: vec![], bound: u32::MAX };
        let every = unbound.every_sequence().into_iter().map(|sequence| sequence.boundaries);
        let is_cured = |pair: &[i64]| cure[(pair[1] - pair[0]) as usize - 1] != 0;
        every.filter(|z| unbound.is_admissible(z) && z.windows(2).all(is_cured)).collect()
    }
}

/// Of all files that there are, none where the input is one of them, else the furthest end of a record up to which one of them agrees with it,
/// behind which way it is broken there.
pub fn order_fault(files: &[Vec<u8>], input: &[u8]) -> Option<(u32, usize)> {
    if files.iter().any(|file| file == input) {
        return None;
    }
    let agreeing = |file: &Vec<u8>| {
        let ends = (0..file.len()).step_by(8).chain([file.len()]);
        ends.filter(|&end| input.get(..end) == Some(&file[..end])).max().unwrap_or(0)
    };
    let place = files.iter().map(agreeing).max().unwrap_or(0);
    let may_come: &[(u64, usize)] = match place {
        place if files.iter().any(|file| file.len() == place && file == &input[..place]) => return Some((21, place)),
        0 => &[(48, 4)],
        place if place % 16 == 8 => &[(49, 4)],
        _ => &[(48, 4), (50, 2)],
    };
    Some((broken(input, place, may_come), place))
}
