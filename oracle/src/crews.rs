//! Two crews on one chunk: a ground that both have seen, and the log of each, honest on that ground.

use crate::cases::{made_honest, neighbour, simpler, Added, Case, Random};
use crate::entries::{cell_of, CHANGE, ENTRY, VOXEL, ZEROS};
use plain::BROKEN;

/// The most entries of a crew's log.
const MOST_ENTRIES: usize = 40;

/// The crews' marks, and the byte of an entry that has one where both logs are one: in a log it is zero.
const MARKS: [u8; 2] = [1, 2];
const MARK: usize = ZEROS.start;

/// A case without a log, and two logs. Each is true of the grid with its own earlier entries done, and knows nothing of the other.
#[derive(Clone, Debug, PartialEq)]
pub struct Crews {
    pub ground: Case,
    pub logs: [Vec<u8>; 2],
}

/// Whose next entry comes, in turn.
pub type Order = Vec<usize>;

impl Random {
    /// Two crews on cells that do not touch: half of the time with an entry each, else with up to 40.
    pub fn crews(&mut self) -> Crews {
        let most = if self.one_in(2) { 1 } else { MOST_ENTRIES };
        self.crews_on(Random::cells_apart, most)
    }

    /// Two crews with an entry each, on neighbours across a face, or now and then on one cell.
    pub fn touching_crews(&mut self) -> Crews {
        self.crews_on(Random::cells_that_touch, 1)
    }

    /// Two crews on the cells that are drawn for them, with up to `most` entries each. All is drawn anew if one of them has nothing to do.
    fn crews_on(&mut self, draw_cells: fn(&mut Random, [u32; 3]) -> [Vec<usize>; 2], most: usize) -> Crews {
        let added = self.pick(&[Added::AnyCubes, Added::AlikeCubes]);
        loop {
            let dims = self.dims();
            let cells = draw_cells(self, dims);
            if cells.iter().any(Vec::is_empty) {
                continue;
            }
            let ground = self.mendable_ground(dims);
            let logs = cells.map(|cells| {
                let entries = 1 + self.below(most);
                self.mendable_log(&ground, &cells, entries, added)
            });
            if logs.iter().all(|log| !log.is_empty()) {
                return Crews { ground, logs };
            }
        }
    }

    /// Cells for each of two crews, none of which touches one of the other's. A third is for neither. A crew may have none.
    fn cells_apart(&mut self, dims: [u32; 3]) -> [Vec<usize>; 2] {
        let mut cells = [vec![], vec![]];
        for cell in 0..dims.iter().product::<u32>() as usize {
            let crew = self.below(3);
            if crew < 2 && !cells[1 - crew].iter().any(|&other| touch(dims, cell, other)) {
                cells[crew].push(cell);
            }
        }
        cells
    }

    /// A cell, and its neighbour across a face, if it has one there. One time in sixteen it is one cell twice.
    fn cells_that_touch(&mut self, dims: [u32; 3]) -> [Vec<usize>; 2] {
        let cell = self.below(dims.iter().product::<u32>() as usize);
        let other = if self.one_in(16) { Some(cell) } else { neighbour(dims, cell, self.below(6)) };
        [vec![cell], other.into_iter().collect()]
    }

    /// An order of so many entries of each crew. In some a crew goes on for long, and often until it is through.
    fn order(&mut self, mut left: [usize; 2]) -> Order {
        let (mut crew, mut order) = (self.below(2), vec![]);
        let goes_on = self.pick(&[2, 4, 64]);
        while left != [0, 0] {
            if left[crew] == 0 || left[1 - crew] > 0 && self.one_in(goes_on) {
                crew = 1 - crew;
            }
            left[crew] -= 1;
            order.push(crew);
        }
        order
    }
}

/// Whether two cells are the same, or neighbours across a face.
fn touch(dims: [u32; 3], cell: usize, other: usize) -> bool {
    cell == other || (0..6).any(|face| neighbour(dims, cell, face) == Some(other))
}

impl Crews {
    /// Two orders that differ. Of logs with an entry each these are all that there are.
    pub fn orders(&self, seed: u64) -> [Order; 2] {
        let mut random = Random(seed);
        let entries = self.logs.each_ref().map(|log| log.len() / ENTRY);
        let first = random.order(entries);
        loop {
            let second = random.order(entries);
            if second != first {
                return [first, second];
            }
        }
    }

    /// Both logs in an order, in parts: one for each run of a crew's entries.
    pub fn runs(&self, order: &[usize]) -> Vec<Vec<u8>> {
        let mut entries = self.logs.each_ref().map(|log| log.chunks_exact(ENTRY));
        let mut next = |&crew: &usize| entries[crew].next().expect("an order of these logs").to_vec();
        order.chunk_by(usize::eq).map(|run| run.iter().flat_map(&mut next).collect()).collect()
    }

    /// The ground with both logs in an order.
    pub fn in_order(&self, order: &[usize]) -> Case {
        Case { log: self.runs(order).concat(), ..self.ground.clone() }
    }

    fn cells(&self, crew: usize) -> impl Iterator<Item = usize> + '_ {
        self.logs[crew].chunks_exact(ENTRY).map(cell_of)
    }

    /// Whether they have a cell in common.
    pub fn share_a_cell(&self) -> bool {
        self.cells(0).any(|cell| self.cells(1).any(|other| cell == other))
    }

    /// Whether a cell of one is a cell of the other, or its neighbour across a face.
    pub fn touch(&self) -> bool {
        self.cells(0).any(|cell| self.cells(1).any(|other| touch(self.ground.dims, cell, other)))
    }

    /// Each log made true of the ground, if demand 3 speaks of it.
    fn made_honest(&self) -> Option<Crews> {
        let honest = |log: &Vec<u8>| Some(made_honest(&Case { log: log.clone(), ..self.ground.clone() })?.0.log);
        let [first, second] = self.logs.each_ref().map(honest);
        Some(Crews { ground: self.ground.clone(), logs: [first?, second?] })
    }

    /// Both logs as one, in which each entry has its crew's mark.
    fn marked(&self) -> Case {
        let mut one = self.ground.clone();
        for (log, mark) in self.logs.iter().zip(MARKS) {
            one.log.extend(log.chunks_exact(ENTRY).flat_map(|entry| [&entry[..MARK], &[mark], &entry[MARK + 1..]].concat()));
        }
        one
    }

    /// The crews by their marks, if every entry has one and each crew an entry.
    fn of_marked(one: &Case) -> Option<Crews> {
        let entries = || one.log.chunks_exact(ENTRY);
        let logs = MARKS.map(|mark| entries().filter(|entry| entry[MARK] == mark).flatten().copied().collect::<Vec<u8>>());
        let whole = entries().all(|entry| MARKS.contains(&entry[MARK])) && logs.iter().all(|log| !log.is_empty());
        whole.then(|| Crews { ground: Case { log: vec![], ..one.clone() }, logs })
    }
}

/// The grid with what each entry puts into its cell, whatever stood there.
pub fn left_by(case: &Case) -> Vec<u8> {
    let mut grid = case.grid.clone();
    for entry in case.log.chunks_exact(ENTRY) {
        grid[cell_of(entry)] = match entry[CHANGE] {
            BROKEN => case.types.lowest_empty().expect("an empty type"),
            _ => entry[VOXEL],
        };
    }
    grid
}

/// Crews a step simpler, that touch if these do. What is left of their logs is made true again, and without the marks.
pub fn simpler_crews(crews: &Crews) -> Vec<Crews> {
    let simple = simpler(&crews.marked()).into_iter().filter_map(|one| Crews::of_marked(&one)?.made_honest());
    simple.filter(|simple| simple != crews && simple.touch() == crews.touch()).collect()
}

#[cfg(test)]
mod tests {
    use super::*;

    /// The entries of an order by their cells, which the crews do not share.
    fn logs_of(crews: &Crews, log: &[u8]) -> [Vec<u8>; 2] {
        [0, 1].map(|crew| {
            let is_theirs = |entry: &&[u8]| crews.cells(crew).any(|cell| cell == cell_of(entry));
            log.chunks_exact(ENTRY).filter(is_theirs).flatten().copied().collect()
        })
    }

    #[test]
    fn two_orders_of_the_same_logs() {
        let mut random = Random(1);
        for seed in 0..300 {
            let crews = random.crews();
            let orders = crews.orders(seed);
            assert!(orders[0] != orders[1]);
            for order in orders {
                assert_eq!(logs_of(&crews, &crews.in_order(&order).log), crews.logs);
            }
        }
    }

    #[test]
    fn simpler_crews_are_honest_and_touch_as_before() {
        let mut random = Random(2);
        for touch in [false, true] {
            for _ in 0..100 {
                let crews = if touch { random.touching_crews() } else { random.crews() };
                for crews in simpler_crews(&crews).into_iter().chain([crews]) {
                    assert_eq!((crews.made_honest(), crews.touch()), (Some(crews.clone()), touch));
                }
            }
        }
    }
}
