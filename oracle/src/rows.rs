//! Rows of a bench: the same calls answered by two libraries in turns, on equal lists.
//!
//! A row is timed in rounds. In a round both answer the same call, one right after the other; who is first changes every round. The rounds are done at
//! each of four places, at which a library's code may lie: the same code at another place may take a quarter more time. A row's ratio is the median of its
//! rounds' ratios; more exactly the geometric mean over who is first and the four places. Its times are the mean of the places' medians.
//! Before a row is timed, both answer all its calls, and after each the two answers and all lists are compared whole.
//!
//! A library of level 2 is lent its vertices in one list. They are joined before a call and parted after it, off the clock. Each library is given the
//! log as its level has it, with two entries for one of Replaced up to level 4, and for one of Sides up to level 3; it is made off the clock too.

use crate::calls::{Answer, Calls};
use crate::cases::{cube_of, Case};
use crate::entries::{at_level, ENTRY};
use crate::room::{joined, laid, parted, room_for, room_of};
use crate::rust::{self, floats, CubeParameters, Registry, Words};
use crate::timing::{median, timed};
use std::time::{Duration, Instant};

/// Of a row at one place.
const LEAST_ROUNDS: usize = 8;
const MOST_ROUNDS: usize = 1000;
const CUBES: u32 = 100;

/// A library and what it is timed beside.
pub type Two<'a> = [&'a dyn Calls; 2];
/// The same at four places.
pub type Places<'a> = [Two<'a>; 4];

/// Figures of a row, in seconds a call.
pub struct Run {
    pub ours: f64,
    pub other: f64,
    pub ratio: f64,
    pub rounds: usize,
}

enum Work {
    Cube(CubeParameters),
    Fresh(Case),
    /// The parts of a log in calls one after the other. The cases have the log of the call at hand, as each of the two takes it.
    Update(Box<[Case; 2]>, Vec<Part>),
    Check(Case, u64),
}

/// A part of a log, as each of the two takes it, and the quads that it finds.
struct Part {
    logs: [Vec<u8>; 2],
    quads: u64,
}

/// What a call is lent: the list of a cube, or the lists of a mesh as the library takes them.
#[derive(Clone, Default)]
struct Lent {
    cube: Vec<u32>,
    mesh: Words,
}

/// Calls and the lists that the first of them finds.
pub struct Row {
    pub quads: u64,
    start: Lent,
    work: Work,
}

impl Row {
    pub fn cube() -> Row {
        let start = Lent { cube: vec![0; 24 * floats(false)], ..Lent::default() };
        Row { quads: 6, start, work: Work::Cube(cube_of(1.0, 0)) }
    }

    pub fn fresh(case: &Case, mesh: &Words) -> Row {
        let quads = mesh.links.len();
        Row::of_mesh(quads, room_for(quads, case), Work::Fresh(case.clone()))
    }

    /// A log in calls of so many entries each, by two libraries; of an empty log there is one call.
    pub fn update([ours, other]: Two, case: Case, mesh: &Words, each: usize) -> Row {
        let quads = mesh.links.len();
        let start = laid(mesh, room_of(&case, quads));
        let (mut room, mut found) = (start.clone(), quads as u64);
        let mut call = Case { grid: vec![], ..case.clone() };
        let mut part_of = |part: &[u8]| {
            let logs = [ours, other].map(|library| at_level(library.log_level(), part));
            call.log.clone_from(&logs[0]);
            let quads = found;
            found = ours.update_mesh(&call, &mut room, quads).quads;
            Part { logs, quads }
        };
        let parts = match case.log.is_empty() {
            true => vec![part_of(&[])],
            false => case.log.chunks_exact(each * ENTRY).map(part_of).collect(),
        };
        Row::of_mesh(quads, start, Work::Update(Box::new([call.clone(), call]), parts))
    }

    pub fn check(case: &Case, mesh: Words) -> Row {
        let quads = mesh.links.len();
        Row::of_mesh(quads, mesh, Work::Check(case.clone(), quads as u64))
    }

    fn of_mesh(quads: usize, mesh: Words, work: Work) -> Row {
        Row { quads: quads as u64, start: Lent { mesh, ..Lent::default() }, work }
    }

    fn coloured(&self) -> bool {
        match &self.work {
            Work::Cube(parameters) => parameters.coloured,
            Work::Fresh(case) | Work::Check(case, _) => case.types.coloured,
            Work::Update(cases, _) => cases[0].types.coloured,
        }
    }

    /// The first lists as a library takes them.
    fn start_for(&self, library: &dyn Calls) -> Lent {
        match library.takes_joined() {
            true => Lent { mesh: joined(&self.start.mesh, self.coloured()), ..self.start.clone() },
            false => self.start.clone(),
        }
    }

    /// What a library has left, the attributes apart.
    fn left_by(&self, library: &dyn Calls, lent: &Lent) -> Lent {
        match library.takes_joined() {
            true => Lent { mesh: parted(&lent.mesh, self.start.mesh.clone(), self.coloured()), ..lent.clone() },
            false => lent.clone(),
        }
    }

    /// The calls from the first lists on.
    fn calls(&self) -> usize {
        match &self.work {
            Work::Update(_, parts) => parts.len(),
            _ => 1,
        }
    }

    fn ready(&mut self, step: usize) {
        if let Work::Update(cases, parts) = &mut self.work {
            cases.iter_mut().zip(&parts[step].logs).for_each(|(case, log)| case.log.clone_from(log));
        }
    }

    /// A call of one of the two, by its number.
    fn call(&self, libraries: Two, which: usize, step: usize, lent: &mut Lent) -> Answer {
        let library = libraries[which];
        match &self.work {
            Work::Cube(parameters) => library.generate_voxel_mesh(parameters, &mut lent.cube),
            Work::Fresh(case) => library.mesh_grid(case, &mut lent.mesh),
            Work::Update(cases, parts) => library.update_mesh(&cases[which], &mut lent.mesh, parts[step].quads),
            Work::Check(case, quads) => library.check_mesh(case, &lent.mesh, *quads),
        }
    }

    /// A cube is too short for the clock.
    fn times(&self) -> u32 {
        match self.work {
            Work::Cube(_) => CUBES,
            _ => 1,
        }
    }

    /// Fails unless both take every call, with the same answers and lists.
    pub fn compare(&mut self, libraries: Two, name: &str) {
        let mut rooms = libraries.map(|library| self.start_for(library));
        for step in 0..self.calls() {
            self.ready(step);
            let answer = self.call(libraries, 0, step, &mut rooms[0]);
            let other_answer = self.call(libraries, 1, step, &mut rooms[1]);
            assert_eq!(answer, other_answer, "{name}: the two answers of call {step} differ");
            assert_eq!(answer.number, 0, "{name}: call {step} is refused");
            let left = [0, 1].map(|which| self.left_by(libraries[which], &rooms[which]));
            assert_same(&left, &format!("{name}: after call {step}"));
        }
    }

    pub fn time(&mut self, places: &Places, share: Duration) -> Run {
        let share = share / places.len() as u32;
        let runs = places.map(|libraries| self.time_at(libraries, share));
        let mean = |of: fn(&Run) -> f64| runs.iter().map(of).sum::<f64>() / runs.len() as f64;
        let rounds = runs.iter().map(|run| run.rounds).sum();
        Run { ours: mean(|run| run.ours), other: mean(|run| run.other), ratio: mean(|run| run.ratio.ln()).exp(), rounds }
    }

    fn time_at(&mut self, libraries: Two, share: Duration) -> Run {
        let same_layout = libraries[0].takes_joined() == libraries[1].takes_joined();
        let starts = libraries.map(|library| self.start_for(library));
        let mut rooms = starts.clone();
        let mut times = [vec![], vec![]];
        let start = Instant::now();
        for round in 0..MOST_ROUNDS {
            if round >= LEAST_ROUNDS && start.elapsed() > share {
                break;
            }
            let step = round % self.calls();
            self.ready(step);
            for turn in 0..2 {
                let which = (turn + round) % 2;
                // After the first call of a log the next one needs the mesh that was left: then each turn has lists of its own
                let whose = if !same_layout { which } else { turn * (self.calls() > 1) as usize };
                let lists = &mut rooms[whose];
                if step == 0 && matches!(self.work, Work::Update(..)) {
                    lists.clone_from(&starts[whose]);
                }
                let call = |lists: &mut Lent| self.call(libraries, which, step, lists);
                let all = timed(|| (0..self.times()).for_each(|_| _ = call(lists)));
                times[which].push(all.as_secs_f64() / self.times() as f64);
            }
        }
        let rounds = times[0].len();
        let ratio_of = |first: usize| median((first..rounds).step_by(2).map(|round| times[0][round] / times[1][round]).collect());
        let ratio = (ratio_of(0) * ratio_of(1)).sqrt();
        let [ours, other] = times.map(median);
        Run { ours, other, ratio, rounds }
    }
}

fn assert_same([ours, other]: &[Lent; 2], when: &str) {
    assert!(ours.cube == other.cube, "{when} the two cubes differ");
    for ((word, list), (_, other)) in ours.mesh.lists().into_iter().zip(other.mesh.lists()) {
        assert!(list == other, "{when} a {word} differs");
    }
}

/// The Rust's mesh of a ground.
pub fn mesh_of(case: &Case) -> Words {
    rust::mesh(case.dims, &case.outer, &case.grid, &Registry::of(&case.types), case.naive).words()
}
