//! Chooses few and small cases that have every cell often enough.

use std::collections::{HashMap, HashSet};
use std::fmt::Debug;
use std::hash::Hash;

/// A case that can be chosen: its bytes in both files, and the cells that it has, by their places.
pub struct Candidate {
    pub number: u64,
    pub size: usize,
    pub cells: Vec<u16>,
}

impl Candidate {
    /// Whether it has all of these cells; its own are in their order.
    fn has_all(&self, places: &[u16]) -> bool {
        let has = |place| self.cells.binary_search(place).is_ok();
        places.iter().all(has)
    }
}

/// How many bytes a case may have for each cell that it brings: cheap ones are taken first.
const ALLOWED: [usize; 13] = [
    500, 800, 1_200, 1_800, 2_600, 4_000, 6_000, 9_000, 14_000, 22_000, 36_000, 60_000, 250_000,
];

/// A case of so many bytes may be exchanged for others.
const LARGE: usize = 24_000;

/// The cells that are wanted, each with how often.
pub struct Wanted<C> {
    pub cells: Vec<(C, usize)>,
    places: HashMap<C, u16>,
}

impl<C: Copy + Eq + Hash + Debug> Wanted<C> {
    pub fn new(cells: Vec<(C, usize)>) -> Wanted<C> {
        let places = (0..).zip(&cells).map(|(place, (cell, _))| (*cell, place));
        Wanted {
            places: places.collect(),
            cells,
        }
    }

    /// The places of those cells that are wanted at all.
    pub fn places(&self, cells: impl IntoIterator<Item = C>) -> Vec<u16> {
        let mut places: Vec<u16> = (cells.into_iter())
            .filter_map(|cell| self.places.get(&cell).copied())
            .collect();
        places.sort_unstable();
        places.dedup();
        places
    }

    /// The candidates that are chosen, and how often each cell is had.
    pub fn choose<'a>(&self, candidates: &'a [Candidate]) -> Chosen<'a> {
        let mut chosen = Chosen {
            taken: Vec::new(),
            had: vec![0; self.cells.len()],
        };
        let mut left: Vec<&Candidate> = candidates.iter().collect();
        for allowed in ALLOWED {
            left.retain(|candidate| {
                let lacks = |place: &&u16| self.lacks(&chosen, **place);
                let news = candidate.cells.iter().filter(lacks).count();
                let taken = news > 0 && candidate.size <= allowed * news;
                if taken {
                    chosen.take(candidate);
                }
                !taken
            });
        }
        self.drop_what_is_not_needed(&mut chosen);
        for candidate in left.iter().filter(|candidate| candidate.size >= LARGE) {
            self.exchange(&mut chosen, candidate);
        }
        let having = self.having(candidates);
        while self.replace_by_smaller(&mut chosen, &having) {
            self.drop_what_is_not_needed(&mut chosen);
        }
        chosen
    }

    /// For each cell the candidates that have it, the smallest first.
    fn having<'a>(&self, candidates: &'a [Candidate]) -> Vec<Vec<&'a Candidate>> {
        let mut having = vec![Vec::new(); self.cells.len()];
        for candidate in candidates {
            for place in &candidate.cells {
                having[usize::from(*place)].push(candidate);
            }
        }
        for candidates in &mut having {
            candidates.sort_by_key(|candidate| (candidate.size, candidate.number));
        }
        having
    }

    /// Puts a smaller case in the place of each one that is needed for no cell but those which the
    /// smaller one has too; whether there was any.
    fn replace_by_smaller<'a>(
        &self,
        chosen: &mut Chosen<'a>,
        having: &[Vec<&'a Candidate>],
    ) -> bool {
        let mut taken: HashSet<u64> = chosen.taken.iter().map(|taken| taken.number).collect();
        let mut any = false;
        for at in 0..chosen.taken.len() {
            let own = chosen.taken[at];
            let needed = |place: &&u16| {
                chosen.had[usize::from(**place)] <= self.cells[usize::from(**place)].1
            };
            let needed: Vec<u16> = own.cells.iter().filter(needed).copied().collect();
            let rarest = needed
                .iter()
                .map(|place| &having[usize::from(*place)])
                .min_by_key(|candidates| candidates.len());
            let smaller = rarest.and_then(|candidates| {
                let mut smaller = candidates.iter().take_while(|other| other.size < own.size);
                smaller.find(|other| !taken.contains(&other.number) && other.has_all(&needed))
            });
            if let Some(smaller) = smaller {
                taken.insert(smaller.number);
                chosen.exchange(at, smaller);
                any = true;
            }
        }
        any
    }

    fn lacks(&self, chosen: &Chosen, place: u16) -> bool {
        chosen.had[usize::from(place)] < self.cells[usize::from(place)].1
    }

    /// A case that was taken early may have nothing that others do not have; the largest first.
    fn drop_what_is_not_needed(&self, chosen: &mut Chosen) {
        chosen
            .taken
            .sort_by_key(|candidate| std::cmp::Reverse((candidate.size, candidate.number)));
        let had = &mut chosen.had;
        chosen.taken.retain(|candidate| {
            let needed =
                |place: &u16| had[usize::from(*place)] <= self.cells[usize::from(*place)].1;
            if candidate.cells.iter().any(needed) {
                return true;
            }
            for place in &candidate.cells {
                had[usize::from(*place)] -= 1;
            }
            false
        });
    }

    /// Takes one more case if those that are not needed beside it are larger together than it is.
    fn exchange<'a>(&self, chosen: &mut Chosen<'a>, candidate: &'a Candidate) {
        let mut other = chosen.clone();
        other.take(candidate);
        self.drop_what_is_not_needed(&mut other);
        if other.size() < chosen.size() {
            *chosen = other;
        }
    }

    /// A cell of which there is too little.
    pub fn missing(&self, chosen: &Chosen) -> Option<C> {
        let mut cells = self.cells.iter().zip(&chosen.had);
        let short = cells.find(|((_, wanted), had)| *had < wanted);
        short.map(|((cell, _), _)| *cell)
    }

    /// Every cell with how often it is had.
    pub fn counted(&self, chosen: &Chosen) -> Vec<(C, usize)> {
        let cells = self.cells.iter().zip(&chosen.had);
        cells.map(|((cell, _), had)| (*cell, *had)).collect()
    }
}

/// What was chosen so far.
#[derive(Clone)]
pub struct Chosen<'a> {
    pub taken: Vec<&'a Candidate>,
    had: Vec<usize>,
}

impl<'a> Chosen<'a> {
    pub fn take(&mut self, candidate: &'a Candidate) {
        self.taken.push(candidate);
        for place in &candidate.cells {
            self.had[usize::from(*place)] += 1;
        }
    }

    /// Takes a case in the place of one that was taken.
    fn exchange(&mut self, at: usize, candidate: &'a Candidate) {
        for place in &self.taken[at].cells {
            self.had[usize::from(*place)] -= 1;
        }
        for place in &candidate.cells {
            self.had[usize::from(*place)] += 1;
        }
        self.taken[at] = candidate;
    }

    fn size(&self) -> usize {
        self.taken.iter().map(|taken| taken.size).sum()
    }

    /// The numbers, in their order.
    pub fn numbers(&self) -> Vec<u64> {
        let mut numbers: Vec<u64> = self.taken.iter().map(|taken| taken.number).collect();
        numbers.sort_unstable();
        numbers
    }
}
