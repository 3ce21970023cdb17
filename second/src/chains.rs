//! Rooted chains, searched for state by state as their definition reads.

use crate::permission::{carries, Permission, PERMISSIONS};
use crate::register::Register;
use std::collections::{BTreeMap, BTreeSet};

/// Where a chain has come to: its last office and the reading of its last
/// link. Only the chain that is SOA alone has no reading.
#[derive(Clone, Copy, Debug, PartialEq, Eq, PartialOrd, Ord)]
struct State {
    office: u16,
    reading: Option<Permission>,
}

impl State {
    /// SOA alone is a chain for every permission at SOA.
    fn is_chain_for(self, p: Permission) -> bool {
        match self.reading {
            None => true,
            Some(reading) => reading == p,
        }
    }

    /// SOA alone puts no condition on the first reading.
    fn lets_follow(self, p: Permission) -> bool {
        match self.reading {
            None => true,
            Some(reading) => reading.entitles(p),
        }
    }
}

fn source(register: &Register) -> State {
    State {
        office: register.soa,
        reading: None,
    }
}

/// The states one link further: the link carries the reading, and the
/// reading before it entitles it.
fn next_states(register: &Register, state: State) -> Vec<State> {
    let readings: Vec<Permission> = PERMISSIONS
        .into_iter()
        .filter(|p| state.lets_follow(*p))
        .collect();
    if readings.is_empty() {
        return Vec::new();
    }
    let mut next = Vec::new();
    for (office, cell) in register.row(state.office) {
        for reading in readings.iter().filter(|p| carries(cell, **p)) {
            next.push(State {
                office,
                reading: Some(*reading),
            });
        }
    }
    next
}

/// Every state some chain comes to that does not name the office `unnamed`.
fn reached_states(register: &Register, unnamed: Option<u16>) -> BTreeSet<State> {
    if unnamed == Some(register.soa) {
        return BTreeSet::new(); // every chain names SOA
    }
    let mut reached = BTreeSet::from([source(register)]);
    let mut open = vec![source(register)];
    while let Some(state) = open.pop() {
        for next in next_states(register, state) {
            if unnamed != Some(next.office) && reached.insert(next) {
                open.push(next);
            }
        }
    }
    reached
}

/// What each office holds, by the chains that were let in.
#[derive(Clone, Debug, PartialEq, Eq)]
pub struct Holdings {
    held: Vec<BTreeSet<Permission>>,
}

impl Holdings {
    /// By all rooted chains of the register.
    pub fn of(register: &Register) -> Holdings {
        Holdings::from_states(register, reached_states(register, None))
    }

    /// By the rooted chains that do not name `office`.
    pub fn not_naming(register: &Register, office: u16) -> Holdings {
        Holdings::from_states(register, reached_states(register, Some(office)))
    }

    fn from_states(register: &Register, states: BTreeSet<State>) -> Holdings {
        let mut held = vec![BTreeSet::new(); usize::from(register.n)];
        for state in states {
            let given = PERMISSIONS.into_iter().filter(|p| state.is_chain_for(*p));
            held[usize::from(state.office)].extend(given);
        }
        Holdings { held }
    }

    pub fn of_office(&self, office: u16) -> &BTreeSet<Permission> {
        &self.held[usize::from(office)]
    }

    pub fn holds(&self, office: u16, p: Permission) -> bool {
        self.of_office(office).contains(&p)
    }

    /// Whether the office may pass `p` on: it holds something that entitles it.
    pub fn entitled(&self, office: u16, p: Permission) -> bool {
        self.of_office(office).iter().any(|q| q.entitles(p))
    }

    pub fn level(&self, office: u16) -> u8 {
        if self.holds(office, Permission::TT) {
            2
        } else if self.holds(office, Permission::TF) {
            1
        } else {
            0
        }
    }

    pub fn levels(&self) -> Vec<u8> {
        (0..self.held.len() as u16)
            .map(|office| self.level(office))
            .collect()
    }
}

/// The independent level of every office from `by`: 0 for `by` itself, and 0
/// for all when it is SOA, since no chain is left that does not name it.
pub fn independent_levels(register: &Register, by: u16) -> Vec<u8> {
    Holdings::not_naming(register, by).levels()
}

/// The chain for `p` at `office` with fewest links, and of those the smallest
/// list. Every state first met after d links keeps its smallest list: a
/// fewest-link chain is one at each of its states too.
pub fn smallest_chain(register: &Register, office: u16, p: Permission) -> Option<Vec<u16>> {
    let mut front = BTreeMap::from([(source(register), vec![register.soa])]);
    let mut met = BTreeSet::from([source(register)]);
    while !front.is_empty() {
        let asked = |state: &State| state.office == office && state.is_chain_for(p);
        let found = front
            .iter()
            .filter(|(state, _)| asked(state))
            .map(|(_, list)| list);
        if let Some(list) = found.min() {
            return Some(list.clone());
        }
        front = one_link_further(register, &front, &met);
        met.extend(front.keys());
    }
    None
}

/// The states not met before, each with the smallest list that leads to it.
fn one_link_further(
    register: &Register,
    front: &BTreeMap<State, Vec<u16>>,
    met: &BTreeSet<State>,
) -> BTreeMap<State, Vec<u16>> {
    let mut further: BTreeMap<State, Vec<u16>> = BTreeMap::new();
    for (state, list) in front {
        for next in next_states(register, *state) {
            if met.contains(&next) {
                continue;
            }
            let mut longer = list.clone();
            longer.push(next.office);
            let kept = further.entry(next).or_insert_with(|| longer.clone());
            if longer < *kept {
                *kept = longer;
            }
        }
    }
    further
}
