//! What must be so on every register, tried on random ones and, for three
//! offices, on all of them. The seeds are fixed.

mod support;

use second::chains::{independent_levels, smallest_chain, Holdings};
use second::chains_by_length::first_chain;
use second::deletions::{sgd_steps, sweep};
use second::permission::{Cell, Permission};
use second::register::Register;
use second::sound::sound;
use second::{command, holding, run, Entry, Outcome};
use std::collections::BTreeSet;
use support::*;

/// Soundness once more, with holding decided by trying all chains.
fn sound_by_all_chains(map: &Map) -> bool {
    let register = map.register();
    register.records().iter().all(|record| {
        let held = |q: Permission| first_chain(&register, record.by, q, None).is_some();
        let entitled = [Permission::TT, Permission::TF]
            .into_iter()
            .any(|q| q.entitles(record.permission) && held(q));
        entitled && record.by != record.to && record.to != map.soa
    })
}

/// All registers of three offices with SOA 0 and clean cells.
fn all_of_three_offices() -> impl Iterator<Item = Map> {
    (0..65_536u32).map(|number| {
        let cell = |place: u32| (number >> (4 * place) & 15) as u8;
        let records = [
            (0, 1, cell(0)),
            (0, 2, cell(1)),
            (1, 2, cell(2)),
            (2, 1, cell(3)),
        ];
        Map::new(3, 0, &records)
    })
}

#[test]
fn soundness_agrees_with_all_chains_for_three_offices() {
    let mut sound_ones = 0;
    for map in all_of_three_offices() {
        let is_sound = sound(&map.cells, 3, 0);
        assert_eq!(is_sound, sound_by_all_chains(&map), "{map:?}");
        sound_ones += u32::from(is_sound);
    }
    assert!(
        sound_ones > 5_000 && sound_ones < 60_000,
        "{sound_ones} sound"
    );
}

#[test]
fn every_command_keeps_registers_of_three_offices_sound() {
    let every_seventh = all_of_three_offices().step_by(7); // all of them take half a minute
    for map in every_seventh.filter(|map| sound(&map.cells, 3, 0)) {
        for (by, to) in [(0, 1), (0, 2), (1, 2), (2, 1)] {
            for (act, perm) in [
                (GRANT, TT),
                (GRANT, TF),
                (GRANT, FT),
                (GRANT, FF),
                (WLD, 0),
                (WGD, 0),
                (SLD, 0),
                (SGD, 0),
            ] {
                let mut after = map.clone();
                after.give(act, by, to, perm);
                assert!(
                    sound(&after.cells, 3, 0),
                    "{act} {by} {to} {perm} on {map:?}"
                );
            }
        }
    }
}

#[test]
fn the_search_agrees_with_all_chains_by_length() {
    let mut random = Random(11);
    let mut lengths = [0; 6];
    for round in 0..240 {
        let map = match round % 2 {
            0 => random_map(&mut random, 2, 6),
            _ => random_clean_map(&mut random, 2, 6),
        };
        let register = map.register();
        let holdings = Holdings::of(&register);
        for (office, p) in questions(map.n) {
            let tried = first_chain(&register, office, p, None);
            assert_eq!(
                smallest_chain(&register, office, p),
                tried,
                "{office} {p:?} {map:?}"
            );
            assert_eq!(holdings.holds(office, p), tried.is_some());
            lengths[tried.map_or(0, |chain| chain.len() - 1)] += 1;
        }
    }
    assert!(
        lengths.iter().all(|count| *count > 0),
        "chains of each length: {lengths:?}"
    );
}

#[test]
fn independent_levels_agree_with_all_chains_that_do_not_name_the_grantor() {
    let mut random = Random(12);
    for _ in 0..120 {
        let map = random_map(&mut random, 2, 5);
        let register = map.register();
        for by in 0..map.n {
            let tried = |office, p| first_chain(&register, office, p, Some(by)).is_some();
            let level =
                |office| match (tried(office, Permission::TT), tried(office, Permission::TF)) {
                    (true, _) => 2,
                    (false, true) => 1,
                    (false, false) => 0,
                };
            let levels: Vec<u8> = (0..map.n).map(level).collect();
            assert_eq!(
                independent_levels(&register, by),
                levels,
                "from {by} in {map:?}"
            );
            assert_eq!(levels[usize::from(by)], 0);
            assert!(by != map.soa || levels.iter().all(|level| *level == 0));
        }
    }
}

/// Counted bit by bit from the bytes, as a check on the sets of records.
fn tally_of_bytes(before: &[u8], after: &[u8]) -> (u32, u32) {
    let only_in = |one: &[u8], other: &[u8]| {
        one.iter()
            .zip(other)
            .map(|(a, b)| (a & !b).count_ones())
            .sum()
    };
    (only_in(before, after), only_in(after, before))
}

/// A command that may be anything; offices are now and then out of range.
fn random_entry(random: &mut Random, n: u16) -> Entry {
    let act = random.below(5) as u8;
    let perm = match act {
        GRANT => random.perm(),
        _ => 0,
    };
    let slip = |random: &mut Random| u16::from(random.below(40) == 0);
    Entry {
        act: act + slip(random) as u8,
        layer: LAYER + slip(random),
        by: random.office(n) + slip(random),
        to: random.office(n) + slip(random),
        perm: perm + slip(random) as u8,
        answer: 99,
    }
}

fn carry_out(map: &mut Map, entry: &Entry) -> Outcome {
    let Entry {
        act,
        layer,
        by,
        to,
        perm,
        ..
    } = *entry;
    command(
        &mut map.cells,
        map.n,
        map.soa,
        LAYER,
        act,
        layer,
        by,
        to,
        perm,
    )
}

#[test]
fn every_accepted_command_keeps_soundness_and_counts_its_records() {
    let mut random = Random(13);
    let mut accepted = [0; 5];
    let mut refusals = BTreeSet::new();
    for _ in 0..600 {
        let mut map = random_map(&mut random, 2, 8);
        for _ in 0..25 {
            let before = map.clone();
            let entry = random_entry(&mut random, map.n);
            let outcome = carry_out(&mut map, &entry);
            assert!(sound(&map.cells, map.n, map.soa), "{entry:?} on {before:?}");
            let tally = tally_of_bytes(&before.cells, &map.cells);
            assert_eq!(
                (outcome.removed, outcome.added),
                tally,
                "{entry:?} on {before:?}"
            );
            if outcome.answer == 0 {
                accepted[usize::from(entry.act)] += 1;
            } else {
                assert_eq!(map, before);
                refusals.insert(outcome.answer);
            }
        }
    }
    assert!(
        accepted.iter().all(|count| *count > 100),
        "accepted by act: {accepted:?}"
    );
    assert_eq!(refusals, BTreeSet::from([4, 5, 6, 7, 8, 9, 10]));
}

#[test]
fn a_deletion_that_is_accepted_empties_its_cell_and_nobody_gains() {
    let mut random = Random(14);
    let mut accepted = 0;
    for _ in 0..1_500 {
        let before = random_map(&mut random, 2, 8);
        let act = random.one_of(&[WLD, WGD, SLD, SGD]);
        let (by, to) = random_link(&mut random, &before);
        let mut after = before.clone();
        if after.give(act, by, to, 0).answer != 0 {
            continue;
        }
        accepted += 1;
        assert_eq!(after.cell(by, to), 0);
        let (held_before, held_after) = (
            Holdings::of(&before.register()),
            Holdings::of(&after.register()),
        );
        for office in 0..before.n {
            let (then, now) = (held_before.of_office(office), held_after.of_office(office));
            assert!(now.is_subset(then), "act {act} {by} {to} on {before:?}");
            let local = act == WLD || act == SLD;
            assert!(
                !local || office == to || now == then,
                "act {act} {by} {to} on {before:?}"
            );
        }
    }
    assert!(accepted > 1_000, "{accepted} accepted");
}

/// Holdings by the chains of the starting register that use none of the links.
fn held_without(map: &Map, links: &[(u16, u16)]) -> Holdings {
    let mut register = map.register();
    for (by, to) in links {
        register.set_cell(*by, *to, Cell::new());
    }
    Holdings::of(&register)
}

/// Mostly a link whose cell has records, now and then any two offices.
fn random_link(random: &mut Random, map: &Map) -> (u16, u16) {
    let standing: Vec<(u16, u16)> = map
        .register()
        .records()
        .iter()
        .map(|record| (record.by, record.to))
        .collect();
    if standing.is_empty() || random.below(5) == 0 {
        return (random.office(map.n), random.office(map.n));
    }
    random.one_of(&standing)
}

#[test]
fn wgds_come_to_the_same_register_in_every_order() {
    let mut random = Random(15);
    let mut altered = 0;
    for _ in 0..500 {
        let start = random_map(&mut random, 2, 8);
        let count = 1 + random.below(5);
        let mut links: Vec<(u16, u16)> = (0..count)
            .map(|_| random_link(&mut random, &start))
            .collect();
        let mut first: Option<Map> = None;
        for _ in 0..6 {
            random.shuffle(&mut links);
            let mut map = start.clone();
            for (by, to) in &links {
                map.give(WGD, *by, *to, 0);
            }
            assert_eq!(
                *first.get_or_insert_with(|| map.clone()),
                map,
                "{links:?} on {start:?}"
            );
        }
        let after = first.expect("six orders were tried");
        assert_eq!(
            Holdings::of(&after.register()),
            held_without(&start, &links)
        );
        altered += u32::from(after != start);
    }
    assert!(altered > 200, "{altered} altered");
}

/// SGD with the losers tested one after the other while columns change: other
/// rounds, the same end.
fn sgd_one_column_at_a_time(before: &Register, by: u16, to: u16) -> Register {
    let independent = independent_levels(before, by);
    let held_before = Holdings::of(before);
    let mut now = before.clone();
    now.restrict_column(to, &independent);
    sweep(&mut now);
    loop {
        let last = now.clone();
        for office in (0..now.n).rev() {
            if Holdings::of(&now).of_office(office) != held_before.of_office(office) {
                now.restrict_column(office, &independent);
                sweep(&mut now);
            }
        }
        if now == last {
            return now;
        }
    }
}

#[test]
fn sgd_ends_the_same_one_column_at_a_time_and_in_two_rounds() {
    let mut random = Random(16);
    let mut rounds = [0; 3];
    for _ in 0..600 {
        let map = random_map(&mut random, 3, 8);
        let register = map.register();
        for record in register.records() {
            let steps = sgd_steps(&register, record.by, record.to);
            let other = sgd_one_column_at_a_time(&register, record.by, record.to);
            assert_eq!(steps[steps.len() - 1], other, "{record:?} on {map:?}");
            rounds[steps.len() - 1] += 1;
        }
    }
    assert!(
        rounds.iter().all(|count| *count > 0),
        "altering rounds: {rounds:?}"
    );
}

#[test]
fn a_run_is_its_commands_one_by_one() {
    let mut random = Random(17);
    for _ in 0..120 {
        let mut map = random_map(&mut random, 2, 7);
        let mut one_by_one = map.clone();
        let count = random.below(40);
        let mut entries: Vec<Entry> = (0..count)
            .map(|_| random_entry(&mut random, map.n))
            .collect();
        let mut expected = entries.clone();
        let mut whole = Outcome::default();
        for entry in &mut expected {
            let outcome = carry_out(&mut one_by_one, entry);
            entry.answer = outcome.answer;
            whole.removed += outcome.removed;
            whole.added += outcome.added;
        }
        let (n, soa) = (map.n, map.soa);
        assert_eq!(run(&mut map.cells, n, soa, LAYER, &mut entries), whole);
        assert_eq!((map, entries), (one_by_one, expected));
    }
}

#[test]
fn the_question_gives_the_chain_or_leaves_the_buffer() {
    let mut random = Random(18);
    for _ in 0..150 {
        let map = random_map(&mut random, 2, 5);
        let register = map.register();
        for (office, p) in questions(map.n) {
            let mut buffer = vec![255; usize::from(map.n) + random.below(3)];
            let mut expected = buffer.clone();
            let outcome = holding(&map.cells, map.n, map.soa, office, p.code(), &mut buffer);
            let chain = first_chain(&register, office, p, None);
            let answer = if chain.is_some() { 0 } else { 12 };
            let chain = chain.unwrap_or_default();
            for (place, office) in chain.iter().enumerate() {
                expected[place] = *office as u8;
            }
            assert_eq!((outcome, buffer), ((answer, chain.len()), expected));
        }
    }
}
