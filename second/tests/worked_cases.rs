//! The worked cases of 01, its program example, and the known traps.

mod support;

use second::chains::smallest_chain;
use second::chains_by_length::first_chain;
use second::deletions::sgd_steps;
use second::permission::Permission;
use second::{holding, regrun, run, Entry, Outcome};
use support::*;

fn map_a() -> Map {
    Map::new(
        5,
        0,
        &[(0, 1, TT), (0, 3, TF), (1, 2, TT), (2, 4, TT), (3, 2, TF)],
    )
}

fn map_b() -> Map {
    Map::new(4, 0, &[(0, 1, TT), (1, 2, TT), (1, 3, TT), (3, 2, TF)])
}

fn map_c() -> Map {
    Map::new(3, 0, &[(0, 1, TT), (1, 2, TT), (2, 1, TT)])
}

fn done(removed: u32, added: u32) -> Outcome {
    Outcome {
        answer: 0,
        removed,
        added,
    }
}

fn refused(answer: u8) -> Outcome {
    Outcome {
        answer,
        removed: 0,
        added: 0,
    }
}

/// The deletion leaves exactly these records and gives this tally.
fn cut(map: &Map, act: u8, by: u16, to: u16, left: &[(u16, u16, u8)], tally: Outcome) {
    let mut after = map.clone();
    assert_eq!(after.give(act, by, to, 0), tally, "tally of act {act}");
    assert_eq!(
        after.cells,
        cells_of(map.n, left),
        "register after act {act}"
    );
}

/// The chain given, with the later bytes of the buffer still as they were.
fn chain(map: &Map, office: u16, perm: u8) -> (u8, Vec<u8>) {
    let mut buffer = vec![99; usize::from(map.n) + 3];
    let (answer, length) = holding(&map.cells, map.n, map.soa, office, perm, &mut buffer);
    assert!(
        buffer[length..].iter().all(|byte| *byte == 99),
        "later bytes stay"
    );
    (answer, buffer[..length].to_vec())
}

#[test]
fn case_1_wgd_keeps_what_a_second_chain_carries() {
    cut(
        &map_a(),
        WGD,
        0,
        1,
        &[(0, 3, TF), (2, 4, TF), (3, 2, TF)],
        done(3, 1),
    );
}

#[test]
fn case_2_wld_hands_the_lost_record_to_the_grantor() {
    let left = [(0, 2, TT), (0, 3, TF), (2, 4, TT), (3, 2, TF)];
    cut(&map_a(), WLD, 0, 1, &left, done(2, 1));
}

#[test]
fn case_3_wgd_in_the_middle() {
    let left = [(0, 1, TT), (0, 3, TF), (2, 4, TF), (3, 2, TF)];
    cut(&map_a(), WGD, 1, 2, &left, done(2, 1));
}

#[test]
fn case_4_wld_and_sld_agree_in_the_middle() {
    let left = [(0, 1, TT), (0, 3, TF), (1, 4, TT), (2, 4, TF), (3, 2, TF)];
    cut(&map_a(), WLD, 1, 2, &left, done(2, 2));
    cut(&map_a(), SLD, 1, 2, &left, done(2, 2));
}

#[test]
fn case_5_two_wgds_in_either_order() {
    for order in [[(0, 1), (3, 2)], [(3, 2), (0, 1)]] {
        let mut map = map_a();
        for (by, to) in order {
            assert_eq!(map.give(WGD, by, to, 0).answer, 0);
        }
        assert_eq!(map.cells, cells_of(5, &[(0, 3, TF)]));
    }
}

#[test]
fn case_6_a_chain_through_the_grantor_is_not_independent() {
    cut(
        &map_b(),
        WGD,
        1,
        2,
        &[(0, 1, TT), (1, 3, TT), (3, 2, TF)],
        done(1, 0),
    );
    cut(&map_b(), SGD, 1, 2, &[(0, 1, TT), (1, 3, TT)], done(2, 0));
}

#[test]
fn case_7_a_ring_does_not_keep_itself_alive() {
    cut(&map_c(), WGD, 0, 1, &[], done(3, 0));
    cut(&map_c(), WLD, 0, 1, &[(0, 2, TT), (2, 1, TT)], done(2, 1));
    let mut after = map_c();
    after.give(WLD, 0, 1, 0);
    assert_eq!(chain(&after, 1, TT), (0, vec![0, 2, 1]));
}

#[test]
fn case_8_chains() {
    let mut map = map_a();
    assert_eq!(chain(&map, 4, TF), (0, vec![0, 1, 2, 4]));
    assert_eq!(chain(&map, 0, TT), (0, vec![0]));
    assert_eq!(chain(&map, 3, FT), (12, vec![]));
    map.give(WGD, 0, 1, 0);
    assert_eq!(chain(&map, 4, TF), (0, vec![0, 3, 2, 4]));
}

#[test]
fn case_9_grants_and_refusals() {
    let given = |act, by, to, perm| map_a().give(act, by, to, perm);
    assert_eq!(given(GRANT, 3, 4, FF), done(0, 1));
    assert_eq!(given(GRANT, 3, 4, FT), refused(8));
    assert_eq!(given(GRANT, 0, 1, TT), refused(9));
    assert_eq!(given(GRANT, 0, 1, TF), done(0, 1));
    assert_eq!(given(GRANT, 4, 0, TT), refused(7));
    assert_eq!(given(WGD, 4, 1, 0), refused(10));
    let mut map = map_a();
    assert_eq!(map.give(WGD, 0, 1, 0).answer, 0);
    assert_eq!(map.give(WGD, 1, 2, 0), refused(10));
}

#[test]
fn case_9_a_grant_adds_its_record_and_nothing_else() {
    let mut map = map_a();
    map.give(GRANT, 0, 1, TF);
    let mut expected = map_a().cells;
    expected[1] = TT + TF;
    assert_eq!(map.cells, expected);
}

#[test]
fn case_10_lengths_of_runs_and_sizes_of_registers() {
    let entry = Entry {
        act: WGD,
        layer: LAYER,
        by: 1,
        to: 2,
        perm: 0,
        answer: 77,
    };
    let mut map = map_a();
    assert_eq!(run(&mut map.cells, 5, 0, LAYER, &mut []), done(0, 0));
    assert_eq!(map, map_a());
    let mut entries = vec![entry; 256];
    assert_eq!(run(&mut map.cells, 5, 0, LAYER, &mut entries), done(2, 1));
    assert_eq!(entries[0], Entry { answer: 0, ..entry });
    assert!(entries[1..].iter().all(|e| *e
        == Entry {
            answer: 10,
            ..entry
        }));
    let mut entries = vec![entry; 257];
    let mut map = map_a();
    assert_eq!(run(&mut map.cells, 5, 0, LAYER, &mut entries), refused(16));
    assert_eq!(map, map_a());
    assert!(entries.iter().all(|e| *e == entry));
    for n in [1, 129] {
        let mut sized = Map::new(n, 0, &[]);
        assert_eq!(sized.give(GRANT, 0, 1, TT), refused(1));
        assert_eq!(chain(&sized, 0, TT), (1, vec![]));
    }
}

#[test]
fn a_run_answers_0_where_every_entry_is_refused() {
    let mut entries = [Entry::default(); 2];
    assert_eq!(run(&mut [0], 1, 0, 0, &mut entries), done(0, 0));
    assert!(entries.iter().all(|entry| entry.answer == 1));
}

const PROGRAM_REGISTER: &str = "n=3\nsoa=0\nlayer=7\nby=0\nto=1\nperm=TT\nby=1\nto=2\nperm=TT\n\
                                by=2\nto=1\nperm=TT\nend=register\n";
const PROGRAM_COMMAND: &str = "act=wgd\nlayer=7\nby=0\nto=1\nperm=none\n";

#[test]
fn the_program_example() {
    let input = [PROGRAM_REGISTER, PROGRAM_COMMAND].concat();
    let output = "answer=0\nremoved=3\nadded=0\nn=3\nsoa=0\nlayer=7\nend=register\n";
    assert_eq!(regrun(input.as_bytes()), output.as_bytes());
    assert_eq!(map_c().text(), PROGRAM_REGISTER.as_bytes());
}

#[test]
fn the_program_without_commands_writes_the_register_back() {
    assert_eq!(
        regrun(PROGRAM_REGISTER.as_bytes()),
        PROGRAM_REGISTER.as_bytes()
    );
}

#[test]
fn the_program_keeps_the_answers_before_a_refused_command() {
    let input = [
        PROGRAM_REGISTER,
        PROGRAM_COMMAND,
        PROGRAM_COMMAND,
        "act=wgd\nlayer=07\n",
    ]
    .concat();
    let at = PROGRAM_REGISTER.len() + 2 * PROGRAM_COMMAND.len() + "act=wgd\n".len();
    let answers = "answer=0\nremoved=3\nadded=0\nanswer=10\nremoved=0\nadded=0\n";
    let output = format!("{answers}refused=13\nat={at}\n");
    assert_eq!(String::from_utf8(regrun(input.as_bytes())).unwrap(), output);
}

#[test]
fn the_program_refuses_texts_and_lengths() {
    let output = |input: &[u8]| String::from_utf8(regrun(input)).unwrap();
    assert_eq!(output(b""), "refused=13\nat=0\n");
    assert_eq!(output(b"n=3\nsoa=0\n"), "refused=13\nat=10\n");
    assert_eq!(
        output(b"n=129\nsoa=0\nlayer=0\nend=register\n"),
        "refused=1\nat=0\n"
    );
    assert_eq!(output(&[b'x'; 65_536]), "refused=13\nat=0\n");
    assert_eq!(output(&[b'x'; 65_537]), "refused=15\nat=0\n");
    let mut long = PROGRAM_REGISTER.as_bytes().to_vec();
    long.resize(65_537, b'\n');
    assert_eq!(output(&long), "refused=15\nat=0\n");
    long.pop();
    assert_eq!(
        output(&long),
        format!("refused=13\nat={}\n", PROGRAM_REGISTER.len())
    );
}

#[test]
fn trap_smallest_list_is_not_the_smallest_predecessor() {
    let links = [
        (0, 1, TT),
        (0, 2, TT),
        (1, 4, TT),
        (2, 3, TT),
        (4, 5, TT),
        (3, 5, TT),
    ];
    assert_eq!(chain(&Map::new(6, 0, &links), 5, TT), (0, vec![0, 1, 4, 5]));
}

#[test]
fn trap_a_link_read_as_ff_lets_nothing_follow() {
    let map = Map::new(4, 0, &[(0, 1, TF), (1, 2, TF), (0, 2, FF), (2, 3, FF)]);
    assert_eq!(chain(&map, 3, FF), (0, vec![0, 1, 2, 3]));
}

#[test]
fn trap_soa_holds_everything_by_itself() {
    for soa in 0..4 {
        for map in [
            Map::new(4, soa, &[]),
            Map::new(4, soa, &[(soa, (soa + 1) % 4, FF)]),
        ] {
            for perm in [TT, TF, FT, FF] {
                assert_eq!(chain(&map, soa, perm), (0, vec![soa as u8]));
            }
        }
    }
}

#[test]
fn trap_sgd_needs_two_altering_rounds() {
    let links = [(0, 1, TT), (1, 2, TT), (0, 2, TF), (2, 3, TF), (0, 3, FF)];
    let map = Map::new(4, 0, &links);
    let steps: Vec<Vec<u8>> = sgd_steps(&map.register(), 0, 1)
        .iter()
        .map(|step| step.to_bytes())
        .collect();
    let after_column = cells_of(4, &[(0, 2, TF), (2, 3, TF), (0, 3, FF)]);
    let after_round_1 = cells_of(4, &[(0, 3, FF)]);
    assert_eq!(steps, [after_column, after_round_1, cells_of(4, &[])]);
    cut(&map, SGD, 0, 1, &[], done(5, 0));
}

#[test]
fn reading_2_losing_ft_alone_is_holding_fewer() {
    let map = Map::new(3, 0, &[(0, 1, TT), (0, 2, FF), (1, 2, FT)]);
    cut(&map, SGD, 0, 1, &[], done(3, 0));
}

#[test]
fn reading_3_only_the_record_that_is_gone_is_handed_on() {
    let links = [
        (0, 1, TT),
        (0, 2, TF),
        (1, 2, TT),
        (2, 3, TT + TF),
        (2, 1, TT),
    ];
    let left = [(0, 1, TT), (0, 2, TF), (1, 3, TT), (2, 3, TF), (2, 1, TF)];
    cut(&Map::new(4, 0, &links), WLD, 1, 2, &left, done(3, 2));
}

#[test]
fn sld_does_not_count_a_grantor_that_depends_on_i() {
    let left = [(0, 1, TT), (1, 3, TT)];
    cut(&map_b(), SLD, 1, 2, &left, done(2, 0));
    let left = [(0, 1, TT), (1, 3, TT), (3, 2, TF)];
    cut(&map_b(), WLD, 1, 2, &left, done(1, 0));
}

#[test]
fn reading_5_an_unsound_ft_record_carries_ff() {
    let register = Map::new(3, 0, &[(0, 1, TF), (1, 2, FT)]).register();
    let expected = Some(vec![0, 1, 2]);
    assert_eq!(smallest_chain(&register, 2, Permission::FF), expected);
    assert_eq!(first_chain(&register, 2, Permission::FF, None), expected);
    assert_eq!(smallest_chain(&register, 2, Permission::FT), None);
}
