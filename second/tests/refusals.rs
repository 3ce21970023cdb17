//! Each refusal, and that the earlier one is given where several apply.

mod support;

use second::{command, holding, write_end, write_header, write_row};
use support::*;

/// What a caller may get wrong, all right at first.
#[derive(Clone)]
struct Call {
    map: Map,
    layer: u16,
    act: u8,
    by: u16,
    to: u16,
    perm: u8,
}

fn grant_call() -> Call {
    let map = Map::new(4, 0, &[(0, 1, TF), (0, 2, TT), (2, 3, TT)]);
    Call {
        map,
        layer: LAYER,
        act: GRANT,
        by: 2,
        to: 3,
        perm: FF,
    }
}

fn answer_of(call: &Call) -> u8 {
    let Map { n, soa, mut cells } = call.map.clone();
    let outcome = command(
        &mut cells, n, soa, LAYER, call.act, call.layer, call.by, call.to, call.perm,
    );
    if outcome.answer != 0 {
        assert_eq!((outcome.removed, outcome.added), (0, 0));
        assert_eq!(cells, call.map.cells, "a refusal leaves the register");
    }
    outcome.answer
}

type Fault = fn(&mut Call);

/// Faults from the last check to the first: each one added must be the answer.
fn answers_as_faults_add_up(mut call: Call, faults: &[(u8, Fault)]) {
    assert_eq!(answer_of(&call), 0);
    for (answer, fault) in faults {
        fault(&mut call);
        assert_eq!(answer_of(&call), *answer);
    }
}

const FAULTS_OF_ALL: [(u8, Fault); 6] = [
    (7, |call| call.to = call.by),
    (6, |call| call.by = 4),
    (5, |call| call.layer += 1),
    (4, |call| call.perm = 3),
    (3, |call| call.map.cells[4] = 16),
    (2, |call| call.map.cells.push(0)),
];

#[test]
fn a_grant_is_refused_in_order() {
    let own: [(u8, Fault); 2] = [(9, |call| call.perm = TT), (8, |call| call.by = 1)];
    answers_as_faults_add_up(grant_call(), &[&own[..], &FAULTS_OF_ALL[..]].concat());
}

#[test]
fn a_deletion_is_refused_in_order() {
    for act in [WLD, WGD, SLD, SGD] {
        let call = Call {
            act,
            perm: 0,
            ..grant_call()
        };
        let own: [(u8, Fault); 1] = [(10, |call| call.by = 1)];
        answers_as_faults_add_up(call, &[&own[..], &FAULTS_OF_ALL[..]].concat());
    }
}

/// 8 and 9 never apply together: in a sound register a record that stands is
/// entitled. So there is one case for each and none for their order.
#[test]
fn refusals_8_and_9_are_for_grants() {
    let call = Call {
        perm: TT,
        ..grant_call()
    };
    assert_eq!(answer_of(&call), 9);
    assert_eq!(
        answer_of(&Call {
            by: 1,
            perm: TT,
            ..call.clone()
        }),
        8
    );
    assert_eq!(
        answer_of(&Call {
            by: 3,
            to: 1,
            perm: FT,
            ..call.clone()
        }),
        0
    );
    assert_eq!(
        answer_of(&Call {
            by: 1,
            to: 3,
            perm: FT,
            ..call
        }),
        8
    );
}

#[test]
fn refusal_1_comes_before_the_length() {
    for (n, soa) in [(0, 0), (1, 0), (129, 0), (4, 4), (65_535, 0), (2, 65_535)] {
        let map = Map {
            n,
            soa,
            cells: vec![255; 16],
        };
        assert_eq!(
            answer_of(&Call {
                map,
                ..grant_call()
            }),
            1
        );
    }
    let largest = Map::new(128, 127, &[(127, 0, TT)]);
    let call = Call {
        map: largest,
        by: 0,
        to: 1,
        ..grant_call()
    };
    assert_eq!(answer_of(&call), 0);
}

#[test]
fn refusal_2_is_for_shorter_and_longer() {
    for length in [0, 15, 17, 25] {
        let map = Map {
            n: 4,
            soa: 0,
            cells: vec![0; length],
        };
        assert_eq!(
            answer_of(&Call {
                map,
                ..grant_call()
            }),
            2
        );
    }
}

#[test]
fn refusal_3_for_each_way_to_be_unsound() {
    let places: [(usize, usize, u8); 7] = [
        (3, 0, TT),
        (2, 0, FF),
        (1, 1, TF),
        (0, 0, TT),
        (1, 3, TT),
        (1, 3, FT),
        (3, 2, 16),
    ];
    for (by, to, byte) in places {
        let mut call = grant_call();
        call.map.cells[by * 4 + to] = byte;
        assert_eq!(answer_of(&call), 3, "{by} to {to}: {byte}");
    }
}

#[test]
fn refusal_4_for_every_act_and_perm() {
    for act in 0..=255u8 {
        for perm in 0..=255u8 {
            let grants = act == GRANT && [1, 2, 4, 8].contains(&perm);
            let deletes = (1..=4).contains(&act) && perm == 0;
            let call = Call {
                act,
                perm,
                layer: 8,
                ..grant_call()
            };
            assert_eq!(answer_of(&call), if grants || deletes { 5 } else { 4 });
        }
    }
}

#[test]
fn refusals_6_and_7_for_either_office() {
    let placed = |by, to| {
        answer_of(&Call {
            by,
            to,
            ..grant_call()
        })
    };
    assert_eq!(
        [placed(4, 3), placed(2, 4), placed(4, 4), placed(65_535, 0)],
        [6; 4]
    );
    assert_eq!([placed(2, 2), placed(2, 0), placed(0, 0)], [7; 3]);
}

/// The holding question's answer, with its buffer checked for changes.
fn question(map: &Map, office: u16, perm: u8, length: usize) -> u8 {
    let mut chain = vec![200; length];
    let (answer, offices) = holding(&map.cells, map.n, map.soa, office, perm, &mut chain);
    if answer != 0 {
        assert_eq!((offices, chain), (0, vec![200; length]));
    }
    answer
}

#[test]
fn the_question_is_refused_in_order() {
    let mut map = grant_call().map;
    assert_eq!(question(&map, 3, TT, 4), 0);
    assert_eq!(question(&map, 1, TT, 4), 12);
    assert_eq!(question(&map, 1, TT, 3), 11);
    assert_eq!(question(&map, 4, TT, 3), 6);
    for perm in (0..=255).filter(|perm| ![1, 2, 4, 8].contains(perm)) {
        assert_eq!(question(&map, 4, perm, 3), 4);
    }
    map.cells[4] = 1;
    assert_eq!(question(&map, 4, 0, 3), 3);
    map.cells.pop();
    assert_eq!(question(&map, 4, 0, 3), 2);
    map.soa = 4;
    assert_eq!(question(&map, 4, 0, 3), 1);
}

#[test]
fn the_question_wants_room_for_n_offices_even_for_soa() {
    let map = grant_call().map;
    assert_eq!(
        [question(&map, 0, TT, 3), question(&map, 0, TT, 4)],
        [11, 0]
    );
}

#[test]
fn the_row_writer_is_refused_in_order() {
    let mut map = grant_call().map;
    let text = b"by=0\nto=1\nperm=TF\nby=0\nto=2\nperm=TT\n";
    let row = |map: &Map, office: u16, length: usize| {
        let mut room = vec![b'?'; length];
        let (answer, written) = write_row(&map.cells, map.n, map.soa, office, &mut room);
        assert!(
            room[written..].iter().all(|byte| *byte == b'?'),
            "the rest of the room stays"
        );
        (answer, room[..written].to_vec())
    };
    assert_eq!(row(&map, 0, text.len() + 2), (0, text.to_vec()));
    assert_eq!(row(&map, 0, text.len()), (0, text.to_vec()));
    assert_eq!(row(&map, 0, text.len() - 1), (14, vec![]));
    assert_eq!(row(&map, 1, 0), (0, vec![]));
    assert_eq!(row(&map, 4, 0), (6, vec![]));
    map.cells[4] = 1;
    assert_eq!(row(&map, 4, 0), (3, vec![]));
    map.cells.pop();
    assert_eq!(row(&map, 4, 0), (2, vec![]));
    map.n = 1;
    assert_eq!(row(&map, 4, 0), (1, vec![]));
}

#[test]
fn header_and_end_writers() {
    let mut room = [b'?'; 40];
    assert_eq!(write_header(128, 127, 65_535, &mut room), (0, 26));
    assert_eq!(&room[..27], b"n=128\nsoa=127\nlayer=65535\n?");
    let before = room;
    assert_eq!(write_header(2, 0, 0, &mut room[..17]), (14, 0));
    assert_eq!(write_header(2, 2, 0, &mut room[..0]), (1, 0));
    assert_eq!(write_end(&mut room[..12]), (14, 0));
    assert_eq!(room, before);
    assert_eq!(write_header(2, 0, 0, &mut room[..18]), (0, 18));
    assert_eq!(&room[..19], b"n=2\nsoa=0\nlayer=0\nr");
    assert_eq!(write_end(&mut room[..13]), (0, 13));
    assert_eq!(&room[..14], b"end=register\ne");
}
