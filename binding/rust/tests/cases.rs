//! The worked cases of 01 through the safe calls.

use rights_register::Permission::{FF, FT, TF, TT};
use rights_register::{command, holding, register_text, run};
use rights_register::{Answer, Command, Entry, Header, Layer, Office};
use rights_register::{Perm, Permission, Refusal, Tally};

type Record = (u16, u16, Permission);
type Deletion = fn(Layer, Office, Office) -> Command;

const LAYER: Layer = Layer(7);

#[derive(Clone)]
struct Map {
    header: Header,
    cells: Vec<u8>,
}

impl Map {
    fn new(n: u16, records: &[Record]) -> Map {
        let soa = Office(0);
        let header = Header {
            n,
            soa,
            layer: LAYER,
        };
        let mut cells = vec![0; usize::from(n) * usize::from(n)];
        for (by, to, permission) in records {
            cells[usize::from(by * n + to)] |= permission.code();
        }
        Map { header, cells }
    }

    fn grant(&mut self, by: u16, to: u16, p: Permission) -> Result<Tally, Refusal> {
        let grant = Command::grant(LAYER, Office(by), Office(to), p);
        command(&mut self.cells, self.header, grant)
    }

    fn delete(&mut self, deletion: Deletion, by: u16, to: u16) -> Result<Tally, Refusal> {
        let deletion = deletion(LAYER, Office(by), Office(to));
        command(&mut self.cells, self.header, deletion)
    }

    fn chain(&self, office: u16, perm: impl Into<Perm>) -> Result<Vec<u16>, Refusal> {
        let mut room = vec![0; usize::from(self.header.n)];
        let chain = holding(&self.cells, self.header, Office(office), perm, &mut room)?;
        Ok(chain.offices().map(|office| office.0).collect())
    }
}

fn map_a() -> Map {
    let records = [(0, 1, TT), (0, 3, TF), (1, 2, TT), (2, 4, TT), (3, 2, TF)];
    Map::new(5, &records)
}

fn map_b() -> Map {
    Map::new(4, &[(0, 1, TT), (1, 2, TT), (1, 3, TT), (3, 2, TF)])
}

fn map_c() -> Map {
    Map::new(3, &[(0, 1, TT), (1, 2, TT), (2, 1, TT)])
}

fn tally(removed: u64, added: u64) -> Result<Tally, Refusal> {
    Ok(Tally { removed, added })
}

/// The map after the deletion, which gives this tally, has these records.
fn cut(mut map: Map, deletion: Deletion, by: u16, to: u16, left: &[Record], told: (u64, u64)) {
    assert_eq!(map.delete(deletion, by, to), tally(told.0, told.1));
    assert_eq!(map.cells, Map::new(map.header.n, left).cells);
}

#[test]
fn cases_1_to_4() {
    let left = [(0, 3, TF), (2, 4, TF), (3, 2, TF)];
    cut(map_a(), Command::wgd, 0, 1, &left, (3, 1));
    let left = [(0, 2, TT), (0, 3, TF), (2, 4, TT), (3, 2, TF)];
    cut(map_a(), Command::wld, 0, 1, &left, (2, 1));
    let left = [(0, 1, TT), (0, 3, TF), (2, 4, TF), (3, 2, TF)];
    cut(map_a(), Command::wgd, 1, 2, &left, (2, 1));
    let left = [(0, 1, TT), (0, 3, TF), (1, 4, TT), (2, 4, TF), (3, 2, TF)];
    cut(map_a(), Command::wld, 1, 2, &left, (2, 2));
    cut(map_a(), Command::sld, 1, 2, &left, (2, 2));
}

#[test]
fn case_5() {
    for order in [[(0, 1), (3, 2)], [(3, 2), (0, 1)]] {
        let mut map = map_a();
        for (by, to) in order {
            map.delete(Command::wgd, by, to).unwrap();
        }
        assert_eq!(map.cells, Map::new(5, &[(0, 3, TF)]).cells);
    }
}

#[test]
fn case_6() {
    let left = [(0, 1, TT), (1, 3, TT), (3, 2, TF)];
    cut(map_b(), Command::wgd, 1, 2, &left, (1, 0));
    let left = [(0, 1, TT), (1, 3, TT)];
    cut(map_b(), Command::sgd, 1, 2, &left, (2, 0));
}

#[test]
fn case_7() {
    cut(map_c(), Command::wgd, 0, 1, &[], (3, 0));
    let left = [(0, 2, TT), (2, 1, TT)];
    cut(map_c(), Command::wld, 0, 1, &left, (2, 1));
    assert_eq!(Map::new(3, &left).chain(1, TT), Ok(vec![0, 2, 1]));
}

#[test]
fn case_8() {
    let mut map = map_a();
    assert_eq!(map.chain(4, TF), Ok(vec![0, 1, 2, 4]));
    assert_eq!(map.chain(0, TT), Ok(vec![0]));
    assert_eq!(map.chain(3, FT), Err(Refusal::NotHeld));
    map.delete(Command::wgd, 0, 1).unwrap();
    assert_eq!(map.chain(4, TF), Ok(vec![0, 3, 2, 4]));
}

#[test]
fn case_9() {
    assert_eq!(map_a().grant(3, 4, FF), tally(0, 1));
    assert_eq!(map_a().grant(3, 4, FT), Err(Refusal::NotEntitled));
    assert_eq!(map_a().grant(0, 1, TT), Err(Refusal::RecordStands));
    assert_eq!(map_a().grant(0, 1, TF), tally(0, 1));
    assert_eq!(map_a().grant(4, 0, FF), Err(Refusal::SameOfficeOrSource));
    assert_eq!(map_a().delete(Command::wgd, 4, 1), Err(Refusal::CellEmpty));
    let mut map = map_a();
    map.delete(Command::wgd, 0, 1).unwrap();
    assert_eq!(map.delete(Command::wgd, 1, 2), Err(Refusal::CellEmpty));
}

/// So many entries: grants and cuts of 0→1 in turn, the first of them refused because the record
/// stands.
fn entries(many: usize) -> Vec<Entry> {
    let grant = Command::grant(LAYER, Office(0), Office(1), TT);
    let cut = Command::wgd(LAYER, Office(0), Office(1));
    let mut entries = vec![Entry::new(grant); many];
    for entry in entries.iter_mut().skip(1).step_by(2) {
        entry.command = cut;
    }
    entries
}

#[test]
fn case_10_runs() {
    let mut map = map_a();
    assert_eq!(run(&mut map.cells, map.header, &mut []), tally(0, 0));
    assert_eq!(map.cells, map_a().cells);

    let mut whole = entries(256);
    let told = run(&mut map.cells, map.header, &mut whole).unwrap();
    assert_eq!(whole[0].outcome(), Some(Err(Refusal::RecordStands)));
    let mut later = whole[1..].iter();
    assert!(later.all(|entry| entry.outcome() == Some(Ok(()))));
    let mut one_by_one = map_a();
    let mut sum = Tally::default();
    for entry in &whole {
        let one = command(&mut one_by_one.cells, map.header, entry.command);
        assert_eq!(Some(one.map(drop)), entry.outcome());
        let one = one.unwrap_or_default();
        sum.removed += one.removed;
        sum.added += one.added;
    }
    assert_eq!((told, map.cells), (sum, one_by_one.cells));

    let (mut map, mut long) = (map_a(), entries(257));
    let told = run(&mut map.cells, map.header, &mut long);
    assert_eq!(told, Err(Refusal::RunTooLong));
    assert_eq!((map.cells, &long), (map_a().cells, &entries(257)));
    assert!(long.iter().all(|entry| entry.outcome().is_none()));
}

/// Commands answer 0 to 10. A place with any other byte was set by none.
#[test]
fn every_byte_in_the_place_for_an_answer_has_its_meaning() {
    for byte in 0..=255 {
        let outcome = match byte {
            0 => Some(Ok(())),
            1..=10 => Some(Err(Refusal::ALL[usize::from(byte) - 1])),
            _ => None,
        };
        assert_eq!(Answer::from_byte(byte).outcome(), outcome);
        assert_eq!(Answer::from_byte(byte).byte(), byte);
    }
    let command = Command::wgd(LAYER, Office(0), Office(1));
    assert_eq!(Entry::new(command).outcome(), None);
    assert_eq!(Entry::default().outcome(), None);
}

#[test]
fn case_10_sizes() {
    for n in [1, 129] {
        let mut map = Map::new(n, &[]);
        assert_eq!(map.grant(0, 0, TT), Err(Refusal::SizeOrSource));
        assert_eq!(map.chain(0, TT), Err(Refusal::SizeOrSource));
        let told = register_text(&map.cells, map.header);
        assert_eq!(told, Err(Refusal::SizeOrSource));
        let mut one = entries(1);
        assert_eq!(run(&mut map.cells, map.header, &mut one), tally(0, 0));
        assert_eq!(one[0].outcome(), Some(Err(Refusal::SizeOrSource)));
    }
}

#[test]
fn what_is_no_act_permission_or_office_is_refused_by_its_number() {
    let mut map = map_a();
    let good = Command::wgd(LAYER, Office(0), Office(1));
    let tried = [
        (Command { act: 5, ..good }, 4),
        (Command { perm: 3, ..good }, 4),
        (
            Command {
                layer: Layer(8),
                ..good
            },
            5,
        ),
        (
            Command {
                to: Office(5),
                ..good
            },
            6,
        ),
    ];
    for (odd, number) in tried {
        let refusal = command(&mut map.cells, map.header, odd).unwrap_err();
        assert_eq!(refusal.number(), number);
    }
    assert_eq!(map.chain(1, Perm(3)), Err(Refusal::ActOrPermission));
    map.cells.pop();
    assert_eq!(map.delete(Command::wgd, 0, 1), Err(Refusal::BufferLength));
}
