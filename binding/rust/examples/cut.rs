//! Cuts a grant of map A and asks by which chain office 4 holds TF, before and after.

use rights_register::{command, holding, read_register, register_text};
use rights_register::{Command, Header, Office, Permission, MOST_OFFICES};
use std::error::Error;

const MAP_A: &[u8] = b"\
n=5\nsoa=0\nlayer=7\n\
by=0\nto=1\nperm=TT\n\
by=0\nto=3\nperm=TF\n\
by=1\nto=2\nperm=TT\n\
by=2\nto=4\nperm=TT\n\
by=3\nto=2\nperm=TF\n\
end=register\n";

/// One line: the chain, or why there is none.
fn ask(cells: &[u8], header: Header, office: Office, permission: Permission) {
    let mut room = [0; MOST_OFFICES];
    match holding(cells, header, office, permission, &mut room) {
        Ok(chain) => {
            let offices: Vec<String> = chain.offices().map(|o| o.0.to_string()).collect();
            println!("{} holds {permission:?} by {}", office.0, offices.join(","));
        }
        Err(refusal) => println!("{} for {permission:?}: {refusal}", office.0),
    }
}

fn main() -> Result<(), Box<dyn Error>> {
    let mut buffer = [0; MOST_OFFICES * MOST_OFFICES];
    let header = read_register(MAP_A, &mut buffer)?.header;
    let cells = &mut buffer[..usize::from(header.n) * usize::from(header.n)];

    ask(cells, header, Office(4), Permission::TT);
    ask(cells, header, Office(4), Permission::TF);

    let cut = Command::wgd(header.layer, Office(0), Office(1));
    let tally = command(cells, header, cut)?;
    println!("WGD 0,1: removed {}, added {}", tally.removed, tally.added);

    ask(cells, header, Office(4), Permission::TT);
    ask(cells, header, Office(4), Permission::TF);

    if let Err(refusal) = command(cells, header, cut) {
        println!("WGD 0,1 again: {refusal}");
    }
    print!("{}", String::from_utf8(register_text(cells, header)?)?);
    Ok(())
}
