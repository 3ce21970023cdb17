//! What the comparison has seen so far: agreements, differences, and how often each answer was met.

use crate::calls::{Call, CALLS};

/// All that a caller sees of one call: the answer, the other numbers given, and every byte that was
/// lent or stood beside.
#[derive(Debug, PartialEq, Eq)]
pub struct Seen {
    pub answer: u8,
    pub numbers: Vec<u64>,
    pub buffers: Vec<Vec<u8>>,
}

const ANSWERS: usize = 17;
const SHOWN: u64 = 10;

pub struct Told {
    /// Where the inputs of now come from, so that a difference can be found again.
    place: String,
    agreements: u64,
    differences: u64,
    met: [[u64; ANSWERS]; CALLS.len()],
}

impl Told {
    pub fn new() -> Told {
        Told {
            place: String::new(),
            agreements: 0,
            differences: 0,
            met: [[0; ANSWERS]; CALLS.len()],
        }
    }

    pub fn start(&mut self, place: String) {
        self.place = place;
    }

    /// Counts one comparison; only a difference has its input told.
    pub fn same(&mut self, same: bool, input: impl FnOnce() -> String) {
        if same {
            self.agreements += 1;
            return;
        }
        self.differences += 1;
        if self.differences <= SHOWN {
            println!("difference: {}", self.place);
            println!("{}", input());
        }
    }

    /// Counts one call that both sides were given: ours through the binding, and theirs, the second
    /// program's.
    pub fn judge(
        &mut self,
        call: Call,
        ours: &Seen,
        theirs: &Seen,
        input: impl FnOnce() -> String,
    ) {
        match self.met[call as usize].get_mut(usize::from(ours.answer)) {
            Some(count) => *count += 1,
            None => self.same(false, || format!("{} answers {}", call.name(), ours.answer)),
        }
        self.same(ours == theirs, || {
            let (ours, theirs) = (shown(ours, theirs), shown(theirs, ours));
            format!(
                "{}: {}\n  library {ours}\n  second  {theirs}",
                call.name(),
                input()
            )
        });
    }

    /// How often each call gave each answer; a dot where 01 does not let it give that answer.
    pub fn table(&self) -> String {
        let mut table = String::from("answer");
        for call in CALLS {
            table += &format!("{:>13}", call.name());
        }
        for answer in 0..ANSWERS {
            table += &format!("\n{answer:>6}");
            for call in CALLS {
                let given = call.answers().contains(&(answer as u8));
                match self.met[call as usize][answer] {
                    0 if !given => table += &format!("{:>13}", "."),
                    count => table += &format!("{count:>13}"),
                }
            }
        }
        table
    }

    /// The calls and answers that were not met although 01 lets them be, and those met although it
    /// does not.
    pub fn faults(&self) -> Vec<String> {
        let mut faults = Vec::new();
        for call in CALLS {
            for answer in 0..ANSWERS {
                let given = call.answers().contains(&(answer as u8));
                let met = self.met[call as usize][answer] > 0;
                if given != met {
                    let how = if met { "against 01" } else { "not met" };
                    faults.push(format!("{how}: answer {answer} of {}", call.name()));
                }
            }
        }
        faults
    }

    pub fn verdict(&self) -> String {
        let (agreements, differences) = (self.agreements, self.differences);
        format!("{agreements} agreements, {differences} differences")
    }

    pub fn differs(&self) -> bool {
        self.differences > 0
    }
}

/// The numbers, and of each buffer the bytes from shortly before the first that differs.
fn shown(seen: &Seen, other: &Seen) -> String {
    let mut shown = format!("answer {} numbers {:?}", seen.answer, seen.numbers);
    for (buffer, beside) in seen.buffers.iter().zip(&other.buffers) {
        let same = buffer.iter().zip(beside).take_while(|(a, b)| a == b);
        let from = same.count().saturating_sub(8);
        let part = &buffer[from..buffer.len().min(from + 40)];
        let (length, part) = (buffer.len(), part.escape_ascii());
        shown += &format!(" {length} bytes, from {from} on \"{part}\"");
    }
    shown
}
