//! Rooted chains found by trying all lists of offices and all readings.
//!
//! Only for small n: the tests judge the search of `chains` by it.

use crate::permission::{Permission, PERMISSIONS};
use crate::register::Register;

/// Every list of offices from SOA to `office` with so many links, smallest
/// first.
pub fn lists(register: &Register, office: u16, links: usize) -> Vec<Vec<u16>> {
    let mut lists = vec![vec![register.soa]];
    for _ in 0..links {
        lists = lists
            .iter()
            .flat_map(|list| each_longer(register.n, list))
            .collect();
    }
    lists.retain(|list| list.last() == Some(&office));
    lists
}

fn each_longer(n: u16, list: &[u16]) -> Vec<Vec<u16>> {
    (0..n).map(|office| [list, &[office]].concat()).collect()
}

/// Whether some choice of readings makes the list a rooted chain for `p`.
pub fn is_chain(register: &Register, list: &[u16], p: Permission) -> bool {
    let links: Vec<(u16, u16)> = list.windows(2).map(|pair| (pair[0], pair[1])).collect();
    if list[0] != register.soa {
        return false;
    }
    if links
        .iter()
        .any(|(by, to)| register.cell(*by, *to).is_empty())
    {
        return false; // an empty cell carries no reading
    }
    let choices = 4usize.pow(links.len() as u32);
    (0..choices).any(|choice| fits(register, &links, &readings(choice, links.len()), p))
}

/// The choice, written to base four, names one reading for each link.
fn readings(choice: usize, links: usize) -> Vec<Permission> {
    (0..links)
        .map(|link| PERMISSIONS[choice / 4usize.pow(link as u32) % 4])
        .collect()
}

fn fits(register: &Register, links: &[(u16, u16)], readings: &[Permission], p: Permission) -> bool {
    let carried = links
        .iter()
        .zip(readings)
        .all(|((by, to), r)| register.link_carries(*by, *to, *r));
    let entitled = readings.windows(2).all(|pair| pair[0].entitles(pair[1]));
    let ends_in_p = readings.last().is_none_or(|last| *last == p);
    carried && entitled && ends_in_p
}

/// The first list, by length and then by size, that is a chain for `p` at
/// `office` and does not name `unnamed`. Offices named twice can be cut out of
/// a chain, so n − 1 links are enough.
pub fn first_chain(
    register: &Register,
    office: u16,
    p: Permission,
    unnamed: Option<u16>,
) -> Option<Vec<u16>> {
    (0..usize::from(register.n))
        .flat_map(|links| lists(register, office, links))
        .filter(|list| !unnamed.is_some_and(|named| list.contains(&named)))
        .find(|list| is_chain(register, list, p))
}
