// The lists of calls that people work from, beside the header's declarations: each function stands in each list once, and where rights are told
// in the row of the least role that has them.
use crate::roles;
use crate::tally::Tally;
use crate::wolfcloak::{KEEPER, LEADER, TECHNICIAN};

const HEADER: &str = include_str!("../../include/wolfcloak.h");
const README: &str = include_str!("../../README.md");
const MAP: &str = include_str!("../../docs/MAP.md");

/// A function's name, and the least role that may call it; None where it takes no role.
type Right<'a> = (&'a str, Option<u16>);

fn words(line: &str) -> impl Iterator<Item = &str> {
    line.split(|c: char| !c.is_ascii_alphanumeric() && c != '_').filter(|word| !word.is_empty())
}

/// What the header declares: a line begins with what the function answers.
fn declared(t: &mut Tally) -> Vec<Right<'static>> {
    let mut all = vec![];
    for line in HEADER.lines().filter(|line| line.starts_with(|c: char| c.is_ascii_lowercase())) {
        let mut words = words(line);
        let Some((answer, name)) = words.next().zip(words.next().and_then(|name| name.strip_prefix("wolfcloak_"))) else { continue };
        let takes_role = words.take(2).eq(["uint16_t", "role"]);
        let least = roles::least(name);
        t.check(takes_role == (answer == "uint16_t") && takes_role == least.is_some(), format_args!("the header's {name}: its role"));
        all.push((name, least));
    }
    all.sort();
    all
}

/// The functions named between two texts, with the role whose row that is; a row begins with its role.
fn listed(text: &'static str, [from, to]: [&str; 2], all: &[Right]) -> Vec<Right<'static>> {
    let rows = text.split_once(from).map_or("", |(_, behind)| behind.split_once(to).map_or(behind, |(rows, _)| rows));
    let (mut role, mut found) = (None, vec![]);
    for line in rows.lines() {
        role = match words(line).next() {
            Some("keeper") => Some(KEEPER),
            Some("leader") => Some(LEADER),
            Some("technician") => Some(TECHNICIAN),
            Some("no" | "anybody") => None,
            _ => role,
        };
        found.extend(words(line).filter(|word| all.iter().any(|(name, _)| name == word)).map(|name| (name, role)));
    }
    found.sort();
    found
}

pub fn whole(t: &mut Tally) {
    let all = declared(t);
    t.check(all.iter().filter(|right| right.1.is_some()).count() == roles::CALLS.len(), format_args!("the header has not every call"));
    for (what, text, between) in [
        ("the header's table of rights", HEADER, ["Every call stands here once", "So calls by keepers"]),
        ("README's table of rights", README, ["| role | its calls", "\n\n"]),
    ] {
        let found = listed(text, between, &all);
        t.check(found == all, format_args!("{what} has {found:?}, and {all:?} are due"));
    }
    let names = |rights: &[Right<'static>]| rights.iter().map(|right| right.0).collect::<Vec<_>>();
    let found = names(&listed(MAP, ["| file | rows |", "\n\n"], &all));
    t.check(found == names(&all), format_args!("MAP's rows are {found:?}, and {:?} are due", names(&all)));
}
