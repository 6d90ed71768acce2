//! Makes another card that is alike for B, out of one that a history has brought: what other packages call, need and grant among
//! themselves is drawn anew, and so are the numbers of services and the order of lists. Services and list counts stay.

use crate::machine::{Aid, Tokens};
use crate::random::Random;
use crate::rules::Sizes;
use crate::tables::{places, Bit, Tables, Unmet, Waiting};

/// AIDs and tokens that no history has.
const STRANGERS: [&[u8]; 2] = [&[0xE1; *Aid::LENGTHS.start()], &[0xE2; *Aid::LENGTHS.end()]];
const STRANGE: Tokens = Tokens { interface: 77, method: 77 };

/// The AIDs and the tokens on a card, and a few more.
pub struct Names {
    pub aids: Vec<Aid>,
    pub tokens: Vec<Tokens>,
}

impl Names {
    pub fn of(tables: &Tables) -> Names {
        let provided = tables.packages.iter().flatten().flat_map(|package| package.services.iter().copied().flatten());
        let listed = tables.unmet.iter().map(|row| row.tokens).chain(tables.waiting.iter().map(|row| row.tokens));
        Names {
            aids: distinct(installed(tables).chain(listed_aids(tables)).chain(STRANGERS.map(Aid::new))),
            tokens: distinct(provided.chain(listed).chain([STRANGE])),
        }
    }
}

fn installed(tables: &Tables) -> impl Iterator<Item = Aid> + '_ {
    tables.packages.iter().flatten().map(|package| package.aid)
}

fn listed_aids(tables: &Tables) -> impl Iterator<Item = Aid> + '_ {
    tables.unmet.iter().map(|row| row.callee).chain(tables.waiting.iter().map(|row| row.caller))
}

fn distinct<T: Ord>(items: impl Iterator<Item = T>) -> Vec<T> {
    let mut items: Vec<T> = items.collect();
    items.sort();
    items.dedup();
    items
}

/// B: a package that is installed, one that is absent and that a row names, or one that none names.
pub fn choose(tables: &Tables, random: &mut Random) -> Aid {
    let among: Vec<Aid> = match random.below(10) {
        0..=5 => installed(tables).collect(),
        6..=8 => listed_aids(tables).filter(|aid| tables.number(*aid).is_none()).collect(),
        _ => Vec::new(),
    };
    random.pick(&among).copied().unwrap_or(Aid::new(STRANGERS[0]))
}

/// Another card of the same sizes that is alike for the package.
pub fn other_card(sizes: &Sizes, tables: &Tables, own: Aid, names: &Names, random: &mut Random) -> Tables {
    let number = tables.number(own);
    let others: Vec<usize> =
        (0..tables.packages.len()).filter(|n| tables.at(*n).is_some() && Some(*n) != number).collect();
    let aids: Vec<Aid> = names.aids.iter().filter(|aid| **aid != own).copied().collect();
    // So many of the rows in a hundred stay as they are.
    let stay = [0, 60, 95][random.below(3)];
    let mut card = tables.clone();
    let among_others = |bit: &Bit| others.contains(&bit.caller) && others.contains(&bit.callee);
    let places = places(&tables.packages).into_iter().filter(among_others).filter(|_| !random.percent(stay));
    let places: Vec<Bit> = places.collect();
    // A grant, a call besides, a need besides, or nothing.
    let drawn: Vec<(Bit, usize)> = places.into_iter().map(|bit| (bit, random.below(4))).collect();
    for (bits, least) in [(&mut card.grants, 1), (&mut card.calls, 2), (&mut card.needs, 3)] {
        bits.retain(|bit| drawn.binary_search_by_key(bit, |(place, _)| *place).is_err());
        bits.extend(drawn.iter().filter(|(_, rows)| *rows >= least).map(|(place, _)| *place));
    }
    for n in 0..card.unmet.len() {
        let old = card.unmet[n];
        if others.contains(&old.caller) && old.callee != own && !random.percent(stay) {
            let (callee, tokens, caller) = any(&aids, &names.tokens, &others, random);
            let new = Unmet { callee, tokens, caller };
            if tables.unmet_holds(&new) && !card.unmet.contains(&new) {
                card.unmet[n] = new;
            }
        }
    }
    for n in 0..card.waiting.len() {
        let old = card.waiting[n];
        if others.contains(&old.callee) && old.caller != own && !random.percent(stay) {
            let (caller, tokens, callee) = any(&aids, &names.tokens, &others, random);
            let new = Waiting { caller, tokens, callee };
            if tables.waiting_holds(&new) && !card.waiting.contains(&new) {
                card.waiting[n] = new;
            }
        }
    }
    if random.percent(60) {
        random.shuffle(&mut card.unmet);
        random.shuffle(&mut card.waiting);
    }
    if random.percent(60) {
        for package in 0..card.packages.len() {
            let mut numbers: Vec<usize> = (0..sizes.services).collect();
            random.shuffle(&mut numbers);
            card.renumber(package, |old| numbers[old]);
        }
    }
    card
}

/// Any row, by the AID that it names, its tokens and the number of its package.
fn any(aids: &[Aid], tokens: &[Tokens], packages: &[usize], random: &mut Random) -> (Aid, Tokens, usize) {
    (aids[random.below(aids.len())], tokens[random.below(tokens.len())], packages[random.below(packages.len())])
}
