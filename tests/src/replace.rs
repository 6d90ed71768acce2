//! What R-1 brings about, "An applet's new release brings its whole contract", so that it can be counted in histories.

use crate::machine::{Aid, Row, Tokens};
use crate::tables::{Bit, Tables};
use std::fmt;

/// Something that an accepted record of kind 11 does.
#[derive(Clone, Copy, Debug, PartialEq, Eq, PartialOrd, Ord)]
pub enum Replaced {
    /// A service keeps its number while a lower one is dropped.
    Kept,
    /// Services that keep their numbers stand in the record in another order.
    Reordered,
    /// A service takes the number of one that is dropped.
    Taken,
    /// A call of another stays met, or a need of another, on a service that is kept.
    StaysMet,
    StaysNeeded,
    /// An unmet call of another is met by a service that comes.
    Met,
    /// Calls of others on dropped services are left, behind own unmet calls; of two callers; of a caller on two services.
    Left,
    LeftByCallers,
    LeftByServices,
    /// An unmet call that is in both contracts moves behind a row of another.
    CallMoved,
    /// An own waiting grant goes, and one comes.
    GrantGone,
    GrantCome,
    /// A grant in both contracts begins to wait, as its service goes; or becomes a bit, as its service comes.
    GrantWaits,
    GrantSettled,
    /// A waiting grant of another stays; one that is given to the package.
    OtherStays,
    GivenStays,
    /// A list passes its limit on the way and ends there.
    UnmetPast,
    WaitingPast,
}

impl Replaced {
    pub const ALL: [Replaced; 18] = [
        Replaced::Kept,
        Replaced::Reordered,
        Replaced::Taken,
        Replaced::StaysMet,
        Replaced::StaysNeeded,
        Replaced::Met,
        Replaced::Left,
        Replaced::LeftByCallers,
        Replaced::LeftByServices,
        Replaced::CallMoved,
        Replaced::GrantGone,
        Replaced::GrantCome,
        Replaced::GrantWaits,
        Replaced::GrantSettled,
        Replaced::OtherStays,
        Replaced::GivenStays,
        Replaced::UnmetPast,
        Replaced::WaitingPast,
    ];

    /// What an accepted record with these services does to the package with this number, by the tables before and after it, and by
    /// the most rows that a list has.
    pub fn of(
        own: Aid,
        provides: &[Tokens],
        number: usize,
        [before, after]: [&Tables; 2],
        most: usize,
    ) -> Vec<Replaced> {
        // Its services.
        let (old, new) = (services(before, number), services(after, number));
        let kept = |service: &usize| old[*service].is_some() && old[*service] == new[*service];
        let dropped = |service: usize| old[service].is_some_and(|tokens| !new.contains(&Some(tokens)));
        let in_order: Vec<usize> =
            provides.iter().filter_map(|tokens| after.service(number, *tokens)).filter(kept).collect();

        // What others call and need of them, and its own unmet calls.
        let own_bit = |bit: &&Bit| bit.callee == number;
        let others = |tables: &Tables, bits: &[Bit]| -> Vec<(usize, Tokens)> {
            let tokens = |bit: &Bit| tables.row(bit.callee, bit.callee, bit.service).tokens;
            bits.iter().filter(own_bit).map(|bit| (bit.caller, tokens(bit))).collect()
        };
        let (met, met_before) = (others(after, &after.calls), others(before, &before.calls));
        let (needed, needed_before) = (others(after, &after.needs), others(before, &before.needs));
        let on_it = after.unmet.iter().filter(|row| row.callee == own);
        let left: Vec<_> = on_it.filter(|row| met_before.contains(&(row.caller, row.tokens))).collect();
        let own_unmet = after.unmet.iter().filter(|row| row.caller == number);
        let unmet_come = own_unmet.clone().count() + left.len();

        // Its grants, and the waiting ones of others.
        let grants = |tables: &Tables| -> Vec<Row> {
            tables.grants.iter().filter(own_bit).map(|bit| tables.row(bit.caller, number, bit.service)).collect()
        };
        let waiting = |tables: &Tables, own: bool| -> Vec<Row> {
            let rows = tables.waiting.iter().filter(|row| (row.callee == number) == own);
            rows.map(|row| Row { other: row.caller, tokens: row.tokens }).collect()
        };
        let both = |one: &[Row], other: &[Row]| one.iter().any(|row| other.contains(row));
        let (waited, waits) = (waiting(before, true), waiting(after, true));
        let stay = waiting(after, false);
        let done = |replaced: &Replaced| match replaced {
            Replaced::Kept => (0..new.len()).any(|service| kept(&service) && (0..service).any(dropped)),
            Replaced::Reordered => !in_order.is_sorted(),
            Replaced::Taken => (0..new.len()).any(|service| dropped(service) && new[service].is_some()),
            Replaced::StaysMet => met.iter().any(|call| met_before.contains(call)),
            Replaced::StaysNeeded => needed.iter().any(|need| needed_before.contains(need)),
            Replaced::Met => met.iter().any(|call| !met_before.contains(call)),
            Replaced::Left => !left.is_empty() && own_unmet.clone().next().is_some(),
            Replaced::LeftByCallers => left.windows(2).any(|two| two[0].caller != two[1].caller),
            Replaced::LeftByServices => left.windows(2).any(|two| two[0].caller == two[1].caller),
            Replaced::CallMoved => before.unmet.windows(2).any(|two| {
                let place = |row| after.unmet.iter().position(|other| other == row);
                let stays = two[1].caller != number && place(&two[1]).is_some();
                two[0].caller == number && stays && place(&two[0]) > place(&two[1])
            }),
            Replaced::GrantGone => waited.iter().any(|grant| !waits.contains(grant)),
            Replaced::GrantCome => waits.iter().any(|grant| !waited.contains(grant)),
            Replaced::GrantWaits => both(&grants(before), &waits),
            Replaced::GrantSettled => both(&waited, &grants(after)),
            Replaced::OtherStays => !stay.is_empty(),
            Replaced::GivenStays => stay.iter().any(|grant| grant.other == own),
            Replaced::UnmetPast => before.unmet.len() + unmet_come > most && after.unmet.len() == most,
            Replaced::WaitingPast => before.waiting.len() + waits.len() > most && after.waiting.len() == most,
        };
        Replaced::ALL.into_iter().filter(done).collect()
    }
}

fn services(tables: &Tables, number: usize) -> &[Option<Tokens>] {
    tables.at(number).map_or(&[], |package| &package.services)
}

impl fmt::Display for Replaced {
    fn fmt(&self, f: &mut fmt::Formatter) -> fmt::Result {
        f.write_str(match self {
            Replaced::Kept => "service kept above a dropped one",
            Replaced::Reordered => "services in another order",
            Replaced::Taken => "dropped number taken again",
            Replaced::StaysMet => "call of another stays met",
            Replaced::StaysNeeded => "need of another stays met",
            Replaced::Met => "call of another becomes met",
            Replaced::Left => "calls of others left behind own ones",
            Replaced::LeftByCallers => "of two callers",
            Replaced::LeftByServices => "on two services",
            Replaced::CallMoved => "own unmet call moved back",
            Replaced::GrantGone => "own waiting grant gone",
            Replaced::GrantCome => "own waiting grant come",
            Replaced::GrantWaits => "grant waits as its service goes",
            Replaced::GrantSettled => "grant settled as its service comes",
            Replaced::OtherStays => "waiting grant of another stays",
            Replaced::GivenStays => "one given to the package stays",
            Replaced::UnmetPast => "unmet calls past the limit on the way",
            Replaced::WaitingPast => "waiting grants past the limit on the way",
        })
    }
}
