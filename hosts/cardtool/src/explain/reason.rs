//! The reasons of refusals, and their words.

use crate::contract::{Aid, Row, Tokens};
use crate::fault::{At, Fault};
use crate::layout::USED;
use crate::names::Names;
use crate::record::{Clash, Malformed, Part};
use crate::record_text::service;
use crate::unsound::OLD;

/// The packages at both ends of a call, a grant or a need, and the callee's service.
#[derive(Clone, Copy, Debug, PartialEq, Eq, PartialOrd, Ord)]
pub struct Ends {
    pub caller: Aid,
    pub callee: Aid,
    pub service: Tokens,
}

/// A row of a contract, with its package.
#[derive(Clone, Copy, Debug, PartialEq, Eq)]
pub enum Item {
    Service(Aid, Tokens),
    Call(Ends),
    Grant(Ends),
    Need(Ends),
}

/// A reason of a refusal, with the causes that it is for.
#[derive(Clone, Debug, PartialEq, Eq)]
pub enum Reason {
    /// 1: a fault of the image.
    Unsound(Fault),
    /// 1: the image has version 01.
    Old,
    /// 2: where and why.
    Malformed(Malformed),
    /// 4: the number that the package has.
    Installed { package: Aid, number: usize },
    /// 5: the packages that are on the card, by number.
    Absent { package: Aid, installed: Vec<Aid> },
    /// 7: the packages that have all numbers.
    PackageNumbers { limit: usize, installed: Vec<Aid> },
    /// 7: the services that have all numbers of their package.
    ServiceNumbers { limit: usize, package: Aid, services: Vec<Tokens> },
    /// 10: how many calls would be unmet, and how many of them are not so yet.
    UnmetCalls { count: usize, limit: usize, new: usize },
    /// 11: how many grants would wait, and how many of them do not yet.
    WaitingGrants { count: usize, limit: usize, new: usize },
    /// 3, 6, and 8 to 11: a row, what is the matter with it, and the part of the record where that comes from.
    Row { item: Item, matter: Matter, part: Option<Part> },
}

/// What is the matter with a row.
#[derive(Clone, Copy, Debug, PartialEq, Eq)]
pub enum Matter {
    /// 3: it contradicts its record.
    Clash(Clash),
    /// 6: the service is provided already, with this number.
    Provided(usize),
    /// 6: the call is there already.
    Called { met: bool },
    /// 6: the grant is there already, in force or waiting.
    Granted(Option<Waits>),
    /// 6: what is removed is not there.
    Lacking,
    /// 8: a call of the record, which its provider does not grant.
    NotGranted,
    /// 8: a call on a service that the record brings, without the grant.
    ServiceComes,
    /// 8: a call whose grant the record takes away.
    GrantGoes,
    /// 9 and 10: the callee is not on the card.
    NoPackage,
    /// 9 and 10: the callee does not provide the service.
    NoService,
    /// 9 and 10: the record takes the callee off the card.
    PackageGoes,
    /// 9 and 10: the record takes the service from the callee.
    ServiceGoes,
    /// 11: a grant that would wait.
    Waits(Waits),
}

/// What a grant waits for.
#[derive(Clone, Copy, Debug, PartialEq, Eq)]
pub enum Waits {
    Caller,
    Service,
    Both,
}

impl Reason {
    /// The byte of the image (cause 1) or of the record (2) that it is about.
    pub fn byte(&self) -> Option<usize> {
        match self {
            Reason::Unsound(Fault { at: At::Byte(byte) | At::Digits(_, byte), .. }) => Some(*byte),
            // The version, with which the header ends.
            Reason::Old => Some(USED - 1),
            Reason::Malformed(malformed) => Some(malformed.at),
            _ => None,
        }
    }

    /// The part of the record that it is about, whose line a text can show.
    pub fn part(&self) -> Option<Part> {
        match self {
            Reason::Row { part, .. } => *part,
            _ => None,
        }
    }

    /// The part that this one repeats.
    pub fn first(&self) -> Option<Part> {
        match self {
            Reason::Row { matter: Matter::Clash(Clash::Repeated(first)), .. } => Some(*first),
            _ => None,
        }
    }

    /// The row that it is about.
    pub fn item(&self) -> Option<Item> {
        match self {
            Reason::Row { item, .. } => Some(*item),
            _ => None,
        }
    }

    /// The packages at both ends of that row, and the service; a service provided has not two ends.
    pub fn ends(&self) -> Option<Ends> {
        self.item().and_then(Item::ends)
    }

    /// The number that the package has on the card (4), or the service in its package (6).
    pub fn number(&self) -> Option<usize> {
        match self {
            Reason::Installed { number, .. } | Reason::Row { matter: Matter::Provided(number), .. } => Some(*number),
            _ => None,
        }
    }

    /// A count and its limit: of numbers used (7), or of rows that the record would leave (10, 11).
    pub fn count(&self) -> Option<(usize, usize)> {
        match self {
            Reason::PackageNumbers { limit, installed } => Some((installed.len(), *limit)),
            Reason::ServiceNumbers { limit, services, .. } => Some((services.len(), *limit)),
            Reason::UnmetCalls { count, limit, .. } | Reason::WaitingGrants { count, limit, .. } => {
                Some((*count, *limit))
            }
            _ => None,
        }
    }

    /// The reason in words, with names.
    pub fn words(&self, names: &Names) -> String {
        let word = |aid: &Aid| names.word(*aid);
        let all = |aids: &[Aid]| aids.iter().map(word).collect::<Vec<_>>().join(", ");
        match self {
            Reason::Unsound(fault) => fault.to_string(),
            Reason::Old => format!("byte {}: {OLD}", USED - 1),
            Reason::Malformed(malformed) => format!("byte {}: {}", malformed.at, malformed.why),
            Reason::Installed { package, number } => {
                format!("{} is on the card already, as package {number}", word(package))
            }
            Reason::Absent { package, installed } => match installed.is_empty() {
                true => format!("{} is not on the card, which is empty", word(package)),
                false => format!("{} is not on the card, which has {}", word(package), all(installed)),
            },
            Reason::PackageNumbers { limit, installed } => {
                format!("all {limit} package numbers are used: {}", all(installed))
            }
            Reason::ServiceNumbers { limit, package, services } => {
                let services: Vec<String> =
                    services.iter().map(|service| names.service_word(*package, *service)).collect();
                format!("all {limit} service numbers of {} are used: {}", word(package), services.join(", "))
            }
            Reason::UnmetCalls { count, limit, new } => {
                format!("{count} calls would be unmet, at most {limit} may be, and this record brings {new} of them")
            }
            Reason::WaitingGrants { count, limit, new } => {
                format!("{count} grants would wait, at most {limit} may, and this record brings {new} of them")
            }
            Reason::Row { item, matter: Matter::Clash(clash), part } => {
                format!("{} {}", item.line(*part, names), clashes(*clash))
            }
            Reason::Row { item, matter: Matter::Lacking, .. } => item.sentence("does not ", "", names),
            Reason::Row { item, matter, .. } => item.sentence("", "s", names) + &matter.words(*item, names),
        }
    }
}

impl Matter {
    /// What follows the row's sentence.
    fn words(self, item: Item, names: &Names) -> String {
        let both = |ends: Ends| (names.word(ends.caller), names.word(ends.callee));
        let (caller, callee) = item.ends().map(both).unwrap_or_default();
        let waits = |waits: Waits| match waits {
            Waits::Caller => caller.clone(),
            Waits::Service => "the service".to_string(),
            Waits::Both => format!("{caller} and the service"),
        };
        match self {
            Matter::Clash(_) | Matter::Lacking => String::new(),
            Matter::Provided(number) => format!(" already, as service {number}"),
            Matter::Called { met } => format!(" already, and the call is {}", if met { "met" } else { "unmet" }),
            Matter::Granted(None) => " already, and the grant is in force".to_string(),
            Matter::Granted(Some(what)) => format!(" already, and the grant waits for {}", waits(what)),
            Matter::NotGranted => format!(", and {callee} does not grant it to {caller}"),
            Matter::ServiceComes => format!(", which this record brings, and {callee} does not grant it to {caller}"),
            Matter::GrantGoes => format!(", and {callee} would no longer grant it to {caller}"),
            Matter::NoPackage => format!(", and {callee} is not on the card"),
            Matter::NoService => format!(", and {callee} does not provide it"),
            Matter::PackageGoes => format!(", and {callee} would no longer be on the card"),
            Matter::ServiceGoes => format!(", and {callee} would no longer provide it"),
            Matter::Waits(what) => format!(", which would wait for {}", waits(what)),
        }
    }
}

/// What follows the line of a row that contradicts its record. Rows are counted from 1.
fn clashes(clash: Clash) -> String {
    let repeats = |at: usize, list: &str| format!("repeats row {} of the {list}", at + 1);
    match clash {
        Clash::OwnAid => "names the package itself".to_string(),
        Clash::NotCalled => "is not among the calls of this contract".to_string(),
        Clash::Repeated(Part::Provides(at)) => repeats(at, "services"),
        Clash::Repeated(Part::Calls(at)) => repeats(at, "calls"),
        Clash::Repeated(Part::Grants(at)) => repeats(at, "grants"),
        Clash::Repeated(Part::Needs(at)) => repeats(at, "needs"),
        Clash::Repeated(Part::Callers(at)) => repeats(at, "callers"),
        Clash::Repeated(Part::Row) => repeats(0, "rows"),
    }
}

impl Item {
    pub fn ends(self) -> Option<Ends> {
        match self {
            Item::Service(..) => None,
            Item::Call(ends) | Item::Grant(ends) | Item::Need(ends) => Some(ends),
        }
    }

    /// Its package, the verb without its ending, and what follows the verb.
    fn said(self, names: &Names) -> (Aid, &'static str, String) {
        let called = |ends: Ends| service(&Row { other: ends.callee, tokens: ends.service }, names);
        match self {
            Item::Service(own, tokens) => (own, "provide", names.service_word(own, tokens)),
            Item::Call(ends) => (ends.caller, "call", called(ends)),
            Item::Need(ends) => (ends.caller, "need", called(ends)),
            Item::Grant(ends) => {
                let service = names.service_word(ends.callee, ends.service);
                (ends.callee, "grant", format!("{service} to {}", names.word(ends.caller)))
            }
        }
    }

    /// As in `purse calls log read`.
    fn sentence(self, before: &str, ending: &str, names: &Names) -> String {
        let (own, verb, rest) = self.said(names);
        format!("{} {before}{verb}{ending} {rest}", names.word(own))
    }

    /// Its line in the text of a record.
    fn line(self, part: Option<Part>, names: &Names) -> String {
        let (_, verb, rest) = self.said(names);
        match (part, self) {
            (Some(Part::Callers(_)), Item::Grant(ends)) => format!("to {}", names.word(ends.caller)),
            _ => format!("{verb}s {rest}"),
        }
    }
}
