//! R-6, "Suppliers must not watch each other": two cards that are alike for a package B, clause by clause as the request has
//! them, what they may differ in, and what a run has seen of it. B's AID is `own` here.

pub mod make;
pub mod turns;

use crate::machine::{Aid, Row, Tokens};
use crate::pairs::Pairs;
use crate::tables::{Package, Tables};
use std::collections::{BTreeMap, BTreeSet};
use std::fmt;

/// What the two cards are to agree on.
#[derive(Clone, Copy, Debug, PartialEq, Eq, PartialOrd, Ord)]
pub enum Clause {
    /// "Two sound cards of one size."
    Sound,
    UsedNumbers,
    /// At each number that both use: the AID, and the services as a set, whatever numbers these have.
    Aids,
    Services,
    /// "Every contract row with package B at either end": B's own, and those of others that name it. A call counts met or
    /// unmet, a grant set or waiting.
    CallsOf,
    CallsOn,
    GrantsOf,
    GrantsTo,
    NeedsOf,
    NeedsOn,
    /// "Both list counts."
    UnmetCount,
    WaitingCount,
}

impl Clause {
    pub const ALL: [Clause; 12] = [
        Clause::Sound,
        Clause::UsedNumbers,
        Clause::Aids,
        Clause::Services,
        Clause::CallsOf,
        Clause::CallsOn,
        Clause::GrantsOf,
        Clause::GrantsTo,
        Clause::NeedsOf,
        Clause::NeedsOn,
        Clause::UnmetCount,
        Clause::WaitingCount,
    ];
}

/// A row of a contract, as the tables have it.
struct ContractRow {
    sort: Sort,
    owner: Aid,
    row: Row,
    /// Whether it stands in a list: a call that is unmet, a grant that waits.
    listed: bool,
}

#[derive(Clone, Copy, PartialEq, Eq, PartialOrd, Ord)]
enum Sort {
    Call,
    Grant,
    Need,
}

fn contract_rows(tables: &Tables) -> impl Iterator<Item = ContractRow> + '_ {
    let aid = |n: usize| tables.packages[n].as_ref().expect("a used number").aid;
    let set = |sort, owner, row| ContractRow { sort, owner, row, listed: false };
    let listed = |sort, owner, other, tokens| {
        let row = Row { other, tokens };
        ContractRow { sort, owner, row, listed: true }
    };
    let called =
        [(Sort::Call, &tables.calls), (Sort::Need, &tables.needs)].into_iter().flat_map(move |(sort, bits)| {
            bits.iter().map(move |bit| set(sort, aid(bit.caller), tables.row(bit.callee, bit.callee, bit.service)))
        });
    let granted = tables.grants.iter();
    let granted =
        granted.map(move |bit| set(Sort::Grant, aid(bit.callee), tables.row(bit.caller, bit.callee, bit.service)));
    let unmet = tables.unmet.iter().map(move |row| listed(Sort::Call, aid(row.caller), row.callee, row.tokens));
    let waiting = tables.waiting.iter().map(move |row| listed(Sort::Grant, aid(row.callee), row.caller, row.tokens));
    called.chain(granted).chain(unmet).chain(waiting)
}

/// What a card shows to B: the same on every card that is alike for it.
#[derive(Clone, Debug, PartialEq, Eq, PartialOrd, Ord)]
pub struct View {
    /// By package number, the AID and the services, in their order.
    packages: Vec<Option<(Aid, Vec<Tokens>)>>,
    /// The rows with B at an end, each under its clause and with the AID of the other end, in their order.
    rows: Vec<(Clause, Row)>,
    unmet: usize,
    waiting: usize,
}

impl View {
    pub fn of(tables: &Tables, own: Aid) -> View {
        let shown = |package: &Package| {
            let mut services: Vec<Tokens> = package.services.iter().flatten().copied().collect();
            services.sort();
            (package.aid, services)
        };
        let packages = tables.packages.iter().map(|package| package.as_ref().map(shown)).collect();
        let mut rows = Vec::new();
        for ContractRow { sort, owner, row, .. } in contract_rows(tables) {
            let [of, on] = match sort {
                Sort::Call => [Clause::CallsOf, Clause::CallsOn],
                Sort::Grant => [Clause::GrantsOf, Clause::GrantsTo],
                Sort::Need => [Clause::NeedsOf, Clause::NeedsOn],
            };
            if owner == own {
                rows.push((of, row));
            } else if row.other == own {
                rows.push((on, Row { other: owner, ..row }));
            }
        }
        rows.sort();
        View { packages, rows, unmet: tables.unmet.len(), waiting: tables.waiting.len() }
    }

    /// The same without the rows of a clause.
    pub fn without(mut self, clause: Clause) -> View {
        self.rows.retain(|(of, _)| *of != clause);
        self
    }

    fn agrees(&self, other: &View, clause: Clause) -> bool {
        let packages = self.packages.iter().zip(&other.packages);
        let mut both = packages.filter_map(|(one, two)| one.as_ref().zip(two.as_ref()));
        match clause {
            Clause::Sound => true,
            Clause::UsedNumbers => {
                let used = |view: &View| view.packages.iter().map(Option::is_some).collect::<Vec<_>>();
                used(self) == used(other)
            }
            Clause::Aids => both.all(|(one, two)| one.0 == two.0),
            Clause::Services => both.all(|(one, two)| one.1 == two.1),
            Clause::UnmetCount => self.unmet == other.unmet,
            Clause::WaitingCount => self.waiting == other.waiting,
            rows => {
                let of = |view: &View| -> Vec<Row> {
                    view.rows.iter().filter(|(clause, _)| *clause == rows).map(|(_, row)| *row).collect()
                };
                of(self) == of(other)
            }
        }
    }
}

/// The tables of two images that are alike for B; or the clauses that they break.
pub fn alike(own: Aid, images: [&[u8]; 2]) -> Result<[Tables; 2], Vec<Clause>> {
    let [Some(one), Some(two)] = images.map(Tables::in_force) else {
        return Err(vec![Clause::Sound]);
    };
    if one.packages.len() != two.packages.len() {
        return Err(vec![Clause::Sound]);
    }
    let [first, second] = [&one, &two].map(|tables| View::of(tables, own));
    if first == second {
        return Ok([one, two]);
    }
    Err(Clause::ALL.into_iter().filter(|clause| !first.agrees(&second, *clause)).collect())
}

/// Something about two cards that are alike for B, or about a turn between B's records.
#[derive(Clone, Copy, Debug, PartialEq, Eq, PartialOrd, Ord)]
pub enum Watched {
    /// B is installed; or it is absent, and a row names it, or none does.
    Installed,
    Named,
    Unnamed,
    /// The cards differ in rows among other packages, of each sort.
    MetCalls,
    UnmetCalls,
    SetGrants,
    WaitingGrants,
    Needs,
    /// They differ in the number of a service, or in the order of list rows that both have.
    ServiceNumbers,
    ListOrder,
    /// Another package changes one card alone; or each card, and the cards stay alike.
    OneChanges,
    BothChange,
}

impl Watched {
    pub const ALL: [Watched; 12] = [
        Watched::Installed,
        Watched::Named,
        Watched::Unnamed,
        Watched::MetCalls,
        Watched::UnmetCalls,
        Watched::SetGrants,
        Watched::WaitingGrants,
        Watched::Needs,
        Watched::ServiceNumbers,
        Watched::ListOrder,
        Watched::OneChanges,
        Watched::BothChange,
    ];

    /// How B stands on a card.
    pub fn standing(tables: &Tables, own: Aid) -> Watched {
        let installed = tables.packages.iter().flatten().any(|package| package.aid == own);
        let named = || contract_rows(tables).any(|row| row.row.other == own);
        match installed {
            true => Watched::Installed,
            false if named() => Watched::Named,
            false => Watched::Unnamed,
        }
    }

    /// What two cards that are alike for B differ in.
    pub fn differences(own: Aid, [one, two]: &[Tables; 2]) -> Vec<Watched> {
        let among_others = |tables| -> BTreeSet<(Watched, Aid, Row)> {
            let others = contract_rows(tables).filter(|row| row.owner != own && row.row.other != own);
            others.map(|row| (row.shown(), row.owner, row.row)).collect()
        };
        let rows = [one, two].map(among_others);
        let mut differ: Vec<Watched> = rows[0].symmetric_difference(&rows[1]).map(|(sort, ..)| *sort).collect();
        differ.dedup();
        let services = |tables: &Tables| -> Vec<_> {
            tables.packages.iter().map(|own| own.as_ref().map(|own| own.services.clone())).collect()
        };
        if services(one) != services(two) {
            differ.push(Watched::ServiceNumbers);
        }
        if moved(&one.unmet, &two.unmet) || moved(&one.waiting, &two.waiting) {
            differ.push(Watched::ListOrder);
        }
        differ
    }
}

impl ContractRow {
    /// As what a row of its sort is counted that one card has.
    fn shown(&self) -> Watched {
        match (self.sort, self.listed) {
            (Sort::Call, false) => Watched::MetCalls,
            (Sort::Call, true) => Watched::UnmetCalls,
            (Sort::Grant, false) => Watched::SetGrants,
            (Sort::Grant, true) => Watched::WaitingGrants,
            (Sort::Need, _) => Watched::Needs,
        }
    }
}

/// Whether rows that both lists have stand in another order.
fn moved<T: PartialEq>(one: &[T], two: &[T]) -> bool {
    !one.iter().filter(|row| two.contains(row)).eq(two.iter().filter(|row| one.contains(row)))
}

/// What a run has seen of pairs of cards.
#[derive(Default)]
pub struct Seen {
    /// B's records, by kind and answer; malformed ones too.
    pub records: Pairs,
    pub shown: BTreeMap<Watched, u64>,
}

impl Seen {
    fn count(&mut self, shown: Watched) {
        *self.shown.entry(shown).or_default() += 1;
    }
}

impl fmt::Display for Clause {
    fn fmt(&self, f: &mut fmt::Formatter) -> fmt::Result {
        f.write_str(match self {
            Clause::Sound => "both sound and of one size",
            Clause::UsedNumbers => "used numbers",
            Clause::Aids => "AIDs",
            Clause::Services => "services",
            Clause::CallsOf => "calls of B",
            Clause::CallsOn => "calls on B",
            Clause::GrantsOf => "grants of B",
            Clause::GrantsTo => "grants to B",
            Clause::NeedsOf => "needs of B",
            Clause::NeedsOn => "needs on B",
            Clause::UnmetCount => "the count of unmet calls",
            Clause::WaitingCount => "the count of waiting grants",
        })
    }
}

impl fmt::Display for Watched {
    fn fmt(&self, f: &mut fmt::Formatter) -> fmt::Result {
        f.write_str(match self {
            Watched::Installed => "B installed",
            Watched::Named => "absent and named",
            Watched::Unnamed => "not named",
            Watched::MetCalls => "others differ in met calls",
            Watched::UnmetCalls => "unmet calls",
            Watched::SetGrants => "grants set",
            Watched::WaitingGrants => "waiting grants",
            Watched::Needs => "needs",
            Watched::ServiceNumbers => "service numbers",
            Watched::ListOrder => "list order",
            Watched::OneChanges => "others' turns on one card",
            Watched::BothChange => "on both",
        })
    }
}
