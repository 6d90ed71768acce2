//! A sound image as text: packages with their numbers, and the two lists. docs/TESTERS.md describes the form.

use crate::contract::{Aid, Row};
use crate::fault::{Fault, Place};
use crate::layout::{Layout, VERSION_03};
use crate::names::Names;
use crate::record_text::{self, calls, grants, needs, Said};
use crate::tables::{Bit, Package, Tables, Unmet, Waiting};
use crate::words::{counted, lines, Line, Word};

/// The text of an image's tables, which reads as that image again.
pub fn write(tables: &Tables, names: &Names) -> String {
    let card = if tables.layout.is_large() { "card large\n" } else { "" };
    let mut text = format!("{card}# {}\n", counts(tables));
    for (number, package) in tables.installed() {
        text.push_str(&format!("package {number} {}\n", names.word(package.aid)));
        for row in package_rows(tables, number, package, names) {
            text.push_str(&format!("    {row}\n"));
        }
    }
    let own = |number: usize| tables.at(number).map(|package| package.aid);
    for row in &tables.unmet {
        let (Some(caller), call) = (own(row.caller), Row { other: row.callee, tokens: row.tokens }) else { continue };
        text.push_str(&format!("unmet {} {}\n", names.word(caller), calls(&call, names)));
    }
    for row in &tables.waiting {
        let (Some(callee), grant) = (own(row.callee), Row { other: row.caller, tokens: row.tokens }) else { continue };
        text.push_str(&format!("waiting {} {}\n", names.word(callee), grants(callee, &grant, names)));
    }
    text
}

/// How much the tables have.
pub fn counts(tables: &Tables) -> String {
    let packages = counted(tables.packages.iter().flatten().count(), "package");
    let (unmet, waiting) = (tables.unmet.len(), tables.waiting.len());
    format!("{packages}, {}, {}", counted(unmet, "unmet call"), counted(waiting, "waiting grant"))
}

fn package_rows(tables: &Tables, number: usize, package: &Package, names: &Names) -> Vec<String> {
    let own = package.aid;
    let service = |(service, tokens)| format!("service {service} {}", names.service_word(own, tokens));
    let of_caller = |bits: &[Bit], row: fn(&Row, &Names) -> String| -> Vec<String> {
        let own = bits.iter().filter(|bit| bit.caller == number);
        own.filter_map(|bit| Some(row(&tables.callee_row(bit)?, names))).collect()
    };
    let granted = tables.grants.iter().filter(|bit| bit.callee == number);
    let mut rows: Vec<String> = package.numbered().map(service).collect();
    rows.extend(of_caller(&tables.calls, calls));
    rows.extend(granted.filter_map(|bit| Some(grants(own, &tables.caller_row(bit)?, names))));
    rows.extend(of_caller(&tables.needs, needs));
    rows
}

/// Reads a text, in which these names are given already, as the image that it describes: a sound one, of this card
/// where the text does not name another.
pub fn read(card: &'static Layout, text: &str, names: &Names) -> Result<Vec<u8>, Fault> {
    let tables = Tables::empty(card);
    let mut reading = Reading { names: names.clone(), tables, package: None, rows: Vec::new() };
    for mut line in lines(text) {
        reading.line(&mut line)?;
        line.finish()?;
    }
    reading.finish()
}

/// A row with the package that it belongs to. Rows are put in place when all packages are known.
enum Stated {
    Grant(usize, Row),
    Call(usize, Row),
    Need(usize, Row),
    Unmet(Aid, Row),
    Waiting(Aid, Row),
}

struct Reading {
    names: Names,
    tables: Tables,
    /// The number of the package whose lines follow.
    package: Option<usize>,
    rows: Vec<(Place, Stated)>,
}

impl Reading {
    fn line(&mut self, line: &mut Line) -> Result<(), Fault> {
        let first = line.next("a word")?;
        match first.text {
            "name" => self.names.line(line),
            "card" => self.card(first, line),
            "package" => self.begin(line),
            "service" => self.service(first, line),
            "unmet" => self.list_row(first, line, "calls"),
            "waiting" => self.list_row(first, line, "grants"),
            "calls" | "grants" | "needs" => self.package_row(first, line),
            _ => Err(no_line(first)),
        }
    }

    /// Which card the image is of.
    fn card(&mut self, first: Word, line: &mut Line) -> Result<(), Fault> {
        let word = line.next("small or large")?;
        let card = Layout::CARDS.into_iter().find(|card| card.name == word.text);
        let none = || word.fault(format!("small or large is expected, not '{}'", word.cut()));
        let card = card.ok_or_else(none)?;
        if self.tables.installed().next().is_some() {
            return Err(first.fault("'card' stands above the first package"));
        }
        self.tables = Tables::empty(card);
        Ok(())
    }

    /// A row of a list: the package that it belongs to, and a call or a grant.
    fn list_row(&mut self, first: Word, line: &mut Line, expected: &str) -> Result<(), Fault> {
        let own = self.names.aid(line.next("the package's AID")?)?;
        let verb = line.expect(expected)?;
        let stated = match record_text::said(verb, line, &self.names, Some(own))? {
            Some(Said::Calls(row)) => Stated::Unmet(own, row),
            Some(Said::Grants(row)) => Stated::Waiting(own, row),
            _ => unreachable!("the verb is calls or grants"),
        };
        self.rows.push((first.place, stated));
        Ok(())
    }

    fn begin(&mut self, line: &mut Line) -> Result<(), Fault> {
        let word = line.next("a package number")?;
        let number = number(word, self.tables.layout, |card| card.packages)?;
        let aid_word = line.next("the package's AID")?;
        let aid = self.names.aid(aid_word)?;
        if self.tables.packages[number].is_some() {
            return Err(word.fault(format!("package {number} stands above")));
        }
        if self.tables.number(aid).is_some() {
            return Err(aid_word.fault("a package with this AID stands above"));
        }
        self.tables.packages[number] = Some(Package { aid, services: vec![None; self.tables.layout.services] });
        self.package = Some(number);
        Ok(())
    }

    fn service(&mut self, verb: Word, line: &mut Line) -> Result<(), Fault> {
        let (own, aid) = self.owner(verb)?;
        let word = line.next("a service number")?;
        let number = number(word, self.tables.layout, |card| card.services)?;
        let tokens_word = line.next("a service, as 0.1,")?;
        let tokens = self.names.service(Some(aid), tokens_word)?;
        let Some(package) = &mut self.tables.packages[own] else { unreachable!("the package was begun") };
        if package.services[number].is_some() {
            return Err(word.fault(format!("service {number} of the package stands above")));
        }
        if package.services.contains(&Some(tokens)) {
            return Err(tokens_word.fault("the package has this service already"));
        }
        package.services[number] = Some(tokens);
        Ok(())
    }

    /// A call, a grant or a need of the package above.
    fn package_row(&mut self, verb: Word, line: &mut Line) -> Result<(), Fault> {
        let (own, aid) = self.owner(verb)?;
        let stated = match record_text::said(verb, line, &self.names, Some(aid))? {
            Some(Said::Calls(row)) => Stated::Call(own, row),
            Some(Said::Grants(row)) => Stated::Grant(own, row),
            Some(Said::Needs(row)) => Stated::Need(own, row),
            Some(Said::Provides(_)) | None => return Err(no_line(verb)),
        };
        self.rows.push((verb.place, stated));
        Ok(())
    }

    /// The number and the AID of the package above.
    fn owner(&self, verb: Word) -> Result<(usize, Aid), Fault> {
        let owner = self.package.and_then(|number| Some((number, self.tables.at(number)?.aid)));
        owner.ok_or_else(|| verb.fault(format!("'{}' belongs to a package, and none stands above", verb.text)))
    }

    /// Puts the rows in place, grants first: a call must be granted, and a need called.
    fn finish(mut self) -> Result<Vec<u8>, Fault> {
        let mut rows = std::mem::take(&mut self.rows);
        rows.sort_by_key(|(_, stated)| match stated {
            Stated::Grant(..) => 0,
            Stated::Call(..) => 1,
            Stated::Need(..) => 2,
            Stated::Unmet(..) | Stated::Waiting(..) => 3,
        });
        for (place, stated) in rows {
            self.put(stated).map_err(|words| Fault::text(place, words))?;
        }
        Ok(self.tables.image())
    }

    fn put(&mut self, stated: Stated) -> Result<(), String> {
        match stated {
            Stated::Grant(callee, row) => {
                let caller = self.tables.number(row.other);
                let caller = caller.ok_or("the caller is no package here: the grant is waiting")?;
                let bit = self.bit(caller, callee, row)?;
                add(&mut self.tables.grants, bit)
            }
            Stated::Call(caller, row) => {
                let bit = self.met(caller, row)?;
                if !self.tables.grants.contains(&bit) {
                    return Err("the callee does not grant this".to_string());
                }
                add(&mut self.tables.calls, bit)
            }
            Stated::Need(caller, row) => {
                let bit = self.met(caller, row)?;
                if !self.tables.calls.contains(&bit) {
                    return Err("what is needed is not among the calls".to_string());
                }
                add(&mut self.tables.needs, bit)
            }
            Stated::Unmet(own, row) => {
                let caller = self.tables.number(own).ok_or("the package that calls is no package here")?;
                if own == row.other {
                    return Err("a package does not call itself".to_string());
                }
                let callee = self.tables.number(row.other);
                if callee.is_some_and(|callee| self.tables.service(callee, row.tokens).is_some()) {
                    return Err("the callee provides this: the call is met".to_string());
                }
                add(&mut self.tables.unmet, Unmet { callee: row.other, tokens: row.tokens, caller })?;
                self.fits(self.tables.unmet.len(), "unmet calls")
            }
            Stated::Waiting(own, row) => {
                let callee = self.tables.number(own).ok_or("the package that grants is no package here")?;
                if own == row.other {
                    return Err("a package does not grant to itself".to_string());
                }
                if self.tables.number(row.other).is_some() && self.tables.service(callee, row.tokens).is_some() {
                    return Err("caller and service are on the card: the grant does not wait".to_string());
                }
                add(&mut self.tables.waiting, Waiting { caller: row.other, callee, tokens: row.tokens })?;
                self.fits(self.tables.waiting.len(), "waiting grants")
            }
        }
    }

    /// The bit of a call or a need.
    fn met(&self, caller: usize, row: Row) -> Result<Bit, String> {
        let callee = self.tables.number(row.other).ok_or("the callee is no package here: the call is unmet")?;
        self.bit(caller, callee, row)
    }

    fn bit(&self, caller: usize, callee: usize, row: Row) -> Result<Bit, String> {
        if caller == callee {
            return Err("a package does not name its own AID here".to_string());
        }
        let service = self.tables.service(callee, row.tokens).ok_or("the service is not provided here")?;
        Ok(Bit { callee, caller, service })
    }

    fn fits(&self, count: usize, what: &str) -> Result<(), String> {
        let Layout { rows, name, .. } = *self.tables.layout;
        let more = format!(", one of a large card ('card large') {}", VERSION_03.rows);
        let more = if self.tables.layout.is_large() { "" } else { &more };
        match count <= rows {
            true => Ok(()),
            false => Err(format!("an image of a {name} card has at most {rows} {what}{more}")),
        }
    }
}

fn no_line(word: Word) -> Fault {
    word.fault(format!(
        "'{}' begins no line of an image: there are card, package, service, calls, grants, needs, unmet, waiting and name",
        word.cut()
    ))
}

/// A number below the count of those that a card has.
fn number(word: Word, card: &Layout, count: fn(&Layout) -> usize) -> Result<usize, Fault> {
    let below = |count: usize| (0..count).find(|number| number.to_string() == word.text);
    below(count(card)).ok_or_else(|| {
        let of_large = below(count(&VERSION_03)).map_or("", |_| ": a large card has it, after a line 'card large'");
        word.fault(format!("'{}' is not a number from 0 to {}{of_large}", word.cut(), count(card) - 1))
    })
}

fn add<T: PartialEq>(list: &mut Vec<T>, item: T) -> Result<(), String> {
    if list.contains(&item) {
        return Err("this row stands above".to_string());
    }
    list.push(item);
    Ok(())
}
