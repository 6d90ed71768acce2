//! What the tables of a sound image say, and the image that says it.

use crate::contract::{Aid, Contract, Contracts, Row, Tokens};
use crate::fault::Fault;
use crate::layout::{bits, Image, Layout, Table, AID, USED};
use crate::names::Names;
use crate::unsound::faults;
use std::collections::BTreeSet;

/// What an image's tables say, whichever version it has.
#[derive(Clone, Debug, PartialEq, Eq)]
pub struct Tables {
    pub layout: &'static Layout,
    /// By package number.
    pub packages: Vec<Option<Package>>,
    /// The bits set, by callee, caller and service.
    pub calls: Vec<Bit>,
    pub grants: Vec<Bit>,
    pub needs: Vec<Bit>,
    pub unmet: Vec<Unmet>,
    pub waiting: Vec<Waiting>,
}

#[derive(Clone, Debug, PartialEq, Eq)]
pub struct Package {
    pub aid: Aid,
    /// By service number.
    pub services: Vec<Option<Tokens>>,
}

/// A service that one package calls, is granted or needs of another.
#[derive(Clone, Copy, Debug, PartialEq, Eq, PartialOrd, Ord)]
pub struct Bit {
    pub callee: usize,
    pub caller: usize,
    pub service: usize,
}

#[derive(Clone, Copy, Debug, PartialEq, Eq)]
pub struct Unmet {
    pub callee: Aid,
    pub tokens: Tokens,
    pub caller: usize,
}

/// A grant that waits. In an image of version 01 its service's number stands for the tokens.
#[derive(Clone, Copy, Debug, PartialEq, Eq)]
pub struct Waiting {
    pub caller: Aid,
    pub callee: usize,
    pub tokens: Tokens,
}

impl Tables {
    /// The tables of a card on which nothing is.
    pub fn empty(layout: &'static Layout) -> Tables {
        let [calls, grants, needs] = [const { Vec::new() }; 3];
        let packages = vec![None; layout.packages];
        Tables { layout, packages, calls, grants, needs, unmet: Vec::new(), waiting: Vec::new() }
    }

    /// The tables of an image, or everything that keeps it from being sound.
    pub fn of(bytes: &[u8], names: &Names) -> Result<Tables, Vec<Fault>> {
        let faults = faults(bytes, names);
        let sound = Image::new(bytes).filter(|_| faults.is_empty());
        sound.and_then(Tables::read).ok_or(faults)
    }

    /// `None` when an AID is no AID, which a sound image has not.
    fn read(image: Image) -> Option<Tables> {
        let layout = image.layout;
        let mut tables = Tables::empty(layout);
        for number in image.packages() {
            let mut services = vec![None; layout.services];
            for service in bits(image.provides(number)) {
                services[service] = Some(tokens(image.tokens(layout.tokens_at(number, service))));
            }
            tables.packages[number] = Some(Package { aid: aid(image.aid_place(layout.aid_at(number)))?, services });
        }
        for callee in image.packages() {
            for caller in image.packages() {
                let of = |field: u32| bits(field).map(move |service| Bit { callee, caller, service });
                tables.calls.extend(of(image.cell(Table::Calls, caller, callee)));
                tables.grants.extend(of(image.cell(Table::Grants, callee, caller)));
                tables.needs.extend(of(image.cell(Table::Needs, caller, callee)));
            }
        }
        for row in list(image, layout.unmet_at(), layout.unmet_row()) {
            let tokens = tokens([row[AID], row[AID + 1]]);
            tables.unmet.push(Unmet { callee: aid(row)?, tokens, caller: row[AID + 2].into() });
        }
        for row in list(image, layout.waiting_at(), layout.waiting_row()) {
            let callee = usize::from(row[AID]);
            let tokens = match layout.tokens_wait {
                true => tokens([row[AID + 1], row[AID + 2]]),
                false => (*tables.packages.get(callee)?.as_ref()?.services.get(usize::from(row[AID + 1]))?)?,
            };
            tables.waiting.push(Waiting { caller: aid(row)?, callee, tokens });
        }
        Some(tables)
    }

    /// The image with these tables. A list row past the layout's limit is not written.
    pub fn image(&self) -> Vec<u8> {
        let layout = self.layout;
        let mut image = vec![0; layout.size()];
        image[..USED].copy_from_slice(&layout.header);
        for (number, package) in self.installed() {
            set_bit(&mut image[USED..USED + layout.used_bytes()], number);
            write_aid(&mut image[layout.aid_at(number)..], package.aid);
            for (service, tokens) in package.numbered() {
                set_bit(&mut image[layout.provides_at(number)..][..layout.bit_bytes()], service);
                image[layout.tokens_at(number, service)..][..2].copy_from_slice(&[tokens.interface, tokens.method]);
            }
        }
        for (table, set) in [(Table::Calls, &self.calls), (Table::Grants, &self.grants), (Table::Needs, &self.needs)] {
            for bit in set {
                let (row, column) = match table {
                    Table::Grants => (bit.callee, bit.caller),
                    Table::Calls | Table::Needs => (bit.caller, bit.callee),
                };
                set_bit(&mut image[layout.cell_at(table, row, column)..][..layout.bit_bytes()], bit.service);
            }
        }
        image[layout.unmet_at()] = self.unmet.len().min(layout.rows) as u8;
        for (n, row) in self.unmet.iter().take(layout.rows).enumerate() {
            let place = &mut image[layout.unmet_at() + 1 + layout.unmet_row() * n..];
            write_aid(place, row.callee);
            place[AID..AID + 3].copy_from_slice(&[row.tokens.interface, row.tokens.method, row.caller as u8]);
        }
        image[layout.waiting_at()] = self.waiting.len().min(layout.rows) as u8;
        for (n, row) in self.waiting.iter().take(layout.rows).enumerate() {
            let place = &mut image[layout.waiting_at() + 1 + layout.waiting_row() * n..];
            write_aid(place, row.caller);
            place[AID] = row.callee as u8;
            match layout.tokens_wait {
                true => place[AID + 1..AID + 3].copy_from_slice(&[row.tokens.interface, row.tokens.method]),
                false => place[AID + 1] = self.service(row.callee, row.tokens).unwrap_or(0) as u8,
            }
        }
        image
    }

    /// The same in a layout that has as many numbers at least.
    pub fn on(&self, layout: &'static Layout) -> Tables {
        let mut tables = Tables { layout, ..self.clone() };
        tables.packages.resize(layout.packages, None);
        tables.packages.iter_mut().flatten().for_each(|package| package.services.resize(layout.services, None));
        tables
    }

    /// The packages on the card, each after its number.
    pub fn installed(&self) -> impl Iterator<Item = (usize, &Package)> {
        self.packages.iter().enumerate().filter_map(|(number, package)| Some((number, package.as_ref()?)))
    }

    /// The package with this number.
    pub fn at(&self, number: usize) -> Option<&Package> {
        self.packages.get(number)?.as_ref()
    }

    /// The number of the package with this AID.
    pub fn number(&self, aid: Aid) -> Option<usize> {
        self.installed().find(|(_, package)| package.aid == aid).map(|(number, _)| number)
    }

    /// The number of the package's service with these tokens.
    pub fn service(&self, package: usize, tokens: Tokens) -> Option<usize> {
        self.at(package)?.services.iter().position(|service| *service == Some(tokens))
    }

    /// The row with the AID of package `other` and the tokens of a service of package `provider`.
    pub fn row(&self, other: usize, provider: usize, service: usize) -> Option<Row> {
        let tokens = (*self.at(provider)?.services.get(service)?)?;
        Some(Row { other: self.at(other)?.aid, tokens })
    }

    /// A call or a need as its row.
    pub fn callee_row(&self, bit: &Bit) -> Option<Row> {
        self.row(bit.callee, bit.callee, bit.service)
    }

    /// A grant as its row.
    pub fn caller_row(&self, bit: &Bit) -> Option<Row> {
        self.row(bit.caller, bit.callee, bit.service)
    }

    /// The contracts that the tables stand for.
    pub fn contracts(&self) -> Contracts {
        self.installed().map(|(number, package)| (package.aid, self.contract(number, package))).collect()
    }

    fn contract(&self, number: usize, package: &Package) -> Contract {
        let called = |bits: &[Bit]| -> BTreeSet<Row> {
            bits.iter().filter(|bit| bit.caller == number).filter_map(|bit| self.callee_row(bit)).collect()
        };
        let granted = self.grants.iter().filter(|bit| bit.callee == number);
        let unmet = self.unmet.iter().filter(|row| row.caller == number);
        let waiting = self.waiting.iter().filter(|row| row.callee == number);
        let mut contract = Contract {
            provides: package.services.iter().flatten().copied().collect(),
            calls: called(&self.calls),
            grants: granted.filter_map(|bit| self.caller_row(bit)).collect(),
            needs: called(&self.needs),
        };
        contract.calls.extend(unmet.map(|row| Row { other: row.callee, tokens: row.tokens }));
        contract.grants.extend(waiting.map(|row| Row { other: row.caller, tokens: row.tokens }));
        contract
    }
}

impl Package {
    /// Its services, each after its number.
    pub fn numbered(&self) -> impl Iterator<Item = (usize, Tokens)> + '_ {
        self.services.iter().enumerate().filter_map(|(number, tokens)| Some((number, (*tokens)?)))
    }
}

/// The rows of the list at `start`.
fn list(image: Image<'_>, start: usize, row: usize) -> impl Iterator<Item = &[u8]> {
    image.bytes[start + 1..].chunks(row).take(usize::from(image.bytes[start]))
}

/// The AID whose place this is: its length, its bytes, and more.
pub fn aid(place: &[u8]) -> Option<Aid> {
    Aid::new(place[1..].get(..usize::from(place[0]))?)
}

fn write_aid(place: &mut [u8], aid: Aid) {
    let bytes = aid.bytes();
    place[0] = bytes.len() as u8;
    place[1..1 + bytes.len()].copy_from_slice(bytes);
}

fn tokens([interface, method]: [u8; 2]) -> Tokens {
    Tokens { interface, method }
}

/// Sets a bit of a field, whose high byte comes first.
fn set_bit(field: &mut [u8], bit: usize) {
    let last = field.len() - 1;
    field[last - bit / 8] |= 1 << (bit % 8);
}
