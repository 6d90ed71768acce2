//! AIDs and services as words, and names for both.

use crate::contract::{Aid, Tokens};
use crate::fault::{Fault, Place};
use crate::record::Why;
use crate::words::{cut, Line, Word};
use std::collections::{BTreeMap, BTreeSet};

/// The names that a text gives to packages and to services of packages.
#[derive(Clone, Debug, Default, PartialEq, Eq)]
pub struct Names {
    aids: BTreeMap<String, Aid>,
    names: BTreeMap<Aid, String>,
    services: BTreeMap<(Aid, String), Tokens>,
    service_names: BTreeMap<(Aid, Tokens), String>,
}

impl Names {
    /// Reads what follows `name` on a line: a name and an AID, and then perhaps a service of it, which is then named.
    pub fn line(&mut self, line: &mut Line) -> Result<(), Fault> {
        let name = line.next("a name")?;
        let aid = self.aid(line.next("an AID")?)?;
        match line.next_if(|_| true) {
            None => self.give(name, aid),
            Some(service) => self.give_service(name, aid, tokens(service)?),
        }
    }

    /// Gives an AID its name. An AID has one name, and a name one AID; the same again is no fault.
    fn give(&mut self, name: Word, aid: Aid) -> Result<(), Fault> {
        let text = name.text;
        well_formed(name)?;
        if all_digits(text) {
            return Err(name.fault(format!("'{}' is no name: it has hexadecimal digits alone", name.cut())));
        }
        if self.aids.get(text).is_some_and(|other| *other != aid) {
            return Err(name.fault(format!("the name '{}' is given already", name.cut())));
        }
        if let Some(other) = self.names.get(&aid).filter(|other| *other != text) {
            return Err(name.fault(format!("the AID {aid} has the name '{}' already", cut(other))));
        }
        self.aids.insert(text.to_string(), aid);
        self.names.insert(aid, text.to_string());
        Ok(())
    }

    /// Gives a package's service its name, which is one among the services of that package.
    fn give_service(&mut self, name: Word, aid: Aid, tokens: Tokens) -> Result<(), Fault> {
        let text = name.text;
        well_formed(name)?;
        let own = cut(&self.word(aid));
        if self.services.get(&(aid, text.to_string())).is_some_and(|other| *other != tokens) {
            return Err(name.fault(format!("a service of {own} has the name '{}' already", name.cut())));
        }
        if let Some(other) = self.service_names.get(&(aid, tokens)).filter(|other| *other != text) {
            let words = format!("the service {tokens} of {own} has the name '{}' already", cut(other));
            return Err(name.fault(words));
        }
        self.services.insert((aid, text.to_string()), tokens);
        self.service_names.insert((aid, tokens), text.to_string());
        Ok(())
    }

    /// The AID that a word stands for: its hexadecimal digits, or a name.
    pub fn aid(&self, word: Word) -> Result<Aid, Fault> {
        if all_digits(word.text) {
            return digits_aid(word);
        }
        let unknown =
            || word.fault(format!("'{}' is neither an AID in hexadecimal nor a name given above", word.cut()));
        self.aids.get(word.text).copied().ok_or_else(unknown)
    }

    /// The tokens that a word stands for: interface and method, or a name that a service of the package has.
    pub fn service(&self, package: Option<Aid>, word: Word) -> Result<Tokens, Fault> {
        let Some(package) = package.filter(|_| well_formed(word).is_ok()) else { return tokens(word) };
        let unknown = || {
            let own = cut(&self.word(package));
            let neither = format!("'{}' is neither a service, as in 0.1, nor a name given above", word.cut());
            word.fault(format!("{neither} to a service of {own}"))
        };
        self.services.get(&(package, word.text.to_string())).copied().ok_or_else(unknown)
    }

    /// The word for an AID: its name, or its digits.
    pub fn word(&self, aid: Aid) -> String {
        self.names.get(&aid).cloned().unwrap_or_else(|| aid.to_string())
    }

    /// The word for a package's service: its name, or its tokens.
    pub fn service_word(&self, package: Aid, tokens: Tokens) -> String {
        self.service_names.get(&(package, tokens)).cloned().unwrap_or_else(|| tokens.to_string())
    }

    /// The name that an AID has.
    pub fn name(&self, aid: Aid) -> Option<&str> {
        self.names.get(&aid).map(String::as_str)
    }

    /// The name that a package's service has.
    pub fn service_name(&self, package: Aid, tokens: Tokens) -> Option<&str> {
        self.service_names.get(&(package, tokens)).map(String::as_str)
    }

    /// The names that a text of words uses.
    pub fn used_in(&self, text: &str) -> Names {
        let words: BTreeSet<&str> = text.split_whitespace().collect();
        let mut used = self.clone();
        used.aids.retain(|name, _| words.contains(name.as_str()));
        used.names.retain(|_, name| words.contains(name.as_str()));
        used.services.retain(|(aid, name), _| words.contains(name.as_str()) && words.contains(&*self.word(*aid)));
        used.service_names.retain(|(aid, tokens), name| used.services.get(&(*aid, name.clone())) == Some(tokens));
        used
    }

    /// A line for each name, which gives it again.
    pub fn text(&self) -> String {
        let packages = self.aids.iter().map(|(name, aid)| format!("name {name} {aid}\n"));
        let services =
            self.services.iter().map(|((aid, name), tokens)| format!("name {name} {} {tokens}\n", self.word(*aid)));
        packages.chain(services).collect()
    }
}

fn well_formed(name: Word) -> Result<(), Fault> {
    let letter = name.text.starts_with(|c: char| c.is_ascii_alphabetic());
    match letter && name.text.chars().all(|c| c.is_ascii_alphanumeric() || c == '-' || c == '_') {
        true => Ok(()),
        false => Err(name.fault(format!("'{}' is no name: a letter, then letters, digits, '-' and '_'", name.cut()))),
    }
}

fn all_digits(text: &str) -> bool {
    !text.is_empty() && text.chars().all(|c| c.is_ascii_hexdigit())
}

fn digits_aid(word: Word) -> Result<Aid, Fault> {
    let digits = word.text.len();
    if !digits.is_multiple_of(2) {
        return Err(word.fault(format!("an AID has two digits for each byte, here are {digits} digits")));
    }
    let bytes = (0..digits).step_by(2).map(|at| u8::from_str_radix(&word.text[at..at + 2], 16).unwrap_or(0));
    let none = || format!("an AID has {} to {} bytes, this one has {}", Aid::LEAST, Aid::MOST, digits / 2);
    Aid::new(&bytes.collect::<Vec<u8>>()).ok_or_else(|| word.fault(none()))
}

/// Tokens: interface and method in decimal, with a point between them. A method past the limit is a fault at its
/// digits.
fn tokens(word: Word) -> Result<Tokens, Fault> {
    let most = Tokens::MOST_METHOD;
    let number =
        |text: &str| -> Option<u8> { text.chars().all(|c| c.is_ascii_digit()).then(|| text.parse().ok()).flatten() };
    let read = word
        .text
        .split_once('.')
        .and_then(|(interface, method)| Some(Tokens { interface: number(interface)?, method: number(method)? }));
    let none =
        || word.fault(format!("'{}' is not a service: interface to 255 and method to {most}, as in 0.1", word.cut()));
    let tokens = read.ok_or_else(none)?;
    match tokens.method <= most {
        true => Ok(tokens),
        false => {
            let digits = word.text.find('.').map_or(0, |point| point + 1);
            let place = Place { column: word.place.column + digits, ..word.place };
            Err(Fault::text(place, Why::Method(tokens.method).to_string()))
        }
    }
}
