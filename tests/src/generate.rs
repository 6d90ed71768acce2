//! Random histories. A history has few AIDs and tokens, so that packages name each other; most
//! records fit the contracts held, some name things at random, and some are spoiled. A part of the histories begins
//! before a change of the rules.

mod fit;
mod loose;
mod spoil;

use crate::card::ON_LARGE;
use crate::machine::{record, Aid, Machine, Tokens};
use crate::random::Random;
use crate::rules::Rules;
use crate::write::{self, Writer};

/// Where a history is driven to.
#[derive(Clone, Copy, PartialEq, Eq)]
enum Drive {
    /// Nowhere: rows of every sort.
    Mixed,
    /// Lists at their limit, one below it and past it.
    Lists,
    /// Every package number used, with few rows each.
    Packages,
    /// Every service number of a package used.
    Services,
}

/// The source of one history's records.
pub struct Source {
    random: Random,
    /// The rules of the time.
    rules: Rules,
    drive: Drive,
    pub aids: Vec<Aid>,
    tokens: Vec<Tokens>,
    /// The package that each record is to be of, where it is to be of one.
    own: Option<Aid>,
}

impl Source {
    /// The history with this ordinal of the run with this seed.
    pub fn new(seed: u64, ordinal: u64) -> Source {
        let random = Random::new(seed.wrapping_mul(0x1000_0000_01B3).wrapping_add(ordinal));
        Source::with(Rules::IN_FORCE, Vec::new(), Vec::new(), random)
    }

    /// A source by the rules, on the card of their sizes, that has these AIDs and tokens, and more where they are few.
    pub fn with(rules: Rules, aids: Vec<Aid>, tokens: Vec<Tokens>, mut random: Random) -> Source {
        let drives = [Drive::Mixed, Drive::Lists, Drive::Packages, Drive::Services];
        let drive = drives[random.below(drives.len())];
        let (aids, tokens) = (few_aids(&mut random, rules, aids), few_tokens(&mut random, rules, tokens));
        Source { random, rules, drive, aids, tokens, own: None }
    }

    /// Where in a history of this length the card is enlarged, if it is, and the source of what it gets then: it goes on with the AIDs
    /// and tokens of this one. This one gives the same records as without it.
    pub fn enlarged(&self, length: usize) -> Option<(usize, Source)> {
        let mut random = self.random.apart();
        let at = if random.percent(50) { 0 } else { random.between(0, length) };
        let enlarged = random.percent(30);
        enlarged.then(|| (at, Source::with(ON_LARGE, self.aids.clone(), self.tokens.clone(), random)))
    }

    /// How many records the large card gets.
    pub fn length_on_large(&mut self) -> usize {
        self.random.between(20, 200)
    }

    /// Writes records for the card.
    fn write(&self) -> Writer {
        Writer(self.rules.sizes)
    }

    /// A record whose first AID is this one, aimed at the contracts held, or a malformed one.
    pub fn record_of(&mut self, own: Aid, held: &Machine) -> Vec<u8> {
        self.own = Some(own);
        loop {
            let record = self.record(held);
            if record::read(self.rules, &record).is_none_or(|record| record.aid == own) {
                return record;
            }
        }
    }

    /// How many changes of the rules the history goes over. It begins with the tokens of the rules before them.
    pub fn changes(&mut self) -> usize {
        let changes = if self.random.percent(40) { self.random.between(1, Rules::CHANGES) } else { 0 };
        self.rules = Rules::before(changes);
        self.tokens = few_tokens(&mut self.random, self.rules, Vec::new());
        changes
    }

    /// How many records come before a change.
    pub fn length_before(&mut self) -> usize {
        self.random.between(1, 60)
    }

    /// Whether what the rules in force exclude is taken off the card before a change.
    pub fn clears(&mut self) -> bool {
        self.random.percent(60)
    }

    /// From a change on the tokens are those of the new rules.
    pub fn change(&mut self, rules: Rules) {
        self.rules = rules;
        let mut tokens = std::mem::take(&mut self.tokens);
        tokens.retain(|tokens| tokens.method <= rules.most_method);
        self.tokens = few_tokens(&mut self.random, rules, tokens);
    }

    /// How many records a card gets that the rules in force exclude.
    pub fn length_left_out(&mut self) -> usize {
        self.random.between(10, 30)
    }

    /// How many records the history has.
    pub fn length(&mut self) -> usize {
        self.random.between(20, 300)
    }

    /// The next record, aimed at the contracts held.
    pub fn record(&mut self, held: &Machine) -> Vec<u8> {
        match self.random.below(100) {
            0..=1 => spoil::noise(self.rules.sizes.record_version, &mut self.random),
            2..=11 => {
                let good = self.good_record(held);
                spoil::spoiled(good, &mut self.random)
            }
            12 => self.long_record(),
            _ => self.good_record(held),
        }
    }

    fn good_record(&mut self, held: &Machine) -> Vec<u8> {
        let kind = match self.own {
            Some(own) => self.kind_of(own, held),
            None => self.kind(held.contracts.len()),
        };
        match self.random.percent(85) {
            true => self.fit(kind, held).unwrap_or_else(|| self.loose(kind)),
            false => self.loose(kind),
        }
    }

    /// Loads first; then every kind, more of what the history is driven to. A kind that the rules do not read comes seldom; where
    /// they read kind 9 it comes often, so that needs of its own are on the card when it is retired.
    fn kind(&mut self, packages: usize) -> u8 {
        let wanted = if self.drive == Drive::Packages { self.rules.sizes.packages - 1 } else { 3 };
        if packages < wanted && self.random.percent(60) {
            return 1;
        }
        let weights: [usize; 11] = match self.drive {
            Drive::Mixed => [15, 7, 10, 8, 14, 8, 14, 8, 18, 6, 14],
            Drive::Lists => [12, 6, 8, 8, 24, 4, 24, 4, 12, 4, 14],
            Drive::Packages => [20, 5, 8, 6, 16, 8, 16, 8, 16, 5, 10],
            Drive::Services => [12, 4, 34, 4, 12, 6, 12, 6, 12, 4, 12],
        };
        let rules = self.rules;
        let weighted = (1..).zip(weights).map(|(kind, weight)| (kind, if rules.reads(kind) { weight } else { 2 }));
        let mut left = self.random.below(weighted.clone().map(|(_, weight)| weight).sum());
        for (kind, weight) in weighted {
            if left < weight {
                return kind;
            }
            left -= weight;
        }
        unreachable!("the weights sum to more than is left")
    }

    /// Of one package: mostly a load while it is absent, else every kind, one that the rules do not read seldom.
    fn kind_of(&mut self, own: Aid, held: &Machine) -> u8 {
        let kinds = self.rules.kinds;
        match self.random.below(100) {
            0..=9 => self.random.between(1, 11) as u8,
            10..=69 if !held.contracts.contains_key(&own) => 1,
            _ => kinds[self.random.below(kinds.len())],
        }
    }

    fn aid(&mut self) -> Aid {
        self.aids[self.random.below(self.aids.len())]
    }

    fn tokens(&mut self) -> Tokens {
        self.tokens[self.random.below(self.tokens.len())]
    }

    /// Any AID, as its bytes.
    fn bytes(&mut self) -> Vec<u8> {
        self.aid().bytes().to_vec()
    }

    /// The AID of the package that the record is to be of, or any, as its bytes.
    fn own_bytes(&mut self) -> Vec<u8> {
        match self.own {
            Some(own) => own.bytes().to_vec(),
            None => self.bytes(),
        }
    }

    /// Whether a record may be of this package.
    fn may_be_of(&self, aid: &Aid) -> bool {
        self.own.is_none_or(|own| own == *aid)
    }

    /// Any row.
    fn row(&mut self) -> write::Row {
        (self.bytes(), pair(self.tokens()))
    }
}

fn pair(tokens: Tokens) -> write::Tokens {
    (tokens.interface, tokens.method)
}

/// Three AIDs more than a card has packages, of any length, those given among them. Some begin alike, and some
/// differ only in zeros at the end, which a table's fill must not blur.
fn few_aids(random: &mut Random, rules: Rules, given: Vec<Aid>) -> Vec<Aid> {
    let (shortest, longest) = Aid::LENGTHS.into_inner();
    let mut aids = given;
    while aids.len() < rules.sizes.packages + 3 {
        let mut aid = match random.pick(&aids) {
            Some(like) if random.percent(50) => like.bytes().to_vec(),
            _ => vec![0xF0, 0, 0, 0, random.byte()],
        };
        let ends = random.percent(30);
        let length = if ends { [shortest, longest][random.below(2)] } else { random.between(shortest, longest) };
        aid.resize(length, 0);
        if random.percent(40) {
            aid[length - 1] = random.byte();
        }
        let aid = Aid::new(&aid);
        if !aids.contains(&aid) {
            aids.push(aid);
        }
    }
    aids
}

/// Two token pairs more than a package has services, those given among them. The lowest and the highest are there;
/// some others have a method around 128, as far as the rules go, or an interface there, which may go on to 255.
fn few_tokens(random: &mut Random, rules: Rules, given: Vec<Tokens>) -> Vec<Tokens> {
    let most = rules.most_method;
    let around: Vec<u8> = [126, 127, 128, 129, 255].into_iter().filter(|method| *method <= most).collect();
    let mut ends = vec![Tokens { interface: 0, method: 0 }, Tokens { interface: 255, method: most }];
    let mut tokens = given;
    while tokens.len() < rules.sizes.services + 2 {
        let edge = random.percent(25);
        let interface = if edge { [127, 128, 255][random.below(3)] } else { random.below(3) as u8 };
        let edge = random.percent(30);
        let method = if edge { around[random.below(around.len())] } else { random.below(5) as u8 };
        let any = ends.pop().unwrap_or(Tokens { interface, method });
        if !tokens.contains(&any) {
            tokens.push(any);
        }
    }
    tokens
}
