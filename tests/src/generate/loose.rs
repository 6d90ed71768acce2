//! Well formed records that name things at random, whatever the card holds.

use super::{pair, Source};
use crate::machine::Aid;
use crate::rules::Sizes;
use crate::write;

impl Source {
    pub(super) fn loose(&mut self, kind: u8) -> Vec<u8> {
        let own = &self.own_bytes();
        match kind {
            1 | 11 => {
                let provides: Vec<_> = (0..self.random.between(0, 3)).map(|_| pair(self.tokens())).collect();
                let calls = self.few_rows();
                let grants = match provides.first() {
                    Some(service) if self.random.percent(70) => vec![(self.bytes(), *service)],
                    _ => self.few_rows(),
                };
                let needs = match calls.first() {
                    Some(call) if self.random.percent(70) => vec![call.clone()],
                    _ => self.few_rows(),
                };
                self.write().contract(kind, own, &provides, &calls, &grants, &needs)
            }
            2 => self.write().remove(own),
            3 => {
                let callers: Vec<_> = (0..self.random.between(0, 3)).map(|_| self.bytes()).collect();
                self.write().add_service(own, pair(self.tokens()), &callers)
            }
            4 => self.write().remove_service(own, pair(self.tokens())),
            _ => self.write().update(kind, own, &self.bytes(), pair(self.tokens())),
        }
    }

    fn few_rows(&mut self) -> Vec<write::Row> {
        (0..self.random.between(0, 2)).map(|_| self.row()).collect()
    }

    /// A record with lists as long as they may be, or one row longer.
    pub(super) fn long_record(&mut self) -> Vec<u8> {
        let own = self.own_bytes();
        let mut aid = vec![0xEE; self.random.between(*Aid::LENGTHS.start(), *Aid::LENGTHS.end())];
        let mut next = |n: usize| {
            aid[..2].copy_from_slice(&[n as u8, 0xEE + (n >> 8) as u8]);
            aid.clone()
        };
        let Sizes { services, callers, rows, .. } = *self.rules.sizes;
        let lengths = [services, callers, rows, rows, rows].map(|most| match self.random.below(8) {
            0 => most + 1,
            // Where a byte of the count ends.
            2..=3 if most > 256 => self.random.between(255, 256),
            1..=3 => self.random.below(most),
            _ => most,
        });
        let [services, callers, calls, grants, needs] = lengths;
        if self.random.percent(30) {
            let callers: Vec<_> = (0..callers).map(&mut next).collect();
            return self.write().add_service(&own, pair(self.tokens()), &callers);
        }
        let mut provides: Vec<_> = self.tokens.iter().copied().map(pair).collect();
        provides.truncate(services);
        let rows: Vec<_> = (0..=rows).map(|n| (next(n), provides.first().copied().unwrap_or((0, 0)))).collect();
        let kind = [1, 11][self.random.below(2)];
        self.write().contract(kind, &own, &provides, &rows[..calls], &rows[..grants], &rows[..needs])
    }
}
