//! A member's book in plain Rust: a BTreeMap of the orders by their names, and a BTreeSet of them in the order of the book.

use crate::packet::{Message, Order, Previous, Trade};
use std::collections::{BTreeMap, BTreeSet};

const MOST_ORDERS: usize = 20_000;

/// Why a message doesn't fit.
#[derive(Clone, Copy, PartialEq, Eq, Debug)]
#[allow(dead_code)]
pub enum Misfit {
    Security,
    Absent,
    Price { kept: i64, said: i64 },
    Quantity { kept: i64, said: i64 },
    Present,
    Full,
}

#[derive(Clone, Copy, PartialEq, Eq, PartialOrd, Ord)]
struct Name {
    security: usize,
    sells: bool,
    stamp: u64,
}

// In the order of the book: the best price first, then the lowest stamp.
#[derive(Clone, Copy, PartialEq, Eq, PartialOrd, Ord)]
struct Place {
    security: usize,
    sells: bool,
    rank: i64,
    stamp: u64,
}

impl Name {
    fn at(self, price: i64) -> Place {
        Place {
            security: self.security,
            sells: self.sells,
            rank: if self.sells { price } else { -price },
            stamp: self.stamp,
        }
    }
}

#[derive(Clone, Copy)]
struct Kept {
    price: i64,
    qty: i64,
}

impl Kept {
    fn of(order: &Order) -> Kept {
        Kept {
            price: order.price,
            qty: order.qty,
        }
    }
}

pub struct Book {
    securities: Vec<i64>,
    named: BTreeMap<Name, Kept>,
    places: BTreeSet<Place>,
}

impl Book {
    pub fn new(securities: Vec<i64>) -> Book {
        Book {
            securities,
            named: BTreeMap::new(),
            places: BTreeSet::new(),
        }
    }

    fn name(&self, security: i64, buys: bool, stamp: u64) -> Result<Name, Misfit> {
        let listed = self
            .securities
            .iter()
            .position(|listed| *listed == security);
        let security = listed.ok_or(Misfit::Security)?;
        Ok(Name {
            security,
            sells: !buys,
            stamp,
        })
    }

    // The kept order of a name, where it has this price.
    fn kept(&self, name: Name, said: i64) -> Result<Kept, Misfit> {
        let kept = *self.named.get(&name).ok_or(Misfit::Absent)?;
        if kept.price != said {
            return Err(Misfit::Price {
                kept: kept.price,
                said,
            });
        }
        Ok(kept)
    }

    // The same where it has this quantity too.
    fn exact(&self, name: Name, price: i64, said: i64) -> Result<(), Misfit> {
        let kept = self.kept(name, price)?;
        if kept.qty != said {
            return Err(Misfit::Quantity {
                kept: kept.qty,
                said,
            });
        }
        Ok(())
    }

    fn place(&mut self, name: Name, kept: Kept) {
        self.named.insert(name, kept);
        self.places.insert(name.at(kept.price));
    }

    fn remove(&mut self, name: Name) {
        if let Some(kept) = self.named.remove(&name) {
            self.places.remove(&name.at(kept.price));
        }
    }

    fn add(&mut self, order: &Order) -> Result<(), Misfit> {
        let name = self.name(order.security, order.buys, order.stamp)?;
        if self.named.contains_key(&name) {
            return Err(Misfit::Present);
        }
        if self.named.len() >= MOST_ORDERS {
            return Err(Misfit::Full);
        }
        self.place(name, Kept::of(order));
        Ok(())
    }

    fn modify(&mut self, order: &Order, previous: &Previous) -> Result<(), Misfit> {
        let before = self.name(order.security, order.buys, previous.stamp)?;
        self.exact(before, previous.price, previous.qty)?;
        let name = Name {
            stamp: order.stamp,
            ..before
        };
        if name != before && self.named.contains_key(&name) {
            return Err(Misfit::Present);
        }
        self.remove(before);
        self.place(name, Kept::of(order));
        Ok(())
    }

    fn same_priority(&mut self, order: &Order, previous: i64) -> Result<(), Misfit> {
        let name = self.name(order.security, order.buys, order.stamp)?;
        self.exact(name, order.price, previous)?;
        self.named.insert(name, Kept::of(order));
        Ok(())
    }

    fn execute(&mut self, trade: &Trade) -> Result<(), Misfit> {
        let name = self.name(trade.security, trade.buys, trade.stamp)?;
        let kept = self.kept(name, trade.price)?;
        if trade.last_qty >= kept.qty {
            return Err(Misfit::Quantity {
                kept: kept.qty,
                said: trade.last_qty,
            });
        }
        self.named.insert(
            name,
            Kept {
                qty: kept.qty - trade.last_qty,
                ..kept
            },
        );
        Ok(())
    }

    fn mass_delete(&mut self, security: i64) -> Result<(), Misfit> {
        let listed = self.name(security, true, 0)?.security;
        self.named.retain(|name, _| name.security != listed);
        self.places.retain(|place| place.security != listed);
        Ok(())
    }

    /// Carries out a message, exactly where it fits.
    pub fn apply(&mut self, message: &Message) -> Result<(), Misfit> {
        match message {
            Message::Add(order) => self.add(order),
            Message::Modify(order, previous) => self.modify(order, previous),
            Message::SamePriority(order, previous) => self.same_priority(order, *previous),
            Message::Delete(order) => {
                let name = self.name(order.security, order.buys, order.stamp)?;
                self.exact(name, order.price, order.qty)?;
                self.remove(name);
                Ok(())
            }
            Message::MassDelete(security) => self.mass_delete(*security),
            Message::Partial(trade) => self.execute(trade),
            Message::Full(trade) => {
                let name = self.name(trade.security, trade.buys, trade.stamp)?;
                self.exact(name, trade.price, trade.last_qty)?;
                self.remove(name);
                Ok(())
            }
            Message::Summary(trade) => self.name(trade.security, trade.buys, 0).map(|_| ()),
            Message::Other => Ok(()),
        }
    }

    /// The stamps and quantities in the order of the book.
    pub fn walk(&self) -> impl Iterator<Item = (u64, i64)> + '_ {
        self.places.iter().map(|place| {
            let Place {
                security,
                sells,
                stamp,
                ..
            } = *place;
            (
                stamp,
                self.named[&Name {
                    security,
                    sells,
                    stamp,
                }]
                    .qty,
            )
        })
    }
}
