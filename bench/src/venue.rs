//! An exchange's book in plain Rust: a BTreeMap of the orders in the order of the book, and one of their places by their ids.

use std::collections::BTreeMap;

const MOST_ORDERS: usize = 20_000;

// In the order of the book: the best price first, then the lowest stamp.
#[derive(Clone, Copy, PartialEq, Eq, PartialOrd, Ord)]
struct Place {
    security: usize,
    sells: bool,
    rank: i64,
    stamp: u64,
}

#[derive(Clone, Copy)]
struct Order {
    id: u64,
    qty: i64,
    total: i64,
}

pub enum Command {
    New {
        security: i64,
        buys: bool,
        price: i64,
        qty: i64,
    },
    Modify {
        order: u64,
        price: i64,
        qty: i64,
    },
    Delete {
        order: u64,
    },
}

pub struct Venue {
    securities: Vec<i64>,
    orders: BTreeMap<Place, Order>,
    named: BTreeMap<u64, Place>,
    last_id: u64,
    last_stamp: u64,
}

fn rank(sells: bool, price: i64) -> i64 {
    if sells { price } else { -price }
}

impl Venue {
    pub fn new(securities: Vec<i64>) -> Venue {
        Venue {
            securities,
            orders: BTreeMap::new(),
            named: BTreeMap::new(),
            last_id: 0,
            last_stamp: 0,
        }
    }

    // The best order of the other side, where its price crosses.
    fn crossing(&self, place: &Place) -> Option<(Place, Order)> {
        let sells = !place.sells;
        let first = Place {
            security: place.security,
            sells,
            rank: i64::MIN,
            stamp: 0,
        };
        let (best, order) = self.orders.range(first..).next()?;
        let price = rank(place.sells, place.rank);
        let theirs = rank(sells, best.rank);
        let crosses = if sells {
            theirs <= price
        } else {
            price <= theirs
        };
        (best.security == place.security && best.sells == sells && crosses)
            .then_some((*best, *order))
    }

    fn rest(&mut self, place: Place, order: Order) {
        self.named.insert(order.id, place);
        self.orders.insert(place, order);
    }

    fn trade(&mut self, best: Place, mut maker: Order, qty: i64) {
        if maker.qty <= qty {
            self.orders.remove(&best);
            self.named.remove(&maker.id);
        } else {
            maker.qty -= qty;
            self.orders.insert(best, maker);
        }
    }

    // An order comes in, and the count of messages and notes of its trades, its summary and its rest.
    fn enter(&mut self, place: Place, mut order: Order, alone: u64) -> u64 {
        let mut said = 0;
        while order.qty > 0
            && let Some((best, maker)) = self.crossing(&place)
        {
            let qty = order.qty.min(maker.qty);
            self.trade(best, maker, qty);
            order.qty -= qty;
            said += 2;
        }
        if said == 0 {
            self.rest(place, order);
            return 1;
        }
        if order.qty > 0 {
            self.rest(place, order);
            said += 1;
        }
        said + alone
    }

    fn stamp(&mut self, moment: u64) -> u64 {
        self.last_stamp = moment.max(self.last_stamp + 1);
        self.last_stamp
    }

    fn add(&mut self, moment: u64, security: usize, buys: bool, price: i64, qty: i64) -> u64 {
        if self.orders.len() >= MOST_ORDERS {
            return 0;
        }
        self.last_id += 1;
        let place = Place {
            security,
            sells: !buys,
            rank: rank(!buys, price),
            stamp: self.stamp(moment),
        };
        let order = Order {
            id: self.last_id,
            qty,
            total: qty,
        };
        self.enter(place, order, 1)
    }

    fn modify(&mut self, moment: u64, id: u64, price: i64, qty: i64) -> u64 {
        let Some(&place) = self.named.get(&id) else {
            return 0;
        };
        let order = self.orders[&place];
        let executed = order.total - order.qty;
        if qty <= executed {
            return 0;
        }
        let changed = Order {
            qty: qty - executed,
            total: qty,
            ..order
        };
        if rank(place.sells, price) == place.rank && qty <= order.total {
            self.orders.insert(place, changed);
            return 1;
        }
        self.orders.remove(&place);
        self.named.remove(&id);
        let place = Place {
            rank: rank(place.sells, price),
            stamp: self.stamp(moment),
            ..place
        };
        self.enter(place, changed, 2)
    }

    fn delete(&mut self, id: u64) -> u64 {
        match self.named.remove(&id) {
            Some(place) => {
                self.orders.remove(&place);
                1
            }
            None => 0,
        }
    }

    pub fn len(&self) -> usize {
        self.orders.len()
    }

    pub fn holds(&self, id: u64) -> bool {
        self.named.contains_key(&id)
    }

    pub fn last_id(&self) -> u64 {
        self.last_id
    }

    /// Carries out a command, and gives how many messages and notes it has.
    pub fn apply(&mut self, moment: u64, command: &Command) -> u64 {
        match *command {
            Command::New {
                security,
                buys,
                price,
                qty,
            } => match self
                .securities
                .iter()
                .position(|listed| *listed == security)
            {
                Some(security) => self.add(moment, security, buys, price, qty),
                None => 0,
            },
            Command::Modify { order, price, qty } => self.modify(moment, order, price, qty),
            Command::Delete { order } => self.delete(order),
        }
    }

    /// The stamps and quantities in the order of the book.
    pub fn walk(&self) -> impl Iterator<Item = (u64, i64)> + '_ {
        self.orders
            .iter()
            .map(|(place, order)| (place.stamp, order.qty))
    }
}
