//! A day of market data, and its deliveries on two lines: each line loses two in a hundred, and each thousandth delivery comes twice.

use crate::member::Feed;
use crate::packet::{Order, Previous};
use crate::{Draw, SECURITIES, SEGMENT};
use std::collections::VecDeque;

/// The largest datagram, by the product file.
const LIMIT: usize = 1472;
/// So many live datagrams stand between two snapshot datagrams.
const LIVE_PER_SNAP: u32 = 4;
/// So many datagrams line B is behind line A.
const BEHIND: usize = 2;

/// Deliveries: of each, 65,536 times the number of its feed and its length, and their bytes one behind another.
#[derive(Default)]
pub struct Deliveries {
    pub heads: Vec<u32>,
    pub bytes: Vec<u8>,
}

impl Deliveries {
    fn add(&mut self, feed: Feed, datagram: &[u8]) {
        self.heads.push((feed as u32) << 16 | datagram.len() as u32);
        self.bytes.extend_from_slice(datagram);
    }
}

/// A message of EOBI by the sample table: its length, its template, the number of a live message, and the fields behind.
struct Message(Vec<u8>);

impl Message {
    fn new(template: u16, number: Option<u32>) -> Message {
        let mut bytes = vec![0, 0];
        bytes.extend(template.to_le_bytes());
        bytes.extend(number.unwrap_or(u32::MAX).to_le_bytes());
        Message(bytes)
    }

    fn unsigned(mut self, number: u64) -> Message {
        self.0.extend(number.to_le_bytes());
        self
    }

    fn signed(self, number: i64) -> Message {
        self.unsigned(number as u64)
    }

    fn pair(mut self, first: u32, second: u32) -> Message {
        self.0.extend(first.to_le_bytes());
        self.0.extend(second.to_le_bytes());
        self
    }

    fn side(self, buys: bool) -> Message {
        self.unsigned(if buys { 1 } else { 2 })
    }

    fn end(mut self) -> Vec<u8> {
        let length = self.0.len() as u16;
        self.0[..2].copy_from_slice(&length.to_le_bytes());
        self.0
    }
}

fn header(number: u32) -> Vec<u8> {
    Message::new(1, None).pair(number, SEGMENT).end()
}

// OrderAdd, or OrderDelete with the same fields.
fn order(template: u16, number: u32, order: &Order) -> Vec<u8> {
    Message::new(template, Some(number))
        .signed(order.security)
        .unsigned(order.stamp)
        .signed(order.qty)
        .side(order.buys)
        .signed(order.price)
        .end()
}

fn modify(number: u32, order: &Order, previous: &Previous) -> Vec<u8> {
    Message::new(4, Some(number))
        .signed(order.security)
        .unsigned(previous.stamp)
        .signed(previous.price)
        .signed(previous.qty)
        .unsigned(order.stamp)
        .signed(order.qty)
        .side(order.buys)
        .signed(order.price)
        .end()
}

fn same_priority(number: u32, order: &Order, previous: i64) -> Vec<u8> {
    Message::new(5, Some(number))
        .signed(order.security)
        .unsigned(order.stamp)
        .signed(previous)
        .signed(order.qty)
        .side(order.buys)
        .signed(order.price)
        .end()
}

// PartialOrderExecution or FullOrderExecution.
fn execution(template: u16, number: u32, order: &Order, qty: i64) -> Vec<u8> {
    Message::new(template, Some(number))
        .signed(order.security)
        .unsigned(order.stamp)
        .side(order.buys)
        .signed(order.price)
        .signed(qty)
        .signed(order.price)
        .end()
}

fn summary(number: u32, order: &Order, stamp: u64, qty: i64) -> Vec<u8> {
    Message::new(10, Some(number))
        .signed(order.security)
        .unsigned(stamp)
        .side(!order.buys)
        .signed(qty)
        .signed(order.price)
        .end()
}

// Where an order stands in the book: by security, buys first, the best price first, then the lowest stamp.
fn place(order: &Order) -> (i64, bool, i64, u64) {
    let rank = if order.buys {
        -order.price
    } else {
        order.price
    };
    (order.security, !order.buys, rank, order.stamp)
}

// The messages of a cycle at m, of orders in the order of the book.
fn cycle(m: u32, orders: &[Order]) -> Vec<Vec<u8>> {
    let mut messages = vec![Message::new(11, None).pair(m, 0).end()];
    for security in SECURITIES {
        let count = orders.iter().filter(|order| order.security == security);
        messages.push(
            Message::new(12, None)
                .signed(security)
                .unsigned(count.count() as u64)
                .end(),
        );
        for order in orders.iter().filter(|order| order.security == security) {
            messages.push(
                Message::new(13, None)
                    .unsigned(order.stamp)
                    .signed(order.qty)
                    .side(order.buys)
                    .signed(order.price)
                    .end(),
            );
        }
    }
    messages
}

struct Exchange {
    draw: Draw,
    orders: Vec<Order>,
    stamp: u64,
    messages: u32,
    live: u32,
    snaps: u32,
    // The messages of the cycle under way that weren't sent yet.
    cycle: VecDeque<Vec<u8>>,
}

impl Exchange {
    fn number(&mut self) -> u32 {
        self.messages += 1;
        self.messages
    }

    fn drawn(&mut self) -> Order {
        self.stamp += 1;
        crate::drawn(&mut self.draw, self.stamp)
    }

    fn place(&mut self) -> usize {
        self.draw.below(self.orders.len() as u64) as usize
    }

    fn add(&mut self) -> Vec<u8> {
        let new = self.drawn();
        self.orders.push(new);
        order(3, self.number(), &new)
    }

    fn delete(&mut self) -> Vec<u8> {
        let place = self.place();
        let gone = self.orders.swap_remove(place);
        order(6, self.number(), &gone)
    }

    fn modify(&mut self) -> Vec<u8> {
        let place = self.place();
        self.stamp += 1;
        let before = self.orders[place];
        let price = before.price + self.draw.below(21) as i64 - 10;
        let after = Order {
            stamp: self.stamp,
            price,
            ..before
        };
        self.orders[place] = after;
        let previous = Previous {
            stamp: before.stamp,
            price: before.price,
            qty: before.qty,
        };
        modify(self.number(), &after, &previous)
    }

    fn lower(&mut self) -> Vec<u8> {
        let place = self.place();
        let before = self.orders[place].qty;
        self.orders[place].qty = 1.max(before - 1);
        let after = self.orders[place];
        same_priority(self.number(), &after, before)
    }

    // An order that trades with another in part, or in whole and another comes.
    fn trade(&mut self) -> Vec<Vec<u8>> {
        let place = self.place();
        self.stamp += 1;
        let rest = self.orders[place];
        let whole = rest.qty == 1 || self.draw.below(4) == 0;
        let qty = if whole { rest.qty } else { 1 };
        let first = summary(self.number(), &rest, self.stamp, qty);
        let second = execution(if whole { 9 } else { 8 }, self.number(), &rest, qty);
        if !whole {
            self.orders[place].qty -= 1;
            return vec![first, second];
        }
        self.orders.swap_remove(place);
        vec![first, second, self.add()]
    }

    // The messages of the next command: in turn a deletion, a new order, a modification, another quantity, and a trade.
    fn command(&mut self) -> Vec<Vec<u8>> {
        match self.live % 5 {
            0 => vec![self.delete()],
            1 => vec![self.add()],
            2 => vec![self.modify()],
            3 => vec![self.lower()],
            _ => self.trade(),
        }
    }

    fn live(&mut self) -> Vec<u8> {
        let messages = self.command().concat();
        self.live += 1;
        [header(self.live), messages].concat()
    }

    // The next snapshot datagram: of the cycle under way, or of a new one of the orders as they are.
    fn snap(&mut self) -> Vec<u8> {
        if self.cycle.is_empty() {
            let mut orders = self.orders.clone();
            orders.sort_by_key(place);
            self.cycle = cycle(self.messages, &orders).into();
        }
        self.snaps += 1;
        let mut datagram = header(self.snaps);
        while let Some(message) = self
            .cycle
            .pop_front_if(|message| datagram.len() + message.len() <= LIMIT)
        {
            datagram.extend(message);
        }
        datagram
    }
}

/// Two lines with the same datagrams, of which the second is behind.
struct Lines {
    draw: Draw,
    behind: VecDeque<(Feed, Vec<u8>)>,
    deliveries: Deliveries,
}

impl Lines {
    fn deliver(&mut self, feed: Feed, datagram: &[u8]) {
        if self.draw.below(100) < 2 {
            return;
        }
        self.deliveries.add(feed, datagram);
        if self.deliveries.heads.len() % 1000 == 0 {
            self.deliveries.add(feed, datagram);
        }
    }

    fn send(&mut self, a: Feed, b: Feed, datagram: Vec<u8>) {
        self.deliver(a, &datagram);
        self.behind.push_back((b, datagram));
        if self.behind.len() > BEHIND {
            if let Some((feed, datagram)) = self.behind.pop_front() {
                self.deliver(feed, &datagram);
            }
        }
    }
}

/// A book of so many orders comes whole as a snapshot, and then come the deliveries of so many live datagrams and of a snapshot datagram
/// behind each fourth. The two counts are how many deliveries and how many bytes the first snapshot has.
pub fn day(orders: usize, datagrams: u32) -> (Deliveries, usize, usize) {
    let mut exchange = Exchange {
        draw: Draw(3),
        orders: Vec::new(),
        stamp: 0,
        messages: 0,
        live: 0,
        snaps: 0,
        cycle: VecDeque::new(),
    };
    for _ in 0..orders {
        exchange.add();
    }
    let mut deliveries = Deliveries::default();
    loop {
        deliveries.add(Feed::SnapA, &exchange.snap());
        if exchange.cycle.is_empty() {
            break;
        }
    }
    let beginning = (deliveries.heads.len(), deliveries.bytes.len());
    let mut lines = Lines {
        draw: Draw(4),
        behind: VecDeque::new(),
        deliveries,
    };
    for _ in 0..datagrams {
        lines.send(Feed::LiveA, Feed::LiveB, exchange.live());
        if exchange.live % LIVE_PER_SNAP == 0 {
            lines.send(Feed::SnapA, Feed::SnapB, exchange.snap());
        }
    }
    (lines.deliveries, beginning.0, beginning.1)
}
