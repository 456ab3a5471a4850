//! The proved reader and book beside plain Rust, on the same bytes in the same run: bench/run

mod book;
mod day;
mod member;
mod pack;
mod packet;
mod table;
mod venue;

use book::Book;
use day::{Deliveries, day};
use member::{Feed, Member, Windows};
use pack::Packer;
use packet::{Live, Message, Order, Packet, Previous, Trade};
use std::time::{Duration, Instant};
use table::{Channel, Table};
use venue::{Command, Venue};

unsafe extern "C" {
    fn t7_bench_datagrams(
        table: *const u8,
        table_length: usize,
        segment: u32,
        datagrams: *const u8,
        datagrams_length: usize,
        size: usize,
        walks: bool,
        turns: u32,
    ) -> u64;

    fn t7_bench_book(
        product: *const u8,
        product_length: usize,
        numbers: *const i64,
        numbers_length: usize,
    ) -> u64;

    fn t7_bench_orders(
        product: *const u8,
        product_length: usize,
        numbers: *const i64,
        numbers_length: usize,
    ) -> u64;

    fn t7_bench_pack(
        table: *const u8,
        table_length: usize,
        numbers: *const i64,
        numbers_length: usize,
        turns: u32,
    ) -> u64;

    fn t7_bench_member(
        table: *const u8,
        table_length: usize,
        product: *const u8,
        product_length: usize,
        deliveries: *const u32,
        deliveries_length: usize,
        bytes: *const u8,
        bytes_length: usize,
    ) -> u64;
}

const SEGMENT: u32 = 7;
const SECURITIES: [i64; 2] = [1001, 1002];
const ADDS: usize = 8;
const SIZE: usize = 16 + ADDS * 48;
const DATAGRAMS: usize = 256;
const TURNS: u32 = 400;
const CALLS: usize = 100_000;
const NUMBERS: usize = 9;
const COMMAND_NUMBERS: usize = 6;
/// Orders of a book on which the calls are timed.
const SIZES: [usize; 2] = [200, 20_000];
/// The same of an exchange's book, which takes at most 10,000 orders of one security.
const VENUE_SIZES: [usize; 2] = [200, 18_000];
const RUNS: usize = 7;
/// Orders that are packed into one datagram, and how often each datagram is packed.
const PACKS: [usize; 3] = [1, 8, 30];
const PACK_TURNS: u32 = 1_000_000;
const LIMIT: usize = 1472;
const ADD_NUMBERS: usize = 5;
const WINDOWS: Windows = Windows {
    messages: 16_384,
    packets: 2048,
};
/// Orders of the member's book, live datagrams of its day, and how often the day is run.
const DAYS: [(usize, u32, usize); 3] = [(200, 200_000, 7), (5_000, 50_000, 5), (20_000, 20_000, 3)];

/// Numbers that are drawn one after another.
struct Draw(u64);

impl Draw {
    fn below(&mut self, most: u64) -> u64 {
        self.0 = self
            .0
            .wrapping_mul(6364136223846793005)
            .wrapping_add(1442695040888963407);
        (self.0 >> 33) % most
    }
}

/// Datagrams of eight new orders each, by the sample table.
fn datagrams() -> Vec<u8> {
    let mut draw = Draw(1);
    let mut bytes = Vec::new();
    for packet in 0..DATAGRAMS {
        bytes.extend([16, 0, 1, 0, 255, 255, 255, 255]);
        bytes.extend((packet as u32 + 1).to_le_bytes());
        bytes.extend(SEGMENT.to_le_bytes());
        for add in 0..ADDS {
            let number = (packet * ADDS + add + 1) as u32;
            bytes.extend([48, 0, 3, 0]);
            bytes.extend(number.to_le_bytes());
            bytes.extend(SECURITIES[draw.below(2) as usize].to_le_bytes());
            bytes.extend(u64::from(number).to_le_bytes());
            bytes.extend((1 + draw.below(1000)).to_le_bytes());
            bytes.extend([1 + draw.below(2) as u8, 0, 0, 0, 0, 0, 0, 0]);
            bytes.extend((9000 + draw.below(2000)).to_le_bytes());
        }
    }
    bytes
}

fn order_sum(order: &Order) -> u64 {
    order
        .stamp
        .wrapping_add(order.qty as u64)
        .wrapping_add(order.price.unsigned_abs())
        .wrapping_add(order.security.unsigned_abs())
}

fn item_sum(item: &Live) -> u64 {
    match item {
        Live::Message(number, Message::Add(order)) => {
            order_sum(order).wrapping_add(u64::from(*number))
        }
        Live::Message(number, _) => u64::from(*number),
        Live::Beat(number) => u64::from(*number),
    }
}

#[inline(never)]
fn plain_turn(table: &Table, datagrams: &[u8], walks: bool) -> u64 {
    let mut sum = 0u64;
    for bytes in datagrams.chunks_exact(SIZE) {
        let Ok(packet) = Packet::read(table, SEGMENT, Channel::Live, bytes) else {
            continue;
        };
        sum = sum.wrapping_add(if walks {
            packet
                .live()
                .map(|item| item_sum(&item))
                .fold(0, u64::wrapping_add)
        } else {
            u64::from(packet.number())
        });
    }
    sum
}

fn plain_datagrams(text: &str, datagrams: &[u8], walks: bool, turns: u32) -> u64 {
    let table = Table::read(text);
    let mut sum = 0u64;
    for turn in 0..turns {
        let rest = &datagrams[turn as usize % 8 * SIZE..];
        sum = sum.wrapping_add(plain_turn(&table, rest, walks));
    }
    sum
}

fn proved_datagrams(text: &str, datagrams: &[u8], walks: bool, turns: u32) -> u64 {
    // Each pointer is that of a slice of the length beside it, which outlives the call.
    unsafe {
        t7_bench_datagrams(
            text.as_ptr(),
            text.len(),
            SEGMENT,
            datagrams.as_ptr(),
            datagrams.len(),
            SIZE,
            walks,
            turns,
        )
    }
}

fn row(kind: i64, order: &Order, previous: Previous) -> [i64; NUMBERS] {
    [
        kind,
        order.security,
        if order.buys { 1 } else { 2 },
        order.stamp as i64,
        order.price,
        order.qty,
        previous.stamp as i64,
        previous.price,
        previous.qty,
    ]
}

const NONE: Previous = Previous {
    stamp: 0,
    price: 0,
    qty: 0,
};

fn drawn(draw: &mut Draw, stamp: u64) -> Order {
    let buys = draw.below(2) == 0;
    Order {
        security: SECURITIES[draw.below(2) as usize],
        buys,
        stamp,
        price: (if buys { 9000 } else { 10_000 }) + draw.below(1000) as i64,
        qty: 1000 + draw.below(1000) as i64,
    }
}

/// Messages of nine numbers: so many new orders, and then in turn a deletion, a new order, a change and an execution in part.
fn messages(count: usize) -> Vec<i64> {
    let mut draw = Draw(2);
    let mut orders: Vec<Order> = (0..count).map(|k| drawn(&mut draw, k as u64 + 1)).collect();
    let mut rows: Vec<[i64; NUMBERS]> = orders.iter().map(|order| row(1, order, NONE)).collect();
    let mut stamp = count as u64;
    for call in 0..CALLS {
        let at = draw.below(orders.len() as u64) as usize;
        stamp += 1;
        rows.push(match call % 4 {
            0 => row(3, &orders.swap_remove(at), NONE),
            1 => {
                orders.push(drawn(&mut draw, stamp));
                row(1, orders.last().unwrap(), NONE)
            }
            2 => {
                let before = orders[at];
                let price = before.price + draw.below(21) as i64 - 10;
                orders[at] = Order {
                    stamp,
                    price,
                    ..before
                };
                let previous = Previous {
                    stamp: before.stamp,
                    price: before.price,
                    qty: before.qty,
                };
                row(2, &orders[at], previous)
            }
            _ => {
                orders[at].qty -= 1;
                row(
                    4,
                    &Order {
                        qty: 1,
                        ..orders[at]
                    },
                    NONE,
                )
            }
        });
    }
    rows.concat()
}

fn message_of(row: &[i64]) -> Option<Message> {
    let [
        kind,
        security,
        side,
        stamp,
        price,
        qty,
        prev_stamp,
        prev_price,
        prev_qty,
    ] = *row
    else {
        return None;
    };
    let order = Order {
        security,
        buys: side == 1,
        stamp: stamp as u64,
        price,
        qty,
    };
    match kind {
        1 => Some(Message::Add(order)),
        2 => {
            let previous = Previous {
                stamp: prev_stamp as u64,
                price: prev_price,
                qty: prev_qty,
            };
            Some(Message::Modify(order, previous))
        }
        3 => Some(Message::Delete(order)),
        4 => Some(Message::Partial(Trade {
            security,
            buys: order.buys,
            stamp: order.stamp,
            price,
            last_qty: qty,
            last_price: price,
        })),
        _ => None,
    }
}

#[inline(never)]
fn plain_book(numbers: &[i64]) -> u64 {
    let mut book = Book::new(SECURITIES.to_vec());
    let mut fitting = 0u64;
    for row in numbers.chunks_exact(NUMBERS) {
        if message_of(row).is_some_and(|message| book.apply(&message).is_ok()) {
            fitting += 1;
        }
    }
    let sum = book.walk().fold(0u64, |sum, (stamp, qty)| {
        sum.wrapping_mul(31)
            .wrapping_add(stamp)
            .wrapping_add(qty as u64)
    });
    sum.wrapping_add(fitting)
}

fn proved_book(product: &str, numbers: &[i64]) -> u64 {
    // Each pointer is that of a slice of the length beside it, which outlives the call.
    unsafe {
        t7_bench_book(
            product.as_ptr(),
            product.len(),
            numbers.as_ptr(),
            numbers.len(),
        )
    }
}

fn plain_member(text: &str, heads: &[u32], bytes: &[u8]) -> u64 {
    let table = Table::read(text);
    let mut member = Member::new(&table, SEGMENT, SECURITIES.to_vec(), WINDOWS);
    let mut rest = bytes;
    for head in heads {
        let (datagram, others) = rest.split_at((head & 0xffff) as usize);
        member.deliver(Feed::ALL[(head >> 16) as usize], datagram);
        rest = others;
    }
    member.sum()
}

/// The product file of the member's day.
fn member_product() -> String {
    let Windows { messages, packets } = WINDOWS;
    let securities = SECURITIES.map(|security| format!("security,{security},1\n"));
    format!(
        "product,{SEGMENT}\nwindow,{messages}\npackets,{packets}\ndatagram,1472\n{}session,21\n",
        securities.concat()
    )
}

fn proved_member(text: &str, product: &str, heads: &[u32], bytes: &[u8]) -> u64 {
    // Each pointer is that of a slice of the length beside it, which outlives the call.
    unsafe {
        t7_bench_member(
            text.as_ptr(),
            text.len(),
            product.as_ptr(),
            product.len(),
            heads.as_ptr(),
            heads.len(),
            bytes.as_ptr(),
            bytes.len(),
        )
    }
}

fn timed(work: impl FnOnce() -> u64) -> (Duration, u64) {
    let start = Instant::now();
    let sum = std::hint::black_box(work());
    (start.elapsed(), sum)
}

/// The time of the whole work less that of its beginning, and what the whole work gave.
fn beyond(whole: impl FnOnce() -> u64, beginning: impl FnOnce() -> u64) -> (Duration, u64) {
    let (start, _) = timed(beginning);
    let (time, sum) = timed(whole);
    (time.saturating_sub(start), sum)
}

fn middle(mut times: Vec<Duration>) -> f64 {
    times.sort();
    times[times.len() / 2].as_secs_f64()
}

/// Runs both by turns, and prints the middle times for so many things of each.
fn compare(
    title: &str,
    count: f64,
    runs: usize,
    proved: impl Fn() -> (Duration, u64),
    plain: impl Fn() -> (Duration, u64),
) {
    let (mut proved_times, mut plain_times) = (Vec::new(), Vec::new());
    for _ in 0..runs {
        let (proved_time, proved_sum) = proved();
        let (plain_time, plain_sum) = plain();
        assert_eq!(proved_sum, plain_sum, "{title}: the sums differ");
        assert_ne!(proved_sum, 0, "{title}: nothing was read");
        proved_times.push(proved_time);
        plain_times.push(plain_time);
    }
    let (proved, plain) = (middle(proved_times), middle(plain_times));
    println!(
        "{title}: proved {:.3} million a second ({:.1} ns each), plain Rust {:.3} ({:.1} ns each): {:.2} of its speed",
        count / proved / 1e6,
        proved / count * 1e9,
        count / plain / 1e6,
        plain / count * 1e9,
        plain / proved
    );
}

fn compare_datagrams(table: &str) {
    let bytes = datagrams();
    let read: usize = (0..TURNS as usize).map(|turn| DATAGRAMS - turn % 8).sum();
    for (title, walks) in [
        ("messages of datagrams read", false),
        ("messages of datagrams read and walked", true),
    ] {
        compare(
            title,
            (read * ADDS) as f64,
            RUNS,
            || {
                beyond(
                    || proved_datagrams(table, &bytes, walks, TURNS),
                    || proved_datagrams(table, &bytes, walks, 0),
                )
            },
            || {
                beyond(
                    || plain_datagrams(table, &bytes, walks, TURNS),
                    || plain_datagrams(table, &bytes, walks, 0),
                )
            },
        );
    }
}

fn compare_books(product: &str) {
    for orders in SIZES {
        let numbers = messages(orders);
        let before = &numbers[..orders * NUMBERS];
        compare(
            &format!("messages on a member's book of {orders} orders"),
            CALLS as f64,
            3,
            || {
                beyond(
                    || proved_book(product, &numbers),
                    || proved_book(product, before),
                )
            },
            || beyond(|| plain_book(&numbers), || plain_book(before)),
        );
    }
}

fn plain_packs(text: &str, numbers: &[i64], turns: u32) -> u64 {
    let packer = Packer::read(text);
    let orders: Vec<Order> = numbers
        .chunks_exact(ADD_NUMBERS)
        .map(|row| Order {
            security: row[0],
            buys: row[1] == 1,
            stamp: row[2] as u64,
            price: row[3],
            qty: row[4],
        })
        .collect();
    let mut out = [0u8; LIMIT];
    let mut sum = 0u64;
    for turn in 0..turns {
        let number = turn % 1_000_000 + 1;
        let len = packer.pack(SEGMENT, LIMIT, number, number, &orders, &mut out);
        sum = sum
            .wrapping_add(len as u64)
            .wrapping_add(u64::from(out[turn as usize % 64]));
    }
    sum
}

fn proved_packs(text: &str, numbers: &[i64], turns: u32) -> u64 {
    // Each pointer is that of a slice of the length beside it, which outlives the call.
    unsafe {
        t7_bench_pack(
            text.as_ptr(),
            text.len(),
            numbers.as_ptr(),
            numbers.len(),
            turns,
        )
    }
}

/// The numbers of so many new orders: security, side, stamp, price and quantity.
fn adds(count: usize) -> Vec<i64> {
    let mut draw = Draw(4);
    let order = |stamp: usize| {
        let order = drawn(&mut draw, stamp as u64 + 1);
        let side = if order.buys { 1 } else { 2 };
        [
            order.security,
            side,
            order.stamp as i64,
            order.price,
            order.qty,
        ]
    };
    (0..count).flat_map(order).collect()
}

fn compare_packs(table: &str) {
    for orders in PACKS {
        let numbers = adds(orders);
        let turns = PACK_TURNS / orders as u32;
        compare(
            &format!("messages packed, {orders} to a datagram"),
            (orders as u32 * turns) as f64,
            RUNS,
            || {
                beyond(
                    || proved_packs(table, &numbers, turns),
                    || proved_packs(table, &numbers, 0),
                )
            },
            || {
                beyond(
                    || plain_packs(table, &numbers, turns),
                    || plain_packs(table, &numbers, 0),
                )
            },
        );
    }
}

fn resting(draw: &mut Draw, moment: i64) -> [i64; COMMAND_NUMBERS] {
    let buys = draw.below(2) == 0;
    let price = (if buys { 9000 } else { 10_100 }) + draw.below(1000) as i64;
    let security = SECURITIES[draw.below(2) as usize];
    let qty = 1000 + draw.below(1000) as i64;
    [1, moment, security, if buys { 1 } else { 2 }, price, qty]
}

// An order that trades with the best ones of the other side.
fn crossing(draw: &mut Draw, moment: i64) -> [i64; COMMAND_NUMBERS] {
    let (side, price) = if draw.below(2) == 0 {
        (1, 20_000)
    } else {
        (2, 1)
    };
    let security = SECURITIES[draw.below(2) as usize];
    [
        1,
        moment,
        security,
        side,
        price,
        1 + draw.below(2000) as i64,
    ]
}

// The id of an order that rests, among these.
fn alive(draw: &mut Draw, venue: &Venue, ids: &mut Vec<u64>) -> i64 {
    loop {
        let at = draw.below(ids.len() as u64) as usize;
        if venue.holds(ids[at]) {
            return ids[at] as i64;
        }
        ids.swap_remove(at);
    }
}

/// Commands of six numbers: so many new orders, and then in turn two that keep the number of orders (new ones, or deletions), one that
/// trades, and a modification.
fn commands(count: usize) -> Vec<i64> {
    let mut draw = Draw(3);
    let mut venue = Venue::new(SECURITIES.to_vec());
    let (mut rows, mut ids) = (Vec::new(), Vec::new());
    for call in 0..count + CALLS {
        let moment = call as i64 + 1;
        let row = if call < count {
            resting(&mut draw, moment)
        } else if call % 4 == 2 {
            crossing(&mut draw, moment)
        } else if call % 4 == 3 {
            let order = alive(&mut draw, &venue, &mut ids);
            let price = 9000 + draw.below(2000) as i64;
            [2, moment, order, 0, price, 2000 + draw.below(1000) as i64]
        } else if venue.len() < count {
            resting(&mut draw, moment)
        } else {
            [3, moment, alive(&mut draw, &venue, &mut ids), 0, 0, 0]
        };
        let (moment, command) = command_of(&row).unwrap();
        let before = venue.last_id();
        venue.apply(moment, &command);
        if before < venue.last_id() {
            ids.push(venue.last_id());
        }
        rows.push(row);
    }
    rows.concat()
}

fn command_of(row: &[i64]) -> Option<(u64, Command)> {
    let [kind, moment, name, side, price, qty] = *row else {
        return None;
    };
    let command = match kind {
        1 => Command::New {
            security: name,
            buys: side == 1,
            price,
            qty,
        },
        2 => Command::Modify {
            order: name as u64,
            price,
            qty,
        },
        3 => Command::Delete { order: name as u64 },
        _ => return None,
    };
    Some((moment as u64, command))
}

#[inline(never)]
fn plain_orders(numbers: &[i64]) -> u64 {
    let mut venue = Venue::new(SECURITIES.to_vec());
    let mut said = 0u64;
    for row in numbers.chunks_exact(COMMAND_NUMBERS) {
        if let Some((moment, command)) = command_of(row) {
            said = said.wrapping_add(venue.apply(moment, &command));
        }
    }
    let sum = venue.walk().fold(0u64, |sum, (stamp, qty)| {
        sum.wrapping_mul(31)
            .wrapping_add(stamp)
            .wrapping_add(qty as u64)
    });
    sum.wrapping_add(said)
}

fn proved_orders(product: &str, numbers: &[i64]) -> u64 {
    // Each pointer is that of a slice of the length beside it, which outlives the call.
    unsafe {
        t7_bench_orders(
            product.as_ptr(),
            product.len(),
            numbers.as_ptr(),
            numbers.len(),
        )
    }
}

fn compare_venues(product: &str) {
    for orders in VENUE_SIZES {
        let numbers = commands(orders);
        let before = &numbers[..orders * COMMAND_NUMBERS];
        compare(
            &format!("commands on an exchange's book of about {orders} orders"),
            CALLS as f64,
            3,
            || {
                beyond(
                    || proved_orders(product, &numbers),
                    || proved_orders(product, before),
                )
            },
            || beyond(|| plain_orders(&numbers), || plain_orders(before)),
        );
    }
}

fn compare_members(table: &str) {
    let product = member_product();
    for (orders, datagrams, runs) in DAYS {
        let (Deliveries { heads, bytes }, some, some_bytes) = day(orders, datagrams);
        let (first, first_bytes) = (&heads[..some], &bytes[..some_bytes]);
        compare(
            &format!("deliveries to a member with {orders} orders"),
            (heads.len() - some) as f64,
            runs,
            || {
                beyond(
                    || proved_member(table, &product, &heads, &bytes),
                    || proved_member(table, &product, first, first_bytes),
                )
            },
            || {
                beyond(
                    || plain_member(table, &heads, &bytes),
                    || plain_member(table, first, first_bytes),
                )
            },
        );
    }
}

fn main() {
    let words: Vec<String> = std::env::args().skip(1).collect();
    let (table, product, only) = match &words[..] {
        [table, product] => (table, product, None),
        [table, product, only] => (table, product, Some(only.as_str())),
        _ => panic!(
            "the words are a layout table and a product file, and `datagrams` or `member` for one part alone"
        ),
    };
    let table = std::fs::read_to_string(table).unwrap();
    let product = std::fs::read_to_string(product).unwrap();
    if only != Some("member") {
        compare_datagrams(&table);
        compare_packs(&table);
    }
    if only.is_none() {
        compare_books(&product);
        compare_venues(&product);
    }
    if only != Some("datagrams") {
        compare_members(&table);
    }
}
