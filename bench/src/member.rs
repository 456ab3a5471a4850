//! The member in plain Rust: two lines of live messages in a ring of the last numbers, snapshot datagrams in a ring of theirs, and the book.

use crate::book::Book;
use crate::packet::{Live, Message, Order, Packet, Snap, SnapWalk};
use crate::table::{Channel, Table};

#[derive(Clone, Copy, PartialEq, Eq)]
pub enum Feed {
    LiveA,
    LiveB,
    SnapA,
    SnapB,
}

impl Feed {
    pub const ALL: [Feed; 4] = [Feed::LiveA, Feed::LiveB, Feed::SnapA, Feed::SnapB];

    fn channel(self) -> Channel {
        match self {
            Feed::LiveA | Feed::LiveB => Channel::Live,
            Feed::SnapA | Feed::SnapB => Channel::Snap,
        }
    }
}

#[derive(Clone, Copy)]
pub struct Windows {
    pub messages: u32,
    pub packets: u32,
}

enum Put {
    Old,
    Outside,
    New,
}

struct GapBuffer {
    window: u32,
    highest: u32,
    ring: Vec<Option<(u32, Message)>>,
}

impl GapBuffer {
    fn new(window: u32) -> GapBuffer {
        GapBuffer {
            window,
            highest: 0,
            ring: vec![None; window as usize],
        }
    }

    fn put(&mut self, base: Option<u32>, number: u32, message: Message) -> Put {
        self.highest = number.max(self.highest);
        if base.is_some_and(|n| number <= n) {
            return Put::Old;
        }
        if self.highest - number >= self.window {
            return Put::Outside;
        }
        let place = &mut self.ring[(number % self.window) as usize];
        if matches!(place, Some((kept, _)) if *kept == number) {
            return Put::Old;
        }
        *place = Some((number, message));
        Put::New
    }

    fn take(&mut self, number: u32) -> Option<Message> {
        if number > self.highest || self.highest - number >= self.window {
            return None;
        }
        let place = &mut self.ring[(number % self.window) as usize];
        place
            .take_if(|(kept, _)| *kept == number)
            .map(|(_, message)| message)
    }
}

/// What a cycle still awaits: its number, the place of the next security, and so many orders of the one under way.
#[derive(Clone, Copy, Default)]
struct Awaited {
    number: Option<u32>,
    next: usize,
    count: u16,
}

impl Awaited {
    fn read(&mut self, securities: &[i64], snap: &Snap) -> Option<()> {
        match snap {
            Snap::Product(number) if self.number.is_none() => self.number = Some(*number),
            Snap::Instrument { security, count } => {
                let listed = securities.get(self.next)?;
                if self.number.is_none() || listed != security || self.count != 0 {
                    return None;
                }
                self.next += 1;
                self.count = *count;
            }
            Snap::Order { .. } => self.count = self.count.checked_sub(1)?,
            Snap::Product(_) => return None,
        }
        Some(())
    }

    fn done(&self, securities: &[i64]) -> Option<u32> {
        self.number
            .filter(|_| self.next == securities.len() && self.count == 0)
    }
}

/// A cycle that is being read: its first datagram, the first that isn't read yet, what is awaited there, and its number and last datagram once it ended.
#[derive(Clone, Copy)]
struct Cycle {
    first: u32,
    next: u32,
    awaited: Awaited,
    end: Option<(u32, u32)>,
}

#[derive(Default, Clone)]
struct Slot {
    number: u32,
    opens: bool,
    bytes: Vec<u8>,
}

struct Assembler<'t> {
    table: &'t Table,
    highest: u32,
    slots: Vec<Slot>,
    recent: Option<Cycle>,
}

impl<'t> Assembler<'t> {
    fn new(table: &'t Table, packets: u32) -> Assembler<'t> {
        let slot = || Slot {
            bytes: Vec::with_capacity(1472),
            ..Slot::default()
        };
        Assembler {
            table,
            highest: 0,
            slots: (0..packets).map(|_| slot()).collect(),
            recent: None,
        }
    }

    fn is_near(&self, number: u32) -> bool {
        number > 0 && (self.highest < number || self.highest - number < self.slots.len() as u32)
    }

    fn at(&self, number: u32) -> Option<&Slot> {
        let slot = &self.slots[number as usize % self.slots.len()];
        (self.is_near(number) && slot.number == number).then_some(slot)
    }

    fn is_new(&self, number: u32) -> bool {
        self.is_near(number) && self.at(number).is_none()
    }

    fn keep(&mut self, packet: &Packet<'_>) {
        let number = packet.number();
        let new = self.is_new(number);
        self.highest = number.max(self.highest);
        if new {
            let place = number as usize % self.slots.len();
            let slot = &mut self.slots[place];
            slot.number = number;
            slot.opens = matches!(packet.snap().next(), Some(Snap::Product(_)));
            slot.bytes.clear();
            slot.bytes.extend_from_slice(packet.bytes());
        }
    }

    // The cycle in which a datagram stands, as far as it was read, where it is the one that was read last.
    fn read_before(&self, number: u32) -> Option<Cycle> {
        self.recent.filter(|cycle| {
            (cycle.first..cycle.next).contains(&number)
                && self.at(cycle.first).is_some_and(|slot| slot.opens)
        })
    }

    // The cycle that the nearest datagram up to this one opens, where all after it are kept.
    fn begin(&self, mut number: u32) -> Option<Cycle> {
        while !self.at(number)?.opens {
            number -= 1;
            if let Some(cycle) = self.read_before(number) {
                return Some(cycle);
            }
        }
        self.read_before(number).or(Some(Cycle {
            first: number,
            next: number,
            awaited: Awaited::default(),
            end: None,
        }))
    }

    fn read_on(&self, cycle: &mut Cycle, securities: &[i64]) {
        while let (None, Some(slot)) = (cycle.end, self.at(cycle.next)) {
            let mut awaited = cycle.awaited;
            let mut snaps = SnapWalk::of(self.table, &slot.bytes);
            if snaps.any(|snap| awaited.read(securities, &snap).is_none()) {
                return;
            }
            cycle.end = awaited.done(securities).map(|number| (number, cycle.next));
            cycle.awaited = awaited;
            cycle.next += 1;
        }
    }

    // Keeps a datagram, and gives the number, the first and the last datagram of the whole cycle in which it stands.
    fn take(&mut self, packet: &Packet<'_>, securities: &[i64]) -> Option<(u32, u32, u32)> {
        self.keep(packet);
        let mut cycle = self.begin(packet.number())?;
        self.read_on(&mut cycle, securities);
        self.recent = Some(cycle);
        let (number, last) = cycle.end?;
        (packet.number() <= last).then_some((number, cycle.first, last))
    }

    fn orders(&self, first: u32, last: u32) -> impl Iterator<Item = Order> + '_ {
        let mut under = 0;
        (first..=last)
            .filter_map(|number| self.at(number))
            .flat_map(|slot| SnapWalk::of(self.table, &slot.bytes))
            .filter_map(move |snap| match snap {
                Snap::Instrument { security, .. } => {
                    under = security;
                    None
                }
                Snap::Order {
                    buys,
                    price,
                    stamp,
                    qty,
                } => Some(Order {
                    security: under,
                    buys,
                    stamp,
                    price,
                    qty,
                }),
                Snap::Product(_) => None,
            })
    }
}

enum Standing {
    Waits,
    At(u32),
    Stopped(u32),
}

impl Standing {
    fn base(&self) -> Option<u32> {
        match self {
            Standing::At(n) => Some(*n),
            _ => None,
        }
    }

    fn may_adopt(&self, m: u32) -> bool {
        match self {
            Standing::Waits => true,
            Standing::At(n) => *n < m,
            Standing::Stopped(q) => *q <= m,
        }
    }
}

#[derive(Clone, Copy, Default)]
struct Tally {
    taken: u64,
    fresh: u64,
}

pub struct Member<'t> {
    table: &'t Table,
    segment: u32,
    securities: Vec<i64>,
    gap: GapBuffer,
    assembler: Assembler<'t>,
    book: Book,
    standing: Standing,
    known: u32,
    tallies: [Tally; 4],
    bad: u64,
}

impl<'t> Member<'t> {
    pub fn new(
        table: &'t Table,
        segment: u32,
        securities: Vec<i64>,
        windows: Windows,
    ) -> Member<'t> {
        Member {
            table,
            segment,
            gap: GapBuffer::new(windows.messages),
            assembler: Assembler::new(table, windows.packets),
            book: Book::new(securities.clone()),
            standing: Standing::Waits,
            known: 0,
            tallies: [Tally::default(); 4],
            bad: 0,
            securities,
        }
    }

    fn advance(&mut self, number: u32, message: &Message) {
        self.standing = match self.book.apply(message) {
            Ok(()) => Standing::At(number),
            Err(_) => {
                self.book = Book::new(self.securities.clone());
                Standing::Stopped(number)
            }
        };
    }

    fn chain(&mut self) {
        while let Standing::At(n) = self.standing {
            let Some(message) = self.gap.take(n + 1) else {
                return;
            };
            self.advance(n + 1, &message);
        }
    }

    fn hear(&mut self, number: u32, message: Message) -> bool {
        self.known = number.max(self.known);
        let fresh = match self.gap.put(self.standing.base(), number, message) {
            Put::Old => false,
            Put::New => true,
            Put::Outside => {
                let next = self.standing.base().is_some_and(|n| n + 1 == number);
                if next {
                    self.advance(number, &message);
                }
                next
            }
        };
        self.chain();
        fresh
    }

    fn hear_all(&mut self, packet: &Packet<'_>) -> bool {
        let mut fresh = false;
        for live in packet.live() {
            match live {
                Live::Message(number, message) => fresh |= self.hear(number, message),
                Live::Beat(last) => self.known = last.max(self.known),
            }
        }
        fresh
    }

    // The book of the orders of datagrams, where they fit.
    fn staged(&self, first: u32, last: u32) -> Option<Book> {
        let mut book = Book::new(self.securities.clone());
        for order in self.assembler.orders(first, last) {
            book.apply(&Message::Add(order)).ok()?;
        }
        Some(book)
    }

    fn receive(&mut self, packet: &Packet<'_>) -> bool {
        let fresh = self.assembler.is_new(packet.number());
        for snap in packet.snap() {
            if let Snap::Product(number) = snap {
                self.known = number.max(self.known);
            }
        }
        let whole = self.assembler.take(packet, &self.securities);
        let Some((m, first, last)) = whole.filter(|(m, ..)| self.standing.may_adopt(*m)) else {
            return fresh;
        };
        if let Some(book) = self.staged(first, last) {
            self.book = book;
            self.standing = Standing::At(m);
            self.chain();
        }
        fresh
    }

    /// Takes a delivery.
    pub fn deliver(&mut self, feed: Feed, bytes: &[u8]) {
        let Ok(packet) = Packet::read(self.table, self.segment, feed.channel(), bytes) else {
            self.bad += 1;
            return;
        };
        let fresh = match feed.channel() {
            Channel::Live => self.hear_all(&packet),
            Channel::Snap => self.receive(&packet),
        };
        let tally = &mut self.tallies[feed as usize];
        tally.taken += 1;
        tally.fresh += u64::from(fresh);
    }

    fn state_sum(&self) -> u64 {
        match self.standing {
            Standing::Waits => 1,
            Standing::At(n) if n == self.known => u64::from(n) + (1 << 40),
            Standing::At(n) => u64::from(n) + 1 + (2 << 40),
            Standing::Stopped(q) => u64::from(q) + (3 << 40),
        }
    }

    /// What the member shows, added up: its state, its orders, and the counts of the feeds.
    pub fn sum(&self) -> u64 {
        let mut sum = self.state_sum().wrapping_add(self.bad);
        for tally in &self.tallies {
            for count in [tally.taken, tally.fresh] {
                sum = sum.wrapping_mul(31).wrapping_add(count);
            }
        }
        let orders = self.book.walk().fold(0u64, |sum, (stamp, qty)| {
            sum.wrapping_mul(31)
                .wrapping_add(stamp)
                .wrapping_add(qty as u64)
        });
        sum.wrapping_add(orders)
    }
}
