//! A datagram of either channel in plain Rust: the same tests, and the same items read in place.

use crate::table::{Channel, Name::*, Role, Table, Template};

#[derive(Clone, Copy, PartialEq, Eq, Debug)]
pub enum Why {
    TooLong,
    Cut,
    NoHeader,
    Length,
    Null,
    Value,
    Product,
}

#[derive(Clone, Copy, PartialEq, Eq, Debug)]
pub struct Fault {
    pub why: Why,
    pub place: usize,
}

#[derive(Clone, Copy)]
pub struct Order {
    pub security: i64,
    pub buys: bool,
    pub stamp: u64,
    pub price: i64,
    pub qty: i64,
}

#[derive(Clone, Copy)]
pub struct Previous {
    pub stamp: u64,
    pub price: i64,
    pub qty: i64,
}

#[allow(dead_code)]
#[derive(Clone, Copy)]
pub struct Trade {
    pub security: i64,
    pub buys: bool,
    pub stamp: u64,
    pub price: i64,
    pub last_qty: i64,
    pub last_price: i64,
}

#[allow(dead_code)]
#[derive(Clone, Copy)]
pub enum Message {
    Add(Order),
    Modify(Order, Previous),
    SamePriority(Order, i64),
    Delete(Order),
    MassDelete(i64),
    Partial(Trade),
    Full(Trade),
    Summary(Trade),
    Other,
}

#[derive(Clone, Copy)]
pub enum Live {
    Message(u32, Message),
    Beat(u32),
}

/// An item of a snapshot datagram.
#[derive(Clone, Copy)]
pub enum Snap {
    Product(u32),
    Instrument {
        security: i64,
        count: u16,
    },
    Order {
        buys: bool,
        price: i64,
        stamp: u64,
        qty: i64,
    },
}

#[inline]
fn half(bytes: &[u8], place: usize) -> u16 {
    u16::from_le_bytes([bytes[place], bytes[place + 1]])
}

/// The message that bytes begin with, and those behind it.
#[inline]
fn split(bytes: &[u8]) -> Option<(&[u8], &[u8])> {
    if bytes.len() < 8 {
        return None;
    }
    let body = half(bytes, 0) as usize;
    if body < 8 || body > bytes.len() {
        return None;
    }
    Some(bytes.split_at(body))
}

#[inline]
fn template_of<'a>(table: &'a Table, message: &[u8]) -> Option<&'a Template> {
    table.template(half(message, 2))
}

fn fields_fault(template: &Template, message: &[u8]) -> Option<Why> {
    let mut fault = None;
    for check in &template.checks {
        let number = check.field.number(message);
        if check.field.null == Some(number) {
            return Some(Why::Null);
        }
        if number < check.low || number > check.high {
            fault = Some(Why::Value);
        }
    }
    fault
}

fn header_fault(table: &Table, segment: u32, message: &[u8]) -> Option<Why> {
    let Some(template) = template_of(table, message) else {
        return Some(Why::NoHeader);
    };
    if template.role != Some(Role::PacketHeader) {
        return Some(Why::NoHeader);
    }
    if message.len() < template.size {
        return Some(Why::Length);
    }
    if let Some(why) = fields_fault(template, message) {
        return Some(why);
    }
    if template.number(MarketSegmentID, message) != i64::from(segment) {
        return Some(Why::Product);
    }
    None
}

fn message_fault(table: &Table, channel: Channel, message: &[u8]) -> Option<Why> {
    let template = template_of(table, message)?;
    let role = template.role?;
    if message.len() < template.size {
        return Some(Why::Length);
    }
    if !role.is_of(channel) {
        return None;
    }
    fields_fault(template, message)
}

pub struct Packet<'a> {
    table: &'a Table,
    bytes: &'a [u8],
}

impl<'a> Packet<'a> {
    pub fn read(
        table: &'a Table,
        segment: u32,
        channel: Channel,
        bytes: &'a [u8],
    ) -> Result<Packet<'a>, Fault> {
        if bytes.len() > 1472 {
            return Err(Fault {
                why: Why::TooLong,
                place: 1472,
            });
        }
        let Some((header, mut rest)) = split(bytes) else {
            return Err(Fault {
                why: Why::Cut,
                place: 0,
            });
        };
        if let Some(why) = header_fault(table, segment, header) {
            return Err(Fault { why, place: 0 });
        }
        while !rest.is_empty() {
            let place = bytes.len() - rest.len();
            let Some((message, after)) = split(rest) else {
                return Err(Fault {
                    why: Why::Cut,
                    place,
                });
            };
            if let Some(why) = message_fault(table, channel, message) {
                return Err(Fault { why, place });
            }
            rest = after;
        }
        Ok(Packet { table, bytes })
    }

    pub fn number(&self) -> u32 {
        let header = split(self.bytes).unwrap().0;
        template_of(self.table, header)
            .unwrap()
            .number(ApplSeqNum, header) as u32
    }

    pub fn bytes(&self) -> &'a [u8] {
        self.bytes
    }

    pub fn live(&self) -> LiveWalk<'a> {
        LiveWalk {
            table: self.table,
            rest: split(self.bytes).unwrap().1,
        }
    }

    pub fn snap(&self) -> SnapWalk<'a> {
        SnapWalk::of(self.table, self.bytes)
    }
}

#[derive(Clone, Copy)]
pub struct SnapWalk<'a> {
    table: &'a Table,
    rest: &'a [u8],
}

impl<'a> SnapWalk<'a> {
    /// The items of a datagram that was read.
    pub fn of(table: &'a Table, bytes: &'a [u8]) -> SnapWalk<'a> {
        SnapWalk {
            table,
            rest: split(bytes).unwrap().1,
        }
    }
}

impl Iterator for SnapWalk<'_> {
    type Item = Snap;

    #[inline]
    fn next(&mut self) -> Option<Snap> {
        while !self.rest.is_empty() {
            let (message, after) = split(self.rest).unwrap();
            self.rest = after;
            if let Some(item) = snap_of(self.table, message) {
                return Some(item);
            }
        }
        None
    }
}

fn snap_of(table: &Table, message: &[u8]) -> Option<Snap> {
    let template = template_of(table, message)?;
    let number = |name| template.number(name, message);
    match template.role? {
        Role::ProductSummary => Some(Snap::Product(number(LastMsgSeqNumProcessed) as u32)),
        Role::InstrumentSummary => Some(Snap::Instrument {
            security: number(SecurityID),
            count: number(TotNoOrders) as u16,
        }),
        Role::SnapshotOrder => Some(Snap::Order {
            buys: number(Side) == 1,
            price: number(Price),
            stamp: number(TrdRegTSTimePriority) as u64,
            qty: number(DisplayQty),
        }),
        _ => None,
    }
}

pub struct LiveWalk<'a> {
    table: &'a Table,
    rest: &'a [u8],
}

impl Iterator for LiveWalk<'_> {
    type Item = Live;

    #[inline]
    fn next(&mut self) -> Option<Live> {
        while !self.rest.is_empty() {
            let (message, after) = split(self.rest).unwrap();
            self.rest = after;
            if let Some(item) = live_of(self.table, message) {
                return Some(item);
            }
        }
        None
    }
}

fn other_of(message: &[u8]) -> Option<Live> {
    let number = u32::from_le_bytes(message[4..8].try_into().unwrap());
    (number >= 1 && number <= 4_294_967_294).then_some(Live::Message(number, Message::Other))
}

fn live_of(table: &Table, message: &[u8]) -> Option<Live> {
    let Some(template) = template_of(table, message) else {
        return other_of(message);
    };
    let number = |name| template.number(name, message);
    let order = || Order {
        security: number(SecurityID),
        buys: number(Side) == 1,
        stamp: number(TrdRegTSTimePriority) as u64,
        price: number(Price),
        qty: number(DisplayQty),
    };
    let trade = |side, stamp, price| Trade {
        security: number(SecurityID),
        buys: number(side) == 1,
        stamp: number(stamp) as u64,
        price: number(price),
        last_qty: number(LastQty),
        last_price: number(LastPx),
    };
    let what = match template.role {
        Some(Role::OrderAdd) => Message::Add(order()),
        Some(Role::OrderModify) => {
            let previous = Previous {
                stamp: number(TrdRegTSPrevTimePriority) as u64,
                price: number(PrevPrice),
                qty: number(PrevDisplayQty),
            };
            Message::Modify(order(), previous)
        }
        Some(Role::OrderModifySamePriority) => {
            Message::SamePriority(order(), number(PrevDisplayQty))
        }
        Some(Role::OrderDelete) => Message::Delete(order()),
        Some(Role::OrderMassDelete) => Message::MassDelete(number(SecurityID)),
        Some(Role::PartialOrderExecution) => {
            Message::Partial(trade(Side, TrdRegTSTimePriority, Price))
        }
        Some(Role::FullOrderExecution) => Message::Full(trade(Side, TrdRegTSTimePriority, Price)),
        Some(Role::ExecutionSummary) => {
            Message::Summary(trade(AggressorSide, AggressorTime, LastPx))
        }
        Some(Role::Heartbeat) => return Some(Live::Beat(number(LastMsgSeqNumProcessed) as u32)),
        _ => return other_of(message),
    };
    Some(Live::Message(number(MsgSeqNum) as u32, what))
}
