//! The layout table in plain Rust: where the fields of the market data templates lie, resolved when it is read.

/// The messages of market data that the reader knows.
#[derive(Clone, Copy, PartialEq, Eq)]
pub enum Role {
    PacketHeader,
    Heartbeat,
    OrderAdd,
    OrderModify,
    OrderModifySamePriority,
    OrderDelete,
    OrderMassDelete,
    PartialOrderExecution,
    FullOrderExecution,
    ExecutionSummary,
    ProductSummary,
    InstrumentSummary,
    SnapshotOrder,
}

/// The two kinds of services that market data is published on.
#[derive(Clone, Copy, PartialEq, Eq)]
pub enum Channel {
    Live,
    Snap,
}

impl Role {
    /// Whether the messages of a channel are looked at for this role behind their header.
    #[inline]
    pub fn is_of(self, channel: Channel) -> bool {
        match self {
            Role::PacketHeader => false,
            Role::ProductSummary | Role::InstrumentSummary | Role::SnapshotOrder => {
                channel == Channel::Snap
            }
            _ => channel == Channel::Live,
        }
    }
}

/// Their fields.
#[derive(Clone, Copy, PartialEq, Eq)]
pub enum Name {
    MsgSeqNum,
    ApplSeqNum,
    MarketSegmentID,
    LastMsgSeqNumProcessed,
    SecurityID,
    TrdRegTSTimePriority,
    TrdRegTSPrevTimePriority,
    DisplayQty,
    PrevDisplayQty,
    Side,
    Price,
    PrevPrice,
    LastQty,
    LastPx,
    AggressorTime,
    AggressorSide,
    TotNoOrders,
}

use Name::*;

const NAMES: [(&str, Name); 17] = [
    ("MsgSeqNum", MsgSeqNum),
    ("ApplSeqNum", ApplSeqNum),
    ("MarketSegmentID", MarketSegmentID),
    ("LastMsgSeqNumProcessed", LastMsgSeqNumProcessed),
    ("SecurityID", SecurityID),
    ("TrdRegTSTimePriority", TrdRegTSTimePriority),
    ("TrdRegTSPrevTimePriority", TrdRegTSPrevTimePriority),
    ("DisplayQty", DisplayQty),
    ("PrevDisplayQty", PrevDisplayQty),
    ("Side", Side),
    ("Price", Price),
    ("PrevPrice", PrevPrice),
    ("LastQty", LastQty),
    ("LastPx", LastPx),
    ("AggressorTime", AggressorTime),
    ("AggressorSide", AggressorSide),
    ("TotNoOrders", TotNoOrders),
];

const ROLES: [(&str, Role); 13] = [
    ("PacketHeader", Role::PacketHeader),
    ("Heartbeat", Role::Heartbeat),
    ("OrderAdd", Role::OrderAdd),
    ("OrderModify", Role::OrderModify),
    ("OrderModifySamePriority", Role::OrderModifySamePriority),
    ("OrderDelete", Role::OrderDelete),
    ("OrderMassDelete", Role::OrderMassDelete),
    ("PartialOrderExecution", Role::PartialOrderExecution),
    ("FullOrderExecution", Role::FullOrderExecution),
    ("ExecutionSummary", Role::ExecutionSummary),
    ("ProductSummary", Role::ProductSummary),
    ("InstrumentSummary", Role::InstrumentSummary),
    ("SnapshotOrder", Role::SnapshotOrder),
];

/// Where a field lies, and the number that stands for no value.
#[derive(Clone, Copy, Default)]
pub struct Field {
    pub offset: usize,
    pub width: usize,
    pub signed: bool,
    pub null: Option<i64>,
}

impl Field {
    /// The number in the field. The unsigned ones of 8 bytes that are in range are below 2^63.
    #[inline]
    pub fn number(self, message: &[u8]) -> i64 {
        let bytes = &message[self.offset..self.offset + self.width];
        match (self.width, self.signed) {
            (1, false) => bytes[0].into(),
            (1, true) => (bytes[0] as i8).into(),
            (2, false) => u16::from_le_bytes(bytes.try_into().unwrap()).into(),
            (2, true) => i16::from_le_bytes(bytes.try_into().unwrap()).into(),
            (4, false) => u32::from_le_bytes(bytes.try_into().unwrap()).into(),
            (4, true) => i32::from_le_bytes(bytes.try_into().unwrap()).into(),
            _ => i64::from_le_bytes(bytes.try_into().unwrap()),
        }
    }
}

/// A field that must have a value from the first number to the second.
pub struct Check {
    pub field: Field,
    pub low: i64,
    pub high: i64,
}

/// A template of the market data.
pub struct Template {
    pub size: usize,
    pub role: Option<Role>,
    pub checks: Vec<Check>,
    fields: [Field; NAMES.len()],
}

impl Template {
    #[inline]
    pub fn number(&self, name: Name, message: &[u8]) -> i64 {
        self.fields[name as usize].number(message)
    }

    fn add(&mut self, name: &str, field: Field) {
        self.size = field.offset + field.width;
        let Some((_, name)) = NAMES.iter().find(|(word, _)| *word == name) else {
            return;
        };
        self.fields[*name as usize] = field;
        if self.role.is_some() && self.counts(*name) {
            let (low, high) = range_of(*name);
            self.checks.push(Check { field, low, high });
        }
    }

    // The number of a message counts in live messages alone.
    fn counts(&self, name: Name) -> bool {
        name != MsgSeqNum
            || self
                .role
                .is_some_and(|role| role != Role::Heartbeat && role.is_of(Channel::Live))
    }
}

fn range_of(name: Name) -> (i64, i64) {
    match name {
        MsgSeqNum | ApplSeqNum => (1, 4_294_967_294),
        LastMsgSeqNumProcessed => (0, 4_294_967_294),
        Side | AggressorSide => (1, 2),
        Price | PrevPrice | LastPx => (-100_000_000_000_000_000, 100_000_000_000_000_000),
        DisplayQty | PrevDisplayQty | LastQty => (1, 1_000_000_000_000_000),
        TrdRegTSTimePriority | TrdRegTSPrevTimePriority | AggressorTime => (1, i64::MAX),
        MarketSegmentID | SecurityID | TotNoOrders => (i64::MIN, i64::MAX),
    }
}

/// The market data templates of a table, found by their ids.
pub struct Table {
    templates: Vec<Template>,
    places: Vec<u32>,
}

impl Table {
    /// Reads a table that is known to be valid.
    pub fn read(text: &str) -> Table {
        let mut table = Table {
            templates: Vec::new(),
            places: vec![0; 65536],
        };
        for line in text.lines().skip(1) {
            let cells: Vec<&str> = line.split(',').collect();
            if cells[0] == "EOBI" {
                let template = table.template_of_row(cells[1].parse().unwrap(), cells[2]);
                template.add(cells[3], field_of(&cells));
            }
        }
        table
    }

    fn template_of_row(&mut self, id: u16, name: &str) -> &mut Template {
        if self.places[id as usize] == 0 {
            let role = ROLES.iter().find(|(word, _)| *word == name);
            self.templates.push(Template {
                size: 0,
                role: role.map(|(_, role)| *role),
                checks: Vec::new(),
                fields: [Field::default(); NAMES.len()],
            });
            self.places[id as usize] = self.templates.len() as u32;
        }
        &mut self.templates[self.places[id as usize] as usize - 1]
    }

    /// The template of an id.
    #[inline]
    pub fn template(&self, id: u16) -> Option<&Template> {
        match self.places[id as usize] {
            0 => None,
            place => Some(&self.templates[place as usize - 1]),
        }
    }
}

fn field_of(cells: &[&str]) -> Field {
    Field {
        offset: cells[4].parse().unwrap(),
        width: cells[5].parse().unwrap(),
        signed: cells[6] == "I",
        null: cells[7]
            .parse()
            .ok()
            .or(cells[7].parse().ok().map(|n: u64| n as i64)),
    }
}
