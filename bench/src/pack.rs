//! Live datagrams of new orders in plain Rust: for each order a copy of its template's image, and its numbers at the places that the table says.

use crate::packet::Order;

/// A template: a message in which nothing is set, and where the fields lie that are set.
struct Image<const FIELDS: usize> {
    bytes: Vec<u8>,
    offsets: [usize; FIELDS],
}

impl<const FIELDS: usize> Image<FIELDS> {
    fn read(text: &str, template: &str, fields: [&str; FIELDS]) -> Self {
        let rows: Vec<Vec<&str>> = text
            .lines()
            .map(|line| line.split(',').collect::<Vec<_>>())
            .filter(|row| row[0] == "EOBI" && row[2] == template)
            .collect();
        let number = |row: &[&str], cell: usize| row[cell].parse::<usize>().unwrap();
        let mut bytes = Vec::new();
        for row in &rows {
            let null = row[7].parse::<i128>().unwrap_or(0).to_le_bytes();
            bytes.extend(null.into_iter().take(number(row, 5)));
        }
        let size = bytes.len() as u16;
        bytes[..2].copy_from_slice(&size.to_le_bytes());
        bytes[2..4].copy_from_slice(&(number(&rows[0], 1) as u16).to_le_bytes());
        let place = |name: &str| number(rows.iter().find(|row| row[3] == name).unwrap(), 4);
        Image {
            bytes,
            offsets: fields.map(place),
        }
    }
}

/// The templates of a datagram of new orders.
pub struct Packer {
    header: Image<2>,
    add: Image<6>,
}

impl Packer {
    pub fn read(text: &str) -> Packer {
        let header = ["ApplSeqNum", "MarketSegmentID"];
        let add = [
            "MsgSeqNum",
            "SecurityID",
            "TrdRegTSTimePriority",
            "DisplayQty",
            "Side",
            "Price",
        ];
        Packer {
            header: Image::read(text, "PacketHeader", header),
            add: Image::read(text, "OrderAdd", add),
        }
    }

    fn write_add(&self, number: u32, order: &Order, out: &mut [u8]) -> usize {
        let Image { bytes, offsets } = &self.add;
        out[..bytes.len()].copy_from_slice(bytes);
        let [count, security, stamp, qty, side, price] = *offsets;
        out[count..count + 4].copy_from_slice(&number.to_le_bytes());
        out[security..security + 8].copy_from_slice(&order.security.to_le_bytes());
        out[stamp..stamp + 8].copy_from_slice(&order.stamp.to_le_bytes());
        out[qty..qty + 8].copy_from_slice(&order.qty.to_le_bytes());
        out[side] = if order.buys { 1 } else { 2 };
        out[price..price + 8].copy_from_slice(&order.price.to_le_bytes());
        bytes.len()
    }

    /// Packs as many of the orders as fit, and gives the length of the datagram.
    #[inline(never)]
    pub fn pack(
        &self,
        segment: u32,
        limit: usize,
        number: u32,
        first: u32,
        orders: &[Order],
        out: &mut [u8],
    ) -> usize {
        let Image {
            bytes,
            offsets: [count, product],
        } = &self.header;
        out[..bytes.len()].copy_from_slice(bytes);
        out[*count..*count + 4].copy_from_slice(&number.to_le_bytes());
        out[*product..*product + 4].copy_from_slice(&segment.to_le_bytes());
        let mut len = bytes.len();
        for (used, order) in orders.iter().enumerate() {
            if limit - len < self.add.bytes.len() {
                break;
            }
            len += self.write_add(first + used as u32, order, &mut out[len..]);
        }
        len
    }
}
