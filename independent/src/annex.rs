//! The open point of the header check: 004's annex table 14 beside 01's rule.

use crate::packet;

pub struct Row {
    pub header: [u8; 8],
    pub annex: u16,
}

/// 004, 5.5: length, version, application type, number, N/R flag, packet type, CRC.
#[rustfmt::skip]
pub const ROWS: [Row; 5] = [
    Row { header: [0x00, 0x1E, 0x01, 0x1A, 0x00, 0x00, 0x01, 0x01], annex: 0x1089 },
    Row { header: [0x00, 0x21, 0x01, 0x1A, 0x00, 0x00, 0x01, 0x02], annex: 0xF38E },
    Row { header: [0x00, 0x11, 0x01, 0x1A, 0x00, 0x01, 0x01, 0x03], annex: 0x8D12 },
    Row { header: [0x00, 0x2A, 0x01, 0x1A, 0x00, 0x02, 0x01, 0x03], annex: 0xC6E0 },
    Row { header: [0x00, 0x0B, 0x01, 0x1A, 0x00, 0x03, 0x01, 0x04], annex: 0x57A0 },
];

/// A header line, then a line a row.
pub fn table() -> String {
    let mut text = String::from("header                   01 (least significant bit first)  most significant bit first  004's annex table 14\n");
    for row in ROWS {
        let header: Vec<String> = row.header.iter().map(|byte| format!("{byte:02X}")).collect();
        let (rule, other) = (packet::check(&row.header), packet::check_other_order(&row.header));
        text.push_str(&format!("{}  {rule:04X}                              {other:04X}                        {:04X}\n", header.join(" "), row.annex));
    }
    text
}
