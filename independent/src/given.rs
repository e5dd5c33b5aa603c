//! Files of single inputs that someone else made, in the formats that the makers of random input write.

use crate::calls;
use crate::messages;
use crate::packets;
use crate::rowcalls;
use crate::streams;
use crate::tables;
use crate::writes;

/// Big-endian fields, taken from the front of what is left.
pub struct Fields<'a>(pub &'a [u8]);

impl<'a> Fields<'a> {
    pub fn bytes(&mut self, length: usize) -> Option<&'a [u8]> {
        let bytes = self.0.get(..length)?;
        self.0 = &self.0[length..];
        Some(bytes)
    }

    pub fn byte(&mut self) -> Option<u8> {
        Some(self.bytes(1)?[0])
    }

    pub fn number(&mut self) -> Option<u16> {
        Some(u16::from_be_bytes(self.bytes(2)?.try_into().ok()?))
    }

    pub fn long(&mut self) -> Option<u64> {
        Some(u64::from_be_bytes(self.bytes(8)?.try_into().ok()?))
    }

    pub fn count(&mut self) -> Option<u32> {
        Some(u32::from_be_bytes(self.bytes(4)?.try_into().ok()?))
    }
}

fn message(rest: &[u8]) -> Option<(String, &[u8])> {
    let mut fields = Fields(rest);
    let length = usize::from(fields.number()?);
    Some((came_out(&messages::line_of(fields.bytes(length)?)), fields.0))
}

/// What stands after the first ` = ` of a line.
pub fn came_out(line: &str) -> String {
    line.split_once(" = ").map_or(String::new(), |(_, out)| out.to_string())
}

/// The lines of a file's inputs, of one kind; Err where its end is no whole input, where there is no such call, or the kind is none.
pub fn lines(kind: &str, file: &[u8]) -> Result<Vec<String>, String> {
    let mut lines = Vec::new();
    let mut rest = file;
    while !rest.is_empty() {
        let next = match kind {
            "steps" => streams::given(rest).map(|(trial, rest)| (trial.printed(), rest)),
            "messages" => message(rest),
            "calls" => calls::given(rest).map(|(line, rest)| (came_out(&line), rest)),
            "packets" => packets::given(rest),
            "writes" => writes::given(rest),
            "tables" => tables::given(rest),
            "rows" => rowcalls::given(rest),
            other => return Err(format!("{other}: not steps, messages, calls, packets, writes, tables or rows")),
        };
        let Some((line, after)) = next else {
            return Err(format!("input {} is cut, or is none", lines.len() + 1));
        };
        lines.push(line);
        rest = after;
    }
    Ok(lines)
}
