//! `swistopal show`: one record whole.

use crate::args::Args;
use crate::crc;
use crate::failure::{fault, usage, Failure, Outcome};
use crate::log::{self, Cause, Log, Place};
use crate::record::{self, Read};
use crate::text::{array, counted, grouped, of_bytes, shown, width, Object};
use crate::time;
use crate::{note, out};
use std::io::{self, Write};
use std::net::Ipv4Addr;
use swistopal::{find_values, Entry, LogPosition, Message};

/// Bytes of a body on one line of hexadecimal digits.
const HEX_LINE: usize = 16;

pub fn run(args: &Args) -> Result<Outcome, Failure> {
    let asked = LogPosition(args.second_number()?);
    let (json, raw) = (args.flag("--json"), args.flag("--raw"));
    if json && raw {
        return usage("--json and --raw: one of them is enough");
    }
    let log = Log::open(args)?;
    let read = find(&log, asked)?;
    let mut out = out();
    if raw {
        out.write_all(read.message.body)?;
    } else if json {
        writeln!(out, "{}", object(&read))?;
    } else {
        lines(&mut out, &read)?;
    }
    out.flush()?;
    if read.position < asked {
        note(&format!("position {} {}", asked.0, inside(&read)));
    }
    if read.behind {
        note("the record was read behind damage");
    }
    let wrong = record::checksum_fault(&read);
    wrong.iter().for_each(|sentence| note(sentence));
    log::tell(&log.faults);
    Ok(match wrong.is_some() || !log.faults.is_empty() {
        true => Outcome::Fault,
        false => Outcome::Sound,
    })
}

fn inside(read: &Read) -> String {
    let (first, end) = (read.position.0, read.position.0 + read.total);
    format!("is inside this record, which goes from {first} to {end}")
}

/// The record that a position lies in.
fn find(log: &Log, asked: LogPosition) -> Result<Read<'_>, Failure> {
    let (first, end) = (log.first().0, log.files_end().0);
    if log.is_above_limit(asked) {
        return usage(format!(
            "position {}: it is above 2^40, up to which this tool reads a log",
            asked.0
        ));
    }
    if !(first..end).contains(&asked.0) {
        return usage(format!(
            "position {}: the log's files go from {first} to {end}",
            asked.0
        ));
    }
    match log.place(asked)? {
        Place::Entry {
            position,
            entry: Entry::Record { total, message },
        } => {
            let damage = log.damage_before(position)?;
            Ok(Read {
                position,
                total,
                message,
                behind: log.is_behind_a_fault(position) || damage.is_some(),
            })
        }
        Place::Entry { position, entry } => usage(format!(
            "position {}: no record stands there but a blank, which goes from {} to its segment's end at {}",
            asked.0,
            position.0,
            position.0 + entry.total()
        )),
        Place::Skipped(skipped) if matches!(skipped.why, Cause::LongHosts(_)) => usage(format!(
            "position {}: it cannot be shown; {}",
            asked.0,
            skipped.sentence()
        )),
        Place::Skipped(skipped) => fault(format!(
            "position {}: it is in a part of the log that cannot be read, {}",
            asked.0,
            skipped.sentence()
        )),
        Place::End => usage(format!(
            "position {}: nothing was written there; the log ends before it and only zeros follow",
            asked.0
        )),
    }
}

/// Four bytes of address and four of port, as RocketMQ writes a host.
fn host(host: &[u8]) -> String {
    match *host {
        [a, b, c, d, e, f, g, h] => {
            let (address, port) = (Ipv4Addr::new(a, b, c, d), u32::from_be_bytes([e, f, g, h]));
            format!("{address}:{port}")
        }
        _ => shown(host),
    }
}

fn transaction(system_flag: u64) -> &'static str {
    match system_flag & 12 {
        4 => "prepared",
        8 => "committed",
        12 => "rolled back",
        _ => "none",
    }
}

fn lines(out: &mut impl Write, read: &Read) -> io::Result<()> {
    let message = &read.message;
    let values = find_values(message.properties);
    let mut field = |name: &str, value: String| writeln!(out, "{name:13} {value}");
    let end = read.position.0 + read.total;
    field(
        "position",
        format!(
            "{} to {end}, {} bytes",
            read.position.0,
            grouped(read.total)
        ),
    )?;
    field("topic", shown(message.topic))?;
    field("queue", message.fields.queue_id.to_string())?;
    field("entry", message.fields.queue_offset.0.to_string())?;
    for (name, time, at) in [
        ("stored", message.fields.store_time, message.store_host),
        ("born", message.fields.born_time, message.born_host),
    ] {
        let signed = time as i64;
        let when = match signed < 0 {
            true => String::from("before 1970"),
            false => time::shown(time),
        };
        field(name, format!("{when} ({signed}) at {}", host(at)))?;
    }
    let compressed = if message.fields.system_flag & 1 != 0 {
        ", the body is compressed"
    } else {
        ""
    };
    let kind = transaction(message.fields.system_flag);
    field(
        "system flag",
        format!(
            "{}: transaction {kind}{compressed}",
            message.fields.system_flag
        ),
    )?;
    field("flag", (message.fields.flag as i32).to_string())?;
    field(
        "reconsumed",
        format!("{} times", message.fields.reconsume_times as i32),
    )?;
    field(
        "prepared at",
        (message.fields.prepared_offset as i64).to_string(),
    )?;
    field("tags", values.tags.map_or(String::from("-"), shown))?;
    let keys: Vec<String> = record::keys(&values).map(shown).collect();
    field(
        "keys",
        if keys.is_empty() {
            String::from("-")
        } else {
            keys.join(" ")
        },
    )?;
    field("checksum", checksum(message))?;
    properties(out, message)?;
    body(out, message.body)
}

fn checksum(message: &Message) -> String {
    let (stored, computed) = (message.fields.body_crc, crc::of_body(message.body));
    match stored == computed {
        true => format!("{stored:08x}, as the body gives it"),
        false => format!("{stored:08x}, but the body gives {computed:08x}: it is damaged"),
    }
}

/// A part of the properties as it is shown: a name with its value, or what is neither.
#[derive(Clone, Copy, Debug, PartialEq, Eq)]
enum Piece<'a> {
    Pair(&'a [u8], &'a [u8]),
    Other(&'a [u8]),
}

/// All pieces that are not empty, in order.
fn pieces(properties: &[u8]) -> impl Iterator<Item = Piece<'_>> {
    let pieces = properties.split(|byte| *byte == 2);
    pieces.filter(|piece| !piece.is_empty()).map(|piece| {
        let mut sides = piece.split(|byte| *byte == 1);
        match (sides.next(), sides.next(), sides.next()) {
            (Some(name), Some(value), None) if !name.is_empty() && !value.is_empty() => {
                Piece::Pair(name, value)
            }
            _ => Piece::Other(piece),
        }
    })
}

/// A line for each pair. Of several with one name the last counts.
fn properties(out: &mut impl Write, message: &Message) -> io::Result<()> {
    let bytes = counted(message.properties.len() as u64, "byte", "bytes");
    writeln!(out, "{:13} {bytes}", "properties")?;
    let all: Vec<Piece> = pieces(message.properties).collect();
    let name = |piece: &Piece| match piece {
        Piece::Pair(name, _) => shown(name),
        Piece::Other(_) => String::from("(no pair)"),
    };
    let widest = all.iter().map(|piece| width(&name(piece))).max();
    let widest = widest.unwrap_or(0);
    for (number, piece) in all.iter().enumerate() {
        let (value, again) = match piece {
            Piece::Pair(name, value) => {
                let mut later = all[number + 1..].iter();
                let again =
                    later.any(|later| matches!(later, Piece::Pair(other, _) if other == name));
                (value, again)
            }
            Piece::Other(value) => (value, false),
        };
        let note = if again { "  (a later one counts)" } else { "" };
        let name = name(piece);
        let room = " ".repeat(widest - width(&name));
        writeln!(out, "  {name}{room}  {}{note}", shown(value))?;
    }
    Ok(())
}

/// As text if it is some, otherwise as hexadecimal digits.
fn body(out: &mut impl Write, body: &[u8]) -> io::Result<()> {
    let bytes = counted(body.len() as u64, "byte", "bytes");
    let text = std::str::from_utf8(body).ok();
    let text =
        text.filter(|text| !text.contains(|c: char| c.is_control() && !"\t\n\r".contains(c)));
    let Some(text) = text else {
        writeln!(out, "{:13} {bytes}, no text", "body")?;
        return hex(out, body);
    };
    writeln!(out, "{:13} {bytes}", "body")?;
    for line in text.lines() {
        writeln!(out, "  {}", shown(line.as_bytes()))?;
    }
    Ok(())
}

fn hex(out: &mut impl Write, bytes: &[u8]) -> io::Result<()> {
    for (number, line) in bytes.chunks(HEX_LINE).enumerate() {
        let digits: Vec<String> = line.iter().map(|byte| format!("{byte:02x}")).collect();
        let seen = |byte: &u8| match byte {
            b' '..=b'~' => char::from(*byte),
            _ => '.',
        };
        let text: String = line.iter().map(seen).collect();
        let (at, width) = (number * HEX_LINE, 3 * HEX_LINE - 1);
        writeln!(out, "  {at:08x}  {:width$}  {text}", digits.join(" "))?;
    }
    Ok(())
}

fn object(read: &Read) -> String {
    let message = &read.message;
    let values = find_values(message.properties);
    let optional = |bytes: Option<&[u8]>| bytes.map_or(String::from("null"), of_bytes);
    let keys: Vec<String> = record::keys(&values).map(of_bytes).collect();
    let properties: Vec<String> = pieces(message.properties)
        .map(|piece| match piece {
            Piece::Pair(name, value) => Object::new().bytes("name", name).bytes("value", value),
            Piece::Other(other) => Object::new().bytes("no_pair", other),
        })
        .map(Object::end)
        .collect();
    Object::new()
        .number("position", read.position.0)
        .number("length", read.total)
        .bytes("topic", message.topic)
        .number("queue", message.fields.queue_id)
        .number("entry", message.fields.queue_offset.0)
        .time("time", message.fields.store_time)
        .text("store_host", &host(message.store_host))
        .raw("born_time", &(message.fields.born_time as i64).to_string())
        .text("born_host", &host(message.born_host))
        .number("system_flag", message.fields.system_flag)
        .text("transaction", transaction(message.fields.system_flag))
        .raw("flag", &(message.fields.flag as i32).to_string())
        .raw(
            "reconsume_times",
            &(message.fields.reconsume_times as i32).to_string(),
        )
        .raw(
            "prepared_offset",
            &(message.fields.prepared_offset as i64).to_string(),
        )
        .raw("tags", &optional(values.tags))
        .raw("keys", &array(&keys))
        .raw("unique_key", &optional(values.unique_key))
        .raw("properties", &array(&properties))
        .truth("behind_damage", read.behind)
        .number("body_length", message.body.len() as u64)
        .number("body_checksum", message.fields.body_crc)
        .number("body_checksum_computed", crc::of_body(message.body))
        .bytes("body", message.body)
        .end()
}

#[cfg(test)]
mod tests {
    use super::*;

    #[test]
    fn hosts_are_shown_as_address_and_port() {
        assert_eq!(host(&[10, 20, 0, 11, 0, 0, 0x2a, 0x9f]), "10.20.0.11:10911");
        assert_eq!(host(&[255; 8]), "255.255.255.255:4294967295");
    }

    #[test]
    fn each_piece_is_shown_once() {
        let pieces: Vec<Piece> =
            pieces(b"A\x01b\x02\x02A\x01c\x02B\x01\x02\x01d\x02C\x01e\x01\x02f").collect();
        let expected = [
            Piece::Pair(b"A", b"b"),
            Piece::Pair(b"A", b"c"),
            Piece::Other(b"B\x01"),
            Piece::Other(b"\x01d"),
            Piece::Other(b"C\x01e\x01"),
            Piece::Other(b"f"),
        ];
        assert_eq!(pieces, expected);
    }
}
