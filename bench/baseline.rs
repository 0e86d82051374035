//! The baseline of the wire benchmark: an ordinary reader and writer of PCEP messages (RFC 5440, 8231, 8281)
//! in plain Rust. It measures what crates/wire_bench measures, on the same bytes, and prints the same lines.
//!
//! `baseline COUNT [NAME]` reads and writes each message COUNT times, or only the one of that name.

#![allow(dead_code)]

use std::hint::black_box;
use std::time::Instant;

#[derive(Debug)]
enum Fault {
    Header,
    Length,
    Tlv,
    Number,
    Missing(u8),
    TooLong,
}

#[derive(Debug, Clone)]
enum Hop {
    Host { address: u32, loose: bool },
    Other { kind: u8, bytes: Vec<u8> },
}

#[derive(Debug, Clone, Copy, PartialEq)]
enum Operational {
    Down,
    Up,
    Active,
    GoingDown,
    GoingUp,
}

#[derive(Debug, Clone, Copy)]
struct Identifiers {
    sender: u32,
    lsp: u16,
    tunnel: u16,
    extended: u32,
    endpoint: u32,
}

#[derive(Debug, Clone, Copy, Default)]
struct Colours {
    exclude_any: u32,
    include_any: u32,
    include_all: u32,
}

#[derive(Debug, Clone, Copy)]
struct Attributes {
    colours: Colours,
    setup: u8,
    hold: u8,
}

impl Default for Attributes {
    fn default() -> Attributes {
        Attributes { colours: Colours::default(), setup: 7, hold: 7 }
    }
}

#[derive(Debug)]
struct Lsp {
    plsp: u32,
    delegate: bool,
    sync: bool,
    remove: bool,
    admin: bool,
    operational: Operational,
    created: bool,
    name: Option<Vec<u8>>,
    identifiers: Option<Identifiers>,
}

#[derive(Debug)]
struct StateReport {
    srp: Option<u32>,
    lsp: Lsp,
    ero: Option<Vec<Hop>>,
    rro: Option<Vec<Hop>>,
    attributes: Attributes,
    bandwidth: u64,
}

#[derive(Debug, Clone, Copy, PartialEq)]
enum MetricType {
    Igp,
    Te,
    Hops,
}

#[derive(Debug)]
struct PathRequest {
    id: u32,
    reoptimize: bool,
    ends: Option<(u32, u32)>,
    plsp: Option<u32>,
    attributes: Option<Attributes>,
    bandwidth: u64,
    any_bandwidth: bool,
    has_rro: bool,
    minimise: Option<MetricType>,
    bounds: [Option<u64>; 3],
}

#[derive(Debug)]
struct Update {
    srp: u32,
    plsp: u32,
    delegate: bool,
    admin: bool,
    ero: Vec<Hop>,
    attributes: Option<Attributes>,
    bandwidth: Option<u64>,
}

#[derive(Debug)]
struct Create {
    srp: u32,
    name: Vec<u8>,
    source: u32,
    destination: u32,
    ero: Vec<Hop>,
    attributes: Option<Attributes>,
    bandwidth: Option<u64>,
}

#[derive(Debug)]
struct Reply {
    request: u32,
    ero: Vec<Hop>,
    cost: Option<(u8, u64)>,
}

#[derive(Debug)]
enum Message {
    Report(Vec<StateReport>),
    Request(Vec<PathRequest>),
    Reply(Reply),
    Update(Update),
    Initiate(Create),
    Unknown(u8),
}

fn word16(bytes: &[u8]) -> u16 {
    u16::from_be_bytes([bytes[0], bytes[1]])
}

fn word32(bytes: &[u8]) -> u32 {
    u32::from_be_bytes([bytes[0], bytes[1], bytes[2], bytes[3]])
}

/// A bandwidth or metric: below 2^48.
fn number(word: u32) -> Result<f64, Fault> {
    let value = f64::from(f32::from_bits(word));
    if value.is_finite() && (value > 0.0 || value == 0.0) { Ok(value) } else { Err(Fault::Number) }
}

fn bandwidth(body: &[u8]) -> Result<u64, Fault> {
    if body.len() != 4 {
        return Err(Fault::Length);
    }
    let value = number(word32(body))?.ceil();
    if value < 281_474_976_710_656.0 { Ok(value as u64) } else { Err(Fault::Number) }
}

struct Object<'a> {
    class: u8,
    kind: u8,
    p: bool,
    body: &'a [u8],
}

/// The object at the front of the bytes, and what follows it.
fn object(bytes: &[u8]) -> Result<(Object<'_>, &[u8]), Fault> {
    if bytes.len() < 4 {
        return Err(Fault::Length);
    }
    let len = usize::from(word16(&bytes[2..]));
    if len < 4 || len % 4 != 0 || len > bytes.len() {
        return Err(Fault::Length);
    }
    let (own, rest) = bytes.split_at(len);
    Ok((Object { class: own[0], kind: own[1] >> 4, p: own[1] & 2 != 0, body: &own[4..] }, rest))
}

/// The TLV at the front of the bytes, and what follows it with its padding.
fn tlv(bytes: &[u8]) -> Result<(u16, &[u8], &[u8]), Fault> {
    if bytes.len() < 4 {
        return Err(Fault::Tlv);
    }
    let len = usize::from(word16(&bytes[2..]));
    let padded = (len + 3) / 4 * 4;
    if bytes.len() < 4 + padded {
        return Err(Fault::Tlv);
    }
    Ok((word16(bytes), &bytes[4..4 + len], &bytes[4 + padded..]))
}

fn route(mut body: &[u8], recorded: bool) -> Result<Vec<Hop>, Fault> {
    let mut hops = Vec::new();
    while !body.is_empty() {
        if body.len() < 2 {
            return Err(Fault::Length);
        }
        let len = usize::from(body[1]);
        if len < 4 || len % 4 != 0 || len > body.len() {
            return Err(Fault::Length);
        }
        let (own, rest) = body.split_at(len);
        let kind = if recorded { own[0] } else { own[0] & 0x7f };
        if kind == 1 && len != 8 {
            return Err(Fault::Length);
        }
        hops.push(if kind == 1 && own[6] == 32 {
            Hop::Host { address: word32(&own[2..]), loose: own[0] & 0x80 != 0 }
        } else {
            Hop::Other { kind: own[0], bytes: own[2..].to_vec() }
        });
        body = rest;
    }
    Ok(hops)
}

fn lsp(body: &[u8]) -> Result<Lsp, Fault> {
    if body.len() < 4 {
        return Err(Fault::Length);
    }
    let word = word32(body);
    let mut name = None;
    let mut identifiers = None;
    let mut tlvs = &body[4..];
    while !tlvs.is_empty() {
        let (kind, value, rest) = tlv(tlvs)?;
        match kind {
            17 if name.is_none() => name = Some(value.to_vec()),
            18 if value.len() != 16 => return Err(Fault::Tlv),
            18 if identifiers.is_none() => {
                identifiers = Some(Identifiers {
                    sender: word32(value),
                    lsp: word16(&value[4..]),
                    tunnel: word16(&value[6..]),
                    extended: word32(&value[8..]),
                    endpoint: word32(&value[12..]),
                });
            }
            _ => {}
        }
        tlvs = rest;
    }
    Ok(Lsp {
        plsp: word >> 12,
        delegate: word & 0x1 != 0,
        sync: word & 0x2 != 0,
        remove: word & 0x4 != 0,
        admin: word & 0x8 != 0,
        operational: match word >> 4 & 7 {
            0 => Operational::Down,
            2 => Operational::Active,
            3 => Operational::GoingDown,
            4 => Operational::GoingUp,
            _ => Operational::Up,
        },
        created: word & 0x80 != 0,
        name,
        identifiers,
    })
}

fn skip_tlvs(mut tlvs: &[u8]) -> Result<(), Fault> {
    while !tlvs.is_empty() {
        (_, _, tlvs) = tlv(tlvs)?;
    }
    Ok(())
}

fn attributes(body: &[u8]) -> Result<Attributes, Fault> {
    if body.len() < 16 {
        return Err(Fault::Length);
    }
    skip_tlvs(&body[16..])?;
    let setup = body[12].min(7);
    Ok(Attributes {
        colours: Colours {
            exclude_any: word32(body),
            include_any: word32(&body[4..]),
            include_all: word32(&body[8..]),
        },
        setup,
        hold: body[13].min(7).min(setup),
    })
}

fn srp(body: &[u8]) -> Result<u32, Fault> {
    if body.len() < 8 {
        return Err(Fault::Length);
    }
    skip_tlvs(&body[8..])?;
    Ok(word32(&body[4..]))
}

fn reports(mut rest: &[u8]) -> Result<Vec<StateReport>, Fault> {
    let mut reports: Vec<StateReport> = Vec::new();
    let mut number = None;
    while !rest.is_empty() {
        let (object, after) = object(rest)?;
        rest = after;
        match (object.class, object.kind) {
            (33, 1) => number = Some(srp(object.body)?),
            (32, 1) => {
                let lsp = lsp(object.body)?;
                if lsp.plsp != 0 && lsp.identifiers.is_none() {
                    return Err(Fault::Tlv);
                }
                if reports.last().is_some_and(|last| last.ero.is_none() && !last.lsp.remove) {
                    return Err(Fault::Missing(7));
                }
                reports.push(StateReport {
                    srp: number.take().filter(|id| *id != 0),
                    lsp,
                    ero: None,
                    rro: None,
                    attributes: Attributes::default(),
                    bandwidth: 0,
                });
            }
            (5 | 7 | 8 | 9, 1) | (5, 2) => {
                let Some(last) = reports.last_mut() else {
                    return Err(Fault::Missing(32));
                };
                match object.class {
                    7 => {
                        let hops = route(object.body, false)?;
                        last.ero.get_or_insert(hops);
                    }
                    8 => {
                        let hops = route(object.body, true)?;
                        last.rro.get_or_insert(hops);
                    }
                    9 => last.attributes = attributes(object.body)?,
                    _ => last.bandwidth = last.bandwidth.max(bandwidth(object.body)?),
                }
            }
            _ => {}
        }
    }
    match reports.last() {
        None => Err(Fault::Missing(32)),
        Some(last) if last.ero.is_none() && !last.lsp.remove => Err(Fault::Missing(7)),
        Some(_) => Ok(reports),
    }
}

fn end_request(request: Option<&PathRequest>) -> Result<(), Fault> {
    let Some(request) = request else {
        return Ok(());
    };
    if request.ends.is_none() {
        return Err(Fault::Missing(4));
    }
    if request.reoptimize && request.any_bandwidth && !request.has_rro {
        return Err(Fault::Missing(8));
    }
    Ok(())
}

fn put_metric(request: &mut PathRequest, body: &[u8]) -> Result<(), Fault> {
    if body.len() != 8 {
        return Err(Fault::Length);
    }
    let value = number(word32(&body[4..]))?.floor().min(281_474_976_710_655.0) as u64;
    let kind = match body[3] {
        1 => MetricType::Igp,
        2 => MetricType::Te,
        3 => MetricType::Hops,
        _ => return Ok(()),
    };
    if body[2] & 1 == 0 {
        request.minimise.get_or_insert(kind);
    } else {
        let bound = &mut request.bounds[kind as usize];
        *bound = Some(bound.map_or(value, |least| least.min(value)));
    }
    Ok(())
}

fn requests(mut rest: &[u8]) -> Result<Vec<PathRequest>, Fault> {
    let mut requests: Vec<PathRequest> = Vec::new();
    while !rest.is_empty() {
        let (object, after) = object(rest)?;
        rest = after;
        if (object.class, object.kind) == (2, 1) {
            if object.body.len() < 8 {
                return Err(Fault::Length);
            }
            skip_tlvs(&object.body[8..])?;
            end_request(requests.last())?;
            if !object.p {
                return Err(Fault::Header);
            }
            requests.push(PathRequest {
                id: word32(&object.body[4..]),
                reoptimize: word32(object.body) & 8 != 0,
                ends: None,
                plsp: None,
                attributes: None,
                bandwidth: 0,
                any_bandwidth: false,
                has_rro: false,
                minimise: None,
                bounds: [None; 3],
            });
            continue;
        }
        let Some(last) = requests.last_mut() else {
            if object.class == 11 && !object.p {
                continue;
            }
            return Err(Fault::Missing(2));
        };
        match (object.class, object.kind) {
            (4, 1) => {
                if object.body.len() != 8 {
                    return Err(Fault::Length);
                }
                if last.ends.is_none() {
                    if !object.p {
                        return Err(Fault::Header);
                    }
                    last.ends = Some((word32(object.body), word32(&object.body[4..])));
                }
            }
            (5, kind @ (1 | 2)) => {
                let bandwidth = bandwidth(object.body)?;
                last.any_bandwidth |= bandwidth > 0;
                if kind == 1 {
                    last.bandwidth = last.bandwidth.max(bandwidth);
                }
            }
            (6, 1) => put_metric(last, object.body)?,
            (8, 1) => last.has_rro = true,
            (9, 1) => {
                let found = attributes(object.body)?;
                last.attributes.get_or_insert(found);
            }
            (10 | 11 | 14, 1) if object.p => return Err(Fault::Header),
            (32, 1) => {
                let found = lsp(object.body)?.plsp;
                last.plsp.get_or_insert(found);
            }
            (1..=15 | 33, 1) => {}
            _ if object.p => return Err(Fault::Header),
            _ => {}
        }
    }
    end_request(requests.last())?;
    if requests.is_empty() { Err(Fault::Missing(2)) } else { Ok(requests) }
}

/// The objects of a PCRep, a PCUpd or a PCInitiate.
#[derive(Default)]
struct Parts {
    rp: Option<u32>,
    srp: Option<u32>,
    lsp: Option<Lsp>,
    ends: Option<(u32, u32)>,
    ero: Option<Vec<Hop>>,
    attributes: Option<Attributes>,
    bandwidth: Option<u64>,
    cost: Option<(u8, u64)>,
}

fn parts(mut rest: &[u8]) -> Result<Parts, Fault> {
    let mut parts = Parts::default();
    while !rest.is_empty() {
        let (object, after) = object(rest)?;
        rest = after;
        match (object.class, object.kind) {
            (2, 1) if object.body.len() < 8 => return Err(Fault::Length),
            (2, 1) => {
                skip_tlvs(&object.body[8..])?;
                parts.rp.get_or_insert(word32(&object.body[4..]));
            }
            (33, 1) => {
                let id = srp(object.body)?;
                parts.srp.get_or_insert(id);
            }
            (32, 1) => {
                let found = lsp(object.body)?;
                parts.lsp.get_or_insert(found);
            }
            (4, 1) if object.body.len() != 8 => return Err(Fault::Length),
            (4, 1) => {
                parts.ends.get_or_insert((word32(object.body), word32(&object.body[4..])));
            }
            (7, 1) => {
                let hops = route(object.body, false)?;
                parts.ero.get_or_insert(hops);
            }
            (9, 1) => {
                let found = attributes(object.body)?;
                parts.attributes.get_or_insert(found);
            }
            (5, 1) => {
                let found = bandwidth(object.body)?;
                parts.bandwidth = Some(parts.bandwidth.map_or(found, |most| most.max(found)));
            }
            (6, 1) if object.body.len() != 8 => return Err(Fault::Length),
            (6, 1) => {
                let value = number(word32(&object.body[4..]))?.floor() as u64;
                parts.cost.get_or_insert((object.body[3], value));
            }
            _ => {}
        }
    }
    Ok(parts)
}

fn read(bytes: &[u8]) -> Result<Message, Fault> {
    if bytes.len() < 4
        || bytes[0] >> 5 != 1
        || usize::from(word16(&bytes[2..])) != bytes.len()
        || bytes.len() % 4 != 0
    {
        return Err(Fault::Header);
    }
    let body = &bytes[4..];
    match bytes[1] {
        3 => Ok(Message::Request(requests(body)?)),
        4 => {
            let parts = parts(body)?;
            Ok(Message::Reply(Reply {
                request: parts.rp.ok_or(Fault::Missing(2))?,
                ero: parts.ero.ok_or(Fault::Missing(7))?,
                cost: parts.cost,
            }))
        }
        10 => Ok(Message::Report(reports(body)?)),
        11 => {
            let parts = parts(body)?;
            let lsp = parts.lsp.ok_or(Fault::Missing(32))?;
            Ok(Message::Update(Update {
                srp: parts.srp.ok_or(Fault::Missing(33))?,
                plsp: lsp.plsp,
                delegate: lsp.delegate,
                admin: lsp.admin,
                ero: parts.ero.ok_or(Fault::Missing(7))?,
                attributes: parts.attributes,
                bandwidth: parts.bandwidth,
            }))
        }
        12 => {
            let parts = parts(body)?;
            let ends = parts.ends.ok_or(Fault::Missing(4))?;
            Ok(Message::Initiate(Create {
                srp: parts.srp.ok_or(Fault::Missing(33))?,
                name: parts.lsp.and_then(|lsp| lsp.name).unwrap_or_default(),
                source: ends.0,
                destination: ends.1,
                ero: parts.ero.ok_or(Fault::Missing(7))?,
                attributes: parts.attributes,
                bandwidth: parts.bandwidth,
            }))
        }
        kind => Ok(Message::Unknown(kind)),
    }
}

/// Puts a length into the two bytes that were left for it.
fn mend(out: &mut [u8], at: usize, len: usize) -> Result<(), Fault> {
    let len = u16::try_from(len).map_err(|_| Fault::TooLong)?;
    out[at..at + 2].copy_from_slice(&len.to_be_bytes());
    Ok(())
}

/// An object whose body is put by a function.
fn put_object(
    out: &mut Vec<u8>,
    class: u8,
    p: bool,
    put: impl FnOnce(&mut Vec<u8>) -> Result<(), Fault>,
) -> Result<(), Fault> {
    let start = out.len();
    out.extend_from_slice(&[class, 0x10 | u8::from(p) << 1, 0, 0]);
    put(out)?;
    let len = out.len() - start;
    mend(out, start + 2, len)
}

fn put_route(out: &mut Vec<u8>, hops: &[Hop]) -> Result<(), Fault> {
    put_object(out, 7, false, |out| {
        for hop in hops {
            match hop {
                Hop::Host { address, loose } => {
                    out.extend_from_slice(&[1 | u8::from(*loose) << 7, 8]);
                    out.extend_from_slice(&address.to_be_bytes());
                    out.extend_from_slice(&[32, 0]);
                }
                Hop::Other { kind, bytes } => {
                    let len = u8::try_from(bytes.len() + 2).map_err(|_| Fault::TooLong)?;
                    out.extend_from_slice(&[*kind, len]);
                    out.extend_from_slice(bytes);
                }
            }
        }
        Ok(())
    })
}

fn put_srp(out: &mut Vec<u8>, id: u32) -> Result<(), Fault> {
    put_object(out, 33, false, |out| {
        out.extend_from_slice(&[0; 4]);
        out.extend_from_slice(&id.to_be_bytes());
        Ok(())
    })
}

fn put_attributes(out: &mut Vec<u8>, attributes: Option<Attributes>) -> Result<(), Fault> {
    let Some(attributes) = attributes else {
        return Ok(());
    };
    put_object(out, 9, false, |out| {
        out.extend_from_slice(&attributes.colours.exclude_any.to_be_bytes());
        out.extend_from_slice(&attributes.colours.include_any.to_be_bytes());
        out.extend_from_slice(&attributes.colours.include_all.to_be_bytes());
        out.extend_from_slice(&[attributes.setup, attributes.hold, 0, 0]);
        Ok(())
    })
}

/// The least word that is not below a number.
fn word_of(number: u64) -> u32 {
    let near = number as f32;
    if near as u64 >= number { near.to_bits() } else { near.to_bits() + 1 }
}

fn put_bandwidth(out: &mut Vec<u8>, bandwidth: Option<u64>) -> Result<(), Fault> {
    let Some(bandwidth) = bandwidth else {
        return Ok(());
    };
    put_object(out, 5, false, |out| {
        out.extend_from_slice(&word_of(bandwidth).to_be_bytes());
        Ok(())
    })
}

fn put_create(out: &mut Vec<u8>, create: &Create) -> Result<(), Fault> {
    put_srp(out, create.srp)?;
    put_object(out, 32, false, |out| {
        out.extend_from_slice(&9u32.to_be_bytes());
        let len = u16::try_from(create.name.len()).map_err(|_| Fault::TooLong)?;
        out.extend_from_slice(&17u16.to_be_bytes());
        out.extend_from_slice(&len.to_be_bytes());
        out.extend_from_slice(&create.name);
        out.resize(out.len() + (4 - create.name.len() % 4) % 4, 0);
        Ok(())
    })?;
    put_object(out, 4, true, |out| {
        out.extend_from_slice(&create.source.to_be_bytes());
        out.extend_from_slice(&create.destination.to_be_bytes());
        Ok(())
    })?;
    put_route(out, &create.ero)?;
    put_attributes(out, create.attributes)?;
    put_bandwidth(out, create.bandwidth)
}

fn put_update(out: &mut Vec<u8>, update: &Update) -> Result<(), Fault> {
    put_srp(out, update.srp)?;
    put_object(out, 32, false, |out| {
        let flags = u32::from(update.delegate) | u32::from(update.admin) << 3;
        out.extend_from_slice(&(update.plsp << 12 | flags).to_be_bytes());
        Ok(())
    })?;
    put_route(out, &update.ero)?;
    put_attributes(out, update.attributes)?;
    put_bandwidth(out, update.bandwidth)
}

fn put_reply(out: &mut Vec<u8>, reply: &Reply) -> Result<(), Fault> {
    put_object(out, 2, true, |out| {
        out.extend_from_slice(&[0; 4]);
        out.extend_from_slice(&reply.request.to_be_bytes());
        Ok(())
    })?;
    put_route(out, &reply.ero)?;
    let Some((kind, cost)) = reply.cost else {
        return Ok(());
    };
    put_object(out, 6, false, |out| {
        out.extend_from_slice(&[0, 0, 2, kind]);
        out.extend_from_slice(&word_of(cost).to_be_bytes());
        Ok(())
    })
}

fn write(message: &Message, out: &mut Vec<u8>) -> Result<(), Fault> {
    let start = out.len();
    let kind = match message {
        Message::Reply(_) => 4,
        Message::Update(_) => 11,
        Message::Initiate(_) => 12,
        Message::Report(_) | Message::Request(_) | Message::Unknown(_) => return Err(Fault::Header),
    };
    out.extend_from_slice(&[0x20, kind, 0, 0]);
    match message {
        Message::Reply(reply) => put_reply(out, reply)?,
        Message::Update(update) => put_update(out, update)?,
        Message::Initiate(create) => put_create(out, create)?,
        Message::Report(_) | Message::Request(_) | Message::Unknown(_) => {}
    }
    let len = out.len() - start;
    mend(out, start + 2, len)
}

fn bytes_of(text: &str) -> Vec<u8> {
    let digits: Vec<u8> = text.bytes().filter(|c| *c != b' ').collect();
    digits
        .chunks(2)
        .map(|pair| u8::from_str_radix(std::str::from_utf8(pair).unwrap(), 16).unwrap())
        .collect()
}

#[inline(never)]
fn read_many(bytes: &[u8], count: u64) {
    for _ in 0..count {
        let message = read(black_box(bytes)).expect("a message");
        black_box(&message);
    }
}

#[inline(never)]
fn write_many(message: &Message, out: &mut Vec<u8>, count: u64) {
    for _ in 0..count {
        out.clear();
        write(black_box(message), out).expect("a spelling");
        black_box(&out);
    }
}

fn line(name: &str, start: Instant, count: u64) {
    eprintln!("{name} {} ns", start.elapsed().as_nanos() / u128::from(count.max(1)));
}

const READ: [(&str, &str); 4] = [
    ("read_report", "200a0050 2010001c 00001018 00120010 0a000001 00010001 0a000001 0a000004 07100014 01080a01 00022000 01080a02 00022000 09100014 00000000 00000000 00000000 07000000 05100008 48f42400"),
    ("read_answer", "200a005c 2110000c 00000000 00000001 2010001c 000050c9 00120010 0a000001 00010007 0a000001 0a000004 07100014 01080a01 00022000 01080a02 00022000 09100014 00000000 00000000 00000000 07000000 05100008 48f42400"),
    ("read_request", "20030024 0212000c 00000000 00000008 0412000c 0a000001 0a000004 05120008 49127c00"),
    ("read_update", UPDATE),
];

const WRITTEN: [(&str, &str); 3] = [
    ("write_initiate", "200c005c 2110000c 00000000 00000001 20100010 00000009 00110002 74310000 0412000c 0a000001 0a000004 07100014 01080a01 00022000 01080a02 00022000 09100014 00000000 00000000 00000000 07000000 05100008 48f42400"),
    ("write_reply", "20040030 0212000c 00000000 00000008 07100014 01080a01 00022000 01080a02 00022000 0610000c 00000202 41a00000"),
    ("write_update", UPDATE),
];

const UPDATE: &str = "200b0048 2110000c 00000000 00000001 20100008 00001009 07100014 01080a03 00022000 01080a04 00022000 09100014 00000000 00000000 00000000 05020000 05100008 48f42400";

fn main() {
    let mut words = std::env::args().skip(1);
    let count: u64 = words.next().and_then(|word| word.parse().ok()).unwrap_or(1000);
    let only = words.next();
    let is_asked = |name: &str| only.as_deref().is_none_or(|only| only == name);
    for (name, text) in READ.iter().filter(|(name, _)| is_asked(name)) {
        let bytes = bytes_of(text);
        let start = Instant::now();
        read_many(&bytes, count);
        line(name, start, count);
    }
    for (name, text) in WRITTEN.iter().filter(|(name, _)| is_asked(name)) {
        let bytes = bytes_of(text);
        let message = read(&bytes).expect("a message");
        let mut out = Vec::new();
        let start = Instant::now();
        write_many(&message, &mut out, count);
        line(name, start, count);
        assert!(count == 0 || out == bytes, "another spelling");
    }
}
