//! The fields of a frame: Ethernet with at most one VLAN tag, IPv4, IPv6, TCP and UDP.

use crate::captures::Record;
use crate::rows::Row;

const IPV4: u16 = 0x0800;
const IPV6: u16 = 0x86DD;
const VLAN: u16 = 0x8100;
const TCP: u8 = 6;
const UDP: u8 = 17;
const BARE_KIND: u8 = 1;
const TCP_KIND: u8 = 2;
const UDP_KIND: u8 = 3;

/// An IP header, but for its ports.
struct Packet {
    family: u8,
    source: (u64, u64),
    destination: (u64, u64),
    protocol: u8,
    is_later_fragment: bool,
    header: usize,
    length: usize,
}

struct Transport {
    kind: u8,
    ports: (u16, u16),
    flags: u8,
}

const BARE: Transport = Transport { kind: BARE_KIND, ports: (0, 0), flags: 0 };

/// The fields of a frame, and its time. Where it is no IP packet, all but the time is 0. What a program doesn't look at
/// costs nothing, as all of this is inlined into its loop.
#[inline(always)]
pub fn row_of(record: &Record) -> Row {
    let Some((packet, bytes)) = packet_of(record) else {
        return Row { w5: record.time, ..Row::default() };
    };
    let Transport { kind, ports, flags } = transport_of(&packet, bytes);
    let w4 = u64::from(ports.0) << 48
        | u64::from(ports.1) << 32
        | u64::from(packet.protocol) << 24
        | u64::from(flags) << 16
        | u64::from(packet.family) << 8
        | u64::from(kind);
    let ((w0, w1), (w2, w3)) = (packet.source, packet.destination);
    Row { w0, w1, w2, w3, w4, w5: record.time, w6: packet.length as u64 }
}

#[inline(always)]
fn u16_at(bytes: &[u8], at: usize) -> u16 {
    u16::from_be_bytes([bytes[at], bytes[at + 1]])
}

#[inline(always)]
fn u32_at(bytes: &[u8], at: usize) -> u64 {
    u64::from(u16_at(bytes, at)) << 16 | u64::from(u16_at(bytes, at + 2))
}

#[inline(always)]
fn u64_at(bytes: &[u8], at: usize) -> u64 {
    u32_at(bytes, at) << 32 | u32_at(bytes, at + 4)
}

/// The packet of a frame, and the bytes that its header begins with.
#[inline(always)]
fn packet_of<'a>(record: &Record<'a>) -> Option<(Packet, &'a [u8])> {
    let frame = record.head;
    if frame.len() < 14 {
        return None;
    }
    let (kind, start) = match u16_at(frame, 12) {
        VLAN if frame.len() < 18 => return None,
        VLAN => (u16_at(frame, 16), 18),
        kind => (kind, 14),
    };
    let (bytes, captured) = (&frame[start..], record.captured - start);
    let packet = match kind {
        IPV4 => ipv4(bytes, captured)?,
        IPV6 => ipv6(bytes, captured)?,
        _ => return None,
    };
    Some((packet, bytes))
}

#[inline(always)]
fn ipv4(bytes: &[u8], captured: usize) -> Option<Packet> {
    if bytes.len() < 20 || bytes[0] >> 4 != 4 {
        return None;
    }
    let header = usize::from(bytes[0] & 15) * 4;
    let told = usize::from(u16_at(bytes, 2));
    let length = if told == 0 { captured } else { told };
    if header < 20 || bytes.len() < header || length < header {
        return None;
    }
    Some(Packet {
        family: 0,
        source: (0, u32_at(bytes, 12)),
        destination: (0, u32_at(bytes, 16)),
        protocol: bytes[9],
        is_later_fragment: u16_at(bytes, 6) & 0x1FFF != 0,
        header,
        length,
    })
}

#[inline(always)]
fn ipv6(bytes: &[u8], captured: usize) -> Option<Packet> {
    if bytes.len() < 40 || bytes[0] >> 4 != 6 {
        return None;
    }
    let told = usize::from(u16_at(bytes, 4));
    Some(Packet {
        family: 1,
        source: (u64_at(bytes, 8), u64_at(bytes, 16)),
        destination: (u64_at(bytes, 24), u64_at(bytes, 32)),
        protocol: bytes[6],
        is_later_fragment: false,
        header: 40,
        length: if told == 0 { captured } else { 40 + told },
    })
}

#[inline(always)]
fn transport_of(packet: &Packet, bytes: &[u8]) -> Transport {
    let Packet { protocol, header, length, is_later_fragment, .. } = *packet;
    let whole = bytes.len().min(length);
    let has = |fixed: usize| !is_later_fragment && header + fixed <= whole;
    match protocol {
        TCP if has(20) && bytes[header + 12] >> 4 >= 5 => {
            Transport { kind: TCP_KIND, ports: ports_at(bytes, header), flags: bytes[header + 13] }
        }
        UDP if has(8) => Transport { kind: UDP_KIND, ports: ports_at(bytes, header), flags: 0 },
        _ => BARE,
    }
}

#[inline(always)]
fn ports_at(bytes: &[u8], at: usize) -> (u16, u16) {
    (u16_at(bytes, at), u16_at(bytes, at + 2))
}
