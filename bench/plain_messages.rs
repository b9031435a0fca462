//! A plain reader and writer of SNMP version 1 messages, as one writes them by hand: what bench/messages measures the
//! proved ones against. Takes the message in hexadecimal; prints nanoseconds for a read and for a write.

use std::time::Instant;

const TURNS: u32 = 200_000;

#[derive(Clone, Copy)]
struct List<T, const N: usize> {
    items: [T; N],
    len: usize,
}

impl<T: Copy, const N: usize> List<T, N> {
    fn new(empty: T) -> Self {
        List { items: [empty; N], len: 0 }
    }

    fn push(&mut self, item: T) -> Option<()> {
        *self.items.get_mut(self.len)? = item;
        self.len += 1;
        Some(())
    }

    fn extend(&mut self, items: &[T]) -> Option<()> {
        self.items.get_mut(self.len..self.len + items.len())?.copy_from_slice(items);
        self.len += items.len();
        Some(())
    }

    fn as_slice(&self) -> &[T] {
        &self.items[..self.len]
    }
}

#[derive(Clone, Copy)]
enum Value {
    Int(i32),
    Octets(List<u8, 64>),
    Null,
    Name(List<u32, 32>),
}

#[derive(Clone, Copy)]
struct Bind {
    name: List<u32, 32>,
    value: Value,
}

struct Message {
    community: List<u8, 32>,
    kind: u8,
    id: i32,
    status: i32,
    index: i32,
    binds: List<Bind, 32>,
}

fn length(bytes: &[u8]) -> Option<(usize, &[u8])> {
    let (&first, rest) = bytes.split_first()?;
    if first < 128 {
        return Some((first as usize, rest));
    }
    if !(129..=132).contains(&first) {
        return None;
    }
    let (number, rest) = rest.split_at_checked(first as usize - 128)?;
    Some((number.iter().fold(0, |n, &octet| n * 256 + octet as usize), rest))
}

fn tagged(tag: u8, bytes: &[u8]) -> Option<(&[u8], &[u8])> {
    let (&first, rest) = bytes.split_first()?;
    if first != tag {
        return None;
    }
    let (size, rest) = length(rest)?;
    rest.split_at_checked(size)
}

fn integer(bytes: &[u8]) -> Option<(i32, &[u8])> {
    let (octets, rest) = tagged(2, bytes)?;
    match octets {
        [] | [0, 0..=127, ..] | [255, 128..=255, ..] => return None,
        _ if octets.len() > 4 => return None,
        _ => {}
    }
    let start = if octets[0] < 128 { 0 } else { -1 };
    Some((octets.iter().fold(start, |n, &octet| n << 8 | octet as i32), rest))
}

fn oid(bytes: &[u8]) -> Option<(List<u32, 32>, &[u8])> {
    let (octets, rest) = tagged(6, bytes)?;
    let (&first, mut octets) = octets.split_first()?;
    if first > 127 {
        return None;
    }
    let root = (first / 40).min(2);
    let mut arcs = List::new(0);
    arcs.push(root as u32)?;
    arcs.push((first - 40 * root) as u32)?;
    while !octets.is_empty() {
        if octets[0] == 128 {
            return None;
        }
        let mut arc = 0u32;
        loop {
            let (&octet, more) = octets.split_first()?;
            octets = more;
            if arc >= 1 << 25 {
                return None;
            }
            arc = arc << 7 | (octet & 127) as u32;
            if octet < 128 {
                break;
            }
        }
        arcs.push(arc)?;
    }
    Some((arcs, rest))
}

fn value(bytes: &[u8]) -> Option<(Value, &[u8])> {
    match bytes.first()? {
        2 => integer(bytes).map(|(n, rest)| (Value::Int(n), rest)),
        4 => {
            let (octets, rest) = tagged(4, bytes)?;
            let mut held = List::new(0);
            held.extend(octets)?;
            Some((Value::Octets(held), rest))
        }
        5 => tagged(5, bytes).filter(|held| held.0.is_empty()).map(|(_, rest)| (Value::Null, rest)),
        6 => oid(bytes).map(|(name, rest)| (Value::Name(name), rest)),
        _ => None,
    }
}

fn read(bytes: &[u8]) -> Option<Message> {
    if bytes.len() > 1472 {
        return None;
    }
    let (content, after) = tagged(48, bytes)?;
    let (version, content) = integer(content)?;
    let (octets, content) = tagged(4, content)?;
    let kind = *content.first()?;
    let (pdu, after_pdu) = tagged(kind, content)?;
    if !after.is_empty() || !after_pdu.is_empty() || version != 0 || !(160..=163).contains(&kind) {
        return None;
    }
    let (id, pdu) = integer(pdu)?;
    let (status, pdu) = integer(pdu)?;
    let (index, pdu) = integer(pdu)?;
    let (mut list, after_list) = tagged(48, pdu)?;
    if !after_list.is_empty() {
        return None;
    }
    let mut m = Message {
        community: List::new(0),
        kind,
        id,
        status,
        index,
        binds: List::new(Bind { name: List::new(0), value: Value::Null }),
    };
    m.community.extend(octets)?;
    while !list.is_empty() {
        let (bind, rest) = tagged(48, list)?;
        let (name, bind) = oid(bind)?;
        let (value, bind) = value(bind)?;
        if !bind.is_empty() {
            return None;
        }
        m.binds.push(Bind { name, value })?;
        list = rest;
    }
    Some(m)
}

fn length_size(size: usize) -> usize {
    match size {
        0..=127 => 1,
        128..=255 => 2,
        _ => 3,
    }
}

fn tagged_size(size: usize) -> usize {
    1 + length_size(size) + size
}

fn integer_octets(n: i32) -> usize {
    match n {
        -0x80..=0x7f => 1,
        -0x8000..=0x7fff => 2,
        -0x80_0000..=0x7f_ffff => 3,
        _ => 4,
    }
}

fn arc_size(arc: u32) -> usize {
    match arc {
        0..=0x7f => 1,
        0x80..=0x3fff => 2,
        0x4000..=0x1f_ffff => 3,
        0x20_0000..=0xfff_ffff => 4,
        _ => 5,
    }
}

fn oid_octets(arcs: &[u32]) -> usize {
    1 + arcs[2..].iter().map(|&arc| arc_size(arc)).sum::<usize>()
}

fn value_size(value: &Value) -> usize {
    tagged_size(match value {
        Value::Int(n) => integer_octets(*n),
        Value::Octets(octets) => octets.len,
        Value::Null => 0,
        Value::Name(name) => oid_octets(name.as_slice()),
    })
}

fn bind_size(bind: &Bind) -> usize {
    tagged_size(oid_octets(bind.name.as_slice())) + value_size(&bind.value)
}

type Out = List<u8, 1472>;

fn head(out: &mut Out, tag: u8, size: usize) -> Option<()> {
    out.push(tag)?;
    match length_size(size) {
        1 => out.push(size as u8),
        2 => out.extend(&[129, size as u8]),
        _ => out.extend(&[130, (size >> 8) as u8, size as u8]),
    }
}

fn put_integer(out: &mut Out, n: i32) -> Option<()> {
    let size = integer_octets(n);
    head(out, 2, size)?;
    out.extend(&n.to_be_bytes()[4 - size..])
}

fn put_oid(out: &mut Out, arcs: &[u32]) -> Option<()> {
    head(out, 6, oid_octets(arcs))?;
    out.push((40 * arcs[0] + arcs[1]) as u8)?;
    for &arc in &arcs[2..] {
        for place in (1..arc_size(arc)).rev() {
            out.push(128 | (arc >> (7 * place)) as u8)?;
        }
        out.push(arc as u8 & 127)?;
    }
    Some(())
}

fn put_value(out: &mut Out, value: &Value) -> Option<()> {
    match value {
        Value::Int(n) => put_integer(out, *n),
        Value::Octets(octets) => {
            head(out, 4, octets.len)?;
            out.extend(octets.as_slice())
        }
        Value::Null => head(out, 5, 0),
        Value::Name(name) => put_oid(out, name.as_slice()),
    }
}

fn write(m: &Message) -> Option<Out> {
    let list = m.binds.as_slice().iter().map(|bind| tagged_size(bind_size(bind))).sum();
    let ids = [m.id, m.status, m.index].iter().map(|&n| tagged_size(integer_octets(n))).sum::<usize>();
    let pdu = ids + tagged_size(list);
    let mut out = Out::new(0);
    head(&mut out, 48, 3 + tagged_size(m.community.len) + tagged_size(pdu))?;
    put_integer(&mut out, 0)?;
    head(&mut out, 4, m.community.len)?;
    out.extend(m.community.as_slice())?;
    head(&mut out, m.kind, pdu)?;
    put_integer(&mut out, m.id)?;
    put_integer(&mut out, m.status)?;
    put_integer(&mut out, m.index)?;
    head(&mut out, 48, list)?;
    for bind in m.binds.as_slice() {
        head(&mut out, 48, bind_size(bind))?;
        put_oid(&mut out, bind.name.as_slice())?;
        put_value(&mut out, &bind.value)?;
    }
    Some(out)
}

fn main() {
    let hex = std::env::args().nth(1).expect("the message in hexadecimal");
    let octet = |i: usize| u8::from_str_radix(&hex[2 * i..2 * i + 2], 16).unwrap();
    let mut text: Vec<u8> = (0..hex.len() / 2).map(octet).collect();
    let last = text.len() - 1;
    for _ in 0..5 {
        let mut sum = 0usize;
        let begin = Instant::now();
        for turn in 0..TURNS {
            text[last] = turn as u8;
            sum += read(&text).map_or(0, |m| m.binds.len);
        }
        let reading = begin.elapsed().as_nanos() / TURNS as u128;
        let mut m = read(&text).expect("a message");
        let begin = Instant::now();
        for turn in 0..TURNS {
            m.id = 0x1000_0000 | turn as i32;
            sum += write(&m).map_or(0, |out| out.len);
        }
        let writing = begin.elapsed().as_nanos() / TURNS as u128;
        println!("plain:  read {reading} ns, write {writing} ns ({sum})");
    }
}
