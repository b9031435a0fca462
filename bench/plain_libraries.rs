/// The edge to the system, as the whole program needs it.
pub mod plain_edge {
    /// What a program is handed: standard streams, words, memory and threads.
    #[derive(Clone, Copy)]
    pub struct HostRuntime;

    impl HostRuntime {
        pub fn alloc(&self) -> crate::plain_std::Global {
            crate::plain_std::Global
        }

        pub fn stdin(&self) -> std::io::Stdin {
            std::io::stdin()
        }

        pub fn stdout(&self) -> io::Stdout {
            // Rust's own standard output keeps what is written until a line is whole; the kit's does not.
            io::Stdout(std::mem::ManuallyDrop::new(unsafe { std::os::fd::FromRawFd::from_raw_fd(1) }))
        }

        pub fn stderr(&self) -> std::io::Stderr {
            std::io::stderr()
        }
    }

    pub mod io {
        pub use std::io::{ErrorKind, Read, Stderr, Stdin, Write};

        /// Standard output without a buffer.
        pub struct Stdout(pub(super) std::mem::ManuallyDrop<std::fs::File>);

        impl Write for Stdout {
            fn write(&mut self, piece: &[u8]) -> std::io::Result<usize> {
                self.0.write(piece)
            }

            fn flush(&mut self) -> std::io::Result<()> {
                Ok(())
            }
        }
    }

    pub mod env {
        use super::HostRuntime;
        use crate::plain_std::String;

        /// The words that the program was called by.
        pub fn args(_: &HostRuntime) -> std::io::Result<impl Iterator<Item = String>> {
            let words: std::vec::Vec<_> = std::env::args_os().map(|word| word.into_string()).collect();
            if words.iter().any(|word| word.is_err()) {
                return Err(std::io::ErrorKind::InvalidData.into());
            }
            Ok(words.into_iter().flatten().map(String::from))
        }
    }

    pub mod thread {
        pub trait Threads {}

        impl Threads for super::HostRuntime {}

        /// The first in a thread of its own where one can be started, and the second meanwhile.
        pub fn join<R, A: Send, B>(_: &R, first: impl FnOnce() -> A + Send, second: impl FnOnce() -> B) -> (A, B) {
            let first = std::sync::Mutex::new(Some(first));
            let once = || first.lock().unwrap().take().map(|first| first());
            std::thread::scope(|scope| {
                let started = std::thread::Builder::new().spawn_scoped(scope, &once);
                let second = second();
                let first = match started {
                    Ok(started) => started.join().unwrap(),
                    Err(_) => once(),
                };
                (first.unwrap(), second)
            })
        }
    }

    pub mod snapshot {
        /// What a proof remembers of a value: nothing.
        pub struct Snapshot<T>(std::marker::PhantomData<fn() -> T>);

        impl<T> Snapshot<T> {
            pub fn of(_: &T) -> Self {
                Snapshot(std::marker::PhantomData)
            }
        }
    }
}

/// The kit's table of words and values that threads share.
pub mod atomic_table {
    use crate::plain_std::{Global, Vec};
    use std::cell::UnsafeCell;
    use std::marker::PhantomData;
    use std::sync::atomic::{AtomicU64, Ordering::SeqCst};

    pub trait TableRule<S, V, K> {}
    pub trait Play<S, V> {}
    pub trait Split<V> {}
    pub trait Join<V> {}

    pub struct Badge<V>(PhantomData<fn() -> V>);
    pub struct Seat<S, V>(PhantomData<fn() -> (S, V)>);

    impl<V> Badge<V> {
        pub fn blank() -> Self {
            Badge(PhantomData)
        }

        pub fn into_seat<S>(self) -> Seat<S, V> {
            Seat(PhantomData)
        }
    }

    impl<S, V> Seat<S, V> {
        pub fn into_badge(self) -> Badge<V> {
            Badge(PhantomData)
        }

        // The rule of the table says who may be at a slot.
        pub fn slot_mut<'a, K, P>(&'a mut self, table: &'a Shared<S, V, K, P>, slot: usize) -> &'a mut S {
            unsafe { &mut *table.slots[slot].get() }
        }
    }

    pub struct Shared<S, V, K, P> {
        words: std::vec::Vec<AtomicU64>,
        slots: std::vec::Vec<UnsafeCell<S>>,
        about: PhantomData<fn() -> (V, K, P)>,
    }

    unsafe impl<S: Send, V, K, P> Sync for Shared<S, V, K, P> {}

    impl<S, V, K, P> Shared<S, V, K, P> {
        pub fn load<L>(&self, _: &mut Seat<S, V>, word: usize) -> u64 {
            self.words[word].load(SeqCst)
        }

        pub fn compare_exchange<L>(&self, _: &mut Seat<S, V>, word: usize, seen: u64, new: u64) -> u64 {
            self.words[word].compare_exchange(seen, new, SeqCst, SeqCst).unwrap_or_else(|found| found)
        }

        pub fn fetch_add<L>(&self, _: &mut Seat<S, V>, word: usize, more: u64) -> u64 {
            self.words[word].fetch_add(more, SeqCst)
        }

        pub fn split_seat<L>(&self, _: &mut Seat<S, V>) -> Seat<S, V> {
            Seat(PhantomData)
        }

        pub fn join_seat<L>(&self, _: &mut Seat<S, V>, _: Seat<S, V>) {}
    }

    pub struct Table<S, V, K, P, A> {
        pub shared: Shared<S, V, K, P>,
        heap: PhantomData<A>,
    }

    pub struct Refused<S> {
        pub slots: Vec<S>,
    }

    pub struct Closed<S, A> {
        slots: std::vec::Vec<Option<S>>,
        heap: PhantomData<A>,
    }

    impl<S, V, K, P> Table<S, V, K, P, Global> {
        pub fn new(_: Global, words: &[u64], slots: Vec<S>, _: &K) -> Result<(Self, Seat<S, V>), Refused<S>> {
            let shared = Shared {
                words: words.iter().map(|word| AtomicU64::new(*word)).collect(),
                slots: slots.into_iter().map(UnsafeCell::new).collect(),
                about: PhantomData,
            };
            Ok((Table { shared, heap: PhantomData }, Seat(PhantomData)))
        }

        pub fn close_with(self, _: Seat<S, V>) -> Closed<S, Global> {
            let slots = self.shared.slots.into_iter().map(|slot| Some(slot.into_inner())).collect();
            Closed { slots, heap: PhantomData }
        }
    }

    impl<S, A> Closed<S, A> {
        pub fn slot_count(&self) -> usize {
            self.slots.len()
        }

        pub fn take(&mut self, slot: usize) -> S {
            self.slots[slot].take().unwrap()
        }

        pub fn free(self) {}
    }
}

pub mod hex {
    use crate::plain_std::{AllocError, Global, String, Vec};

    #[derive(Clone, Copy, Debug, PartialEq, Eq)]
    pub enum FromHexError {
        InvalidHexCharacter { c: char, index: usize },
        OddLength,
        InvalidStringLength,
        OutOfMemory,
    }

    fn digit(text: &[u8], index: usize) -> Result<u8, FromHexError> {
        match text[index] {
            c @ b'0'..=b'9' => Ok(c - b'0'),
            c @ b'a'..=b'f' => Ok(c - b'a' + 10),
            c @ b'A'..=b'F' => Ok(c - b'A' + 10),
            c => Err(FromHexError::InvalidHexCharacter { c: char::from(c), index }),
        }
    }

    pub fn decode_to_slice(text: impl AsRef<[u8]>, out: &mut [u8]) -> Result<(), FromHexError> {
        let text = text.as_ref();
        if text.len() % 2 != 0 {
            return Err(FromHexError::OddLength);
        }
        if text.len() / 2 != out.len() {
            return Err(FromHexError::InvalidStringLength);
        }
        for (place, octet) in out.iter_mut().enumerate() {
            *octet = digit(text, 2 * place)? * 16 + digit(text, 2 * place + 1)?;
        }
        Ok(())
    }

    pub fn decode(alloc: Global, text: impl AsRef<[u8]>) -> Result<Vec<u8>, FromHexError> {
        let mut out = Vec::new(alloc);
        out.resize(text.as_ref().len() / 2, 0).map_err(|_| FromHexError::OutOfMemory)?;
        decode_to_slice(text, out.as_mut_slice())?;
        Ok(out)
    }

    pub fn encode(alloc: Global, octets: impl AsRef<[u8]>) -> Result<String, AllocError> {
        const DIGITS: &[u8; 16] = b"0123456789abcdef";
        let octets = octets.as_ref();
        let mut text = Vec::with_capacity(alloc, 2 * octets.len())?;
        for octet in octets {
            text.push_reserved(DIGITS[usize::from(octet >> 4)]);
            text.push_reserved(DIGITS[usize::from(octet & 15)]);
        }
        Ok(String::from_ascii(text))
    }
}

pub mod itoa {
    /// Room for the digits of a number.
    pub struct Buffer {
        digits: [u8; 40],
    }

    pub trait Integer {
        fn parts(self) -> (bool, u64);
    }

    macro_rules! integers {
        ($($kind:ty)*) => {
            $(impl Integer for $kind {
                #[inline]
                #[allow(unused_comparisons)]
                fn parts(self) -> (bool, u64) {
                    if self < 0 { (true, (self as i64).unsigned_abs()) } else { (false, self as u64) }
                }
            })*
        };
    }

    integers!(u8 u16 u32 u64 usize i8 i16 i32 i64);

    impl Buffer {
        #[inline]
        pub fn new() -> Self {
            Buffer { digits: [0; 40] }
        }

        #[inline]
        pub fn format<I: Integer>(&mut self, number: I) -> &str {
            let (below, mut rest) = number.parts();
            let mut at = self.digits.len();
            loop {
                at -= 1;
                self.digits[at] = b'0' + (rest % 10) as u8;
                rest /= 10;
                if rest == 0 {
                    break;
                }
            }
            if below {
                at -= 1;
                self.digits[at] = b'-';
            }
            unsafe { std::str::from_utf8_unchecked(&self.digits[at..]) }
        }
    }
}

pub mod memchr {
    #[inline]
    pub fn memchr(wanted: u8, octets: &[u8]) -> Option<usize> {
        octets.iter().position(|octet| *octet == wanted)
    }
}

pub mod fast_float {
    /// The text of a number of JSON, without its sign.
    pub struct Numeral<'a>(&'a str);

    impl<'a> Numeral<'a> {
        pub fn scan(text: &'a [u8]) -> Self {
            Numeral(std::str::from_utf8(text).unwrap_or(""))
        }

        pub fn to_u64(&self) -> Option<u64> {
            self.0.parse().ok()
        }

        pub fn to_i64(&self, negative: bool) -> Option<i64> {
            let number: i128 = self.0.parse::<u64>().ok()?.into();
            i64::try_from(if negative { -number } else { number }).ok()
        }

        pub fn to_float<F: std::str::FromStr<Err: std::fmt::Debug> + std::ops::Neg<Output = F>>(
            &self,
            negative: bool,
        ) -> F {
            let size: F = self.0.parse().unwrap();
            if negative { -size } else { size }
        }
    }
}

/// The kit's pull reader of JSON.
pub mod json {
    use crate::plain_std::{AllocError, Global};

    #[derive(Clone, Copy, Debug)]
    pub enum Token<'a> {
        BeginObject,
        EndObject,
        BeginArray,
        EndArray,
        Key(&'a str),
        String(&'a str),
        Number(&'a str),
        Bool(bool),
        Null,
        Bad,
    }

    #[derive(Clone, Copy, Debug)]
    pub struct Invalid;

    /// Where texts with escapes are written.
    pub struct Scratch(std::vec::Vec<u8>);

    impl Scratch {
        pub fn new(_: Global) -> Self {
            Scratch(std::vec::Vec::new())
        }
    }

    #[derive(Clone, Copy, PartialEq)]
    enum Place {
        AfterComma,
        Fresh,
        AfterValue,
        Failed,
    }

    pub struct Reader<'a> {
        text: &'a str,
        at: usize,
        room: &'a mut [u8],
        place: Place,
    }

    /// How long the number at the front is, by RFC 8259's grammar.
    fn number_len(text: &[u8]) -> Option<usize> {
        let digits = |from: usize| text[from..].iter().take_while(|c| c.is_ascii_digit()).count();
        let mut at = usize::from(text[0] == b'-');
        let whole = digits(at);
        if whole == 0 || whole > 1 && text[at] == b'0' {
            return None;
        }
        at += whole;
        if text.get(at) == Some(&b'.') {
            let more = digits(at + 1);
            if more == 0 {
                return None;
            }
            at += 1 + more;
        }
        if matches!(text.get(at), Some(b'e' | b'E')) {
            at += 1 + usize::from(matches!(text.get(at + 1), Some(b'+' | b'-')));
            let more = digits(at);
            if more == 0 {
                return None;
            }
            at += more;
        }
        Some(at)
    }

    impl<'a> Reader<'a> {
        pub fn new(text: &'a str, scratch: &'a mut Scratch) -> Result<Self, AllocError> {
            scratch.0.resize(text.len(), 0);
            let mut reader = Reader { text, at: 0, room: &mut scratch.0, place: Place::Fresh };
            reader.skip_blanks();
            Ok(reader)
        }

        #[inline]
        fn peek(&self) -> u8 {
            *self.text.as_bytes().get(self.at).unwrap_or(&b' ')
        }

        #[inline]
        fn skip_blanks(&mut self) {
            while matches!(self.text.as_bytes().get(self.at), Some(b' ' | b'\t' | b'\n' | b'\r')) {
                self.at += 1;
            }
        }

        #[inline]
        fn pass(&mut self, many: usize) {
            self.at += many;
            self.skip_blanks();
        }

        fn after_value(&mut self) {
            self.place = Place::AfterValue;
            if self.peek() == b',' {
                self.pass(1);
                self.place = Place::AfterComma;
            }
        }

        pub fn skip_value(&mut self, depth: usize) -> Result<(), Invalid> {
            match self.next() {
                Some(Token::String(_) | Token::Number(_) | Token::Bool(_) | Token::Null) => {}
                Some(Token::BeginArray) if depth > 0 => {
                    while !self.take_end_array() {
                        self.skip_value(depth - 1)?;
                    }
                }
                Some(Token::BeginObject) if depth > 0 => {
                    while self.next_key()?.is_some() {
                        self.skip_value(depth - 1)?;
                    }
                }
                _ => return Err(Invalid),
            }
            Ok(())
        }

        /// The text that begins here, behind its quote.
        fn string(&mut self) -> Option<&'a str> {
            let (text, start) = (self.text, self.at + 1);
            let plain = text.as_bytes()[start..].iter().position(|c| matches!(c, b'"' | b'\\' | 0..32))?;
            if text.as_bytes()[start + plain] == b'"' {
                self.pass(plain + 2);
                return Some(&text[start..start + plain]);
            }
            self.escaped(start)
        }

        fn four(&self, at: usize) -> Option<u32> {
            let digits = self.text.get(at..at + 4)?;
            digits.bytes().all(|c| c.is_ascii_hexdigit()).then(|| u32::from_str_radix(digits, 16).unwrap())
        }

        fn escaped(&mut self, start: usize) -> Option<&'a str> {
            let mut found = std::string::String::new();
            let mut at = start;
            loop {
                let c = self.text[at..].chars().next()?;
                at += c.len_utf8();
                match c {
                    '"' => break,
                    '\0'..' ' => return None,
                    '\\' => {
                        let c = self.text[at..].chars().next()?;
                        at += 1;
                        found.push(match c {
                            '"' | '\\' | '/' => c,
                            'b' => '\u{8}',
                            'f' => '\u{c}',
                            'n' => '\n',
                            'r' => '\r',
                            't' => '\t',
                            'u' => {
                                let mut code = self.four(at)?;
                                at += 4;
                                if (0xd800..0xdc00).contains(&code) && self.text[at..].starts_with("\\u") {
                                    let low = self.four(at + 2)?;
                                    at += 6;
                                    code = 0x10000 + ((code - 0xd800) << 10) + low.checked_sub(0xdc00)?;
                                }
                                char::from_u32(code)?
                            }
                            _ => return None,
                        });
                    }
                    _ => found.push(c),
                }
            }
            let (front, back) = std::mem::take(&mut self.room).split_at_mut(found.len());
            front.copy_from_slice(found.as_bytes());
            self.room = back;
            self.at = at;
            self.skip_blanks();
            Some(unsafe { std::str::from_utf8_unchecked(front) })
        }

        fn refuse(&mut self) -> Option<Token<'a>> {
            let bad = (self.place != Place::Failed).then_some(Token::Bad);
            self.place = Place::Failed;
            bad
        }

        fn word(&mut self) -> Token<'a> {
            let rest = &self.text[self.at..];
            for (word, token) in [("true", Token::Bool(true)), ("false", Token::Bool(false)), ("null", Token::Null)] {
                if rest.starts_with(word) {
                    self.pass(word.len());
                    return token;
                }
            }
            match number_len(rest.as_bytes()) {
                Some(len) => {
                    self.pass(len);
                    Token::Number(&rest[..len])
                }
                None => Token::Bad,
            }
        }

        pub fn next(&mut self) -> Option<Token<'a>> {
            let c = self.peek();
            let may_close = matches!(self.place, Place::Fresh | Place::AfterValue);
            if self.at == self.text.len() && may_close {
                return None;
            }
            if matches!(c, b'}' | b']') {
                if !may_close {
                    return self.refuse();
                }
                self.pass(1);
                self.after_value();
                return Some(if c == b'}' { Token::EndObject } else { Token::EndArray });
            }
            if !matches!(self.place, Place::Fresh | Place::AfterComma) || self.at == self.text.len() {
                return self.refuse();
            }
            match c {
                b'{' | b'[' => {
                    self.pass(1);
                    self.place = Place::Fresh;
                    Some(if c == b'{' { Token::BeginObject } else { Token::BeginArray })
                }
                b'"' => {
                    let Some(text) = self.string() else {
                        return self.refuse();
                    };
                    if self.peek() == b':' {
                        self.pass(1);
                        self.place = Place::Fresh;
                        return Some(Token::Key(text));
                    }
                    self.after_value();
                    Some(Token::String(text))
                }
                _ => match self.word() {
                    Token::Bad => self.refuse(),
                    token => {
                        self.after_value();
                        Some(token)
                    }
                },
            }
        }

        pub fn next_key(&mut self) -> Result<Option<&'a str>, Invalid> {
            match self.next() {
                Some(Token::Key(key)) => Ok(Some(key)),
                Some(Token::EndObject) => Ok(None),
                _ => {
                    self.place = Place::Failed;
                    Err(Invalid)
                }
            }
        }

        pub fn offset(&self) -> usize {
            self.at
        }

        pub fn take_end_array(&mut self) -> bool {
            if self.peek() != b']' || !matches!(self.place, Place::Fresh | Place::AfterValue) {
                return false;
            }
            self.pass(1);
            self.after_value();
            true
        }
    }
}

/// Values of JSON. A float may be written by other digits than the kit writes.
pub mod serde_json {
    use crate::json::{Reader, Scratch, Token};
    use crate::plain_std::{AllocError, Global, String, Vec};

    #[derive(Clone, Copy, PartialEq)]
    pub enum Number {
        Whole(u64),
        Below(i64),
        Float(f64),
    }

    impl Number {
        pub fn from_u128(number: u128) -> Option<Self> {
            u64::try_from(number).ok().map(Number::Whole)
        }

        pub fn from_i128(number: i128) -> Option<Self> {
            match u64::try_from(number) {
                Ok(number) => Some(Number::Whole(number)),
                Err(_) => i64::try_from(number).ok().map(Number::Below),
            }
        }

        pub fn from_f64(number: f64) -> Option<Self> {
            number.is_finite().then_some(Number::Float(number))
        }

        pub fn is_f64(&self) -> bool {
            matches!(self, Number::Float(_))
        }

        pub fn as_u64(&self) -> Option<u64> {
            match self {
                Number::Whole(number) => Some(*number),
                _ => None,
            }
        }

        fn parsed(text: &str) -> Option<Self> {
            if let Ok(number) = text.parse() {
                return Some(Number::Whole(number));
            }
            match text.parse() {
                Ok(number) if number < 0 => Some(Number::Below(number)),
                _ => Number::from_f64(text.parse().ok()?),
            }
        }
    }

    /// Members in the order of their names.
    #[derive(PartialEq)]
    pub struct Map<K, V>(std::collections::BTreeMap<K, V>);

    impl<V> Map<String, V> {
        pub fn new(_: Global) -> Self {
            Map(std::collections::BTreeMap::new())
        }

        pub fn insert(&mut self, name: String, value: V) -> Result<Option<V>, AllocError> {
            Ok(self.0.insert(name, value))
        }

        pub fn get(&self, name: &str) -> Option<&V> {
            self.0.get(name)
        }

        pub fn get_mut(&mut self, name: &str) -> Option<&mut V> {
            self.0.get_mut(name)
        }

        pub fn remove(&mut self, name: &str) -> Option<V> {
            self.0.remove(name)
        }

        pub fn contains_key(&self, name: &str) -> bool {
            self.0.contains_key(name)
        }

        pub fn iter(&self) -> std::collections::btree_map::Iter<'_, String, V> {
            self.0.iter()
        }

        pub fn len(&self) -> usize {
            self.0.len()
        }

        pub fn is_empty(&self) -> bool {
            self.0.is_empty()
        }
    }

    impl<'a, V> IntoIterator for &'a Map<String, V> {
        type Item = (&'a String, &'a V);
        type IntoIter = std::collections::btree_map::Iter<'a, String, V>;

        fn into_iter(self) -> Self::IntoIter {
            self.0.iter()
        }
    }

    #[derive(PartialEq)]
    pub enum Value {
        Null,
        Bool(bool),
        Number(Number),
        String(String),
        Array(Vec<Value>),
        Object(Map<String, Value>),
    }

    /// Why a text is no value: it is no JSON.
    pub struct Error;

    impl Error {
        pub fn is_memory(&self) -> bool {
            false
        }
    }

    fn read(reader: &mut Reader<'_>, token: Token<'_>, depth: usize) -> Option<Value> {
        Some(match token {
            Token::Null => Value::Null,
            Token::Bool(flag) => Value::Bool(flag),
            Token::Number(text) => Value::Number(Number::parsed(text)?),
            Token::String(text) => Value::String(String::from(std::string::String::from(text))),
            Token::BeginArray => {
                let mut items = Vec::new(Global);
                let depth = depth.checked_sub(1)?;
                while !reader.take_end_array() {
                    let token = reader.next()?;
                    items.push(read(reader, token, depth)?).ok()?;
                }
                Value::Array(items)
            }
            Token::BeginObject => {
                let mut members = Map::new(Global);
                let depth = depth.checked_sub(1)?;
                while let Some(name) = reader.next_key().ok()? {
                    let name = String::from(std::string::String::from(name));
                    let token = reader.next()?;
                    members.insert(name, read(reader, token, depth)?).ok()?;
                }
                Value::Object(members)
            }
            _ => return None,
        })
    }

    fn write_text(out: &mut Vec<u8>, text: &str) -> Result<(), AllocError> {
        out.push(b'"')?;
        for octet in text.bytes() {
            match octet {
                b'"' => out.extend_from_slice(b"\\\"")?,
                b'\\' => out.extend_from_slice(b"\\\\")?,
                8 => out.extend_from_slice(b"\\b")?,
                9 => out.extend_from_slice(b"\\t")?,
                10 => out.extend_from_slice(b"\\n")?,
                12 => out.extend_from_slice(b"\\f")?,
                13 => out.extend_from_slice(b"\\r")?,
                0..32 => out.extend_from_slice(std::format!("\\u{octet:04x}").as_bytes())?,
                _ => out.push(octet)?,
            }
        }
        out.push(b'"')
    }

    impl Value {
        pub fn from_slice(_: Global, text: &[u8]) -> Result<Value, Error> {
            std::str::from_utf8(text).ok().and_then(Value::parsed).ok_or(Error)
        }

        pub fn is_null(&self) -> bool {
            matches!(self, Value::Null)
        }

        fn parsed(text: &str) -> Option<Value> {
            let mut scratch = Scratch::new(Global);
            let mut reader = Reader::new(text, &mut scratch).ok()?;
            let token = reader.next()?;
            let value = read(&mut reader, token, 127)?;
            reader.next().is_none().then_some(value)
        }

        fn write(&self, out: &mut Vec<u8>) -> Result<(), AllocError> {
            match self {
                Value::Null => out.extend_from_slice(b"null"),
                Value::Bool(flag) => out.extend_from_slice(if *flag { b"true" } else { b"false" }),
                Value::Number(Number::Whole(n)) => {
                    out.extend_from_slice(crate::itoa::Buffer::new().format(*n).as_bytes())
                }
                Value::Number(Number::Below(n)) => {
                    out.extend_from_slice(crate::itoa::Buffer::new().format(*n).as_bytes())
                }
                Value::Number(Number::Float(n)) => out.extend_from_slice(std::format!("{n:?}").as_bytes()),
                Value::String(text) => write_text(out, text.as_str()),
                Value::Array(items) => {
                    for (place, item) in items.iter().enumerate() {
                        out.push(if place == 0 { b'[' } else { b',' })?;
                        item.write(out)?;
                    }
                    out.extend_from_slice(if items.is_empty() { b"[]" } else { b"]" })
                }
                Value::Object(members) => {
                    for (place, (name, value)) in members.iter().enumerate() {
                        out.push(if place == 0 { b'{' } else { b',' })?;
                        write_text(out, name.as_str())?;
                        out.push(b':')?;
                        value.write(out)?;
                    }
                    out.extend_from_slice(if members.is_empty() { b"{}" } else { b"}" })
                }
            }
        }

        pub fn to_vec_in(&self, alloc: Global) -> Result<Vec<u8>, AllocError> {
            let mut out = Vec::new(alloc);
            self.write(&mut out)?;
            Ok(out)
        }

        pub fn to_string_in(&self, alloc: Global) -> Result<String, AllocError> {
            Ok(String::from_utf8(self.to_vec_in(alloc)?).unwrap())
        }

        pub fn get<'a>(&'a self, place: impl Place) -> Option<&'a Value> {
            place.of(self)
        }

        pub fn get_mut(&mut self, name: &str) -> Option<&mut Value> {
            match self {
                Value::Object(members) => members.get_mut(name),
                _ => None,
            }
        }

        pub fn as_str(&self) -> Option<&str> {
            match self {
                Value::String(text) => Some(text.as_str()),
                _ => None,
            }
        }

        pub fn take(&mut self) -> Value {
            std::mem::replace(self, Value::Null)
        }
    }

    /// Where in a value another stands: at a name in an object, at a place in a list.
    pub trait Place {
        fn of<'a>(&self, value: &'a Value) -> Option<&'a Value>;
    }

    impl Place for &str {
        fn of<'a>(&self, value: &'a Value) -> Option<&'a Value> {
            match value {
                Value::Object(members) => members.get(self),
                _ => None,
            }
        }
    }

    impl Place for usize {
        fn of<'a>(&self, value: &'a Value) -> Option<&'a Value> {
            match value {
                Value::Array(items) => items.as_slice().get(*self),
                _ => None,
            }
        }
    }

    impl From<bool> for Value {
        fn from(flag: bool) -> Value {
            Value::Bool(flag)
        }
    }

    macro_rules! from_numbers {
        ($($kind:ty)*) => {
            $(impl From<$kind> for Value {
                fn from(number: $kind) -> Value {
                    Value::Number(Number::from_i128(number as i128).unwrap())
                }
            })*
        };
    }

    from_numbers!(u8 u16 u32 u64 usize i8 i16 i32 i64);

    impl From<&str> for Value {
        fn from(text: &str) -> Value {
            Value::String(String::from(std::string::String::from(text)))
        }
    }

    /// What `json!` takes as an expression.
    pub fn member(
        members: &mut Map<String, Value>,
        name: &str,
        value: impl Into<Value>,
    ) -> Result<(), AllocError> {
        members.insert(String::from(std::string::String::from(name)), value.into())?;
        Ok(())
    }

    macro_rules! json {
        (in $alloc:expr; {$($name:tt : $value:tt $(. $field:ident)*),* $(,)?}) => {{
            let mut members = crate::serde_json::Map::new($alloc);
            $({
                let value = crate::serde_json::json!(@ $value $(. $field)*);
                crate::serde_json::member(&mut members, $name, value).unwrap();
            })*
            Ok::<_, crate::plain_std::AllocError>(crate::serde_json::Value::Object(members))
        }};
        (@ [$($item:tt $(. $field:ident)*),* $(,)?]) => {{
            let mut items = crate::plain_std::Vec::new(crate::plain_std::Global);
            $(items.push(crate::serde_json::json!(@ $item $(. $field)*)).unwrap();)*
            crate::serde_json::Value::Array(items)
        }};
        (@ {$($inner:tt)*}) => { crate::serde_json::json!(in crate::plain_std::Global; {$($inner)*}).unwrap() };
        (@ $value:tt $(. $field:ident)*) => { crate::serde_json::Value::from($value $(. $field)*) };
    }
    pub(crate) use json;

    pub fn push(items: &mut Vec<Value>, item: Value) -> Result<(), AllocError> {
        items.push(item).map_err(|_| AllocError)
    }
}

fn main() -> std::process::ExitCode {
    crate::arterial::main(crate::plain_edge::HostRuntime)
}
