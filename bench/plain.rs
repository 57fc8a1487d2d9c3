//! The same work as the program's, written plainly over the standard library: what a proof costs is measured beside it.
use std::collections::{BTreeMap, BTreeSet, HashMap, HashSet};
use std::io::{self, BufRead, Write};

/// The gateways by name, and the intent.
struct Plain {
    gateways: BTreeMap<String, Gateway>,
    switches: BTreeMap<String, u32>,
    bindings: BTreeMap<(String, String, u16), String>,
    acls: BTreeMap<String, Vec<Entry>>,
    guards: BTreeMap<(String, String, u16), String>,
}

/// An entry of an access list: what is given has to be so.
#[derive(Clone, Default)]
struct Entry {
    sequence: u32,
    egress: bool,
    deny: bool,
    source_mac: Option<[u8; 6]>,
    dest_mac: Option<[u8; 6]>,
    ethertype: Option<u16>,
    source_ip: Option<u32>,
    source_mask: Option<u32>,
    dest_ip: Option<u32>,
    dest_mask: Option<u32>,
    protocol: Option<u8>,
    icmp_type: Option<u8>,
    icmp_code: Option<u8>,
    source_port_min: Option<u16>,
    source_port_max: Option<u16>,
    dest_port_min: Option<u16>,
    dest_port_max: Option<u16>,
    tcp_flags: Option<u16>,
    tcp_flags_mask: Option<u16>,
}

/// What entries look at: source, destination and type, and where they are there the addresses and the protocol of IPv4, ports, flags
/// of TCP, and type and code of ICMP.
struct Headers {
    source: [u8; 6],
    destination: [u8; 6],
    ethertype: u16,
    ip: Option<(u32, u32, u8)>,
    ports: Option<(u16, u16)>,
    flags: Option<u16>,
    icmp: Option<(u8, u8)>,
}

/// Access lists by port and VLAN.
type Lists = HashMap<(String, u16), Vec<Vec<Entry>>>;

struct Gateway {
    name: String,
    ip: u32,
    ports: BTreeMap<String, u64>,
    sessions: BTreeMap<u32, Vec<u8>>,
    database: Database,
    forwarding: Option<Forwarding>,
    lists: Lists,
}

/// Where frames go by the rows of a gateway; switches are numbers of rows.
struct Forwarding {
    bindings: Vec<(String, u16, u64)>,
    networks: BTreeMap<u32, u64>,
    keys: HashMap<u64, u32>,
    addresses: BTreeMap<(u64, String), u32>,
    floods: HashMap<u64, Vec<u32>>,
    names: HashMap<u64, String>,
}

type Row = BTreeMap<String, Json>;

/// Rows by table and number, how often each is named, and the unique keys that stand.
struct Database {
    counter: u64,
    rows: BTreeMap<(&'static str, u64), Row>,
    named: HashMap<u64, u64>,
    keys: HashSet<(&'static str, String)>,
}

#[derive(Clone)]
enum Json {
    Null,
    Bool(bool),
    Number(i64),
    Text(String),
    List(Vec<Json>),
    Object(BTreeMap<String, Json>),
}

struct Refusal {
    column: usize,
    reason: &'static str,
}

type Answer = Result<(), Refusal>;

fn refuse<T>(column: usize, reason: &'static str) -> Result<T, Refusal> {
    Err(Refusal { column, reason })
}

fn words(line: &[u8]) -> Vec<(usize, &[u8])> {
    let mut found = Vec::new();
    let mut start = 0;
    while start < line.len() {
        if line[start] == b' ' {
            start += 1;
            continue;
        }
        let end = line[start..].iter().position(|b| *b == b' ').map_or(line.len(), |n| start + n);
        found.push((start + 1, &line[start..end]));
        start = end;
    }
    found
}

fn digit(byte: u8) -> Option<u8> {
    match byte {
        b'0'..=b'9' => Some(byte - b'0'),
        b'a'..=b'f' => Some(byte - b'a' + 10),
        b'A'..=b'F' => Some(byte - b'A' + 10),
        _ => None,
    }
}

fn bytes_of(word: &[u8]) -> Option<Vec<u8>> {
    if word == b"-" {
        return Some(Vec::new());
    }
    if word.is_empty() || word.len() % 2 != 0 {
        return None;
    }
    word.chunks(2).map(|pair| Some(digit(pair[0])? * 16 + digit(pair[1])?)).collect()
}

fn push_hex(bytes: &[u8], out: &mut Vec<u8>) {
    const DIGITS: &[u8; 16] = b"0123456789abcdef";
    if bytes.is_empty() {
        out.push(b'-');
    }
    for byte in bytes {
        out.push(DIGITS[usize::from(byte >> 4)]);
        out.push(DIGITS[usize::from(byte & 15)]);
    }
}

fn number(word: &[u8], most: u32) -> Option<u32> {
    let text = std::str::from_utf8(word).ok()?;
    if text.len() > 1 && text.starts_with('0') || !text.bytes().all(|b| b.is_ascii_digit()) {
        return None;
    }
    text.parse().ok().filter(|n| *n <= most)
}

fn name(word: &[u8]) -> Option<String> {
    let good = |b: &u8| b.is_ascii_alphanumeric() || matches!(b, b'_' | b'-' | b'.');
    if word.len() > 64 || !word.iter().all(good) {
        return None;
    }
    String::from_utf8(word.to_vec()).ok()
}

fn ipv4(word: &[u8]) -> Option<u32> {
    let parts: Vec<u32> = word.split(|b| *b == b'.').map(|part| number(part, 255)).collect::<Option<_>>()?;
    match parts[..] {
        [a, b, c, d] => Some(a << 24 | b << 16 | c << 8 | d),
        _ => None,
    }
}

fn value<T>(word: (usize, &[u8]), form: impl Fn(&[u8]) -> Option<T>) -> Result<T, Refusal> {
    form(word.1).map_or_else(|| refuse(word.0, "value"), Ok)
}

fn frame_of(bytes: &[u8]) -> Result<(u16, Vec<u8>), (&'static str, usize)> {
    let tagged = bytes.len() >= 14 && bytes[12..14] == [0x81, 0];
    let least = if tagged { 18 } else { 14 };
    if bytes.len() < least {
        return Err(("Short", bytes.len()));
    }
    if !tagged {
        return if bytes.len() > 9216 { Err(("Long", 9216)) } else { Ok((0, bytes.to_vec())) };
    }
    if bytes[16..18] == [0x81, 0] {
        return Err(("SecondTag", 16));
    }
    if bytes.len() > 9220 {
        return Err(("Long", 9220));
    }
    let vlan = u16::from_be_bytes([bytes[14], bytes[15]]) & 0xfff;
    Ok((vlan, [&bytes[..12], &bytes[16..]].concat()))
}

fn headers(b: &[u8]) -> Headers {
    let short = |at: usize| u16::from_be_bytes([b[at], b[at + 1]]);
    let long = |at: usize| u32::from_be_bytes([b[at], b[at + 1], b[at + 2], b[at + 3]]);
    let (destination, source) = (b[..6].try_into().unwrap(), b[6..12].try_into().unwrap());
    let mut read = Headers { source, destination, ethertype: short(12), ip: None, ports: None, flags: None, icmp: None };
    if read.ethertype != 0x0800 || b.len() < 34 || b[14] >> 4 != 4 {
        return read;
    }
    let length = usize::from(b[14] & 15) * 4;
    if length < 20 || b.len() < 14 + length {
        return read;
    }
    let protocol = b[23];
    read.ip = Some((long(26), long(30), protocol));
    let (at, rest) = (14 + length, b.len() - 14 - length);
    if short(20) & 0x1fff != 0 {
        return read;
    }
    if (protocol == 6 || protocol == 17) && rest >= 4 {
        read.ports = Some((short(at), short(at + 2)));
    }
    if protocol == 6 && rest >= 14 {
        read.flags = Some(short(at + 12) & 0x1ff);
    }
    if protocol == 1 && rest >= 2 {
        read.icmp = Some((b[at], b[at + 1]));
    }
    read
}

/// A value is not given, or is there and passes.
fn holds<T, V: Copy>(given: Option<T>, there: Option<V>, test: impl Fn(T, V) -> bool) -> bool {
    given.map_or(true, |wanted| there.is_some_and(|value| test(wanted, value)))
}

impl Entry {
    fn set(&mut self, field: &str, word: &str) -> Option<()> {
        let mac = |word: &str| -> Option<[u8; 6]> {
            let bytes: Vec<u8> = word.split(':').map(|part| u8::from_str_radix(part, 16).ok()).collect::<Option<_>>()?;
            bytes.try_into().ok()
        };
        match field {
            "source_mac" => self.source_mac = Some(mac(word)?),
            "dest_mac" => self.dest_mac = Some(mac(word)?),
            "ethertype" => self.ethertype = Some(u16::from_str_radix(word.strip_prefix("0x")?, 16).ok()?),
            "source_ip" => self.source_ip = Some(ipv4(word.as_bytes())?),
            "source_mask" => self.source_mask = Some(ipv4(word.as_bytes())?),
            "dest_ip" => self.dest_ip = Some(ipv4(word.as_bytes())?),
            "dest_mask" => self.dest_mask = Some(ipv4(word.as_bytes())?),
            "protocol" => self.protocol = Some(word.parse().ok()?),
            "icmp_type" => self.icmp_type = Some(word.parse().ok()?),
            "icmp_code" => self.icmp_code = Some(word.parse().ok()?),
            "source_port_min" => self.source_port_min = Some(word.parse().ok()?),
            "source_port_max" => self.source_port_max = Some(word.parse().ok()?),
            "dest_port_min" => self.dest_port_min = Some(word.parse().ok()?),
            "dest_port_max" => self.dest_port_max = Some(word.parse().ok()?),
            "tcp_flags" => self.tcp_flags = Some(word.parse().ok()?),
            "tcp_flags_mask" => self.tcp_flags_mask = Some(word.parse().ok()?),
            _ => return None,
        }
        Some(())
    }

    fn matches(&self, egress: bool, h: &Headers) -> bool {
        let (source_mask, dest_mask) = (self.source_mask.unwrap_or(u32::MAX), self.dest_mask.unwrap_or(u32::MAX));
        let flags_mask = self.tcp_flags_mask.unwrap_or(511);
        self.egress == egress
            && holds(self.source_mac, Some(h.source), |a, b| a == b)
            && holds(self.dest_mac, Some(h.destination), |a, b| a == b)
            && holds(self.ethertype, Some(h.ethertype), |a, b| a == b)
            && holds(self.source_ip, h.ip, |a, b| a & source_mask == b.0 & source_mask)
            && holds(self.dest_ip, h.ip, |a, b| a & dest_mask == b.1 & dest_mask)
            && holds(self.protocol, h.ip, |a, b| a == b.2)
            && holds(self.source_port_min, h.ports, |a, b| a <= b.0)
            && holds(self.source_port_max, h.ports, |a, b| a >= b.0)
            && holds(self.dest_port_min, h.ports, |a, b| a <= b.1)
            && holds(self.dest_port_max, h.ports, |a, b| a >= b.1)
            && holds(self.tcp_flags, h.flags, |a, b| a & flags_mask == b & flags_mask)
            && holds(self.icmp_type, h.icmp, |a, b| a == b.0)
            && holds(self.icmp_code, h.icmp, |a, b| a == b.1)
    }
}

/// In each list the first entry that matches says whether a frame passes; where none does, it passes.
fn permits(lists: Option<&Vec<Vec<Entry>>>, egress: bool, h: &Headers) -> bool {
    let permits_one = |list: &Vec<Entry>| list.iter().find(|entry| entry.matches(egress, h)).map_or(true, |entry| !entry.deny);
    lists.map_or(true, |lists| lists.iter().all(permits_one))
}

fn tagged(vlan: u16, inner: &[u8]) -> Vec<u8> {
    if vlan == 0 {
        return inner.to_vec();
    }
    [&inner[..12], &[0x81, 0], &vlan.to_be_bytes(), &inner[12..]].concat()
}

struct Reader<'a> {
    text: &'a [u8],
    at: usize,
}

impl Reader<'_> {
    fn space(&mut self) {
        while self.text.get(self.at).is_some_and(|b| b" \t\r\n".contains(b)) {
            self.at += 1;
        }
    }

    fn eat(&mut self, word: &[u8]) -> Option<()> {
        self.text[self.at..].starts_with(word).then(|| self.at += word.len())
    }

    fn string(&mut self) -> Option<String> {
        self.eat(b"\"")?;
        let mut bytes = Vec::new();
        loop {
            let byte = *self.text.get(self.at)?;
            self.at += 1;
            match byte {
                b'"' => return String::from_utf8(bytes).ok(),
                b'\\' => {
                    bytes.push(match *self.text.get(self.at)? {
                        b'n' => b'\n',
                        b't' => b'\t',
                        b'r' => b'\r',
                        other @ (b'"' | b'\\' | b'/') => other,
                        _ => return None,
                    });
                    self.at += 1;
                }
                _ => bytes.push(byte),
            }
        }
    }

    fn number(&mut self) -> Option<Json> {
        let rest = &self.text[self.at..];
        let length = rest.iter().position(|b| !matches!(b, b'-' | b'0'..=b'9')).unwrap_or(rest.len());
        self.at += length;
        std::str::from_utf8(&rest[..length]).ok()?.parse().ok().map(Json::Number)
    }

    fn items(&mut self, close: u8, mut item: impl FnMut(&mut Self) -> Option<()>) -> Option<()> {
        self.at += 1;
        self.space();
        if self.text.get(self.at) == Some(&close) {
            self.at += 1;
            return Some(());
        }
        loop {
            item(self)?;
            self.space();
            self.at += 1;
            match self.text.get(self.at - 1)? {
                b',' => self.space(),
                last if *last == close => return Some(()),
                _ => return None,
            }
        }
    }

    fn value(&mut self) -> Option<Json> {
        self.space();
        match self.text.get(self.at)? {
            b'{' => {
                let mut object = BTreeMap::new();
                self.items(b'}', |reader| {
                    let key = reader.string()?;
                    reader.space();
                    reader.eat(b":")?;
                    object.insert(key, reader.value()?);
                    Some(())
                })?;
                Some(Json::Object(object))
            }
            b'[' => {
                let mut list = Vec::new();
                self.items(b']', |reader| {
                    list.push(reader.value()?);
                    Some(())
                })?;
                Some(Json::List(list))
            }
            b'"' => self.string().map(Json::Text),
            b'n' => self.eat(b"null").map(|()| Json::Null),
            b't' => self.eat(b"true").map(|()| Json::Bool(true)),
            b'f' => self.eat(b"false").map(|()| Json::Bool(false)),
            _ => self.number(),
        }
    }
}

impl Json {
    fn item(&self, at: usize) -> Option<&Json> {
        match self {
            Json::List(list) => list.get(at),
            _ => None,
        }
    }

    fn member(&self, key: &str) -> Option<&Json> {
        match self {
            Json::Object(object) => object.get(key),
            _ => None,
        }
    }

    fn text(&self) -> Option<&str> {
        match self {
            Json::Text(text) => Some(text),
            _ => None,
        }
    }

    fn write(&self, out: &mut Vec<u8>) {
        match self {
            Json::Null => out.extend_from_slice(b"null"),
            Json::Bool(true) => out.extend_from_slice(b"true"),
            Json::Bool(false) => out.extend_from_slice(b"false"),
            Json::Number(number) => out.extend_from_slice(number.to_string().as_bytes()),
            Json::Text(text) => write_text(text, out),
            Json::List(list) => {
                out.push(b'[');
                for (at, item) in list.iter().enumerate() {
                    if at > 0 {
                        out.push(b',');
                    }
                    item.write(out);
                }
                out.push(b']');
            }
            Json::Object(object) => {
                out.push(b'{');
                for (at, (key, item)) in object.iter().enumerate() {
                    if at > 0 {
                        out.push(b',');
                    }
                    write_text(key, out);
                    out.push(b':');
                    item.write(out);
                }
                out.push(b'}');
            }
        }
    }
}

fn write_text(text: &str, out: &mut Vec<u8>) {
    out.push(b'"');
    for byte in text.bytes() {
        if matches!(byte, b'"' | b'\\') {
            out.push(b'\\');
        }
        out.push(byte);
    }
    out.push(b'"');
}

fn object(members: Vec<(&str, Json)>) -> Json {
    Json::Object(members.into_iter().map(|(key, value)| (key.to_string(), value)).collect())
}

fn text(text: &str) -> Json {
    Json::Text(text.to_string())
}

/// The length of the first message, where the stream has all of it.
fn message_end(stream: &[u8]) -> Option<usize> {
    let (mut depth, mut quoted, mut escaped) = (0, false, false);
    for (at, byte) in stream.iter().enumerate() {
        match byte {
            _ if escaped => escaped = false,
            b'\\' if quoted => escaped = true,
            b'"' => quoted = !quoted,
            b'{' | b'[' if !quoted => depth += 1,
            b'}' | b']' if !quoted => {
                depth -= 1;
                if depth == 0 {
                    return Some(at + 1);
                }
            }
            _ => {}
        }
    }
    None
}

fn id_of(ip: u32, number: u64) -> Json {
    Json::List(vec![text("uuid"), Json::Text(format!("{ip:08x}-0000-8000-8000-{number:012x}"))])
}

fn ip_text(ip: u32) -> String {
    let [a, b, c, d] = ip.to_be_bytes();
    format!("{a}.{b}.{c}.{d}")
}

/// The columns of a table with their defaults.
fn defaults(table: &str) -> Option<(&'static str, Row)> {
    let empty = || Json::List(vec![text("set"), Json::List(Vec::new())]);
    let (name, columns): (_, &[(&str, Option<&str>)]) = match table {
        "ACL_entry" => ("ACL_entry", &[]),
        "Logical_Switch" => ("Logical_Switch", &[("description", Some("")), ("name", Some("")), ("replication_mode", None), ("tunnel_key", None)]),
        "Mcast_Macs_Remote" => ("Mcast_Macs_Remote", &[("ipaddr", Some(""))]),
        "Physical_Locator" => ("Physical_Locator", &[]),
        "Physical_Locator_Set" => ("Physical_Locator_Set", &[]),
        "Physical_Port" => ("Physical_Port", &[("description", Some(""))]),
        "Ucast_Macs_Remote" => ("Ucast_Macs_Remote", &[("ipaddr", Some(""))]),
        _ => return None,
    };
    Some((name, columns.iter().map(|(column, value)| (column.to_string(), value.map_or_else(empty, text))).collect()))
}

/// The number of the row that a value names.
fn reference(value: &Json) -> Option<u64> {
    match value {
        Json::List(pair) => match &pair[..] {
            [Json::Text(word), Json::Text(id)] if word == "uuid" => u64::from_str_radix(id.get(24..)?, 16).ok(),
            _ => None,
        },
        _ => None,
    }
}

/// The numbers of all rows that a value names: one, those of a set, or those of a map.
fn references(value: &Json) -> Vec<u64> {
    if let Some(number) = reference(value) {
        return vec![number];
    }
    match (value.item(0).and_then(Json::text), value.item(1)) {
        (Some("set"), Some(Json::List(items))) => items.iter().filter_map(reference).collect(),
        (Some("map"), Some(Json::List(pairs))) => pairs.iter().filter_map(|pair| reference(pair.item(1)?)).collect(),
        _ => Vec::new(),
    }
}

/// A value in which the names of new rows stand for their numbers.
fn resolved(value: &Json, names: &HashMap<String, Json>) -> Json {
    let Json::List(items) = value else { return value.clone() };
    let name = value.item(1).and_then(Json::text).filter(|_| value.item(0).and_then(Json::text) == Some("named-uuid"));
    match name.and_then(|name| names.get(name)) {
        Some(id) => id.clone(),
        None => Json::List(items.iter().map(|item| resolved(item, names)).collect()),
    }
}

fn unique_keys(table: &'static str, row: &Row) -> Vec<(&'static str, String)> {
    let columns: &[&[&str]] = match table {
        "Logical_Switch" => &[&["name"], &["tunnel_key"]],
        "Physical_Locator" => &[&["dst_ip"]],
        "Physical_Port" => &[&["name"]],
        "Ucast_Macs_Remote" | "Mcast_Macs_Remote" => &[&["logical_switch", "MAC"]],
        _ => &[],
    };
    let mut keys = Vec::new();
    for (at, columns) in columns.iter().enumerate() {
        let mut key = vec![b'0' + at as u8];
        for column in *columns {
            match row.get(*column) {
                Some(Json::List(pair)) if matches!(&pair[..], [Json::Text(word), _] if word == "set") => key.clear(),
                Some(value) => value.write(&mut key),
                None => {}
            }
        }
        if !key.is_empty() {
            keys.push((table, String::from_utf8(key).unwrap()));
        }
    }
    keys
}

impl Database {
    fn put(&mut self, table: &'static str, number: u64, row: Row) -> bool {
        let mut unique = true;
        for key in unique_keys(table, &row) {
            unique &= self.keys.insert(key);
        }
        for number in row.values().flat_map(references) {
            *self.named.entry(number).or_insert(0) += 1;
        }
        self.rows.insert((table, number), row);
        unique
    }

    fn take(&mut self, table: &'static str, number: u64) -> Option<Row> {
        let row = self.rows.remove(&(table, number))?;
        for key in unique_keys(table, &row) {
            self.keys.remove(&key);
        }
        for number in row.values().flat_map(references) {
            if let Some(count) = self.named.get_mut(&number) {
                *count -= 1;
            }
        }
        Some(row)
    }

    /// The rows of a table, by number.
    fn rows_of(&self, table: &'static str) -> impl Iterator<Item = (u64, &Row)> {
        self.rows.range((table, 0)..=(table, u64::MAX)).map(|((_, number), row)| (*number, row))
    }

    /// Runs insertions, and updates, deletions and selections by identifier. What has to be named and is not goes at the end.
    fn transact(&mut self, ip: u32, operations: &[Json]) -> Option<Vec<Json>> {
        let id_of = |number: u64| id_of(ip, number);
        let (before, mut results, mut names) = (self.counter, Vec::new(), HashMap::new());
        let (mut came, mut went, mut error) = (Vec::new(), Vec::new(), None);
        let mut next = self.counter;
        for operation in operations.iter().filter(|o| o.member("op").and_then(Json::text) == Some("insert")) {
            next += 1;
            if let Some(name) = operation.member("uuid-name").and_then(Json::text) {
                names.insert(name.to_string(), id_of(next));
            }
        }
        for operation in operations {
            if error.is_some() {
                results.push(Json::Null);
                continue;
            }
            let wanted = || reference(operation.member("where")?.item(0)?.item(2)?);
            match operation.member("op")?.text()? {
                "insert" => {
                    self.counter += 1;
                    let (table, mut row) = defaults(operation.member("table")?.text()?)?;
                    let Json::Object(given) = operation.member("row")? else { return None };
                    for (column, value) in given {
                        row.insert(column.clone(), resolved(value, &names));
                    }
                    if !self.put(table, self.counter, row) {
                        return None;
                    }
                    came.push((table, self.counter));
                    results.push(object(vec![("uuid", id_of(self.counter))]));
                }
                "update" => {
                    let (table, _) = defaults(operation.member("table")?.text()?)?;
                    let number = wanted()?;
                    let Json::Object(given) = operation.member("row")? else { return None };
                    let old = self.take(table, number);
                    if let Some(old) = &old {
                        let mut row = old.clone();
                        for (column, value) in given {
                            row.insert(column.clone(), resolved(value, &names));
                        }
                        if !self.put(table, number, row) {
                            return None;
                        }
                    }
                    results.push(object(vec![("count", Json::Number(old.is_some() as i64))]));
                }
                "delete" => {
                    let (table, _) = defaults(operation.member("table")?.text()?)?;
                    let number = wanted()?;
                    let row = self.take(table, number);
                    results.push(object(vec![("count", Json::Number(row.is_some() as i64))]));
                    went.extend(row.map(|row| (table, number, row)));
                }
                "select" => {
                    let (table, _) = defaults(operation.member("table")?.text()?)?;
                    let number = wanted()?;
                    let rows = self.rows.get(&(table, number)).map(|row| {
                        let mut row = row.clone();
                        row.insert("_uuid".to_string(), id_of(number));
                        Json::Object(row)
                    });
                    results.push(object(vec![("rows", Json::List(rows.into_iter().collect()))]));
                }
                "abort" => error = Some("aborted"),
                _ => return None,
            }
            if let Some(word) = error {
                results.push(object(vec![("error", text(word))]));
            }
        }
        let there = |named: &HashMap<u64, u64>, number: &u64| named.get(number).is_some_and(|count| *count > 0);
        if error.is_some() {
            for (table, number) in came {
                self.take(table, number);
            }
            for (table, number, row) in went {
                self.put(table, number, row);
            }
            self.counter = before;
            return Some(results);
        }
        for (table, number) in came {
            if matches!(table, "ACL_entry" | "Physical_Locator" | "Physical_Locator_Set") && !there(&self.named, &number) {
                self.take(table, number);
            }
        }
        if went.iter().any(|(_, number, _)| there(&self.named, number)) {
            return None;
        }
        Some(results)
    }
}

impl Forwarding {
    fn of(database: &Database) -> Option<Forwarding> {
        let (mut bindings, mut networks, mut keys, mut names) = (Vec::new(), BTreeMap::new(), HashMap::new(), HashMap::new());
        for (_, row) in database.rows_of("Physical_Port") {
            let Some(Json::List(pairs)) = row.get("vlan_bindings").and_then(|map| map.item(1)) else { continue };
            for pair in pairs {
                let Some(Json::Number(vlan)) = pair.item(0) else { return None };
                bindings.push((row.get("name")?.text()?.to_string(), *vlan as u16, reference(pair.item(1)?)?));
            }
        }
        bindings.sort();
        for (number, row) in database.rows_of("Logical_Switch") {
            if let (true, Some(Json::Number(key))) = (bindings.iter().any(|(_, _, switch)| *switch == number), row.get("tunnel_key")) {
                networks.insert(*key as u32, number);
                keys.insert(number, *key as u32);
            }
            names.insert(number, row.get("name")?.text()?.to_string());
        }
        let locator = |number: u64| ipv4(database.rows.get(&("Physical_Locator", number))?.get("dst_ip")?.text()?.as_bytes());
        let mut addresses = BTreeMap::new();
        for (_, row) in database.rows_of("Ucast_Macs_Remote") {
            let place = (reference(row.get("logical_switch")?)?, row.get("MAC")?.text()?.to_string());
            addresses.insert(place, locator(reference(row.get("locator")?)?)?);
        }
        let mut floods = HashMap::new();
        for (_, row) in database.rows_of("Mcast_Macs_Remote") {
            let set = database.rows.get(&("Physical_Locator_Set", reference(row.get("locator_set")?)?))?;
            let mut ips: Vec<u32> = references(set.get("locators")?).into_iter().map(locator).collect::<Option<_>>()?;
            ips.sort();
            floods.insert(reference(row.get("logical_switch")?)?, ips);
        }
        Some(Forwarding { bindings, networks, keys, addresses, floods, names })
    }

    /// Where a frame of a port goes: to ports of the gateway, and in packets to addresses.
    fn flood(&self, name: &str, lists: &Lists, port: &str, vlan: u16, inner: &[u8], out: &mut Vec<u8>) -> (u32, Vec<u32>) {
        let Some((_, _, switch)) = self.bindings.iter().find(|(p, v, _)| p == port && *v == vlan) else {
            out.extend_from_slice(format!("drop {name} unbound\n").as_bytes());
            return (0, Vec::new());
        };
        let read = headers(inner);
        let guards = if lists.is_empty() { None } else { lists.get(&(port.to_string(), vlan)) };
        if !permits(guards, false, &read) {
            out.extend_from_slice(format!("drop {name} acl\n").as_bytes());
            return (0, Vec::new());
        }
        if inner[..6] == inner[6..12] {
            return (0, Vec::new());
        }
        let key = self.keys.get(switch);
        if inner[0] & 1 == 0 && !self.addresses.is_empty() {
            let mac: Vec<String> = inner[..6].iter().map(|b| format!("{b:02x}")).collect();
            if let Some(ip) = self.addresses.get(&(*switch, mac.join(":"))) {
                return (key.copied().unwrap_or(0), key.map_or_else(Vec::new, |_| vec![*ip]));
            }
        }
        self.leave(name, lists, *switch, Some((port, vlan)), inner, &read, out);
        (key.copied().unwrap_or(0), key.and_then(|_| self.floods.get(switch)).cloned().unwrap_or_default())
    }

    fn leave(&self, name: &str, lists: &Lists, switch: u64, entered: Option<(&str, u16)>, inner: &[u8], read: &Headers, out: &mut Vec<u8>) {
        for (p, v, s) in &self.bindings {
            let guards = if lists.is_empty() { None } else { lists.get(&(p.clone(), *v)) };
            if *s == switch && entered != Some((p.as_str(), *v)) && permits(guards, true, read) {
                out.extend_from_slice(b"out ");
                out.extend_from_slice(name.as_bytes());
                out.push(b' ');
                out.extend_from_slice(p.as_bytes());
                out.push(b' ');
                push_hex(&tagged(*v, inner), out);
                out.push(b'\n');
            }
        }
    }

    fn show(&self, name: &str, ip: u32, out: &mut Vec<u8>) {
        let mut lines = vec![format!("show {name} {}", ip_text(ip))];
        lines.extend(self.networks.iter().map(|(key, switch)| format!("vni {key} \"{}\"", self.names[switch])));
        lines.extend(self.bindings.iter().map(|(port, vlan, switch)| format!("bind {port} {vlan} \"{}\"", self.names[switch])));
        let bound = |switch: &u64| self.bindings.iter().any(|(_, _, s)| s == switch);
        let mut floods: Vec<_> = self.floods.iter().filter(|(switch, _)| bound(switch)).map(|(switch, ips)| (&self.names[switch], ips)).collect();
        floods.sort();
        for (switch, ips) in floods {
            let ips: Vec<String> = ips.iter().map(|ip| ip_text(*ip)).collect();
            lines.push(format!("flood \"{switch}\" unknown-dst {}", ips.join(" ")));
        }
        for line in lines {
            out.extend_from_slice(line.as_bytes());
            out.push(b'\n');
        }
    }
}

impl Gateway {
    fn new(name: String, ip: u32) -> Gateway {
        let database = Database { counter: 2, rows: BTreeMap::new(), named: HashMap::new(), keys: HashSet::new() };
        Gateway { name, ip, ports: BTreeMap::new(), sessions: BTreeMap::new(), database, forwarding: None, lists: HashMap::new() }
    }

    fn answer(&mut self, message: &[u8]) -> Option<Json> {
        let message = Reader { text: message, at: 0 }.value()?;
        let Json::Object(mut members) = message else { return None };
        let id = members.remove("id")?;
        let Json::List(params) = members.remove("params")? else { return None };
        let result = match (members.get("method")?.text()?, &params[..]) {
            ("transact", [Json::Text(name), operations @ ..]) if name == "hardware_vtep" => self.database.transact(self.ip, operations)?,
            _ => return None,
        };
        Some(object(vec![("error", Json::Null), ("id", id), ("result", Json::List(result))]))
    }

    /// Answers each whole message of a session's stream. What frames go by is made anew when the next one comes.
    fn take(&mut self, session: u32, piece: &[u8], out: &mut Vec<u8>) {
        let mut stream = self.sessions.remove(&session).unwrap_or_default();
        stream.extend_from_slice(piece);
        self.forwarding = None;
        while let Some(end) = message_end(&stream) {
            let rest = stream.split_off(end);
            let answer = self.answer(&stream);
            if let (Some(answer), true) = (answer, session != 0) {
                out.extend_from_slice(format!("rpc {} {session} ", self.name).as_bytes());
                answer.write(out);
                out.push(b'\n');
            }
            stream = rest;
        }
        self.sessions.insert(session, stream);
    }

    fn port(&mut self, port: String) {
        let (table, mut row) = defaults("Physical_Port").unwrap();
        self.database.counter += 1;
        row.insert("name".to_string(), Json::Text(port.clone()));
        self.database.put(table, self.database.counter, row);
        self.ports.insert(port, self.database.counter);
    }

    /// Name, address, what frames go by, and the access lists.
    fn parts(&mut self) -> (&str, u32, &Forwarding, &Lists) {
        let Gateway { name, ip, database, forwarding, lists, .. } = self;
        (name, *ip, forwarding.get_or_insert_with(|| Forwarding::of(database).unwrap()), lists)
    }

    /// A packet from the underlay is read, and its frame leaves at the ports of its network's switch.
    fn underlay(&mut self, packet: &[u8], out: &mut Vec<u8>) {
        let (name, ip, forwarding, lists) = self.parts();
        let drop = match packet_of(packet) {
            Err((kind, at)) => format!("packet {kind} {at}"),
            Ok(_) if destination(packet) != ip => "address".to_string(),
            Ok((vni, inner)) => match forwarding.networks.get(&vni) {
                None => "vni".to_string(),
                Some(_) if inner[..6] == inner[6..12] => return,
                Some(switch) => return forwarding.leave(name, lists, *switch, None, inner, &headers(inner), out),
            },
        };
        out.extend_from_slice(format!("drop {name} {drop}\n").as_bytes());
    }
}

/// An insertion, whose row other operations name by its number.
fn insert(table: &str, number: usize, row: Vec<(&str, Json)>) -> Json {
    object(vec![("op", text("insert")), ("table", text(table)), ("row", object(row)), ("uuid-name", Json::Text(format!("r{number}")))])
}

fn named(number: usize) -> Json {
    Json::List(vec![text("named-uuid"), Json::Text(format!("r{number}"))])
}

fn collected(word: &str, items: Vec<Json>) -> Json {
    Json::List(vec![text(word), Json::List(items)])
}

impl Plain {
    fn new() -> Plain {
        Plain { gateways: BTreeMap::new(), switches: BTreeMap::new(), bindings: BTreeMap::new(), acls: BTreeMap::new(), guards: BTreeMap::new() }
    }

    fn at(&mut self, word: (usize, &[u8])) -> Result<&mut Gateway, Refusal> {
        let found = std::str::from_utf8(word.1).ok().and_then(|name| self.gateways.get_mut(name));
        found.map_or_else(|| refuse(word.0, "unknown"), Ok)
    }

    fn rpc(&mut self, w: &[(usize, &[u8])], out: &mut Vec<u8>) -> Answer {
        let session = value(w[2], |word| number(word, u32::MAX))?;
        let piece = value(w[3], bytes_of)?;
        self.at(w[1])?.take(session, &piece, out);
        Ok(())
    }

    fn frame(&mut self, w: &[(usize, &[u8])], out: &mut Vec<u8>) -> Answer {
        let port = value(w[2], name)?;
        let bytes = value(w[3], bytes_of)?;
        let gateway = self.at(w[1])?;
        if !gateway.ports.contains_key(&port) {
            return refuse(w[2].0, "unknown");
        }
        let (name, ip, forwarding, lists) = gateway.parts();
        let (vlan, inner) = match frame_of(&bytes) {
            Ok(read) => read,
            Err((kind, at)) => {
                out.extend_from_slice(format!("drop {name} frame {kind} {at}\n").as_bytes());
                return Ok(());
            }
        };
        let (vni, ips) = forwarding.flood(name, lists, &port, vlan, &inner, out);
        let packets: Vec<Vec<u8>> = ips.iter().map(|to| packet(ip, *to, vni, &inner)).collect();
        for packet in packets {
            let to = destination(&packet);
            match self.gateways.values_mut().find(|gateway| gateway.ip == to) {
                Some(gateway) => gateway.underlay(&packet, out),
                None => out.extend_from_slice(format!("lost {}\n", ip_text(to)).as_bytes()),
            }
        }
        Ok(())
    }

    /// The switches that each gateway has bindings of, at ports that are there.
    fn wanted(&self) -> BTreeMap<&str, BTreeSet<&str>> {
        let at = |gateway: &Gateway| {
            let bindings = self.bindings.iter().filter(|((g, p, _), _)| *g == gateway.name && gateway.ports.contains_key(p));
            bindings.map(|(_, switch)| switch.as_str()).collect()
        };
        self.gateways.iter().map(|(name, gateway)| (name.as_str(), at(gateway))).collect()
    }

    /// What a gateway is asked to do: locators, switches, the bindings of its ports, and where else each switch is.
    fn request(&self, gateway: &Gateway, wanted: &BTreeMap<&str, BTreeSet<&str>>) -> Vec<u8> {
        let (mut operations, mut locators, mut switches) = (Vec::new(), BTreeMap::new(), BTreeMap::new());
        let mut floods: Vec<(&str, BTreeSet<u32>)> = Vec::new();
        for switch in &wanted[gateway.name.as_str()] {
            let others = self.gateways.values().filter(|g| g.name != gateway.name && wanted[g.name.as_str()].contains(switch));
            let ips: BTreeSet<u32> = others.map(|g| g.ip).collect();
            floods.push((*switch, ips));
        }
        for ip in floods.iter().flat_map(|(_, ips)| ips).collect::<BTreeSet<_>>() {
            locators.insert(*ip, operations.len());
            let row = vec![("dst_ip", Json::Text(ip_text(*ip))), ("encapsulation_type", text("vxlan_over_ipv4"))];
            operations.push(insert("Physical_Locator", operations.len(), row));
        }
        for switch in &wanted[gateway.name.as_str()] {
            switches.insert(*switch, operations.len());
            let key = Json::Number(i64::from(self.switches[*switch]));
            let row = vec![("name", text(switch)), ("replication_mode", text("source_node")), ("tunnel_key", key)];
            operations.push(insert("Logical_Switch", operations.len(), row));
        }
        let mut next = operations.len();
        for (port, number) in &gateway.ports {
            let from = (gateway.name.clone(), port.clone(), 0);
            let here = self.bindings.range(from..).take_while(|((g, p, _), _)| *g == gateway.name && p == port);
            let pairs: Vec<Json> = here.map(|((_, _, vlan), switch)| Json::List(vec![Json::Number(i64::from(*vlan)), named(switches[switch.as_str()])])).collect();
            if pairs.is_empty() {
                continue;
            }
            let row = object(vec![("acl_bindings", collected("map", Vec::new())), ("vlan_bindings", collected("map", pairs))]);
            let id = Json::List(vec![Json::List(vec![text("_uuid"), text("=="), id_of(gateway.ip, *number)])]);
            operations.push(object(vec![("op", text("update")), ("table", text("Physical_Port")), ("where", id), ("row", row)]));
        }
        for (switch, ips) in floods.iter().filter(|(_, ips)| !ips.is_empty()) {
            let set = collected("set", ips.iter().map(|ip| named(locators[ip])).collect());
            operations.push(insert("Physical_Locator_Set", next, vec![("locators", set)]));
            let row = vec![("MAC", text("unknown-dst")), ("locator_set", named(next)), ("logical_switch", named(switches[switch]))];
            operations.push(insert("Mcast_Macs_Remote", next + 1, row));
            next += 2;
        }
        if operations.is_empty() {
            return Vec::new();
        }
        let mut message = Vec::new();
        let params = [text("hardware_vtep")].into_iter().chain(operations).collect();
        object(vec![("method", text("transact")), ("params", Json::List(params)), ("id", Json::Number(2))]).write(&mut message);
        message
    }

    fn settle(&mut self, out: &mut Vec<u8>) {
        let wanted = self.wanted();
        let requests: Vec<Vec<u8>> = self.gateways.values().map(|gateway| self.request(gateway, &wanted)).collect();
        for (gateway, request) in self.gateways.values_mut().zip(requests) {
            gateway.take(0, &request, out);
            gateway.parts();
            gateway.lists.clear();
        }
        // The lists of a port stand at VLAN 0 for all its VLANs, and the others for their own.
        for ((g, port, vlan), acl) in &self.guards {
            let Some(gateway) = self.gateways.get_mut(g).filter(|gateway| gateway.ports.contains_key(port)) else { continue };
            let bound: Vec<u16> = self.bindings.keys().filter(|(h, p, v)| h == g && p == port && (*vlan == 0 || v == vlan)).map(|key| key.2).collect();
            for vlan in bound {
                gateway.lists.entry((port.clone(), vlan)).or_default().push(self.acls[acl].clone());
            }
        }
        out.extend_from_slice(b"settled\n");
    }

    fn run(&mut self, w: &[(usize, &[u8])], out: &mut Vec<u8>) -> Answer {
        match w[0].1 {
            b"gateway" => {
                let name = value(w[1], name)?;
                self.gateways.insert(name.clone(), Gateway::new(name, value(w[2], ipv4)?));
            }
            b"port" => {
                let port = value(w[2], name)?;
                self.at(w[1])?.port(port);
            }
            b"switch" => {
                self.switches.insert(value(w[1], name)?, value(w[2], |t| number(t, 0xff_ffff))?);
            }
            b"bind" => {
                let vlan = value(w[4], |t| number(t, 4095))? as u16;
                self.bindings.insert((value(w[2], name)?, value(w[3], name)?, vlan), value(w[1], name)?);
            }
            b"acl" => {
                let words: Vec<&str> = w.iter().filter_map(|word| std::str::from_utf8(word.1).ok()).collect();
                let mut entry = Entry { sequence: value(w[2], |t| number(t, u32::MAX))?, egress: words[3] == "out", deny: words[4] == "deny", ..Entry::default() };
                for (given, word) in words[5..].iter().zip(&w[5..]) {
                    given.split_once('=').and_then(|(field, text)| entry.set(field, text)).map_or_else(|| refuse(word.0, "value"), Ok)?;
                }
                let entries = self.acls.entry(words[1].to_string()).or_default();
                let place = entries.partition_point(|other| other.sequence <= entry.sequence);
                entries.insert(place, entry);
            }
            b"guard" => {
                let vlan = value(w[3], |t| number(t, 4095))? as u16;
                self.guards.insert((value(w[1], name)?, value(w[2], name)?, vlan), value(w[4], name)?);
            }
            b"settle" => self.settle(out),
            b"frame" => self.frame(w, out)?,
            b"show" => {
                let (name, ip, forwarding, _) = self.at(w[1])?.parts();
                forwarding.show(name, ip, out);
            }
            b"rpc" => self.rpc(w, out)?,
            _ => return refuse(w[0].0, "command"),
        }
        Ok(())
    }
}

fn sum(bytes: &[u8]) -> u32 {
    let mut sum: u32 = bytes.chunks(2).map(|pair| u32::from(pair[0]) << 8 | u32::from(pair[1])).sum();
    while sum > 0xffff {
        sum = (sum & 0xffff) + (sum >> 16);
    }
    sum
}

fn packet_of(b: &[u8]) -> Result<(u32, &[u8]), (&'static str, usize)> {
    let word = |at: usize| usize::from(u16::from_be_bytes([b[at], b[at + 1]]));
    let check = |good: bool, kind, at| if good { Ok(()) } else { Err((kind, at)) };
    check(b.len() >= 20, "Short", b.len())?;
    check(b[0] >> 4 == 4, "Version", 0)?;
    let h = usize::from(b[0] & 15) * 4;
    check(h >= 20 && h <= b.len(), "HeaderLength", 0)?;
    let t = word(2);
    check(t >= h && t <= b.len(), "TotalLength", 2)?;
    check(sum(&b[..h]) == 0xffff, "Checksum", 10)?;
    check(word(6) & 0x3fff == 0, "Fragment", 6)?;
    check(b[9] == 17, "Protocol", 9)?;
    check(t >= h + 8, "Short", t)?;
    check(word(h + 2) == 4789, "Port", h + 2)?;
    let u = word(h + 4);
    check(u >= 16 && u <= t - h, "UdpLength", h + 4)?;
    check(b[h + 8] & 8 != 0, "NoVni", h + 8)?;
    check(u >= 30, "InnerShort", h + u)?;
    check(b[h + 28..h + 30] != [0x81, 0], "InnerTag", h + 28)?;
    check(u <= 9232, "InnerLong", h + 9232)?;
    Ok((u32::from_be_bytes([0, b[h + 12], b[h + 13], b[h + 14]]), &b[h + 16..h + u]))
}

fn destination(packet: &[u8]) -> u32 {
    u32::from_be_bytes([packet[16], packet[17], packet[18], packet[19]])
}

/// The packet that carries a frame.
fn packet(from: u32, to: u32, vni: u32, inner: &[u8]) -> Vec<u8> {
    let length = (36 + inner.len()) as u16;
    let mut header = vec![0x45, 0, 0, 0, 0, 0, 0x40, 0, 64, 17, 0, 0];
    header[2..4].copy_from_slice(&length.to_be_bytes());
    header.extend_from_slice(&from.to_be_bytes());
    header.extend_from_slice(&to.to_be_bytes());
    let check = 0xffff - sum(&header) as u16;
    header[10..12].copy_from_slice(&check.to_be_bytes());
    let port = 49152 + inner[..14].iter().map(|b| u16::from(*b)).sum::<u16>() % 16384;
    for word in [port, 4789, length - 20, 0] {
        header.extend_from_slice(&word.to_be_bytes());
    }
    header.extend_from_slice(&[8, 0, 0, 0]);
    header.extend_from_slice(&(vni << 8).to_be_bytes());
    header.extend_from_slice(inner);
    header
}

fn show(bytes: &[u8], out: &mut Vec<u8>) {
    match packet_of(bytes) {
        Ok((vni, inner)) => {
            let b = bytes;
            let text = format!("packet {}.{}.{}.{} {}.{}.{}.{} {vni} ", b[12], b[13], b[14], b[15], b[16], b[17], b[18], b[19]);
            out.extend_from_slice(text.as_bytes());
            push_hex(inner, out);
            out.push(b'\n');
        }
        Err((kind, at)) => out.extend_from_slice(format!("refused {kind} {at}\n").as_bytes()),
    }
}

fn main() -> io::Result<()> {
    let inspect = std::env::args().nth(1).as_deref() == Some("inspect");
    let mut input = io::BufReader::with_capacity(1 << 16, io::stdin().lock());
    let mut output = io::BufWriter::with_capacity(1 << 16, io::stdout().lock());
    let (mut plain, mut out, mut line, mut count, mut open) = (Plain::new(), Vec::new(), Vec::new(), 0u64, false);
    loop {
        line.clear();
        if input.read_until(b'\n', &mut line)? == 0 {
            break;
        }
        count += 1;
        let text = line.strip_suffix(b"\n").unwrap_or(&line);
        let w = words(text);
        if w.is_empty() || w[0].1[0] == b'#' {
            continue;
        }
        let bad = text.iter().position(|b| !(0x20..=0x7e).contains(b));
        let answer = match bad {
            Some(at) => refuse(at + 1, "byte"),
            None if inspect => value(w[0], bytes_of).map(|bytes| show(&bytes, &mut out)),
            None if !open => {
                open = true;
                Ok(())
            }
            None if w[0].1 == b"end" => break,
            None => plain.run(&w, &mut out),
        };
        if let Err(refusal) = answer {
            out.extend_from_slice(format!("refused {count} {} {}\n", refusal.column, refusal.reason).as_bytes());
            output.write_all(&out)?;
            output.flush()?;
            std::process::exit(3);
        }
        output.write_all(&out)?;
        out.clear();
    }
    output.flush()
}
