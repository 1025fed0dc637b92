//! Prints what the Rust crate answers for some thousand records, for a replay: see `main` for what they are.
//! A line is a record in hex and four answers: version 3 strict, version 3 permissive, version 4 strict, version 4
//! permissive; `=` for the answer before. An answer is `NUMBER@OFFSET` of a refusal, or the fields of the entry in hex,
//! then each byte that is another when the crate writes the entry again, as its place and its value.
//! A line `every RECORD BYTE DIGEST` stands for the 255 records with another value in that byte: the digest (FNV-1a, 64
//! bits) is over their answers, values ascending, each followed by a line feed.
use cfb::internal::*;
use std::collections::BTreeMap;

struct Rng(u64);

impl Rng {
    fn next(&mut self) -> u64 {
        let mut x = self.0;
        x ^= x << 13;
        x ^= x >> 7;
        x ^= x << 17;
        self.0 = x;
        x.wrapping_mul(0x2545F4914F6CDD1D) >> 8
    }
    fn below(&mut self, n: u64) -> u64 {
        self.next() % n
    }
    fn pick<T: Copy>(&mut self, from: &[T]) -> T {
        from[self.below(from.len() as u64) as usize]
    }
}

type Record = [u8; 128];
const NO: u32 = u32::MAX;

/// The refusal that an error's text tells of, with the offset of its field.
fn refusal(text: &str) -> &'static str {
    let table = [
        ("name length too large", "20@64"),
        ("odd name length", "21@64"),
        ("name not null-terminated", "22@0"),
        ("name not valid UTF-16", "23@0"),
        ("invalid object type", "24@66"),
        ("root entry name is", "25@0"),
        ("Object name cannot contain", "26@0"),
        ("invalid color", "27@67"),
        ("invalid left sibling", "28@68"),
        ("invalid right sibling", "28@72"),
        ("invalid child", "28@76"),
        ("non-empty stream child", "29@76"),
        ("non-null stream CLSID", "30@80"),
        ("non-zero stream creation time", "31@100"),
        ("non-zero stream modified time", "31@108"),
        ("non-zero storage start sector", "32@116"),
        ("non-zero storage stream length", "33@120"),
    ];
    match table.iter().find(|(words, _)| text.contains(words)) {
        Some((_, answer)) => answer,
        None => panic!("no number for: {text}"),
    }
}

fn hex(bytes: &[u8]) -> String {
    bytes.iter().map(|b| format!("{b:02x}")).collect()
}

fn time(t: Timestamp) -> u64 {
    let mut bytes = Vec::new();
    t.write_to(&mut bytes).unwrap();
    u64::from_le_bytes(bytes.try_into().unwrap())
}

fn clsid(e: &DirEntry) -> Vec<u8> {
    let (a, b, c, d) = e.clsid.as_fields();
    [&a.to_le_bytes()[..], &b.to_le_bytes()[..], &c.to_le_bytes()[..], &d[..]].concat()
}

fn answer(record: &Record, version: Version, validation: Validation) -> String {
    match DirEntry::read_from(&mut &record[..], version, validation) {
        Err(e) => refusal(&e.to_string()).to_string(),
        Ok(e) => {
            let name: String = e.name.encode_utf16().map(|u| format!("{u:04x}")).collect();
            let mut written = Vec::new();
            e.write_to(&mut written).unwrap();
            let again: String = (0..128).filter(|&i| written[i] != record[i]).map(|i| format!("{i:02x}{:02x}", written[i])).collect();
            format!(
                "{name}.{:x}.{:x}.{:x}.{:x}.{:x}.{}.{:x}.{:x}.{:x}.{:x}.{:x}.{again}",
                e.obj_type.as_byte(), e.color.as_byte(), e.left_sibling, e.right_sibling, e.child, hex(&clsid(&e)),
                e.state_bits, time(e.creation_time), time(e.modified_time), e.start_sector, e.stream_len
            )
        }
    }
}

fn put(record: &mut Record, at: usize, bytes: &[u8]) {
    record[at..at + bytes.len()].copy_from_slice(bytes);
}

fn put_name(record: &mut Record, name: &[u16]) {
    record[..64].fill(0);
    for (i, u) in name.iter().enumerate() {
        put(record, 2 * i, &u.to_le_bytes());
    }
    put(record, 64, &(2 * name.len() as u16 + 2).to_le_bytes());
}

fn unit(r: &mut Rng) -> u16 {
    match r.below(8) {
        0 => 0xe9,
        1 => 0x434,
        2 => 0xe000 + r.below(0x1000) as u16,
        3 => 0x20 + r.below(0x5f) as u16,
        _ => 97 + r.below(26) as u16,
    }
}

/// A name that no record is refused for.
fn name(r: &mut Rng) -> Vec<u16> {
    let mut units = Vec::new();
    let len = r.pick(&[0, 1, 1, 2, 3, 5, 8, 10, 15, 30, 31]);
    while units.len() < len {
        if r.below(6) == 0 && units.len() + 1 < len {
            units.push(0xd800 + r.below(0x400) as u16);
            units.push(0xdc00 + r.below(0x400) as u16);
        } else {
            let u = unit(r);
            units.push(if [47, 92, 58, 33].contains(&u) { 95 } else { u });
        }
    }
    units
}

fn link(r: &mut Rng) -> u32 {
    match r.below(4) {
        0 => NO,
        1 => 0xfffffffa,
        2 => r.below(20) as u32,
        _ => r.below(0xfffffffb) as u32,
    }
}

/// A record that both modes read in both versions.
fn valid(r: &mut Rng, kind: u8) -> Record {
    let mut b = [0; 128];
    let units = if kind == 5 { "Root Entry".encode_utf16().collect() } else { name(r) };
    put_name(&mut b, &units);
    b[66] = kind;
    b[67] = r.below(2) as u8;
    for at in [68, 72, 76] {
        let to = if at == 76 && kind == 2 { NO } else { link(r) };
        put(&mut b, at, &to.to_le_bytes());
    }
    if kind != 2 && r.below(2) == 0 {
        for at in 80..96 {
            b[at] = r.next() as u8;
        }
    }
    put(&mut b, 96, &(r.next() as u32).to_le_bytes());
    if kind != 2 {
        put(&mut b, 100, &(r.next() << r.below(9)).to_le_bytes());
        put(&mut b, 108, &r.next().to_le_bytes());
    }
    if kind != 1 {
        put(&mut b, 116, &(r.next() as u32).to_le_bytes());
        let len = r.pick(&[0, 1, 64, 4096, 0x7fffffff, 0x80000000, 0xffffffff, 0x100000000, 0x123456789a, u64::MAX]);
        put(&mut b, 120, &len.to_le_bytes());
    }
    b
}

/// The same record with one field put out of order.
fn damaged(r: &mut Rng, mut b: Record) -> Record {
    match r.below(14) {
        0 => put(&mut b, 64, &r.pick(&[0u16, 1, 2, 3, 4, 22, 63, 64, 65, 66, 127, 128, 256, 0x8000, 0xffff]).to_le_bytes()),
        1 => {
            let at = (b[64] as usize).saturating_sub(2).min(62);
            put(&mut b, at, &(1 + r.below(0xd7fe) as u16).to_le_bytes())
        }
        2 => put(&mut b, 2 * r.below(4) as usize, &(0xd800 + r.below(0x800) as u16).to_le_bytes()),
        3 => b[66] = r.pick(&[0, 1, 2, 3, 4, 5, 6, 7, 255]),
        4 => put(&mut b, 2 * r.below(3) as usize, &r.pick(&[47u16, 92, 58, 33, 32, 34, 46, 48, 57, 59, 91, 93]).to_le_bytes()),
        5 => put(&mut b, 0, &"root entry".encode_utf16().flat_map(|u| u.to_le_bytes()).collect::<Vec<_>>()),
        6 => b[67] = r.pick(&[2, 3, 128, 255]),
        7 => put(&mut b, r.pick(&[68, 72, 76]), &(0xfffffff8 + r.below(8) as u32).to_le_bytes()),
        8 => put(&mut b, 76, &r.pick(&[0u32, 1, 0xfffffffa, 0xfffffffb, 0xfffffffe]).to_le_bytes()),
        9 => b[80 + r.below(16) as usize] = 1 + r.below(255) as u8,
        10 => b[100 + r.below(8) as usize] = 1 + r.below(255) as u8,
        11 => b[108 + r.below(8) as usize] = 1 + r.below(255) as u8,
        12 => b[116 + r.below(4) as usize] = 1 + r.below(255) as u8,
        _ => b[120 + r.below(8) as usize] = 1 + r.below(255) as u8,
    }
    b
}

/// The four records of which every byte is changed.
fn bases() -> [Record; 4] {
    let units = |s: &str| s.encode_utf16().collect::<Vec<_>>();
    let mut storage = [0; 128];
    put_name(&mut storage, &units("Saddle"));
    put(&mut storage, 66, &[1, 1]);
    put(&mut storage, 68, &4u32.to_le_bytes());
    put(&mut storage, 72, &NO.to_le_bytes());
    put(&mut storage, 76, &7u32.to_le_bytes());
    put(&mut storage, 80, &[0x10, 0x32, 0x54, 0x76, 0x98, 0xba, 0xdc, 0xfe, 1, 2, 3, 4, 5, 6, 7, 8]);
    put(&mut storage, 96, &3u32.to_le_bytes());
    put(&mut storage, 100, &0x01d9_1234_5678_9abcu64.to_le_bytes());
    put(&mut storage, 108, &0x01d9_1234_5678_9abdu64.to_le_bytes());
    let mut stream = [0; 128];
    put_name(&mut stream, &units("a\u{10000}b"));
    put(&mut stream, 66, &[2, 0]);
    put(&mut stream, 68, &[0xff; 12]);
    put(&mut stream, 96, &9u32.to_le_bytes());
    put(&mut stream, 116, &5u32.to_le_bytes());
    put(&mut stream, 120, &0x1_0000_1000u64.to_le_bytes());
    let mut root = [0; 128];
    put_name(&mut root, &units("Root Entry"));
    put(&mut root, 66, &[5, 1]);
    put(&mut root, 68, &[0xff; 8]);
    put(&mut root, 76, &1u32.to_le_bytes());
    put(&mut root, 108, &0x01d9_0000_0000_0001u64.to_le_bytes());
    put(&mut root, 116, &3u32.to_le_bytes());
    put(&mut root, 120, &640u64.to_le_bytes());
    let mut free = Vec::new();
    DirEntry::unallocated().write_to(&mut free).unwrap();
    [storage, stream, root, free.try_into().unwrap()]
}

/// Records on which the crate and the format's document part, by what they show.
fn differences() -> Vec<(&'static str, Record)> {
    let [storage, stream, root, free] = bases();
    let units = |s: &str| s.encode_utf16().collect::<Vec<_>>();
    let changed = |base: Record, at: usize, bytes: &[u8]| {
        let mut b = base;
        put(&mut b, at, bytes);
        b
    };
    let named = |base: Record, name: &[u16]| {
        let mut b = base;
        put_name(&mut b, name);
        b
    };
    vec![
        ("a free record as it is written: name length 2", free),
        ("a free record with a name length of 0", changed(free, 64, &[0, 0])),
        ("a root with a creation time", changed(root, 100, &1u64.to_le_bytes())),
        ("a stream of 0x80000001 bytes, version 3", changed(stream, 120, &0x8000_0001u64.to_le_bytes())),
        ("a stream with high bits in its length, version 3", stream),
        ("a storage with high bits in its length, version 3", changed(storage, 120, &0x1_0000_0000u64.to_le_bytes())),
        ("a name that holds a null", named(storage, &[97, 0, 98])),
        ("bytes behind the null", changed(storage, 14, &[0x78, 0x79])),
        ("a free record full of garbage", changed(named(storage, &units("gone")), 66, &[0, 1])),
        ("a free record with a forbidden unit left in it", changed(named(free, &units("a/b")), 66, &[0, 0])),
        ("a free record with a colour left in it", changed(free, 67, &[2])),
        ("a storage without a name: name length 2", named(storage, &[])),
        ("a storage without a name: name length 0", changed(named(storage, &[]), 64, &[0, 0])),
        ("a stream with state bits", stream),
        ("a stream without a sector that has a length", changed(stream, 116, &0xffff_ffffu32.to_le_bytes())),
        ("a name of one surrogate", named(storage, &[0xd800])),
    ]
}

fn main() {
    if std::env::args().nth(1).as_deref() == Some("differences") {
        for (what, b) in differences() {
            println!("{what}\n{}", hex(&b));
            for version in [Version::V3, Version::V4] {
                for validation in [Validation::Strict, Validation::Permissive] {
                    println!("  {version:?} {validation:?}: {}", answer(&b, version, validation));
                }
            }
        }
        return;
    }
    let mut r = Rng(0x9E3779B97F4A7C15);
    let mut records: Vec<Record> = Vec::new();
    // a storage, a stream, a root and a free record, and each of their bytes changed in three ways
    for base in bases() {
        records.push(base);
        for at in 0..128 {
            for change in [0x01, 0x80, 0xff] {
                let mut b = base;
                b[at] ^= change;
                records.push(b);
            }
        }
    }
    // valid ones, and as many with one field put out of order
    for _ in 0..700 {
        let kind = r.pick(&[0, 1, 1, 2, 2, 5]);
        let b = valid(&mut r, kind);
        records.push(b);
    }
    for _ in 0..1100 {
        let kind = r.pick(&[0, 1, 1, 2, 2, 5, 5]);
        let b = valid(&mut r, kind);
        let b = damaged(&mut r, b);
        records.push(b);
    }
    // random bytes, and random bytes with a type, a colour and a name length that may pass
    for i in 0..300 {
        let mut b = [0; 128];
        b.iter_mut().for_each(|x| *x = r.next() as u8);
        if i % 3 != 0 {
            b[64] = 2 * r.below(34) as u8;
            b[65] = 0;
            b[66] = r.pick(&[0, 1, 2, 5]);
            b[67] = r.below(3) as u8;
            for at in (1..64).step_by(2) {
                b[at] &= 3;
            }
        }
        records.push(b);
    }
    records.extend(differences().into_iter().map(|(_, b)| b));
    let mut met: BTreeMap<String, u32> = BTreeMap::new();
    for b in &records {
        println!("{}{}", hex(b), answers(b, &mut met));
    }
    eprintln!("{} records: {met:?}", records.len());
    // every single-byte change of the four, all 255 values of each byte, as one digest for each byte
    for base in bases() {
        for at in 0..128 {
            let mut digest = 0xcbf2_9ce4_8422_2325u64;
            for value in (0..=255).filter(|&v| v != base[at]) {
                let mut b = base;
                b[at] = value;
                for x in format!("{}\n", &answers(&b, &mut met)[1..]).bytes() {
                    digest = (digest ^ u64::from(x)).wrapping_mul(0x100_0000_01b3);
                }
            }
            println!("every {} {at} {digest:016x}", hex(&base));
        }
    }
    eprintln!("with every single-byte change: {met:?}");
}

/// The four answers for a record, each after a space.
fn answers(record: &Record, met: &mut BTreeMap<String, u32>) -> String {
    let (mut line, mut before) = (String::new(), String::new());
    for version in [Version::V3, Version::V4] {
        for validation in [Validation::Strict, Validation::Permissive] {
            let told = answer(record, version, validation);
            let key = if told.contains('@') { told.clone() } else { "read".to_string() };
            *met.entry(key).or_default() += 1;
            line += " ";
            line += if told == before { "=" } else { &told };
            before = told;
        }
    }
    line
}
