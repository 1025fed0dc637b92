//! Records the answers of the Rust crate for names and paths, one case a line, for `replay_names` to replay.
//!
//! Lines: `fold FROM TO` a pair of the table, `ascii` or `table` the folding of the lines after it,
//! `compare LEFT RIGHT ORDER` and `key LEFT RIGHT same|other` for two names, `chain PATH NAMES..` or
//! `chain PATH refused` for a path. Names and paths are UTF-16 units in hex, four digits each, `-` for none.
//!
//! The crate's folding is fixed for a process, so it is run once for each: `CFB_FOLD=ascii names ascii`, then
//! `CFB_FOLD=fold80.txt names table`.
use cfb::internal::path::{compare_names, name_chain_from_path, name_key};
use std::cmp::Ordering;
use std::path::Path;

struct Rng(u64);

impl Rng {
    fn next(&mut self, n: usize) -> usize {
        self.0 = self.0.wrapping_mul(6364136223846793005).wrapping_add(1442695040888963407);
        (self.0 >> 33) as usize % n
    }

    fn pick<'a, T>(&mut self, xs: &'a [T]) -> &'a T {
        &xs[self.next(xs.len())]
    }
}

const ASCII: &str = "abzABZ019 _-.~@[`{!:\\";
const LATIN: &str = "àÀéÉÿŸµΜйЙяЯёЁßſı";
const WIDE: &str = "\u{10000}\u{10400}\u{10428}\u{1F600}\u{10FFFF}\u{E000}\u{FFFD}\u{FFFF}";

fn hex(s: &str) -> String {
    let h: String = s.encode_utf16().map(|u| format!("{u:04x}")).collect();
    if h.is_empty() { "-".into() } else { h }
}

/// A name of at most `units` units, from one alphabet or from all of them.
fn name(r: &mut Rng, units: usize) -> String {
    let all = [ASCII, LATIN, WIDE].concat();
    let from: Vec<char> = [ASCII, LATIN, WIDE, all.as_str(), ASCII][r.next(5)].chars().collect();
    let mut s = String::new();
    loop {
        let c = *r.pick(&from);
        if s.encode_utf16().count() + c.len_utf16() > units {
            return s;
        }
        s.push(c);
    }
}

/// The same name with the case of some letters turned, or one character changed.
fn near(r: &mut Rng, s: &str) -> String {
    let mut cs: Vec<char> = s.chars().collect();
    match r.next(3) {
        0 => cs.iter_mut().for_each(|c| if r.next(2) == 0 { *c = c.to_lowercase().next().unwrap() }),
        1 => cs.iter_mut().for_each(|c| if r.next(2) == 0 { *c = c.to_uppercase().next().unwrap() }),
        _ if !cs.is_empty() => {
            let i = r.next(cs.len());
            cs[i] = *r.pick(&ASCII.chars().collect::<Vec<_>>());
        }
        _ => {}
    }
    cs.into_iter().collect()
}

fn pair(r: &mut Rng) -> (String, String) {
    let n = *r.pick(&[0, 1, 1, 2, 2, 3, 4, 5, 8, 30, 31, 31, 32]);
    let a = name(r, n);
    let b = match r.next(4) {
        0 => near(r, &a),
        1 => { let m = *r.pick(&[0, 1, 2, 31, 32]); name(r, m) }
        _ => name(r, n),
    };
    (a, b)
}

fn path(r: &mut Rng) -> String {
    let mut s = String::new();
    if r.next(2) == 0 { s.push('/'); }
    for _ in 0..r.next(9) {
        match r.next(8) {
            0 => s.push_str(".."),
            1 => s.push('.'),
            2 => {}
            3 => s.push_str("..."),
            _ => { let n = 1 + r.next(6); s.push_str(&name(r, n)) }
        }
        if r.next(6) > 0 { s.push('/'); }
    }
    s
}

fn main() {
    let folding = std::env::args().nth(1).expect("ascii or table");
    let table = std::env::var("CFB_FOLD").unwrap();
    if folding == "table" {
        for line in std::fs::read_to_string(&table).unwrap().lines() {
            println!("fold {line}");
        }
    }
    println!("{folding}");
    let mut r = Rng(0x5eed + folding.len() as u64);
    let full = "x".repeat(31);
    let over = "x".repeat(32);
    let wide = "\u{10000}".repeat(15);
    let fixed = [
        ("", ""), ("", "a"), ("B", "ab"), ("a", "A"), ("z", "{"), ("`", "a"), ("@", "a"), ("[", "a"),
        ("\u{10000}", "\u{E000}\u{E000}"), ("\u{10000}", "ab"), ("\u{10400}", "\u{10428}"), ("à", "À"), ("ß", "S"), ("ſ", "S"),
        (full.as_str(), over.as_str()), (full.as_str(), full.as_str()), (over.as_str(), over.as_str()), (wide.as_str(), &full[1..]),
    ];
    let mut pairs: Vec<(String, String)> = fixed.iter().map(|(a, b)| (a.to_string(), b.to_string())).collect();
    pairs.extend((0..682).map(|_| pair(&mut r)));
    for (a, b) in pairs {
        let order = match compare_names(&a, &b) { Ordering::Less => "less", Ordering::Equal => "equal", Ordering::Greater => "greater" };
        println!("compare {} {} {order}", hex(&a), hex(&b));
    }
    for _ in 0..400 {
        // Equal unit counts with different character counts come from the wide alphabet.
        let (a, b) = pair(&mut r);
        println!("key {} {} {}", hex(&a), hex(&b), if name_key(&a) == name_key(&b) { "same" } else { "other" });
    }
    for _ in 0..300 {
        let p = path(&mut r);
        match name_chain_from_path(Path::new(&p)) {
            Ok(names) => println!("chain {}{}", hex(&p), names.iter().map(|n| format!(" {}", hex(n))).collect::<String>()),
            Err(_) => println!("chain {} refused", hex(&p)),
        }
    }
}
