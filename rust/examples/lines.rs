//! Does on a bucket what lines ask, and answers each in one line, so that a test in another language drives this package. Texts stand
//! as `x` and their bytes in hexadecimal.
use std::collections::BTreeMap;
use std::io::{self, BufRead, Write};
use vilgoued::{BatchRefused, Bucket, Entry, Error, Item, Limits, Options, Start, Watch, Write as Asked};

struct Session {
    bucket: Bucket,
    watches: BTreeMap<u64, Watch>,
}

fn bytes(word: &str) -> Vec<u8> {
    let digits: Vec<u8> = word.bytes().skip(1).map(|it| (it as char).to_digit(16).expect("a digit") as u8).collect();
    digits.chunks(2).map(|it| it[0] << 4 | it[1]).collect()
}

fn text(word: &str) -> String {
    String::from_utf8(bytes(word)).expect("UTF-8")
}

fn number(word: &str) -> u64 {
    word.parse().expect("a number")
}

fn hex(bytes: &[u8]) -> String {
    bytes.iter().fold("x".to_owned(), |shown, it| shown + &format!("{it:02x}"))
}

fn shown(entry: &Entry) -> String {
    let value = entry.value().map_or("-".to_owned(), hex);
    format!("{} {} {} {} {value}", hex(entry.key().as_bytes()), entry.op(), entry.revision(), entry.size())
}

fn item(item: Option<Item>) -> String {
    match item {
        None => "empty".to_owned(),
        Some(Item::Marker) => "marker".to_owned(),
        Some(Item::Entry(entry)) => shown(&entry),
    }
}

fn options(words: &[&str]) -> Options {
    let start = match words[0] {
        "history" => Start::History,
        "updates" => Start::Updates,
        "from" => Start::From(number(words[1])),
        _ => Start::Latest,
    };
    Options { start, ignore_deletes: words[2] == "1", headers_only: words[3] == "1" }
}

/// The key of a write, and the value that it may have.
fn texts(words: &[&str]) -> (String, Vec<u8>) {
    let value = words[2..].last().filter(|it| it.starts_with('x'));
    (text(words[1]), value.map_or(Vec::new(), |it| bytes(it)))
}

fn asked<'a>(words: &[&str], key: &'a str, value: &'a [u8]) -> Asked<'a> {
    match words {
        ["put", ..] => Asked::put(key, value),
        ["create", ..] => Asked::create(key, value),
        ["update", _, last, ..] => Asked::update(key, value, number(last)),
        ["delete", _] => Asked::delete(key),
        ["delete", _, last] => Asked::delete_at(key, number(last)),
        ["purge", _] => Asked::purge(key),
        ["purge", _, last] => Asked::purge_at(key, number(last)),
        _ => panic!("no batch has {words:?}"),
    }
}

impl Session {
    /// Makes writes in one step, between two of which an `&` stands.
    fn batch(&self, words: &[&str]) -> Result<String, BatchRefused> {
        let lines: Vec<&[&str]> = words.split(|it| *it == "&").filter(|it| !it.is_empty()).collect();
        let held: Vec<(String, Vec<u8>)> = lines.iter().map(|it| texts(it)).collect();
        let writes: Vec<Asked> = lines.iter().zip(&held).map(|(it, (key, value))| asked(it, key, value)).collect();
        self.bucket.write_all(&writes).map(|it| format!("{} {}", it.start, it.end))
    }

    fn told(&mut self, words: &[&str]) -> Result<String, Error> {
        let bucket = &self.bucket;
        let revision = match words {
            ["put", key, value] => bucket.put(&text(key), bytes(value))?,
            ["create", key, value] => bucket.create(&text(key), bytes(value))?,
            ["update", key, last, value] => bucket.update(&text(key), bytes(value), number(last))?,
            ["delete", key] => bucket.delete(&text(key))?,
            ["delete", key, last] => bucket.delete_at(&text(key), number(last))?,
            ["purge", key] => bucket.purge(&text(key))?,
            ["purge", key, last] => bucket.purge_at(&text(key), number(last))?,
            _ => return self.read(words),
        };
        Ok(revision.to_string())
    }

    fn read(&mut self, words: &[&str]) -> Result<String, Error> {
        let bucket = &self.bucket;
        Ok(match words {
            ["get", key] => item(bucket.get(&text(key))?.map(Item::Entry)),
            ["get", key, at] => item(bucket.get_at(&text(key), number(at))?.map(Item::Entry)),
            ["history", key] => bucket.history(&text(key))?.iter().map(shown).collect::<Vec<_>>().join(" "),
            ["keys", filter] => bucket.keys(&text(filter))?.iter().map(|it| hex(it.as_bytes())).collect::<Vec<_>>().join(" "),
            ["status"] => {
                let it = bucket.status()?;
                format!("{} {} {} {} {} {}", it.history, it.last, it.stored, it.values, it.watches, u8::from(it.is_sealed))
            }
            ["seal"] => bucket.seal().map(|()| String::new())?,
            ["compact", floor] => bucket.compact(number(floor)).map(|()| String::new())?,
            ["watch", filters, words @ ..] => {
                let watch = bucket.watch(&text(filters), options(words))?;
                let opened = watch.number();
                self.watches.insert(opened, watch);
                opened.to_string()
            }
            ["take", opened] => item(self.watches.get_mut(&number(opened)).ok_or(Error::NoSuchWatch)?.try_next()?),
            ["stop", opened] => self.watches.remove(&number(opened)).ok_or(Error::NoSuchWatch)?.stop()?.to_string(),
            _ => panic!("no line asks {words:?}"),
        })
    }
}

fn main() -> io::Result<()> {
    let limits: Vec<u64> = std::env::args().skip(1).map(|it| number(&it)).collect();
    let limits = Limits { history: limits[0], value_limit: limits[1], write_limit: limits[2], revision_limit: limits[3] };
    let mut session = Session { bucket: Bucket::open("kv", limits).expect("a bucket"), watches: BTreeMap::new() };
    let mut out = io::stdout().lock();
    for line in io::stdin().lock().lines() {
        let line = line?;
        let told = match line.split(' ').collect::<Vec<_>>()[..] {
            ["batch", ref words @ ..] => session.batch(words).map_err(|it| (it.error, format!(" at {}", it.at))),
            ref words => session.told(words).map_err(|it| (it, String::new())),
        };
        match told {
            Ok(told) => writeln!(out, "ok {told}")?,
            Err((refusal, place)) => writeln!(out, "no {} {refusal:?}{place}", refusal.code())?,
        }
        out.flush()?;
    }
    Ok(())
}
