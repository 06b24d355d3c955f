//! The register in a real ordered store: tanks, batches, recipe lines and doses as keys in LevelDB. It shows how a search that ends at strinc loses a batch
//! and one by the bounds call does not, replaces fields in stored keys, finds the recipe lines without a supplier's lot, checks that the store's order is the order
//! of the values, counts the rows that a search for a prefix reads by its upper end, lists tank tags by the zeros escaped in their keys, and finds the batches
//! of a tank from a number to another and other spans on one field.

mod leveldb;
mod tables;

use leveldb::{Change, Store};
use std::collections::{BTreeMap, BTreeSet};
use std::error::Error;
use std::path::Path;
use std::process::ExitCode;
use tables::{Table, Tables, batch, dose, field, fields, hex, line, lot, shown};
use tuple::{FactId, PredicateId, Type, Value, compare, encode_key_counted, strinc};

type Answer<T> = Result<T, Box<dyn Error>>;

const TANKS: [(&[u8], &str, &[i64]); 5] = [
    (b"\x0A", "yellow", &[41, 255, 256]),
    (b"\x0A\x00", "cyan", &[17, 18]),
    (b"\x0A\x01", "magenta", &[-3, 60]),
    (b"\x0A\xFF", "violet", &[70]),
    (b"\x0B", "black", &[90]),
];

/// Tags on offer for the next tank.
const OFFERED: [&[u8]; 3] = [b"\x0C\x00\x00", b"\x0C\x00\x01", b"\x0C\x01\x02"];

/// The sequence of the first batch's reference: the register numbers past 2^32, and so do these batches.
const FIRST: u64 = (1 << 32) - 4;

const LINES: [(&str, i64, &[u8], i64); 9] = [
    ("yellow", 1, b"\x0A", 4_000),
    ("yellow", 2, b"\x0A", 250),
    ("yellow", 255, b"\x0A", 256),
    ("cyan", 1, b"\x0A\x00", 3_800),
    ("cyan", 2, b"\x0A\x00", 255),
    ("cyan", 3, b"\x0A\x00", 12),
    ("cyan blue", 1, b"\x0A\x01", 900),
    ("black", 1, b"\x0B", 65_536),
    ("black", 2, b"\x0B", 0),
];

/// Recipe lines by their supplier's lot: some have none, and one lot was entered without a number.
const LOTS: [(Option<&str>, &str, i64); 7] = [
    (Some("S-17"), "cyan", 1),
    (None, "cyan", 2),
    (Some(""), "cyan", 3),
    (None, "yellow", 1),
    (Some("S-17"), "yellow", 2),
    (Some("S-170"), "black", 1),
    (None, "black", 2),
];

/// Batches that planners look up by tank and number.
const ASKED: [(&[u8], &[i64]); 2] = [(b"\x0A", &[39, 40, 50, 60, 61]), (b"\x0A\x00", &[39, 40, 45, 60, 61])];

/// The checks made, and how many failed.
#[derive(Default)]
struct Checks {
    made: usize,
    failed: usize,
}

impl Checks {
    fn yes(&mut self, holds: bool) -> &'static str {
        self.made += 1;
        if holds {
            return "yes";
        }
        self.failed += 1;
        "NO"
    }
}

/// Prints rows in columns under their headings.
fn table(title: &str, headings: &[&str], rows: &[Vec<String>]) {
    println!("\n{title}\n");
    let wide = |column: usize| rows.iter().map(|row| row[column].chars().count()).chain([headings[column].len()]).max().unwrap_or(0);
    let widths: Vec<usize> = (0..headings.len()).map(wide).collect();
    let print = |cells: Vec<&str>| {
        let padded: Vec<String> = cells.iter().zip(&widths).map(|(cell, width)| format!("{cell:width$}")).collect();
        println!("  {}", padded.join("   ").trim_end());
    };
    print(headings.to_vec());
    let rules: Vec<String> = widths.iter().map(|width| "-".repeat(*width)).collect();
    print(rules.iter().map(String::as_str).collect());
    for row in rows {
        print(row.iter().map(String::as_str).collect());
    }
}

fn load(store: &Store, tables: &Tables, random: &mut Random) -> Answer<BTreeMap<FactId, Value>> {
    let mut changes = Vec::new();
    let mut batches = BTreeMap::new();
    for (tag, ink, numbers) in TANKS {
        changes.push(Change::Put(tables.tanks.stored(&Value::record([Value::from(tag)]))?, ink.into()));
        for number in numbers {
            let id = FactId::new(tables.batches.predicate, FIRST + batches.len() as u64).ok_or("no reference left")?;
            let value = batch(tag, *number);
            changes.push(Change::Put(tables.batches.stored(&value)?, id.raw().to_be_bytes().into()));
            batches.insert(id, value);
        }
    }
    for (recipe, place, tag, grams) in LINES {
        changes.push(Change::Put(tables.lines.stored(&line(recipe, place, tag, grams))?, vec![]));
    }
    random.shuffle(&mut changes);
    store.write(&changes)?;
    store.compact();
    println!(
        "The register in LevelDB: {} tanks, {} batches, {} recipe lines, loaded in no order; the doses come in 2",
        TANKS.len(),
        batches.len(),
        LINES.len()
    );
    Ok(batches)
}

/// The values whose keys a range holds.
fn found(store: &Store, table: &Table, range: &std::ops::Range<Vec<u8>>) -> Answer<Vec<Value>> {
    store.scan(range)?.iter().map(|(key, _)| Ok(table.value(key)?)).collect()
}

fn numbers(batches: &[&Value]) -> String {
    batches.iter().map(|batch| shown(field(batch, 1))).collect::<Vec<_>>().join(" ")
}

/// Batches by number, those of other tanks behind.
fn told(tag: &[u8], batches: &[Value]) -> String {
    let (own, other): (Vec<&Value>, Vec<&Value>) = batches.iter().partition(|batch| *field(batch, 0) == Value::from(tag));
    if other.is_empty() {
        return numbers(&own);
    }
    format!("{}  AND {} of tank {}", numbers(&own), numbers(&other), shown(field(other[0], 0)))
}

fn searches(store: &Store, tables: &Tables, checks: &mut Checks) -> Answer<()> {
    let mut rows = Vec::new();
    for (tag, _, numbers) in TANKS {
        let any = batch(tag, 0);
        let (ours, strinc) = (tables.batches.range(&any, 1)?, tables.batches.range_by_strinc(&any, 1)?);
        let ours_found = found(store, &tables.batches, &ours)?;
        let due: Vec<Value> = numbers.iter().map(|number| batch(tag, *number)).collect();
        rows.push(vec![
            hex(tag),
            hex(&ours.start[4..]),
            hex(&ours.end[4..]),
            told(tag, &ours_found),
            checks.yes(ours_found == due).to_owned(),
            hex(&strinc.end[4..]),
            told(tag, &found(store, &tables.batches, &strinc)?),
        ]);
    }
    let headings = ["tank", "lower end", "upper: bounds", "finds", "its own alone", "upper: strinc", "finds"];
    table("1. The batches of each tank, by the bounds call and with strinc as the upper end", &headings, &rows);
    Ok(())
}

fn search(by_strinc: bool) -> &'static str {
    if by_strinc { "strinc" } else { "bounds" }
}

/// Doses every recipe line into the last batch that the search for its tank finds; gives the recipes that each batch holds then.
fn dosed(store: &Store, tables: &Tables, by_strinc: bool, rows: &mut Vec<Vec<String>>) -> Answer<BTreeMap<FactId, BTreeSet<String>>> {
    let name = search(by_strinc);
    let mut changes: Vec<Change> = store.scan(&tables.doses.whole())?.into_iter().map(|(key, _)| Change::Delete(key)).collect();
    for line in found(store, &tables.lines, &tables.lines.whole())? {
        let (recipe, part) = (shown(field(&line, 0)), field(&line, 2));
        let Value::Bytes(tag) = field(part, 0) else { return Err("a tank's tag is no bytes".into()) };
        let any = batch(tag, 0);
        let range = if by_strinc { tables.batches.range_by_strinc(&any, 1)? } else { tables.batches.range(&any, 1)? };
        let batches = store.scan(&range)?;
        let (key, id) = batches.last().ok_or("the tank has no batch")?;
        let id = FactId::from_raw(u64::from_be_bytes(id[..].try_into()?));
        changes.push(Change::Put(tables.doses.stored(&dose(id, &recipe, Value::union(1, field(part, 1).clone())))?, vec![]));
        let batch = tables.batches.value(key)?;
        let row = vec![name.to_owned(), recipe, hex(tag), format!("batch {} of tank {}", shown(field(&batch, 1)), shown(field(&batch, 0)))];
        if !rows.contains(&row) {
            rows.push(row);
        }
    }
    store.write(&changes)?;

    let mut recipes: BTreeMap<FactId, BTreeSet<String>> = BTreeMap::new();
    for (_, id) in store.scan(&tables.batches.whole())? {
        let id = FactId::from_raw(u64::from_be_bytes(id[..].try_into()?));
        for dose in found(store, &tables.doses, &tables.doses.range(&dose(id, "", Value::union(1, Value::Int(0))), 1)?)? {
            recipes.entry(id).or_default().insert(shown(field(&dose, 1)));
        }
    }
    Ok(recipes)
}

fn lost_batch(store: &Store, tables: &Tables, batches: &BTreeMap<FactId, Value>, checks: &mut Checks) -> Answer<()> {
    let mut rows = Vec::new();
    let mut outcomes = Vec::new();
    for by_strinc in [true, false] {
        let name = search(by_strinc);
        let recipes = dosed(store, tables, by_strinc, &mut rows)?;
        let lost: Vec<(&FactId, &BTreeSet<String>)> = recipes.iter().filter(|(_, recipes)| recipes.len() > 1).collect();
        for (id, recipes) in &lost {
            let (batch, names) = (&batches[id], recipes.iter().cloned().collect::<Vec<_>>().join(" and "));
            outcomes.push(format!("{name}: batch {} of tank {} holds {names}: LOST", shown(field(batch, 1)), shown(field(batch, 0))));
        }
        if lost.is_empty() {
            outcomes.push(format!("{name}: {} batches dosed, each holds one recipe", recipes.len()));
        }
        checks.yes(lost.is_empty() != by_strinc);
    }
    table(
        "2. The lost batch, a cyan that comes out green: each recipe is dosed into the last batch that the search for its tank finds",
        &["upper end", "recipe", "for tank", "dosed into"],
        &rows,
    );
    println!();
    for outcome in outcomes {
        println!("  {outcome}");
    }
    Ok(())
}

fn scans(store: &Store, tables: &Tables, batches: &BTreeMap<FactId, Value>, checks: &mut Checks) -> Answer<()> {
    let (cyan, _) = batches.iter().find(|(_, value)| **value == batch(b"\x0A\x00", 18)).ok_or("batch 18 is missing")?;
    let grams = |recipe, number| dose(*cyan, recipe, Value::union(1, Value::Int(number)));
    let mut rows = Vec::new();
    for (what, table, like, k) in [
        ("every tank", &tables.tanks, Value::record([Value::from(b"")]), 0),
        ("every recipe line", &tables.lines, line("", 0, b"", 0), 0),
        ("the lines of cyan, not of cyan blue", &tables.lines, line("cyan", 0, b"", 0), 1),
        ("line 255 of yellow", &tables.lines, line("yellow", 255, b"", 0), 2),
        ("line 2 of cyan, 255 g into tank 0A 00", &tables.lines, line("cyan", 2, b"\x0A\x00", 255), 3),
        ("line 2 of cyan, 255 g into tank 0A", &tables.lines, line("cyan", 2, b"\x0A", 255), 3),
        ("the doses of batch 18 of tank 0A 00", &tables.doses, grams("", 0), 1),
        ("its doses of yellow", &tables.doses, grams("yellow", 0), 2),
        ("its dose of 12 g of cyan", &tables.doses, grams("cyan", 12), 3),
    ] {
        let found = found(store, table, &table.range(&like, k)?)?;
        let all = self::found(store, table, &table.whole())?;
        let due: Vec<Value> = all.into_iter().filter(|value| fields(value)[..k] == fields(&like)[..k]).collect();
        let right = checks.yes(found == due).to_owned();
        rows.push(vec![what.to_owned(), table.name.to_owned(), k.to_string(), found.len().to_string(), right]);
    }
    table("3. Scans by the bounds call, by the first k fields", &["what", "table", "k", "keys", "as by reading all"], &rows);
    Ok(())
}

fn replacements(store: &Store, tables: &Tables, batches: &BTreeMap<FactId, Value>, checks: &mut Checks) -> Answer<()> {
    let (cyan, _) = batches.iter().find(|(_, value)| **value == batch(b"\x0A\x00", 18)).ok_or("batch 18 is missing")?;
    let grams = |number| dose(*cyan, "cyan", Value::union(1, Value::Int(number)));
    let elsewhere = FactId::new(PredicateId(3), 1).ok_or("no reference")?;
    let before = FactId::from_raw((2 << 32) + 5); // 2:5 while both halves had 32 bits
    let long = "x".repeat(65_530);
    let mut rows = Vec::new();
    for (table, old, place, new) in [
        (&tables.batches, batch(b"\x0A\x00", 17), 0, Value::from(b"\x0C\x00")),
        (&tables.batches, batch(b"\x0A\x00", 18), 0, Value::from(b"\x0C\x00")),
        (&tables.batches, batch(b"\x0A", 255), 1, Value::Int(65_536)),
        (&tables.batches, batch(b"\x0A\x01", -3), 1, Value::Int(-256)),
        (&tables.lines, line("yellow", 255, b"\x0A", 256), 1, Value::Int(256)),
        (&tables.lines, line("cyan", 2, b"\x0A\x00", 255), 2, Value::record([Value::from(b"\x0C\x00"), Value::Int(256)])),
        (&tables.doses, grams(12), 2, Value::union(2, Value::from("by hand, 12 g"))),
        (&tables.batches, batch(b"\x0B", 90), 1, Value::from("ninety")),
        (&tables.batches, batch(b"\x0B", 90), 2, Value::Int(91)),
        (&tables.doses, grams(255), 0, Value::from(elsewhere)),
        (&tables.doses, grams(255), 0, Value::from(before)),
        (&tables.doses, grams(255), 2, Value::union(3, Value::Int(255))),
        (&tables.lines, line("black", 2, b"\x0B", 0), 0, Value::from(long.as_str())),
    ] {
        let held = store.scan(&table.range(&old, fields(&old).len())?)?;
        let [(key, value)] = &held[..] else { return Err(format!("{} is not in the store", shown(&old)).into()) };
        let mut changed = key.clone();
        let (answer, right) = match table.replace(&mut changed, place, &new) {
            Ok(()) => {
                store.write(&[Change::Delete(key.clone()), Change::Put(changed.clone(), value.clone())])?;
                let mut parts = fields(&old).to_vec();
                parts[place] = new.clone();
                let (found, fresh) = (table.value(&changed)?, Value::Record(parts));
                (shown(&found), found == fresh && changed == table.stored(&fresh)?)
            }
            Err(refusal) => (format!("refused: {} {}", refusal.number(), refusal.name()), changed == *key),
        };
        rows.push(vec![table.name.to_owned(), shown(&old), place.to_string(), shown(&new), answer, checks.yes(right).to_owned()]);
    }
    table(
        "4. Replacements in stored keys: a key then is the one written afresh, and a refused one stays",
        &["table", "key", "field", "new value", "key afterwards", "right"],
        &rows,
    );
    println!("\n  {} is 2:5 as it stood with 32 bits for the predicate and 32 for the sequence", shown(&Value::from(before)));
    let due = [batch(b"\x0C\x00", 17), batch(b"\x0C\x00", 18)];
    let moved = found(store, &tables.batches, &tables.batches.range(&due[0], 1)?)? == due;
    let left = found(store, &tables.batches, &tables.batches.range(&batch(b"\x0A\x00", 0), 1)?)?.is_empty();
    println!("  tank 0C 00 has the batches 17 and 18, tank 0A 00 has none: {}", checks.yes(moved && left));
    Ok(())
}

/// The recipe lines with each lot, or with none; then one gets a lot, and one loses its own.
fn by_lot(store: &Store, tables: &Tables, checks: &mut Checks) -> Answer<()> {
    let all: Vec<Value> = LOTS.iter().map(|(of, recipe, place)| lot(*of, recipe, *place)).collect();
    for value in &all {
        store.write(&[Change::Put(tables.lots.stored(value)?, vec![])])?;
    }
    let told = |values: &[Value]| {
        values.iter().map(|value| format!("{} {}", shown(field(value, 1)), shown(field(value, 2)))).collect::<Vec<_>>().join(", ")
    };
    let mut rows = Vec::new();
    for of in [None, Some(""), Some("S-17"), Some("S-170")] {
        let like = lot(of, "", 0);
        let range = tables.lots.range(&like, 1)?;
        let found = found(store, &tables.lots, &range)?;
        let mut due: Vec<Value> = all.iter().filter(|value| field(value, 0) == field(&like, 0)).cloned().collect();
        due.sort();
        let right = checks.yes(found == due).to_owned();
        rows.push(vec![shown(field(&like, 0)), hex(&range.start[4..]), hex(&range.end[4..]), told(&found), right]);
    }
    table(
        "5. Recipe lines by their supplier's lot, with a dash where there is none",
        &["lot", "lower end", "upper end", "recipe lines", "as by reading all"],
        &rows,
    );

    println!();
    for (old, new) in [(lot(None, "cyan", 2), Value::from("S-17")), (lot(Some("S-17"), "yellow", 2), Value::Null)] {
        let key = tables.lots.stored(&old)?;
        let mut changed = key.clone();
        tables.lots.replace(&mut changed, 0, &new)?;
        let mut parts = fields(&old).to_vec();
        parts[0] = new.clone();
        store.write(&[Change::Delete(key.clone()), Change::Put(changed.clone(), vec![])])?;
        let right = checks.yes(changed == tables.lots.stored(&Value::Record(parts))?);
        println!(
            "  {}: lot {} for {}: {} becomes {}: {right}",
            told(&[old.clone()]),
            shown(&new),
            shown(field(&old, 0)),
            hex(&key[4..]),
            hex(&changed[4..])
        );
    }
    let blank = found(store, &tables.lots, &tables.lots.range(&lot(None, "", 0), 1)?)?;
    println!("  without a lot then: {}", told(&blank));
    Ok(())
}

/// splitmix64, from a fixed seed
struct Random(u64);

impl Random {
    fn below(&mut self, n: usize) -> usize {
        self.0 = self.0.wrapping_add(0x9E37_79B9_7F4A_7C15);
        let mut z = self.0;
        z = (z ^ (z >> 30)).wrapping_mul(0xBF58_476D_1CE4_E5B9);
        z = (z ^ (z >> 27)).wrapping_mul(0x94D0_49BB_1331_11EB);
        ((z ^ (z >> 31)) % n as u64) as usize
    }

    fn shuffle<T>(&mut self, list: &mut [T]) {
        for i in (1..list.len()).rev() {
            list.swap(i, self.below(i + 1));
        }
    }

    /// A value of the type: tags and texts that are often alike but for a zero, numbers at the changes of width, sequences round 2^32 too.
    fn value(&mut self, ty: &Type) -> Value {
        match ty {
            Type::Int => {
                let near = (1_i64 << (8 * self.below(8))).wrapping_add(self.below(7) as i64 - 3);
                Value::Int(if self.below(2) == 0 { near } else { near.wrapping_neg() })
            }
            Type::Str => Value::Str((0..self.below(6)).map(|_| ['\0', 'a', 'b', ' ', 'é', '€'][self.below(6)]).collect()),
            Type::Bytes => Value::Bytes((0..1 + self.below(5)).map(|_| [0x00, 0x00, 0x01, 0x0A, 0xFF][self.below(5)]).collect()),
            Type::Fact(predicate) => {
                let sequence = [1, (1 << 32) - 150, (1 << 40) - 300][self.below(3)] + self.below(300) as u64;
                Value::FactRef(FactId::new(*predicate, sequence).expect("a sequence from 1 to 2^40 - 1"))
            }
            Type::Record(fields) => Value::record(fields.iter().map(|field| self.value(field))),
            Type::Union(alternatives) => {
                let alternative = &alternatives[self.below(alternatives.len())];
                Value::union(alternative.disc, self.value(&alternative.ty))
            }
            Type::Optional(behind) => {
                if self.below(3) == 0 {
                    return Value::Null;
                }
                self.value(behind)
            }
        }
    }
}

fn order(store: &Store, tables: &Tables, random: &mut Random, checks: &mut Checks) -> Answer<()> {
    let mut rows = Vec::new();
    for table in tables.all() {
        let mut loaded: BTreeSet<Value> = found(store, table, &table.whole())?.into_iter().collect();
        let mut changes = Vec::new();
        for _ in 0..5_000 {
            let value = random.value(&table.ty);
            changes.push(Change::Put(table.stored(&value)?, vec![]));
            loaded.insert(value);
        }
        store.write(&changes)?;
        store.compact();

        let values = found(store, table, &table.whole())?;
        let mut rising = 0;
        for pair in values.windows(2) {
            rising += usize::from(compare(&pair[0], &pair[1])?.is_lt());
        }
        let right = checks.yes(rising + 1 == values.len() && values.iter().eq(&loaded)).to_owned();
        rows.push(vec![
            table.name.to_owned(),
            values.len().to_string(),
            rising.to_string(),
            (values.len() - 1 - rising).to_string(),
            right,
        ]);
    }
    table(
        "6. The store's order, with 5,000 values of any sort more in each table, some of them alike",
        &["table", "keys", "above the one before", "not above it", "are the sorted values"],
        &rows,
    );
    Ok(())
}

fn every_tank(store: &Store, tables: &Tables, checks: &mut Checks) -> Answer<()> {
    let all = found(store, &tables.batches, &tables.batches.whole())?;
    let mut own: BTreeMap<&Value, Vec<&Value>> = BTreeMap::new();
    for value in &all {
        own.entry(field(value, 0)).or_default().push(value);
    }
    let mut rows = Vec::new();
    for by_strinc in [true, false] {
        let (mut wrong, mut strays) = (0, 0);
        for (tag, due) in &own {
            let any = Value::record([(*tag).clone(), Value::Int(0)]);
            let range = if by_strinc { tables.batches.range_by_strinc(&any, 1)? } else { tables.batches.range(&any, 1)? };
            let found = found(store, &tables.batches, &range)?;
            let stray = found.iter().filter(|value| field(value, 0) != *tag).count();
            if found.len() - stray != due.len() {
                return Err("a search lost a batch of its own".into());
            }
            wrong += usize::from(stray > 0);
            strays += stray;
        }
        checks.yes((strays == 0) != by_strinc);
        rows.push(vec![search(by_strinc).to_owned(), own.len().to_string(), all.len().to_string(), wrong.to_string(), strays.to_string()]);
    }
    table(
        "7. A search for every tank among them",
        &["upper end", "tanks", "batches", "tanks with another's batches", "batches found under a wrong tank"],
        &rows,
    );
    Ok(())
}

/// Keys by their beginnings: the rows that begin so, and how many a search reads up to each of three ends above all of them.
fn planned(store: &Store, tables: &Tables, checks: &mut Checks) -> Answer<()> {
    let read = |range: std::ops::Range<Vec<u8>>| store.scan(&range);
    let all = read(tables.batches.whole())?;
    let mut rows = Vec::new();
    for prefix in [&b"\x53\x0A"[..], b"\x53\x0A\xFF", b"\x53\x0C\x00\xFF\x00\x49\x11"] {
        let start = tables.batches.behind(prefix.to_vec());
        let due = all.iter().filter(|(key, _)| key.starts_with(&start)).count();
        let least = strinc(&start)?;
        let longer = [&least[..], &[0]].concat();
        let mut row = vec![hex(prefix), due.to_string(), hex(&least[4..])];
        let mut reads = Vec::new();
        for end in [least, longer, tables.batches.whole().end] {
            reads.push(read(start.clone()..end)?.len());
        }
        row.extend(reads.iter().map(usize::to_string));
        row.push(checks.yes(reads[0] == due && reads.iter().all(|n| *n >= due)).to_owned());
        rows.push(row);
    }
    table(
        "8. Upper ends above every batch whose key begins so, and the rows read up to each: no end reads fewer than strinc's",
        &["beginning", "begin so", "strinc", "reads", "with 00 behind", "the table's end", "none fewer"],
        &rows,
    );
    Ok(())
}

/// The key of a value, the zeros escaped in it, and whether these are the zero bytes of the value's pool.
fn counted(table: &Table, value: &Value) -> Answer<(Vec<u8>, u64, bool)> {
    let (key, zeros) = encode_key_counted(&table.ty, value)?;
    let due = value.sheet().pool().iter().filter(|byte| **byte == 0).count();
    Ok((key, zeros, zeros == due as u64))
}

/// The tags of the tanks and those on offer, fewest zeros first; then the bytes that zeros cost in all stored keys.
fn by_zeros(store: &Store, tables: &Tables, checks: &mut Checks) -> Answer<()> {
    let mut tags = Vec::new();
    for (tag, ink) in TANKS.map(|(tag, ink, _)| (tag, ink)).into_iter().chain(OFFERED.map(|tag| (tag, "on offer"))) {
        let (key, zeros, right) = counted(&tables.tanks, &Value::record([Value::from(tag)]))?;
        tags.push((zeros, key, tag, ink, right));
    }
    tags.sort();
    let mut rows = Vec::new();
    for (zeros, key, tag, ink, right) in &tags {
        let right = checks.yes(*right).to_owned();
        rows.push(vec![hex(tag), (*ink).to_owned(), hex(key), key.len().to_string(), zeros.to_string(), right]);
    }
    table(
        "9. Tank tags by the zeros escaped in their keys, fewest first",
        &["tag", "tank", "key", "bytes", "zeros", "as in the tag"],
        &rows,
    );
    let (_, _, next, ..) = tags.iter().find(|(_, _, tag, ..)| OFFERED.contains(tag)).ok_or("no tag is on offer")?;
    println!("\n  to buy next: {}", hex(next));

    let (mut bytes, mut escaped, mut right) = (0, 0, true);
    for table in tables.all() {
        for (stored, _) in store.scan(&table.whole())? {
            let (key, zeros, same) = counted(table, &table.value(&stored)?)?;
            right = right && same && key == stored[4..];
            bytes += key.len();
            escaped += zeros;
        }
    }
    println!("  of the {bytes} bytes of all keys in the store, {escaped} are the FF of an escaped zero: {}", checks.yes(right));
    Ok(())
}

/// What a span on the next field finds, whether reading all and comparing the values finds the same, and how many more there are up to strinc of the highest.
fn spanned(store: &Store, table: &Table, first: &[Value], lowest: &Value, highest: &Value) -> Answer<(Vec<Value>, bool, usize)> {
    let (k, mut due) = (first.len(), Vec::new());
    for value in found(store, table, &table.whole())? {
        let next = field(&value, k);
        if fields(&value)[..k] == *first && compare(lowest, next)?.is_le() && compare(next, highest)?.is_le() {
            due.push(value);
        }
    }
    let found = found(store, table, &table.span(first, lowest, highest)?)?;
    let reads = store.scan(&table.span_by_strinc(first, lowest, highest)?)?.len();
    let (same, more) = (found == due, reads.checked_sub(found.len()).ok_or("strinc of the highest is below the span's end")?);
    Ok((found, same, more))
}

/// The batches from a number to another of two tanks, as planners ask for them; then spans on fields of other kinds.
fn spans(store: &Store, tables: &Tables, batches: &BTreeMap<FactId, Value>, checks: &mut Checks) -> Answer<()> {
    let asked = ASKED.iter().flat_map(|(tag, numbers)| numbers.iter().map(|number| batch(tag, *number)));
    let changes: Answer<Vec<Change>> = asked.map(|value| Ok(Change::Put(tables.batches.stored(&value)?, vec![]))).collect();
    store.write(&changes?)?;

    let mut rows = Vec::new();
    for (tag, lowest, highest) in [(&b"\x0A"[..], 40, 60), (b"\x0A\x00", 40, 60), (b"\x0A", 61, 256), (b"\x0A", 60, 40)] {
        let (first, lowest, highest) = ([Value::from(tag)], Value::Int(lowest), Value::Int(highest));
        let ends = tables.batches.span(&first, &lowest, &highest)?;
        let (found, same, more) = spanned(store, &tables.batches, &first, &lowest, &highest)?;
        rows.push(vec![
            hex(tag),
            shown(&lowest),
            shown(&highest),
            hex(&ends.start[4..]),
            hex(&ends.end[4..]),
            if found.is_empty() { "none".to_owned() } else { told(tag, &found) },
            checks.yes(same).to_owned(),
            more.to_string(),
        ]);
    }
    table(
        "10. The batches of a tank from a number to another, by the span call",
        &["tank", "from", "to", "lower end", "upper end", "finds", "as by reading all", "more by strinc"],
        &rows,
    );

    let (cyan, _) = batches.iter().find(|(_, value)| **value == batch(b"\x0A\x00", 18)).ok_or("batch 18 is missing")?;
    let dosed = [Value::from(*cyan), Value::from("cyan")];
    let (second, nameless) = ([Value::from("cyan"), Value::Int(2)], [Value::from(""), Value::Int(1)]);
    let part = |tag: &[u8], grams| Value::record([Value::from(tag), Value::Int(grams)]);
    let (grams, note) = (|number| Value::union(1, Value::Int(number)), |text: &str| Value::union(2, Value::from(text)));
    let tag = Value::from(b"\x0A");
    let mut rows = Vec::new();
    for (what, table, first, lowest, highest) in [
        ("the batches of tank 0A", &tables.batches, &[][..], tag.clone(), tag.clone()),
        ("the tanks from 0A to 0A FF", &tables.tanks, &[], tag, Value::from(b"\x0A\xFF")),
        ("recipe lines without a lot", &tables.lots, &[], Value::Null, Value::Null),
        ("those, and lots up to S-17", &tables.lots, &[], Value::Null, Value::from("S-17")),
        ("line 2 of cyan, up to 256 g into tank 0C 00", &tables.lines, &second, part(b"", 0), part(b"\x0C\x00", 256)),
        ("line 1 without a recipe, up to 0 g into tank 0A FF", &tables.lines, &nameless, part(b"", 0), part(b"\x0A\xFF", 0)),
        ("doses of cyan into its batch, up to 1000 g", &tables.doses, &dosed, grams(0), grams(1_000)),
        ("those, more grams, and notes up to c", &tables.doses, &dosed, grams(0), note("c")),
    ] {
        let (found, same, more) = spanned(store, table, first, &lowest, &highest)?;
        let right = checks.yes(same).to_owned();
        rows.push(vec![what.to_owned(), table.name.to_owned(), first.len().to_string(), found.len().to_string(), right, more.to_string()]);
    }
    table(
        "11. Spans on fields of other kinds: strinc of the highest takes in the tags that go on with a zero",
        &["what", "table", "k", "keys", "as by reading all", "more by strinc"],
        &rows,
    );
    Ok(())
}

fn run(folder: &Path) -> Answer<Checks> {
    let (tables, mut random, mut checks) = (Tables::new(), Random(7), Checks::default());
    let store = Store::create(folder)?;
    let (major, minor) = leveldb::version();
    eprintln!("LevelDB {major}.{minor}");
    let batches = load(&store, &tables, &mut random)?;
    searches(&store, &tables, &mut checks)?;
    lost_batch(&store, &tables, &batches, &mut checks)?;
    scans(&store, &tables, &batches, &mut checks)?;
    replacements(&store, &tables, &batches, &mut checks)?;
    by_lot(&store, &tables, &mut checks)?;
    order(&store, &tables, &mut random, &mut checks)?;
    every_tank(&store, &tables, &mut checks)?;
    planned(&store, &tables, &mut checks)?;
    by_zeros(&store, &tables, &mut checks)?;
    spans(&store, &tables, &batches, &mut checks)?;
    Ok(checks)
}

fn main() -> ExitCode {
    let Some(folder) = std::env::args_os().nth(1) else {
        eprintln!("usage: register FOLDER   (where the database is made; it must not be there yet)");
        return ExitCode::from(2);
    };
    match run(Path::new(&folder)) {
        Ok(checks) => {
            println!("\n{} checks, {} failed", checks.made, checks.failed);
            ExitCode::from(u8::from(checks.failed > 0))
        }
        Err(error) => {
            eprintln!("register: {error}");
            ExitCode::FAILURE
        }
    }
}
