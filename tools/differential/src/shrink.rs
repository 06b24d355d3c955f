//! Simple shrinking: smaller arguments are tried as long as the difference stays.

use crate::tree::{Ty, Val};
use oracle::{Argument, Call, Kind};
use std::time::{Duration, Instant};

const PATIENCE: Duration = Duration::from_secs(5);

/// The smallest call found that still differs. `differs` may set the rooms.
pub fn shrink(call: Call, differs: &mut dyn FnMut(&mut Call) -> bool) -> Call {
    let mut shrinker = Shrinker { call, differs, end: Instant::now() + PATIENCE };
    shrinker.plain_payloads();
    while shrinker.lists_cut() || shrinker.trees_cut() || shrinker.elements_lowered() {}
    shrinker.call
}

struct Shrinker<'a> {
    call: Call,
    differs: &'a mut dyn FnMut(&mut Call) -> bool,
    end: Instant,
}

impl Shrinker<'_> {
    fn over(&self) -> bool {
        Instant::now() > self.end
    }

    /// Takes a smaller call if it still differs.
    fn accepts(&mut self, mut smaller: Call) -> bool {
        if self.over() || !(self.differs)(&mut smaller) {
            return false;
        }
        self.call = smaller;
        true
    }

    fn takes(&self, argument: Argument) -> bool {
        self.call.kind.shape().arguments.contains(&argument)
    }

    /// Long payloads in order, which a line shows as a few repetitions.
    fn plain_payloads(&mut self) {
        let mut sorted = self.call.clone();
        [&mut sorted.pool, &mut sorted.other_pool, &mut sorted.third_pool].into_iter().for_each(|pool| pool.sort_unstable());
        self.accepts(sorted);
        let mut sorted = self.call.clone();
        sorted.bytes.sort_unstable();
        self.accepts(sorted);
    }

    /// Parts of one list left out: halves first, single elements last.
    fn lists_cut(&mut self) -> bool {
        let mut any = false;
        for argument in self.call.kind.shape().arguments {
            let mut size = list_len(&self.call, *argument);
            while size > 0 {
                let mut at = 0;
                while at < list_len(&self.call, *argument) && !self.over() {
                    let end = (at + size).min(list_len(&self.call, *argument));
                    if self.accepts(without(&self.call, *argument, at, end)) {
                        any = true;
                    } else {
                        at += size;
                    }
                }
                size /= 2;
            }
        }
        any
    }

    /// Fields and alternatives left out of the type, alone or together with a part of the value or of the bytes; a field number goes
    /// down with them or stays.
    fn trees_cut(&mut self) -> bool {
        let call = &self.call;
        let values = if self.takes(Argument::Words) { smaller_values(&call.words, &call.pool) } else { vec![] };
        let mut ends = vec![];
        if self.takes(Argument::ThirdWords) {
            ends.extend(smaller_values(&call.other_words, &call.other_pool));
            ends.extend(smaller_values(&call.third_words, &call.third_pool));
        }
        let mut starts = vec![(call.clone(), false)];
        if self.takes(Argument::Type) {
            for ty in smaller_types(&call.ty) {
                let mut with_type = call.clone();
                with_type.ty = ty;
                starts.push((with_type.clone(), true));
                if call.kind == Kind::Replace && call.numbers[1] > 0 {
                    with_type.numbers[1] -= 1;
                    starts.push((with_type, true));
                }
            }
        }
        for (start, cut) in starts {
            if cut && (self.accepts(start.clone()) || (self.takes(Argument::Bytes) && self.bytes_cut(&start))) {
                return true;
            }
            for (words, pool) in &values {
                if !self.over() && self.accepts(Call { words: words.clone(), pool: pool.clone(), ..start.clone() }) {
                    return true;
                }
            }
            // the two ends of a span have one type: both, or one of them
            for (words, pool) in &ends {
                let low = Call { other_words: words.clone(), other_pool: pool.clone(), ..start.clone() };
                let high = Call { third_words: words.clone(), third_pool: pool.clone(), ..start.clone() };
                let both = Call { third_words: words.clone(), third_pool: pool.clone(), ..low.clone() };
                if !self.over() && (self.accepts(both) || self.accepts(low) || self.accepts(high)) {
                    return true;
                }
            }
        }
        false
    }

    fn bytes_cut(&mut self, start: &Call) -> bool {
        let bytes = start.bytes.len();
        let mut parts = (1..=bytes.min(12)).flat_map(|len| (0..=bytes - len).map(move |at| (at, at + len)));
        parts.any(|(at, end)| !self.over() && self.accepts(without(start, Argument::Bytes, at, end)))
    }

    fn elements_lowered(&mut self) -> bool {
        let mut any = false;
        for argument in self.call.kind.shape().arguments {
            for place in 0..list_len(&self.call, *argument).clamp(1, 4_096) {
                while !self.over() && lowered(&self.call, *argument, place).into_iter().any(|smaller| self.accepts(smaller)) {
                    any = true;
                }
            }
        }
        any
    }
}

fn list_len(call: &Call, argument: Argument) -> usize {
    match argument {
        Argument::Type => call.ty.len(),
        Argument::Words => call.words.len(),
        Argument::Pool => call.pool.len(),
        Argument::OtherWords => call.other_words.len(),
        Argument::OtherPool => call.other_pool.len(),
        Argument::ThirdWords => call.third_words.len(),
        Argument::ThirdPool => call.third_pool.len(),
        Argument::Bytes => call.bytes.len(),
        Argument::Number(_) | Argument::Room(_) => 0,
    }
}

fn without(call: &Call, argument: Argument, from: usize, to: usize) -> Call {
    let mut smaller = call.clone();
    match argument {
        Argument::Type => drop(smaller.ty.drain(from..to)),
        Argument::Words => drop(smaller.words.drain(from..to)),
        Argument::Pool => drop(smaller.pool.drain(from..to)),
        Argument::OtherWords => drop(smaller.other_words.drain(from..to)),
        Argument::OtherPool => drop(smaller.other_pool.drain(from..to)),
        Argument::ThirdWords => drop(smaller.third_words.drain(from..to)),
        Argument::ThirdPool => drop(smaller.third_pool.drain(from..to)),
        Argument::Bytes => {
            smaller.bytes.drain(from..to);
            if call.kind == Kind::Replace {
                // the used length goes with the bytes
                let used = call.numbers[0];
                smaller.numbers[0] = used - (used.min(to as u64) - used.min(from as u64));
            }
        }
        Argument::Number(_) | Argument::Room(_) => {}
    }
    smaller
}

fn lower_numbers(number: u64) -> Vec<u64> {
    [0, 1, number / 2, number.wrapping_sub(1)].into_iter().filter(|lower| *lower < number).collect()
}

fn lowered(call: &Call, argument: Argument, place: usize) -> Vec<Call> {
    let element = match argument {
        Argument::Type => call.ty.get(place).map(|word| u64::from(*word)),
        Argument::Words => call.words.get(place).copied(),
        Argument::Pool => call.pool.get(place).map(|byte| u64::from(*byte)),
        Argument::OtherWords => call.other_words.get(place).copied(),
        Argument::OtherPool => call.other_pool.get(place).map(|byte| u64::from(*byte)),
        Argument::ThirdWords => call.third_words.get(place).copied(),
        Argument::ThirdPool => call.third_pool.get(place).map(|byte| u64::from(*byte)),
        Argument::Bytes => call.bytes.get(place).map(|byte| u64::from(*byte)),
        Argument::Number(i) => Some(call.numbers[i]),
        Argument::Room(_) => None,
    };
    let Some(element) = element else { return vec![] };
    lower_numbers(element)
        .into_iter()
        .map(|lower| {
            let mut smaller = call.clone();
            match argument {
                Argument::Type => smaller.ty[place] = lower as u32,
                Argument::Words => smaller.words[place] = lower,
                Argument::Pool => smaller.pool[place] = lower as u8,
                Argument::OtherWords => smaller.other_words[place] = lower,
                Argument::OtherPool => smaller.other_pool[place] = lower as u8,
                Argument::ThirdWords => smaller.third_words[place] = lower,
                Argument::ThirdPool => smaller.third_pool[place] = lower as u8,
                Argument::Bytes => smaller.bytes[place] = lower as u8,
                Argument::Number(i) => smaller.numbers[i] = lower,
                Argument::Room(_) => {}
            }
            smaller
        })
        .collect()
}

// ---- trees read back from sheets

fn read_type(words: &mut std::slice::Iter<'_, u32>) -> Option<Ty> {
    Some(match *words.next()? {
        1 => Ty::Int,
        2 => Ty::Str,
        3 => Ty::Bytes,
        4 => Ty::Reference(*words.next()?),
        5 => {
            let count = *words.next()?;
            Ty::Record((0..count).map(|_| read_type(words)).collect::<Option<_>>()?)
        }
        6 => {
            let count = *words.next()?;
            Ty::Union((0..count).map(|_| Some((*words.next()?, read_type(words)?))).collect::<Option<_>>()?)
        }
        _ => return None,
    })
}

/// Each group without one of its parts, or replaced by one of them.
fn type_cuts(ty: &Ty) -> Vec<Ty> {
    let mut cuts = Vec::new();
    match ty {
        Ty::Record(fields) => {
            for (i, field) in fields.iter().enumerate() {
                cuts.push(field.clone());
                let mut fewer = fields.clone();
                fewer.remove(i);
                cuts.push(Ty::Record(fewer));
                for cut in type_cuts(field) {
                    let mut changed = fields.clone();
                    changed[i] = cut;
                    cuts.push(Ty::Record(changed));
                }
            }
        }
        Ty::Union(alternatives) => {
            for (i, (disc, alternative)) in alternatives.iter().enumerate() {
                cuts.push(alternative.clone());
                let mut fewer = alternatives.clone();
                fewer.remove(i);
                cuts.push(Ty::Union(fewer));
                for cut in type_cuts(alternative) {
                    let mut changed = alternatives.clone();
                    changed[i] = (*disc, cut);
                    cuts.push(Ty::Union(changed));
                }
            }
        }
        _ => {}
    }
    cuts
}

/// Larger trees are not worth the time.
const MOST_WORDS: usize = 400;

fn smaller_types(words: &[u32]) -> Vec<Vec<u32>> {
    if words.len() > MOST_WORDS {
        return vec![];
    }
    let Some(ty) = read_type(&mut words.iter()) else { return vec![] };
    let cuts = type_cuts(&ty).into_iter().map(|cut| {
        let mut words = Vec::new();
        cut.write_sheet(&mut words);
        words
    });
    cuts.collect()
}

fn read_value(words: &mut std::slice::Iter<'_, u64>, pool: &mut &[u8]) -> Option<Val> {
    let mut payload = |len: u64| {
        let (payload, rest) = pool.split_at_checked(usize::try_from(len).ok()?)?;
        *pool = rest;
        Some(payload.to_vec())
    };
    Some(match *words.next()? {
        0 => Val::Null,
        1 => Val::Int(*words.next()?),
        2 => Val::Str(payload(*words.next()?)?),
        3 => Val::Bytes(payload(*words.next()?)?),
        4 => Val::Reference(*words.next()?),
        5 => {
            let count = *words.next()?;
            Val::Record((0..count).map(|_| read_value(words, pool)).collect::<Option<_>>()?)
        }
        6 => {
            let disc = *words.next()?;
            Val::Union(disc, Box::new(read_value(words, pool)?))
        }
        _ => return None,
    })
}

fn value_cuts(val: &Val) -> Vec<Val> {
    let mut cuts = Vec::new();
    match val {
        Val::Str(text) if !text.is_empty() => cuts.push(Val::Str(vec![])),
        Val::Bytes(payload) if !payload.is_empty() => {
            cuts.push(Val::Bytes(vec![]));
            cuts.push(Val::Bytes(payload[..payload.len() / 2].to_vec()));
            cuts.push(Val::Bytes(payload[1..].to_vec()));
            cuts.push(Val::Bytes(payload[..payload.len() - 1].to_vec()));
        }
        Val::Record(fields) => {
            for (i, field) in fields.iter().enumerate() {
                cuts.push(field.clone());
                let mut fewer = fields.clone();
                fewer.remove(i);
                cuts.push(Val::Record(fewer));
                for cut in value_cuts(field) {
                    let mut changed = fields.clone();
                    changed[i] = cut;
                    cuts.push(Val::Record(changed));
                }
            }
        }
        Val::Union(disc, payload) => {
            cuts.push((**payload).clone());
            cuts.extend(value_cuts(payload).into_iter().map(|cut| Val::Union(*disc, Box::new(cut))));
        }
        _ => {}
    }
    cuts
}

fn smaller_values(words: &[u64], pool: &[u8]) -> Vec<(Vec<u64>, Vec<u8>)> {
    if words.len() > MOST_WORDS {
        return vec![];
    }
    let mut rest = pool;
    let Some(val) = read_value(&mut words.iter(), &mut rest) else { return vec![] };
    let cuts = value_cuts(&val).into_iter().map(|cut| {
        let (mut words, mut pool) = (Vec::new(), Vec::new());
        cut.write_sheet(&mut words, &mut pool);
        (words, pool)
    });
    cuts.collect()
}
