//! The families of inputs. An input is known by family, seed and number, so a run can be taken up anywhere.

mod boundary;
mod exhaustive;
mod keys;
mod optional;
mod spans;
mod starts;
mod steps;
mod typed;

use crate::Sink;
use crate::generate;
use crate::random::Random;
use crate::tree::{Ty, Val};
use oracle::{Call, Kind, Oracle};

pub struct Family {
    pub name: &'static str,
    pub about: &'static str,
    /// how many inputs there are; none where they go on for ever
    pub inputs: Option<u64>,
    /// how many inputs a thread takes at a time
    pub chunk: u64,
    run: fn(&mut Work, u64, &mut dyn Sink),
}

/// What a thread keeps from input to input.
pub struct Work {
    pub call: Call,
    random: Random,
    oracle: Oracle,
    small: Option<exhaustive::Small>,
    /// types have word 7 before some of their parts
    optional: bool,
}

impl Default for Work {
    fn default() -> Work {
        Work { call: Call::new(Kind::Skip), random: Random::of(0, "", 0), oracle: Oracle::default(), small: None, optional: false }
    }
}

impl Family {
    pub fn run(&self, work: &mut Work, seed: u64, input: u64, sink: &mut dyn Sink) {
        work.random = Random::of(seed, self.name, input);
        (self.run)(work, input, sink);
    }
}

pub fn named(name: &str) -> Option<&'static Family> {
    FAMILIES.iter().find(|family| family.name == name)
}

pub const FAMILIES: &[Family] = &[
    Family {
        name: "bytes3",
        about: "every byte string of up to 3 bytes, alone and behind the marks 21 and 53: readers, skip from every start, strinc, string reader",
        inputs: Some(exhaustive::BYTES3_INPUTS),
        chunk: 4,
        run: exhaustive::bytes3,
    },
    Family {
        name: "places",
        about: "payloads of every length up to 300 with a zero, FF or longer character at every place: runs, text, compare",
        inputs: Some(exhaustive::PLACES_INPUTS),
        chunk: 1,
        run: exhaustive::places,
    },
    Family {
        name: "copies",
        about: "whole keys of every length up to 8,400: strinc, above_field, bounds",
        inputs: Some(exhaustive::COPIES_INPUTS),
        chunk: 16,
        run: exhaustive::copies,
    },
    Family {
        name: "types5",
        about: "every type sheet of up to 5 words over 0 to 7, each with all keys of up to 4 telling bytes: decoding",
        inputs: Some(exhaustive::TYPES5_INPUTS),
        chunk: 2,
        run: exhaustive::types5,
    },
    Family {
        name: "sheets4",
        about: "every value sheet of up to 4 words over 0 to 7 with small pools, under every type of up to 4 words: encoding, compare",
        inputs: Some(exhaustive::SHEETS4_INPUTS),
        chunk: 16,
        run: exhaustive::sheets4,
    },
    Family {
        name: "steps2",
        about: "the cursors' steps on every byte string of up to 2 bytes, at all places and telling depths; writing steps in all small rooms",
        inputs: Some(steps::STEPS2_INPUTS),
        chunk: 1,
        run: steps::steps2,
    },
    Family {
        name: "integers",
        about: "integers, discriminants and references at changes of width, sound and ill-formed",
        inputs: None,
        chunk: 64,
        run: boundary::integers,
    },
    Family {
        name: "runs",
        about: "escaped runs and text with lengths round block sizes, zeros, FF, and ill-formed UTF-8 at every sort of place",
        inputs: None,
        chunk: 64,
        run: boundary::runs,
    },
    Family {
        name: "depths",
        about: "chains of 254 to 258 and of 318 to 322 groups: encoding, decoding, skip, compare",
        inputs: None,
        chunk: 16,
        run: boundary::depths,
    },
    Family {
        name: "counts",
        about: "records and unions of 0 to 4,094 parts, with one more or fewer in the value",
        inputs: None,
        chunk: 8,
        run: boundary::counts,
    },
    Family {
        name: "lengths",
        about: "keys of 65,529 to 65,534 bytes and longer: encoding, decoding, bounds, replacement",
        inputs: None,
        chunk: 4,
        run: boundary::lengths,
    },
    Family {
        name: "longtypes",
        about: "type sheets of 4,094 to 4,098 words: every call that takes a type",
        inputs: None,
        chunk: 4,
        run: boundary::long_types,
    },
    Family {
        name: "limits",
        about: "value sheets of 1,048,575 to 1,048,577 words or pool bytes: encoding, decoding, compare, replacement",
        inputs: None,
        chunk: 1,
        run: boundary::limits,
    },
    Family {
        name: "typed",
        about: "random types with fitting, near-fitting and ill-formed values: every call on sheets and keys",
        inputs: None,
        chunk: 64,
        run: typed::typed,
    },
    Family {
        name: "damaged",
        about: "good keys with one to three damages, or with an ill-formed field: decoding, skip from every start, bounds, replacement, readers",
        inputs: None,
        chunk: 64,
        run: typed::damaged,
    },
    Family { name: "wild", about: "words, bytes and numbers of any sort for every call", inputs: None, chunk: 64, run: typed::wild },
    Family {
        name: "book",
        about: "lists of replacements on one buffer, and bounds after each, against the plain book",
        inputs: None,
        chunk: 32,
        run: keys::book,
    },
    Family {
        name: "optional5",
        about: "sixteen types with word 7, each with all keys of up to 5 telling bytes: decoding, bounds, replacement",
        inputs: Some(optional::OPTIONAL5_INPUTS),
        chunk: 1,
        run: optional::optional5,
    },
    Family { name: "optional", about: "as typed, with word 7 in the types", inputs: None, chunk: 64, run: optional::typed },
    Family { name: "optdamaged", about: "as damaged, with word 7 in the types", inputs: None, chunk: 64, run: optional::damaged },
    Family { name: "optbook", about: "as book, with word 7 in the types", inputs: None, chunk: 32, run: optional::book },
    Family { name: "optdepths", about: "as depths, with word 7 in the types", inputs: None, chunk: 16, run: optional::depths },
    Family {
        name: "cursors",
        about: "the cursors' steps and the string reader at the places of good and damaged keys",
        inputs: None,
        chunk: 32,
        run: steps::cursors,
    },
    Family {
        name: "spans5",
        about: "spans: every type sheet of up to 5 words over 0 to 7 and longer telling ones, with short sheets for first, lowest and highest",
        inputs: Some(spans::SPANS5_INPUTS),
        chunk: 16,
        run: spans::spans5,
    },
    Family {
        name: "spans",
        about: "spans of random types, good, near and ill-formed in each sheet, of every count of fields, deep, long and wide",
        inputs: None,
        chunk: 32,
        run: spans::spans,
    },
    Family {
        name: "members",
        about: "many keys of a type and spans on them: a key lies between the library's ends exactly where its values say so",
        inputs: None,
        chunk: 16,
        run: spans::members,
    },
    Family {
        name: "starts5",
        about: "what begins with s: every type sheet of up to 5 words over 0 to 7 and longer ones, with short first sheets and every s of up to 3 telling bytes",
        inputs: Some(starts::STARTS5_INPUTS),
        chunk: 16,
        run: starts::starts5,
    },
    Family {
        name: "starts",
        about: "what begins with s under random types, at every count of fields, s of a name or of any bytes, good and ill-formed, deep, long and wide",
        inputs: None,
        chunk: 32,
        run: starts::starts,
    },
    Family {
        name: "begun",
        about: "names round the edge of what they begin with: a key lies between the library's ends exactly where its value says so",
        inputs: None,
        chunk: 16,
        run: starts::begun,
    },
];

// ---- helpers of the families

impl Work {
    fn set_type(&mut self, ty: &Ty) {
        self.call.ty.clear();
        ty.write_sheet(&mut self.call.ty);
    }

    /// The type as it is, or with word 7 in it, as the family wants it.
    fn wanted(&mut self, ty: Ty) -> Ty {
        if self.optional { generate::with_optional(&mut self.random, ty) } else { ty }
    }

    /// The bytes of a key; where types have word 7, now and then with the escape that a Null has in groups.
    fn key_of(&mut self, val: &Val) -> Vec<u8> {
        let mut key = Vec::new();
        if self.optional && !self.random.one_in(8) {
            val.write_bare_key(&mut key)
        } else {
            val.write_key(&mut key)
        }
        key
    }

    fn set_value(&mut self, val: &Val) {
        self.call.words.clear();
        self.call.pool.clear();
        val.write_sheet(&mut self.call.words, &mut self.call.pool);
    }

    fn set_other(&mut self, val: &Val) {
        self.call.other_words.clear();
        self.call.other_pool.clear();
        val.write_sheet(&mut self.call.other_words, &mut self.call.other_pool);
    }

    fn set_third(&mut self, val: &Val) {
        self.call.third_words.clear();
        self.call.third_pool.clear();
        val.write_sheet(&mut self.call.third_words, &mut self.call.third_pool);
    }

    fn set_bytes(&mut self, bytes: &[u8]) {
        self.call.bytes.clear();
        self.call.bytes.extend_from_slice(bytes);
    }

    fn send(&mut self, kind: Kind, sink: &mut dyn Sink) {
        self.call.kind = kind;
        sink.call(&mut self.call);
    }

    fn send_all(&mut self, kinds: &[Kind], sink: &mut dyn Sink) {
        for kind in kinds {
            self.send(*kind, sink);
        }
    }

    /// A call that takes numbers.
    fn send_with(&mut self, kind: Kind, numbers: &[u64], sink: &mut dyn Sink) {
        self.call.numbers = [0; 3];
        self.call.numbers[..numbers.len()].copy_from_slice(numbers);
        self.send(kind, sink);
    }

    fn skip_from(&mut self, start: u64, sink: &mut dyn Sink) {
        self.send_with(Kind::Skip, &[start, 0], sink);
        self.send_with(Kind::Skip, &[start, 1], sink);
    }
}

const ENCODING: [Kind; 2] = [Kind::EncodeTyped, Kind::EncodeKey];
const DECODING: [Kind; 3] = [Kind::DecodeTyped, Kind::DecodeKey, Kind::CheckKey];
const READERS: [Kind; 4] = [Kind::GetI64, Kind::GetU64, Kind::GetStr, Kind::GetBytes];
