//! A call through the library, as an answer of the oracle's shape; and the comparison of the two.

use crate::lent::Lent;
use crate::library::*;
use oracle::compute::{IN_SCRATCH, order_number};
use oracle::{Answer, Call, Kind, Outcome};

/// Whether the library's part that has the call is built in.
pub fn built(kind: Kind) -> bool {
    match kind.shape().part {
        "scalars" => cfg!(feature = "scalars"),
        "encode" => cfg!(feature = "encode"),
        "decode" => cfg!(feature = "decode"),
        "skip" => cfg!(feature = "skip"),
        "order" => cfg!(feature = "order"),
        "keys" => cfg!(feature = "keys"),
        "cursors" => cfg!(feature = "cursors"),
        "chars" => cfg!(feature = "chars"),
        other => unreachable!("no part {other}"),
    }
}

/// The lent buffers of a thread.
pub struct Ours {
    bytes: Lent<u8>,
    words: Lent<u64>,
    pool: Lent<u8>,
    /// the characters of a string reader's run
    codes: Vec<u64>,
}

impl Default for Ours {
    fn default() -> Ours {
        let byte = |place: usize| (place as u8).wrapping_mul(37) ^ 0xEE;
        Ours {
            bytes: Lent::new(byte),
            words: Lent::new(|place| (place as u64).wrapping_mul(0x9E37_79B9_7F4A_7C15) ^ 0xEEEE),
            pool: Lent::new(byte),
            codes: Vec::new(),
        }
    }
}

fn answer(refusal: u32, detail: u64, given: &[u64]) -> Answer {
    let mut numbers = [0; 5];
    numbers[..given.len()].copy_from_slice(given);
    Answer { refusal, detail, numbers }
}

fn of_length(length: Length) -> Answer {
    answer(length.refusal, length.detail, &[length.length])
}

#[cfg(feature = "encode")]
fn of_encoded(encoded: Encoded) -> Answer {
    answer(encoded.refusal, encoded.detail, &[encoded.length, encoded.zeros])
}

#[cfg(feature = "decode")]
fn of_sheet(sheet: Sheet) -> Answer {
    answer(sheet.refusal, sheet.detail, &[sheet.begun, sheet.words, sheet.pool])
}

#[cfg(feature = "keys")]
fn of_ends(ends: Ends) -> Answer {
    answer(ends.refusal, ends.detail, &[ends.lower, ends.upper])
}

#[cfg(any(feature = "scalars", feature = "cursors"))]
fn of_number(number: Number) -> Answer {
    answer(number.refusal, number.detail, &[number.value, number.used])
}

#[cfg(feature = "scalars")]
fn of_part(part: Part) -> Answer {
    answer(part.refusal, part.detail, &[u64::from(part.source), part.at, part.len, part.used])
}

#[cfg(feature = "cursors")]
fn of_step(step: Step) -> Answer {
    answer(step.refusal, step.detail, &[step.value, step.at, step.depth])
}

#[cfg(feature = "cursors")]
fn of_part_step(step: PartStep) -> Answer {
    answer(step.refusal, step.detail, &[u64::from(step.source), step.part, step.len, step.at, step.depth])
}

/// An order as the oracle numbers it; one that is none shows as itself.
#[cfg(feature = "order")]
fn of_order(order: Order) -> Answer {
    let number = match order.order {
        _ if order.refusal != 0 => i64::from(order.order) as u64,
        -1 => order_number(std::cmp::Ordering::Less),
        0 => order_number(std::cmp::Ordering::Equal),
        1 => order_number(std::cmp::Ordering::Greater),
        other => i64::from(other) as u64,
    };
    answer(order.refusal, order.detail, &[number])
}

impl Ours {
    /// The library's answer. The lent buffers are left as it left them.
    fn run(&mut self, call: &Call) -> Answer {
        use Kind::*;
        let (ty, ty_len) = (call.ty.as_ptr(), call.ty.len());
        let (words, words_len) = (call.words.as_ptr(), call.words.len());
        let (pool, pool_len) = (call.pool.as_ptr(), call.pool.len());
        let (other_words, other_words_len) = (call.other_words.as_ptr(), call.other_words.len());
        let (other_pool, other_pool_len) = (call.other_pool.as_ptr(), call.other_pool.len());
        let (third_words, third_words_len) = (call.third_words.as_ptr(), call.third_words.len());
        let (third_pool, third_pool_len) = (call.third_pool.as_ptr(), call.third_pool.len());
        let (bytes, bytes_len) = (call.bytes.as_ptr(), call.bytes.len());
        let [first, second, third] = call.numbers;
        let [room, other_room] = call.rooms;
        // used by the parts that are built
        let _ = (ty, ty_len, words, words_len, pool, pool_len, other_words, other_words_len, other_pool, other_pool_len);
        let _ = (third_words, third_words_len, third_pool, third_pool_len);
        let _ = (bytes, bytes_len, first, second, third, room, other_room);
        // SAFETY: every pointer comes with the length of its slice, and the lent buffers with the length lent.
        unsafe {
            match call.kind {
                #[cfg(feature = "encode")]
                EncodeTyped => of_encoded(tuple_encode_typed(ty, ty_len, words, words_len, pool, pool_len, self.bytes.lend(room), room)),
                #[cfg(feature = "encode")]
                EncodeKey => of_encoded(tuple_encode_key(ty, ty_len, words, words_len, pool, pool_len, self.bytes.lend(room), room)),
                #[cfg(feature = "decode")]
                DecodeTyped => {
                    let (out, out_pool) = (self.words.lend(room), self.pool.lend(other_room));
                    of_sheet(tuple_decode_typed(ty, ty_len, bytes, bytes_len, out, room, out_pool, other_room))
                }
                #[cfg(feature = "decode")]
                DecodeKey => {
                    let (out, out_pool) = (self.words.lend(room), self.pool.lend(other_room));
                    of_sheet(tuple_decode_key(ty, ty_len, bytes, bytes_len, out, room, out_pool, other_room))
                }
                #[cfg(feature = "decode")]
                CheckKey => of_sheet(tuple_check_key(ty, ty_len, bytes, bytes_len)),
                #[cfg(feature = "skip")]
                Skip => of_length(tuple_skip(bytes, bytes_len, first as usize, second != 0)),
                #[cfg(feature = "order")]
                Compare => {
                    of_order(tuple_compare(words, words_len, pool, pool_len, other_words, other_words_len, other_pool, other_pool_len))
                }
                #[cfg(feature = "order")]
                Strinc => of_length(tuple_strinc(bytes, bytes_len, self.bytes.lend(room), room)),
                #[cfg(feature = "order")]
                AboveField => of_length(tuple_above_field(bytes, bytes_len, self.bytes.lend(room), room)),
                #[cfg(feature = "keys")]
                Bounds => {
                    let (lower, upper) = (self.bytes.lend(room), self.pool.lend(other_room));
                    of_ends(tuple_bounds(ty, ty_len, bytes, bytes_len, first as usize, lower, room, upper, other_room))
                }
                #[cfg(feature = "keys")]
                Span => {
                    let (lower, upper) = (self.bytes.lend(room), self.pool.lend(other_room));
                    of_ends(tuple_span(
                        ty,
                        ty_len,
                        words,
                        words_len,
                        pool,
                        pool_len,
                        other_words,
                        other_words_len,
                        other_pool,
                        other_pool_len,
                        third_words,
                        third_words_len,
                        third_pool,
                        third_pool_len,
                        lower,
                        room,
                        upper,
                        other_room,
                    ))
                }
                #[cfg(feature = "keys")]
                StartingWith => {
                    let (lower, upper) = (self.bytes.lend(room), self.pool.lend(other_room));
                    of_ends(tuple_starting_with(
                        ty, ty_len, words, words_len, pool, pool_len, bytes, bytes_len, lower, room, upper, other_room,
                    ))
                }
                #[cfg(feature = "keys")]
                Replace => {
                    let buffer = self.bytes.lend_holding(&call.bytes);
                    let (used, field) = (first as usize, second as usize);
                    of_length(tuple_replace(ty, ty_len, buffer, bytes_len, used, field, words, words_len, pool, pool_len))
                }
                #[cfg(feature = "scalars")]
                GetI64 => of_number(tuple_get_i64(bytes, bytes_len)),
                #[cfg(feature = "scalars")]
                GetU64 => of_number(tuple_get_u64(bytes, bytes_len)),
                #[cfg(feature = "scalars")]
                GetStr => of_part(tuple_get_str(bytes, bytes_len, self.bytes.lend(room), room)),
                #[cfg(feature = "scalars")]
                GetBytes => of_part(tuple_get_bytes(bytes, bytes_len, self.bytes.lend(room), room)),
                #[cfg(feature = "scalars")]
                PutI64 => of_length(tuple_put_i64(self.bytes.lend(room), room, first as usize, second)),
                #[cfg(feature = "scalars")]
                PutU64 => of_length(tuple_put_u64(self.bytes.lend(room), room, first as usize, second)),
                #[cfg(feature = "scalars")]
                PutStr => of_length(tuple_put_str(self.bytes.lend(room), room, first as usize, bytes, bytes_len)),
                #[cfg(feature = "scalars")]
                PutBytes => of_length(tuple_put_bytes(self.bytes.lend(room), room, first as usize, bytes, bytes_len)),
                #[cfg(feature = "scalars")]
                PutFactId => of_length(tuple_put_fact_id(self.bytes.lend(room), room, first as usize, second)),
                #[cfg(feature = "cursors")]
                TakeNull => of_step(tuple_take_null(bytes, bytes_len, first as usize, second as usize)),
                #[cfg(feature = "cursors")]
                TakeI64 => of_step(tuple_take_i64(bytes, bytes_len, first as usize, second as usize)),
                #[cfg(feature = "cursors")]
                TakeU64 => of_step(tuple_take_u64(bytes, bytes_len, first as usize, second as usize)),
                #[cfg(feature = "cursors")]
                TakeFactId => of_step(tuple_take_fact_id(bytes, bytes_len, first as usize, second as usize)),
                #[cfg(feature = "cursors")]
                TakeStr => {
                    let scratch = self.bytes.lend(room);
                    of_part_step(tuple_take_str(bytes, bytes_len, first as usize, second as usize, scratch, room))
                }
                #[cfg(feature = "cursors")]
                TakeBytes => {
                    let scratch = self.bytes.lend(room);
                    of_part_step(tuple_take_bytes(bytes, bytes_len, first as usize, second as usize, scratch, room))
                }
                #[cfg(feature = "cursors")]
                OpenRecord => of_step(tuple_open_record(bytes, bytes_len, first as usize, second as usize)),
                #[cfg(feature = "cursors")]
                OpenUnion => of_step(tuple_open_union(bytes, bytes_len, first as usize, second as usize)),
                #[cfg(feature = "cursors")]
                Close => of_step(tuple_close(bytes, bytes_len, first as usize, second as usize)),
                #[cfg(feature = "cursors")]
                IsRecordEnd => of_number(tuple_is_record_end(bytes, bytes_len, first as usize, second as usize)),
                #[cfg(feature = "cursors")]
                PutNull => of_step(tuple_put_null(self.bytes.lend(room), room, first as usize, second as usize)),
                #[cfg(feature = "cursors")]
                PutRecord => of_step(tuple_put_record(self.bytes.lend(room), room, first as usize, second as usize)),
                #[cfg(feature = "cursors")]
                PutUnion => of_step(tuple_put_union(self.bytes.lend(room), room, first as usize, second as usize, third as u32)),
                #[cfg(feature = "cursors")]
                PutEnd => of_step(tuple_put_end(self.bytes.lend(room), room, first as usize, second as usize)),
                #[cfg(feature = "chars")]
                CharsNext => {
                    let step = tuple_chars_next(bytes, bytes_len, first as usize, second != 0);
                    answer(step.refusal, step.detail, &[u64::from(step.given), u64::from(step.code), step.at, u64::from(step.done)])
                }
                #[cfg(feature = "chars")]
                Chars => self.chars(&call.bytes),
                #[cfg(feature = "chars")]
                Names => self.names(&call.bytes),
                #[allow(unreachable_patterns)]
                other => unreachable!("{} is not built in", other.shape().name),
            }
        }
    }

    /// A new reader stepped to its end, and twice behind it.
    #[cfg(feature = "chars")]
    fn chars(&mut self, bytes: &[u8]) -> Answer {
        self.codes.clear();
        // SAFETY: the pointer comes with its length.
        let opened = unsafe { tuple_str_chars(bytes.as_ptr(), bytes.len()) };
        if opened.refusal != 0 {
            return answer(opened.refusal, opened.detail, &[opened.length]);
        }
        let behind = &bytes[1.min(bytes.len())..];
        // SAFETY: as above.
        let next = |at: u64, done: bool| unsafe { tuple_chars_next(behind.as_ptr(), behind.len(), at as usize, done) };
        let mut at = 0;
        loop {
            let step = next(at, false);
            if step.given == 1 && step.refusal == 0 && self.codes.len() <= behind.len() {
                self.codes.push(u64::from(step.code));
                at = step.at;
                continue;
            }
            let after = next(step.at, step.done);
            let ended = step.done && after.done && after.given == 0 && after.refusal == 0 && after.at == step.at;
            // a reader that does not stay finished shows as ended at no place
            return answer(0, 0, &[u64::from(step.refusal), if ended { step.at } else { u64::MAX }]);
        }
    }

    /// Whether a new reader comes to the end, and the characters before it; 0 where it refuses, 2 where it does neither in as many steps as there are bytes behind the
    /// mark, and one.
    #[cfg(feature = "chars")]
    fn names(&mut self, bytes: &[u8]) -> Answer {
        let Answer { refusal, detail, numbers: [last, at, ..] } = self.chars(bytes);
        let ends = match last {
            _ if refusal != 0 => 0,
            _ if at == u64::MAX || self.codes.len() >= bytes.len() => 2,
            0 => 1,
            _ => 0,
        };
        if ends == 0 {
            self.codes.clear();
        }
        answer(refusal, detail, &[ends])
    }

    /// Whether the library gives this answer, writes what the outcome has and nothing else.
    pub fn agrees(&mut self, call: &Call, expected: &Answer, outcome: &Outcome) -> bool {
        let given = self.run(call);
        let accepted = expected.refusal == 0;
        let agrees = given == *expected;
        agrees & self.buffers_agree(call, accepted, outcome)
    }

    fn buffers_agree(&mut self, call: &Call, accepted: bool, outcome: &Outcome) -> bool {
        use Kind::*;
        let [room, other_room] = call.rooms;
        let (bytes, pool, words): (&[u8], &[u8], &[u64]) =
            if accepted { (&outcome.bytes, &outcome.pool, &outcome.words) } else { (&[], &[], &[]) };
        match call.kind {
            CheckKey | Skip | Compare | GetI64 | GetU64 | TakeNull | TakeI64 | TakeU64 | TakeFactId | OpenRecord | OpenUnion | Close
            | IsRecordEnd | CharsNext => true,
            Chars | Names => !accepted || self.codes == words,
            DecodeTyped | DecodeKey => self.words.holds(room, 0, words) & self.pool.holds(other_room, 0, pool),
            Bounds | Span | StartingWith => self.bytes.holds(room, 0, bytes) & self.pool.holds(other_room, 0, pool),
            Replace => self.bytes.filled_with(bytes, &call.bytes[bytes.len()..]),
            _ => self.bytes.holds(room, outcome.at, bytes),
        }
    }

    /// The library's answer with what it handed out, for a report.
    pub fn seen(&mut self, call: &Call) -> (Answer, Outcome) {
        let answer = self.run(call);
        let mut outcome = Outcome::default();
        if answer.refusal != 0 && call.kind != Kind::Replace {
            self.forget(call);
            return (answer, outcome);
        }
        let [room, other_room] = call.rooms;
        let number = |i: usize| usize::try_from(answer.numbers[i]).unwrap_or(usize::MAX);
        match call.kind {
            Kind::DecodeTyped | Kind::DecodeKey => {
                outcome.words = self.words.held(0, number(1).min(room)).to_vec();
                outcome.pool = self.pool.held(0, number(2).min(other_room)).to_vec();
            }
            Kind::Bounds | Kind::Span | Kind::StartingWith => {
                outcome.bytes = self.bytes.held(0, number(0).min(room)).to_vec();
                outcome.pool = self.pool.held(0, number(1).min(other_room)).to_vec();
            }
            // the whole buffer, whatever the answer says
            Kind::Replace => outcome.bytes = self.bytes.held(0, call.bytes.len()).to_vec(),
            Kind::GetStr | Kind::GetBytes | Kind::TakeStr | Kind::TakeBytes => {
                if answer.numbers[0] == IN_SCRATCH {
                    outcome.bytes = self.bytes.held(0, number(2).min(room)).to_vec();
                }
            }
            Kind::Chars | Kind::Names => outcome.words.clone_from(&self.codes),
            Kind::PutI64 | Kind::PutU64 | Kind::PutStr | Kind::PutBytes | Kind::PutFactId => {
                let from = usize::try_from(call.numbers[0]).unwrap_or(usize::MAX).min(room);
                outcome.bytes = self.bytes.held(from, number(0).clamp(from, room)).to_vec();
            }
            Kind::PutNull | Kind::PutRecord | Kind::PutUnion | Kind::PutEnd => {
                let from = usize::try_from(call.numbers[0]).unwrap_or(usize::MAX).min(room);
                outcome.bytes = self.bytes.held(from, number(1).clamp(from, room)).to_vec();
            }
            Kind::EncodeTyped | Kind::EncodeKey | Kind::Strinc | Kind::AboveField => {
                outcome.bytes = self.bytes.held(0, number(0).min(room)).to_vec();
            }
            _ => {}
        }
        self.forget(call);
        (answer, outcome)
    }

    /// Puts the pattern back.
    fn forget(&mut self, call: &Call) {
        let [room, other_room] = call.rooms;
        let bytes = if call.kind == Kind::Replace { call.bytes.len() } else { room };
        self.bytes.holds(bytes, 0, &[]);
        self.words.holds(room, 0, &[]);
        self.pool.holds(other_room, 0, &[]);
    }
}

/// The text of the library's answer as a line has it.
pub fn seen_text(call: &Call, answer: &Answer, outcome: &Outcome) -> String {
    let mut text = String::new();
    if call.kind == Kind::Replace {
        // the buffer as it was found, also where the call refused
        let found = Call { bytes: outcome.bytes.clone(), ..call.clone() };
        oracle::line::write_answer(&mut text, &found, answer, &Outcome::default());
    } else {
        oracle::line::write_answer(&mut text, call, answer, outcome);
    }
    text
}
