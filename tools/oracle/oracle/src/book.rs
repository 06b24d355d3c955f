//! The plain book of demand 3: a record's type and fields, the lent buffer and the used length.

use crate::compute::Answer;
use crate::optional::{Type, admit_type};
use crate::refusal::{BAD_VALUE, NO_FIELD, NO_ROOM, Refusal};
use crate::sheet::admit_value;
use fjord_encoding::tuple::Value;

pub struct Book {
    ty: Type,
    record: Value,
    pub buffer: Vec<u8>,
    pub used: usize,
}

impl Book {
    /// Starts from an accepted `encode_key` of a record type into this buffer; none where it is refused.
    pub fn begin(ty: &[u32], words: &[u64], pool: &[u8], mut buffer: Vec<u8>) -> Option<Book> {
        let ty = admit_type(ty)?;
        let record = admit_value(words, pool)?;
        let (Some(_), Value::Record(_)) = (ty.fields(), &record) else { return None };
        let key = ty.encode_key(&record).ok()?;
        buffer.get_mut(..key.len())?.copy_from_slice(&key);
        Some(Book { ty, record, buffer, used: key.len() })
    }

    fn fields(&mut self) -> &mut [(String, Value)] {
        let Value::Record(fields) = &mut self.record else { unreachable!("the book holds a record") };
        fields
    }

    pub fn count(&mut self) -> usize {
        self.fields().len()
    }

    /// One replacement: the answer, and the book as it is afterwards.
    pub fn enter(&mut self, field: u64, words: &[u64], pool: &[u8]) -> Answer {
        match self.entered(field, words, pool) {
            Ok(()) => Answer { refusal: 0, detail: 0, numbers: [self.used as u64, 0, 0, 0, 0] },
            Err((refusal, detail)) => Answer { refusal, detail, numbers: [0; 5] },
        }
    }

    fn entered(&mut self, field: u64, words: &[u64], pool: &[u8]) -> Result<(), Refusal> {
        if field >= self.count() as u64 {
            return Err((NO_FIELD, 0));
        }
        let field = field as usize;
        let new = admit_value(words, pool).ok_or((BAD_VALUE, 0))?;
        let old = std::mem::replace(&mut self.fields()[field].1, new);
        let key = self
            .ty
            .encode_key(&self.record)
            .and_then(|key| if key.len() > self.buffer.len() { Err((NO_ROOM, key.len() as u64)) } else { Ok(key) });
        match key {
            Ok(key) => {
                self.buffer[..key.len()].copy_from_slice(&key);
                self.used = key.len();
                Ok(())
            }
            Err(refused) => {
                self.fields()[field].1 = old;
                Err(refused)
            }
        }
    }
}
