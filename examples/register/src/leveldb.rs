//! LevelDB through its C interface (leveldb/c.h): open, write a batch of changes, scan a range. Its keys are in plain byte order.

use std::ffi::{CStr, CString, c_char, c_int, c_void};
use std::ops::Range;
use std::path::Path;
use std::ptr;

macro_rules! opaque {
    ($($name:ident),*) => {$(
        #[repr(C)]
        struct $name {
            _private: [u8; 0],
        }
    )*};
}

opaque!(LevelDb, Options, ReadOptions, WriteOptions, WriteBatch, Iter);

#[rustfmt::skip]
#[link(name = "leveldb")]
unsafe extern "C" {
    fn leveldb_open(options: *const Options, name: *const c_char, error: *mut *mut c_char) -> *mut LevelDb;
    fn leveldb_close(db: *mut LevelDb);
    fn leveldb_write(db: *mut LevelDb, options: *const WriteOptions, batch: *mut WriteBatch, error: *mut *mut c_char);
    fn leveldb_compact_range(db: *mut LevelDb, start: *const c_char, start_len: usize, limit: *const c_char, limit_len: usize);
    fn leveldb_create_iterator(db: *mut LevelDb, options: *const ReadOptions) -> *mut Iter;
    fn leveldb_iter_destroy(iter: *mut Iter);
    fn leveldb_iter_valid(iter: *const Iter) -> u8;
    fn leveldb_iter_seek(iter: *mut Iter, key: *const c_char, len: usize);
    fn leveldb_iter_next(iter: *mut Iter);
    fn leveldb_iter_key(iter: *const Iter, len: *mut usize) -> *const c_char;
    fn leveldb_iter_value(iter: *const Iter, len: *mut usize) -> *const c_char;
    fn leveldb_iter_get_error(iter: *const Iter, error: *mut *mut c_char);
    fn leveldb_writebatch_create() -> *mut WriteBatch;
    fn leveldb_writebatch_destroy(batch: *mut WriteBatch);
    fn leveldb_writebatch_put(batch: *mut WriteBatch, key: *const c_char, key_len: usize, value: *const c_char, value_len: usize);
    fn leveldb_writebatch_delete(batch: *mut WriteBatch, key: *const c_char, key_len: usize);
    fn leveldb_options_create() -> *mut Options;
    fn leveldb_options_destroy(options: *mut Options);
    fn leveldb_options_set_create_if_missing(options: *mut Options, yes: u8);
    fn leveldb_options_set_error_if_exists(options: *mut Options, yes: u8);
    fn leveldb_readoptions_create() -> *mut ReadOptions;
    fn leveldb_readoptions_destroy(options: *mut ReadOptions);
    fn leveldb_readoptions_set_verify_checksums(options: *mut ReadOptions, yes: u8);
    fn leveldb_writeoptions_create() -> *mut WriteOptions;
    fn leveldb_writeoptions_destroy(options: *mut WriteOptions);
    fn leveldb_free(memory: *mut c_void);
    fn leveldb_major_version() -> c_int;
    fn leveldb_minor_version() -> c_int;
}

/// One change of a batch, which is written whole or not at all.
pub enum Change {
    Put(Vec<u8>, Vec<u8>),
    Delete(Vec<u8>),
}

/// A stored key and its value.
pub type Entry = (Vec<u8>, Vec<u8>);

/// An open database.
pub struct Store {
    db: *mut LevelDb,
    read: *mut ReadOptions,
    write: *mut WriteOptions,
}

/// The words of an error that LevelDB handed out, which are then freed; none where it handed out none.
fn failed(error: *mut c_char) -> Result<(), String> {
    if error.is_null() {
        return Ok(());
    }
    // SAFETY: LevelDB hands out a string that ends in a zero, allocated for the caller, who frees it by `leveldb_free` and uses it no more.
    unsafe {
        let words = CStr::from_ptr(error).to_string_lossy().into_owned();
        leveldb_free(error.cast());
        Err(words)
    }
}

fn part(bytes: &[u8]) -> (*const c_char, usize) {
    (bytes.as_ptr().cast(), bytes.len())
}

impl Store {
    /// A new database in a folder that is not there yet.
    pub fn create(folder: &Path) -> Result<Store, String> {
        let name = CString::new(folder.to_str().ok_or("the folder's name is not UTF-8")?).map_err(|e| e.to_string())?;
        let mut error = ptr::null_mut();
        // SAFETY: the options are made, used and destroyed here; the name ends in a zero and lives through the call; `error` takes LevelDB's string.
        let db = unsafe {
            let options = leveldb_options_create();
            leveldb_options_set_create_if_missing(options, 1);
            leveldb_options_set_error_if_exists(options, 1);
            let db = leveldb_open(options, name.as_ptr(), &mut error);
            leveldb_options_destroy(options);
            db
        };
        failed(error)?;
        // SAFETY: both are made here, owned by the store, and destroyed when it is dropped.
        let (read, write) = unsafe {
            let read = leveldb_readoptions_create();
            leveldb_readoptions_set_verify_checksums(read, 1);
            (read, leveldb_writeoptions_create())
        };
        Ok(Store { db, read, write })
    }

    /// Writes all changes, or none.
    pub fn write(&self, changes: &[Change]) -> Result<(), String> {
        let mut error = ptr::null_mut();
        // SAFETY: the batch is made, used and destroyed here; LevelDB copies keys and values into it; `db` and `write` live as long as the store.
        unsafe {
            let batch = leveldb_writebatch_create();
            for change in changes {
                match change {
                    Change::Put(key, value) => {
                        let ((key, key_len), (value, value_len)) = (part(key), part(value));
                        leveldb_writebatch_put(batch, key, key_len, value, value_len);
                    }
                    Change::Delete(key) => {
                        let (key, key_len) = part(key);
                        leveldb_writebatch_delete(batch, key, key_len);
                    }
                }
            }
            leveldb_write(self.db, self.write, batch, &mut error);
            leveldb_writebatch_destroy(batch);
        }
        failed(error)
    }

    /// Puts everything written so far into sorted files.
    pub fn compact(&self) {
        // SAFETY: `db` lives as long as the store; no start and no limit mean the whole database.
        unsafe { leveldb_compact_range(self.db, ptr::null(), 0, ptr::null(), 0) }
    }

    /// All keys from the range's start on and below its end, with their values, in the database's order.
    pub fn scan(&self, range: &Range<Vec<u8>>) -> Result<Vec<Entry>, String> {
        let mut found = Vec::new();
        let mut error = ptr::null_mut();
        // SAFETY: the iterator is made, used and destroyed here, while `db` and `read` live; what it lends is copied before it moves on.
        unsafe {
            let copied = |data: *const c_char, len: usize| std::slice::from_raw_parts(data.cast::<u8>(), len).to_vec();
            let iter = leveldb_create_iterator(self.db, self.read);
            let (start, start_len) = part(&range.start);
            leveldb_iter_seek(iter, start, start_len);
            while leveldb_iter_valid(iter) != 0 {
                let (mut key_len, mut value_len) = (0, 0);
                let key = leveldb_iter_key(iter, &mut key_len);
                let key = copied(key, key_len);
                if key >= range.end {
                    break;
                }
                let value = leveldb_iter_value(iter, &mut value_len);
                found.push((key, copied(value, value_len)));
                leveldb_iter_next(iter);
            }
            leveldb_iter_get_error(iter, &mut error);
            leveldb_iter_destroy(iter);
        }
        failed(error)?;
        Ok(found)
    }
}

impl Drop for Store {
    fn drop(&mut self) {
        // SAFETY: the three were made by `create`, and nothing uses them after this.
        unsafe {
            leveldb_readoptions_destroy(self.read);
            leveldb_writeoptions_destroy(self.write);
            leveldb_close(self.db);
        }
    }
}

/// LevelDB's version.
pub fn version() -> (i32, i32) {
    // SAFETY: both take nothing and give a number.
    unsafe { (leveldb_major_version(), leveldb_minor_version()) }
}
