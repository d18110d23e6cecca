//! LMDB through its C functions (lmdb.h, Debian's liblmdb-dev): the plan is one table of 64-bit numbers by number, in a
//! file that is never synced.

use crate::job::{Edit, Job};
use crate::timing::{timed, Store, Times, Way};
use std::ffi::{c_char, c_int, c_uint, c_void, CStr, CString};
use std::marker::PhantomData;
use std::path::Path;
use std::ptr::{null, null_mut};

#[repr(C)]
struct Value {
    size: usize,
    data: *mut c_void,
}

// The declarations of lmdb.h that are used; its structures that are not laid out there are `c_void` here.
#[link(name = "lmdb")]
extern "C" {
    fn mdb_version(major: *mut c_int, minor: *mut c_int, patch: *mut c_int) -> *const c_char;
    fn mdb_strerror(code: c_int) -> *const c_char;
    fn mdb_env_create(env: *mut *mut c_void) -> c_int;
    fn mdb_env_set_mapsize(env: *mut c_void, size: usize) -> c_int;
    fn mdb_env_open(env: *mut c_void, path: *const c_char, flags: c_uint, mode: c_uint) -> c_int;
    fn mdb_env_close(env: *mut c_void);
    fn mdb_txn_begin(env: *mut c_void, parent: *mut c_void, flags: c_uint, txn: *mut *mut c_void) -> c_int;
    fn mdb_txn_commit(txn: *mut c_void) -> c_int;
    fn mdb_txn_abort(txn: *mut c_void);
    fn mdb_dbi_open(txn: *mut c_void, name: *const c_char, flags: c_uint, dbi: *mut c_uint) -> c_int;
    fn mdb_get(txn: *mut c_void, dbi: c_uint, key: *mut Value, data: *mut Value) -> c_int;
    fn mdb_put(txn: *mut c_void, dbi: c_uint, key: *mut Value, data: *mut Value, flags: c_uint) -> c_int;
    fn mdb_cursor_open(txn: *mut c_void, dbi: c_uint, cursor: *mut *mut c_void) -> c_int;
    fn mdb_cursor_get(cursor: *mut c_void, key: *mut Value, data: *mut Value, operation: c_uint) -> c_int;
    fn mdb_cursor_close(cursor: *mut c_void);
}

const NOSUBDIR: c_uint = 0x4000;
const NOSYNC: c_uint = 0x10000;
const RDONLY: c_uint = 0x20000;
const WRITEMAP: c_uint = 0x80000;
const INTEGERKEY: c_uint = 0x08;
const NEXT: c_uint = 8;

/// The greatest size of the file.
const MAP: usize = 1 << 26;

/// Any code but 0 is a failure of the program.
fn ok(code: c_int) {
    // SAFETY: mdb_strerror gives a string that stays, for every number.
    assert_eq!(code, 0, "LMDB: {:?}", unsafe { CStr::from_ptr(mdb_strerror(code)) });
}

impl Value {
    const NONE: Value = Value { size: 0, data: null_mut() };

    /// The bytes of a number, which has to outlive the value. LMDB does not write to them.
    fn of(number: &u64) -> Value {
        Value { size: size_of::<u64>(), data: (number as *const u64).cast_mut().cast() }
    }

    /// The number at a value that LMDB gave in a transaction that is still open.
    ///
    /// # Safety
    /// `data` is to `size` bytes.
    unsafe fn number(&self) -> u64 {
        assert_eq!(self.size, size_of::<u64>());
        // SAFETY: there are as many bytes as a number has; LMDB does not align them.
        unsafe { self.data.cast::<u64>().read_unaligned() }
    }
}

/// An environment with the plan in it.
struct Lmdb {
    env: *mut c_void,
    dbi: c_uint,
}

impl Lmdb {
    fn new(file: &Path, flags: c_uint, start: &[u64]) -> Lmdb {
        let path = CString::new(file.to_str().expect("a path in UTF-8")).expect("a path without a zero byte");
        let mut lmdb = Lmdb { env: null_mut(), dbi: 0 };
        // SAFETY: the environment is lent as LMDB made it, and opened once; the path is a string with its zero byte.
        unsafe {
            ok(mdb_env_create(&mut lmdb.env));
            ok(mdb_env_set_mapsize(lmdb.env, MAP));
            ok(mdb_env_open(lmdb.env, path.as_ptr(), flags | NOSUBDIR | NOSYNC, 0o600));
        }
        let mut dbi = 0;
        let txn = lmdb.begin(0);
        // SAFETY: the transaction is open; no name is the one table of the file.
        unsafe { ok(mdb_dbi_open(txn.txn, null(), INTEGERKEY, &mut dbi)) };
        txn.commit();
        lmdb.dbi = dbi;
        let txn = lmdb.begin(0);
        for (record, value) in (0..).zip(start) {
            txn.put(record, *value);
        }
        txn.commit();
        lmdb
    }

    fn begin(&self, flags: c_uint) -> Txn<'_> {
        let mut txn = null_mut();
        // SAFETY: the environment is open. This thread has no other transaction: all are ended where they begin.
        unsafe { ok(mdb_txn_begin(self.env, null_mut(), flags, &mut txn)) };
        Txn { txn, dbi: self.dbi, env: PhantomData }
    }
}

impl Drop for Lmdb {
    fn drop(&mut self) {
        // SAFETY: the environment was made by LMDB; transactions borrow it, so there is none.
        unsafe { mdb_env_close(self.env) }
    }
}

/// An open transaction. Dropped, it is aborted, which is how one that only reads ends.
struct Txn<'a> {
    txn: *mut c_void,
    dbi: c_uint,
    env: PhantomData<&'a Lmdb>,
}

impl Txn<'_> {
    fn get(&self, record: u64) -> u64 {
        let mut data = Value::NONE;
        // SAFETY: the transaction is open; the key is a number that outlives the call; the value was given just now.
        unsafe {
            ok(mdb_get(self.txn, self.dbi, &mut Value::of(&record), &mut data));
            data.number()
        }
    }

    fn put(&self, record: u64, value: u64) {
        // SAFETY: the transaction is open and writes; key and value are numbers that outlive the call.
        unsafe { ok(mdb_put(self.txn, self.dbi, &mut Value::of(&record), &mut Value::of(&value), 0)) }
    }

    /// All records in their order, by a cursor.
    fn all(&self, values: &mut [u64]) {
        let mut cursor = null_mut();
        let (mut key, mut data) = (Value::NONE, Value::NONE);
        // SAFETY: the transaction is open, and the cursor from its opening until it is closed; the first NEXT goes to
        // the first record; the values were given just now.
        unsafe {
            ok(mdb_cursor_open(self.txn, self.dbi, &mut cursor));
            for (record, value) in (0..).zip(values) {
                ok(mdb_cursor_get(cursor, &mut key, &mut data, NEXT));
                assert_eq!(key.number(), record);
                *value = data.number();
            }
            mdb_cursor_close(cursor);
        }
    }

    fn commit(self) {
        let txn = self.txn;
        std::mem::forget(self);
        // SAFETY: the transaction is open, and is not used again: it is not dropped.
        unsafe { ok(mdb_txn_commit(txn)) }
    }
}

impl Drop for Txn<'_> {
    fn drop(&mut self) {
        // SAFETY: the transaction is open, and is not used again.
        unsafe { mdb_txn_abort(self.txn) }
    }
}

impl Store for Lmdb {
    fn edits(&mut self, edits: &[Edit]) {
        for edit in edits {
            let txn = self.begin(0);
            let written = edit.moved(edit.records.map(|record| txn.get(record)));
            for (record, value) in edit.records.into_iter().zip(written) {
                txn.put(record, value);
            }
            txn.commit();
        }
    }

    fn chart(&mut self, values: &mut [u64]) {
        let txn = self.begin(RDONLY);
        for (record, value) in (0..).zip(values) {
            *value = txn.get(record);
        }
    }

    fn chart_at_once(&mut self, values: &mut [u64]) {
        self.begin(RDONLY).all(values);
    }
}

/// A run of the job on a file of its own.
fn run(job: &Job, file: &Path, flags: c_uint) -> Times {
    let times = timed(job, &mut Lmdb::new(file, flags, &job.start));
    std::fs::remove_file(file).expect("the file of the table");
    times
}

pub fn ways(folder: &Path) -> [Way; 2] {
    let (mut major, mut minor, mut patch) = (0, 0, 0);
    // SAFETY: the numbers are three locals.
    unsafe { mdb_version(&mut major, &mut minor, &mut patch) };
    let way = |name: &str, flags| {
        let file = folder.join("lmdb");
        Way::new(format!("LMDB {major}.{minor}.{patch}, {name}"), move |job| run(job, &file, flags))
    };
    [way("no sync", 0), way("no sync, writable map", WRITEMAP)]
}
