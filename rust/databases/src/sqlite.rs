//! SQLite through its C functions (sqlite3.h, Debian's libsqlite3-dev): the plan is one table by record number, in a
//! file with a write-ahead log that is never synced, or in memory. All statements are prepared once.

use crate::job::{Edit, Job};
use crate::timing::{timed, Store, Way};
use std::ffi::{c_char, c_int, c_void, CStr, CString};
use std::path::Path;
use std::ptr::{null, null_mut};

// The declarations of sqlite3.h that are used; its structures are `c_void` here.
#[link(name = "sqlite3")]
extern "C" {
    fn sqlite3_libversion() -> *const c_char;
    fn sqlite3_errstr(code: c_int) -> *const c_char;
    fn sqlite3_open_v2(file: *const c_char, db: *mut *mut c_void, flags: c_int, vfs: *const c_char) -> c_int;
    fn sqlite3_close_v2(db: *mut c_void) -> c_int;
    fn sqlite3_prepare_v2(
        db: *mut c_void,
        sql: *const c_char,
        bytes: c_int,
        statement: *mut *mut c_void,
        rest: *mut *const c_char,
    ) -> c_int;
    fn sqlite3_bind_int64(statement: *mut c_void, place: c_int, value: i64) -> c_int;
    fn sqlite3_step(statement: *mut c_void) -> c_int;
    fn sqlite3_column_int64(statement: *mut c_void, column: c_int) -> i64;
    fn sqlite3_column_text(statement: *mut c_void, column: c_int) -> *const c_char;
    fn sqlite3_reset(statement: *mut c_void) -> c_int;
    fn sqlite3_finalize(statement: *mut c_void) -> c_int;
}

const OK: c_int = 0;
const ROW: c_int = 100;
const DONE: c_int = 101;
const READWRITE: c_int = 0x2;
const CREATE: c_int = 0x4;
const NOMUTEX: c_int = 0x8000;

/// Any other code than the one expected is a failure of the program.
fn expect(expected: c_int, code: c_int) {
    // SAFETY: sqlite3_errstr gives a string that stays, for every number.
    assert_eq!(code, expected, "SQLite: {:?}", unsafe { CStr::from_ptr(sqlite3_errstr(code)) });
}

struct Database(*mut c_void);

impl Database {
    fn open(file: &str) -> Database {
        let path = CString::new(file).expect("a path without a zero byte");
        let mut db = null_mut();
        // SAFETY: the path is a string with its zero byte. One thread uses the database, so it needs no mutex.
        unsafe { expect(OK, sqlite3_open_v2(path.as_ptr(), &mut db, READWRITE | CREATE | NOMUTEX, null())) };
        Database(db)
    }

    fn prepare(&self, sql: &str) -> Statement {
        let sql = CString::new(sql).expect("a statement without a zero byte");
        let mut statement = null_mut();
        // SAFETY: the database is open; -1 says that the statement ends at its zero byte.
        unsafe { expect(OK, sqlite3_prepare_v2(self.0, sql.as_ptr(), -1, &mut statement, null_mut())) };
        Statement(statement)
    }

    /// Sets what a pragma names, which then has to say that it is so.
    fn pragma(&self, name: &str, value: &str) {
        self.prepare(&format!("PRAGMA {name} = {value}")).step();
        let said = self.prepare(&format!("PRAGMA {name}"));
        assert!(said.step(), "SQLite has no {name}");
        // SAFETY: the statement stands on a row, whose text stays until the next step.
        let text = unsafe { CStr::from_ptr(sqlite3_column_text(said.0, 0)) };
        assert_eq!(text.to_str(), Ok(value), "{name}");
    }
}

impl Drop for Database {
    fn drop(&mut self) {
        // SAFETY: the database was made by SQLite, and is not used again but by statements, which keep it until the
        // last of them is dropped.
        expect(OK, unsafe { sqlite3_close_v2(self.0) });
    }
}

/// A prepared statement.
struct Statement(*mut c_void);

impl Statement {
    fn bind(&self, place: c_int, value: u64) {
        // SAFETY: the statement is prepared, and reset since its last row.
        expect(OK, unsafe { sqlite3_bind_int64(self.0, place, value as i64) });
    }

    /// Goes to the next row, if there is one.
    fn step(&self) -> bool {
        // SAFETY: the statement is prepared.
        let code = unsafe { sqlite3_step(self.0) };
        if code != ROW {
            expect(DONE, code);
        }
        code == ROW
    }

    fn column(&self, column: c_int) -> u64 {
        // SAFETY: the statement stands on a row.
        unsafe { sqlite3_column_int64(self.0, column) as u64 }
    }

    fn reset(&self) {
        // SAFETY: the statement is prepared.
        expect(OK, unsafe { sqlite3_reset(self.0) });
    }

    /// Runs a statement that gives no row.
    fn run(&self) {
        assert!(!self.step(), "a row that nobody asked for");
        self.reset();
    }
}

impl Drop for Statement {
    fn drop(&mut self) {
        // SAFETY: the statement is prepared, and is not used again. Its code is that of the last step, checked then.
        unsafe { sqlite3_finalize(self.0) };
    }
}

/// The plan.
struct Sqlite {
    begin_edit: Statement,
    begin_chart: Statement,
    commit: Statement,
    select: Statement,
    select_all: Statement,
    update: Statement,
    _db: Database,
}

impl Sqlite {
    fn new(file: &str, journal: &str, start: &[u64]) -> Sqlite {
        let db = Database::open(file);
        db.pragma("journal_mode", journal);
        db.pragma("synchronous", "0");
        db.prepare("CREATE TABLE plan (record INTEGER PRIMARY KEY, value INTEGER NOT NULL)").run();
        let insert = db.prepare("INSERT INTO plan VALUES (?1, ?2)");
        let sqlite = Sqlite {
            begin_edit: db.prepare("BEGIN IMMEDIATE"),
            begin_chart: db.prepare("BEGIN"),
            commit: db.prepare("COMMIT"),
            select: db.prepare("SELECT value FROM plan WHERE record = ?1"),
            select_all: db.prepare("SELECT record, value FROM plan ORDER BY record"),
            update: db.prepare("UPDATE plan SET value = ?2 WHERE record = ?1"),
            _db: db,
        };
        sqlite.begin_edit.run();
        for (record, value) in (0..).zip(start) {
            insert.bind(1, record);
            insert.bind(2, *value);
            insert.run();
        }
        sqlite.commit.run();
        sqlite
    }

    fn get(&self, record: u64) -> u64 {
        self.select.bind(1, record);
        assert!(self.select.step(), "no record {record}");
        let value = self.select.column(0);
        self.select.reset();
        value
    }

    fn put(&self, record: u64, value: u64) {
        self.update.bind(1, record);
        self.update.bind(2, value);
        self.update.run();
    }
}

impl Store for Sqlite {
    fn edits(&mut self, edits: &[Edit]) {
        for edit in edits {
            self.begin_edit.run();
            let written = edit.moved(edit.records.map(|record| self.get(record)));
            for (record, value) in edit.records.into_iter().zip(written) {
                self.put(record, value);
            }
            self.commit.run();
        }
    }

    fn chart(&mut self, values: &mut [u64]) {
        self.begin_chart.run();
        for (record, value) in (0..).zip(values) {
            *value = self.get(record);
        }
        self.commit.run();
    }

    fn chart_at_once(&mut self, values: &mut [u64]) {
        for (record, value) in (0..).zip(values) {
            assert!(self.select_all.step(), "no record {record}");
            assert_eq!(self.select_all.column(0), record);
            *value = self.select_all.column(1);
        }
        assert!(!self.select_all.step(), "a record that nobody wrote");
        self.select_all.reset();
    }
}

pub fn ways(folder: &Path) -> [Way; 2] {
    // SAFETY: sqlite3_libversion gives a string that stays.
    let version = unsafe { CStr::from_ptr(sqlite3_libversion()) }.to_str().expect("a version");
    let file = folder.join("sqlite");
    let run = move |job: &Job| {
        let times = timed(job, &mut Sqlite::new(file.to_str().expect("a path in UTF-8"), "wal", &job.start));
        std::fs::remove_file(&file).expect("the file of the table");
        times
    };
    [
        Way::new(format!("SQLite {version}, write-ahead log, synchronous off"), run),
        Way::new(format!("SQLite {version}, in memory"), |job| {
            timed(job, &mut Sqlite::new(":memory:", "memory", &job.start))
        }),
    ]
}
