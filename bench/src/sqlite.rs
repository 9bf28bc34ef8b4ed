//! The question as one recursive query in SQLite, over the same memberships, grants and channels.

use std::ffi::{c_char, c_int, c_void, CString};
use std::ptr;

#[allow(non_camel_case_types)]
enum sqlite3 {}
#[allow(non_camel_case_types)]
enum sqlite3_stmt {}

extern "C" {
    fn sqlite3_open(name: *const c_char, db: *mut *mut sqlite3) -> c_int;
    fn sqlite3_close(db: *mut sqlite3) -> c_int;
    fn sqlite3_exec(db: *mut sqlite3, sql: *const c_char, f: *mut c_void, x: *mut c_void, e: *mut *mut c_char) -> c_int;
    fn sqlite3_prepare_v2(db: *mut sqlite3, sql: *const c_char, n: c_int, s: *mut *mut sqlite3_stmt, t: *mut *const c_char) -> c_int;
    fn sqlite3_bind_int64(s: *mut sqlite3_stmt, i: c_int, v: i64) -> c_int;
    fn sqlite3_step(s: *mut sqlite3_stmt) -> c_int;
    fn sqlite3_column_int64(s: *mut sqlite3_stmt, i: c_int) -> i64;
    fn sqlite3_reset(s: *mut sqlite3_stmt) -> c_int;
    fn sqlite3_finalize(s: *mut sqlite3_stmt) -> c_int;
    fn sqlite3_libversion() -> *const c_char;
}

const ROW: c_int = 100;

const TABLES: &str = "
CREATE TABLE membership (grp INTEGER, member INTEGER, PRIMARY KEY (member, grp)) WITHOUT ROWID;
CREATE TABLE containment (item INTEGER, container INTEGER, PRIMARY KEY (item, container)) WITHOUT ROWID;
CREATE TABLE granted (account INTEGER, right INTEGER, item INTEGER, sign INTEGER, PRIMARY KEY (account, right, item)) WITHOUT ROWID;
";

/// One row for each chain up, so that every chain counts; no recursive part of SQLite's may add up.
const QUESTION: &str = "
WITH RECURSIVE
up(account, distance) AS (
  SELECT ?1, 0 UNION ALL
  SELECT m.grp, up.distance + 1 FROM up JOIN membership m ON m.member = up.account),
above(item, distance) AS (
  SELECT ?2, 0 UNION ALL
  SELECT c.container, above.distance + 1 FROM above JOIN containment c ON c.item = above.item),
mark(kind, distance) AS (
  SELECT g.sign, up.distance + above.distance
    FROM up JOIN granted g ON g.account = up.account AND g.right = ?3 JOIN above ON above.item = g.item
  UNION ALL
  SELECT 2, up.distance FROM up
    WHERE NOT EXISTS (SELECT 1 FROM membership m WHERE m.member = up.account)
      AND NOT EXISTS (SELECT 1 FROM granted g JOIN above ON above.item = g.item
                        WHERE g.account = up.account AND g.right = ?3))
SELECT kind, distance, count(*) FROM mark GROUP BY kind, distance";

/// A database in memory, with the question prepared.
pub struct Database {
    db: *mut sqlite3,
    question: *mut sqlite3_stmt,
}

/// Counts of plus, minus and default marks by distance.
pub type Rows = [[u64; 15]; 3];

impl Database {
    pub fn new(members: &[(u32, u32)], grants: &[(u32, u32, u32, u32)]) -> Database {
        let mut db = ptr::null_mut();
        let name = CString::new(":memory:").unwrap();
        assert_eq!(unsafe { sqlite3_open(name.as_ptr(), &mut db) }, 0);
        let mut made = Database {
            db,
            question: ptr::null_mut(),
        };
        made.exec(TABLES);
        made.exec("BEGIN");
        for (group, member) in members {
            made.exec(&format!("INSERT INTO membership VALUES ({group}, {member})"));
        }
        for item in 2..256 {
            made.exec(&format!("INSERT INTO containment VALUES ({item}, {})", item / 2));
        }
        for (account, item, right, sign) in grants {
            made.exec(&format!("INSERT INTO granted VALUES ({account}, {right}, {item}, {sign})"));
        }
        made.exec("COMMIT; ANALYZE");
        let sql = CString::new(QUESTION).unwrap();
        let ready = unsafe { sqlite3_prepare_v2(made.db, sql.as_ptr(), -1, &mut made.question, ptr::null_mut()) };
        assert_eq!(ready, 0);
        made
    }

    fn exec(&self, sql: &str) {
        let sql = CString::new(sql).unwrap();
        let done = unsafe { sqlite3_exec(self.db, sql.as_ptr(), ptr::null_mut(), ptr::null_mut(), ptr::null_mut()) };
        assert_eq!(done, 0);
    }

    pub fn ask(&self, account: u32, item: u32, right: u32) -> Rows {
        let mut rows = [[0; 15]; 3];
        unsafe {
            sqlite3_bind_int64(self.question, 1, account as i64);
            sqlite3_bind_int64(self.question, 2, item as i64);
            sqlite3_bind_int64(self.question, 3, right as i64);
            while sqlite3_step(self.question) == ROW {
                let kind = sqlite3_column_int64(self.question, 0) as usize;
                let distance = sqlite3_column_int64(self.question, 1) as usize;
                rows[kind][distance] = sqlite3_column_int64(self.question, 2) as u64;
            }
            sqlite3_reset(self.question);
        }
        rows
    }
}

impl Drop for Database {
    fn drop(&mut self) {
        unsafe {
            sqlite3_finalize(self.question);
            sqlite3_close(self.db);
        }
    }
}

pub fn version() -> String {
    unsafe { std::ffi::CStr::from_ptr(sqlite3_libversion()) }.to_string_lossy().into_owned()
}
