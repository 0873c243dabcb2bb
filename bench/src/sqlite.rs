//! SQLite, by the shared library that Debian's package brings; none where it is not on the machine.

use std::ffi::{c_char, c_int, c_void, CStr, CString};
use std::ptr::{null, null_mut};

extern "C" {
    fn dlopen(file: *const c_char, flags: c_int) -> *mut c_void;
    fn dlsym(library: *mut c_void, name: *const c_char) -> *mut c_void;
}

const RTLD_NOW: c_int = 2;
const ROW: c_int = 100;
const DONE: c_int = 101;

type Database = *mut c_void;
type Handle = *mut c_void;

/// The functions that are used.
#[derive(Clone, Copy)]
pub struct Sqlite {
    open: unsafe extern "C" fn(*const c_char, *mut Database) -> c_int,
    close: unsafe extern "C" fn(Database) -> c_int,
    exec: unsafe extern "C" fn(Database, *const c_char, *const c_void, *const c_void, *mut *mut c_char) -> c_int,
    prepare: unsafe extern "C" fn(Database, *const c_char, c_int, *mut Handle, *mut *const c_char) -> c_int,
    bind: unsafe extern "C" fn(Handle, c_int, i64) -> c_int,
    step: unsafe extern "C" fn(Handle) -> c_int,
    column: unsafe extern "C" fn(Handle, c_int) -> i64,
    reset: unsafe extern "C" fn(Handle) -> c_int,
    finalize: unsafe extern "C" fn(Handle) -> c_int,
    errmsg: unsafe extern "C" fn(Database) -> *const c_char,
    version: unsafe extern "C" fn() -> *const c_char,
}

/// A database in memory.
pub struct Memory(Sqlite, Database);

pub struct Statement<'a>(&'a Memory, Handle);

impl Sqlite {
    pub fn load() -> Option<Sqlite> {
        // SAFETY: the library's functions have these types (sqlite3.h).
        unsafe {
            let library = dlopen(c"libsqlite3.so.0".as_ptr(), RTLD_NOW);
            if library.is_null() {
                return None;
            }
            let get = |name: &CStr| {
                let function = dlsym(library, name.as_ptr());
                (!function.is_null()).then_some(function)
            };
            use std::mem::transmute;
            Some(Sqlite {
                open: transmute(get(c"sqlite3_open")?),
                close: transmute(get(c"sqlite3_close")?),
                exec: transmute(get(c"sqlite3_exec")?),
                prepare: transmute(get(c"sqlite3_prepare_v2")?),
                bind: transmute(get(c"sqlite3_bind_int64")?),
                step: transmute(get(c"sqlite3_step")?),
                column: transmute(get(c"sqlite3_column_int64")?),
                reset: transmute(get(c"sqlite3_reset")?),
                finalize: transmute(get(c"sqlite3_finalize")?),
                errmsg: transmute(get(c"sqlite3_errmsg")?),
                version: transmute(get(c"sqlite3_libversion")?),
            })
        }
    }

    pub fn version(&self) -> String {
        unsafe { CStr::from_ptr((self.version)()) }.to_string_lossy().into_owned()
    }

    pub fn memory(self) -> Memory {
        let mut database = null_mut();
        assert_eq!(unsafe { (self.open)(c":memory:".as_ptr(), &mut database) }, 0);
        Memory(self, database)
    }
}

impl Memory {
    fn check(&self, code: c_int, sql: &str) {
        if code != 0 {
            let message = unsafe { CStr::from_ptr((self.0.errmsg)(self.1)) };
            panic!("SQLite: {}: {sql}", message.to_string_lossy());
        }
    }

    pub fn exec(&self, sql: &str) {
        let text = CString::new(sql).unwrap();
        self.check(unsafe { (self.0.exec)(self.1, text.as_ptr(), null(), null(), null_mut()) }, sql);
    }

    pub fn prepare(&self, sql: &str) -> Statement<'_> {
        let (text, mut handle) = (CString::new(sql).unwrap(), null_mut());
        self.check(unsafe { (self.0.prepare)(self.1, text.as_ptr(), -1, &mut handle, null_mut()) }, sql);
        Statement(self, handle)
    }
}

impl Statement<'_> {
    /// runs it on a row of numbers
    pub fn insert(&self, row: &[i64]) {
        let Sqlite { bind, step, reset, .. } = self.0 .0;
        unsafe {
            row.iter().zip(1..).for_each(|(&x, k)| assert_eq!(bind(self.1, k, x), 0));
            assert_eq!(step(self.1), DONE);
            reset(self.1);
        }
    }

    /// the first column of its rows
    pub fn numbers(&self) -> Vec<usize> {
        let Sqlite { step, column, reset, .. } = self.0 .0;
        let mut numbers = Vec::new();
        unsafe {
            while step(self.1) == ROW {
                numbers.push(column(self.1, 0) as usize);
            }
            self.0.check(reset(self.1), "a query's run");
        }
        numbers
    }
}

impl Drop for Statement<'_> {
    fn drop(&mut self) {
        unsafe { (self.0 .0.finalize)(self.1) };
    }
}

impl Drop for Memory {
    fn drop(&mut self) {
        unsafe { (self.0.close)(self.1) };
    }
}
