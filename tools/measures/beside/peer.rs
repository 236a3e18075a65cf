//! A small school's office over libsqlite3, in plain Rust: what `spadesk` is measured beside. It does the same work on the same
//! tables and trusts what it is given: it tests no limit and refuses nothing. Its matchings are those of rounds.rs.
//!
//! - `peer serve DB PORT COUNT MODE`: serves GET and PUT `/students/CODE` to so many connections.
//! - `peer import DB ID FILE MODE`: imports students from a CSV file, and keeps the file's bytes.
//! - `peer close DB MODE`: closes the open round with a greedy maximum matching.
//! - `peer ask PORT TIMES AT_ONCE METHOD`: the client: so many requests, so many in one write, a hundred on a connection; prints
//!   the microseconds from the first to the last.
//!
//! MODE is `wal` or `delete`, SQLite's journal mode; each commit is synced in full.

use std::ffi::{CStr, CString, c_char, c_int, c_void};
use std::io::{Read, Write};
use std::net::{TcpListener, TcpStream};
use std::time::{Instant, UNIX_EPOCH};

#[allow(dead_code)]
mod rounds;

// ---- SQLite ----

#[link(name = "sqlite3")]
unsafe extern "C" {
    fn sqlite3_open(name: *const c_char, db: *mut *mut c_void) -> c_int;
    fn sqlite3_exec(db: *mut c_void, sql: *const c_char, f: *const c_void, x: *const c_void, e: *const c_void) -> c_int;
    fn sqlite3_prepare_v2(db: *mut c_void, sql: *const c_char, n: c_int, st: *mut *mut c_void, t: *const c_void) -> c_int;
    fn sqlite3_bind_text(st: *mut c_void, i: c_int, s: *const u8, n: c_int, d: isize) -> c_int;
    fn sqlite3_bind_blob(st: *mut c_void, i: c_int, s: *const u8, n: c_int, d: isize) -> c_int;
    fn sqlite3_bind_int64(st: *mut c_void, i: c_int, v: i64) -> c_int;
    fn sqlite3_step(st: *mut c_void) -> c_int;
    fn sqlite3_reset(st: *mut c_void) -> c_int;
    fn sqlite3_column_int64(st: *mut c_void, i: c_int) -> i64;
    fn sqlite3_column_text(st: *mut c_void, i: c_int) -> *const c_char;
    fn sqlite3_close_v2(db: *mut c_void) -> c_int;
}

/// A value that is bound.
enum Value<'a> {
    Text(&'a str),
    Blob(&'a [u8]),
    Number(i64),
}
use Value::{Blob, Number, Text};

struct Database(*mut c_void);

impl Database {
    fn open(name: &str, mode: &str) -> Database {
        let mut db = std::ptr::null_mut();
        let name = CString::new(name).unwrap();
        assert_eq!(unsafe { sqlite3_open(name.as_ptr(), &mut db) }, 0);
        let db = Database(db);
        db.run(&format!("PRAGMA journal_mode = {mode}; PRAGMA synchronous = FULL; PRAGMA foreign_keys = ON"));
        db
    }

    fn run(&self, sql: &str) {
        let text = CString::new(sql).unwrap();
        let none = std::ptr::null();
        assert_eq!(unsafe { sqlite3_exec(self.0, text.as_ptr(), none, none, none) }, 0, "{sql}");
    }

    fn prepare(&self, sql: &str) -> Statement {
        let mut statement = std::ptr::null_mut();
        let text = CString::new(sql).unwrap();
        assert_eq!(unsafe { sqlite3_prepare_v2(self.0, text.as_ptr(), -1, &mut statement, std::ptr::null()) }, 0, "{sql}");
        Statement(statement)
    }
}

impl Drop for Database {
    fn drop(&mut self) { unsafe { sqlite3_close_v2(self.0) }; }
}

struct Statement(*mut c_void);

impl Statement {
    fn bind(&self, values: &[Value]) {
        for (i, value) in values.iter().enumerate() {
            let at = i as c_int + 1;
            let bound = match value {
                Text(s) => unsafe { sqlite3_bind_text(self.0, at, s.as_ptr(), s.len() as c_int, -1) },
                Blob(b) => unsafe { sqlite3_bind_blob(self.0, at, b.as_ptr(), b.len() as c_int, -1) },
                Number(n) => unsafe { sqlite3_bind_int64(self.0, at, *n) },
            };
            assert_eq!(bound, 0);
        }
    }

    /// The rows, each as what this makes of it.
    fn rows<T>(&self, values: &[Value], mut row: impl FnMut(&Statement) -> T) -> Vec<T> {
        self.bind(values);
        let mut rows = Vec::new();
        loop {
            match unsafe { sqlite3_step(self.0) } {
                100 => rows.push(row(self)),
                101 => break,
                fault => panic!("SQLite answers {fault}"),
            }
        }
        unsafe { sqlite3_reset(self.0) };
        rows
    }

    fn run(&self, values: &[Value]) { self.rows(values, |_| ()); }

    fn number(&self, at: c_int) -> i64 { unsafe { sqlite3_column_int64(self.0, at) } }

    fn text(&self, at: c_int) -> String { unsafe { CStr::from_ptr(sqlite3_column_text(self.0, at)) }.to_str().unwrap().to_string() }
}

// ---- Serving ----

struct Students {
    label: Statement,
    list: Statement,
    placed: Statement,
    put: Statement,
}

impl Students {
    fn of(db: &Database) -> Students {
        Students {
            label: db.prepare("SELECT label FROM student WHERE code = ?1"),
            list: db
                .prepare("SELECT project FROM round CROSS JOIN choice12 ON round = number WHERE open = 1 AND student = ?1 ORDER BY place"),
            placed: db.prepare("SELECT project, rank, round FROM placement12 WHERE student = ?1"),
            put: db.prepare("INSERT INTO student VALUES (?1, ?2) ON CONFLICT (code) DO UPDATE SET label = ?2"),
        }
    }

    /// The status line's end and the body of an answer.
    fn answer(&self, method: &str, code: &str, body: &str) -> (&'static str, String) {
        if method == "PUT" {
            let name = body.split('"').nth(3).unwrap();
            self.put.run(&[Text(code), Text(name)]);
            return ("200 OK", "{\"ok\":true}".to_string());
        }
        let labels = self.label.rows(&[Text(code)], |row| row.text(0));
        let Some(label) = labels.first() else {
            return ("404 Not Found", "{\"fault\":\"UnknownStudent\",\"number\":15}".to_string());
        };
        let list = self.list.rows(&[Text(code)], |row| format!("\"{}\"", row.text(0)));
        let list = if list.is_empty() { "null".to_string() } else { format!("[{}]", list.join(",")) };
        let placed = self.placed.rows(&[Text(code)], |row| {
            format!("{{\"project\":\"{}\",\"rank\":{},\"round\":{}}}", row.text(0), row.number(1), row.number(2))
        });
        let placed = placed.first().map_or("null", |text| text);
        ("200 OK", format!("{{\"list\":{list},\"name\":\"{label}\",\"placed\":{placed}}}"))
    }

    /// Answers each message of a connection as soon as its bytes are there.
    fn serve(&self, mut stream: TcpStream) {
        let mut buffer = Vec::new();
        let mut piece = [0; 65_536];
        loop {
            while let Some((head, length)) = whole_message(&buffer) {
                let text = String::from_utf8_lossy(&buffer[..head]).into_owned();
                let body = String::from_utf8_lossy(&buffer[head..head + length]).into_owned();
                let mut words = text.split(' ');
                let (method, path) = (words.next().unwrap(), words.next().unwrap());
                let (status, body) = self.answer(method, path.rsplit('/').next().unwrap(), &body);
                let answer = format!("HTTP/1.1 {status}\r\nContent-Type: application/json\r\nContent-Length: {}\r\n\r\n{body}", body.len());
                stream.write_all(answer.as_bytes()).unwrap();
                buffer.drain(..head + length);
            }
            match stream.read(&mut piece).unwrap() {
                0 => return,
                n => buffer.extend_from_slice(&piece[..n]),
            }
        }
    }
}

/// The lengths of the head and the body of the first message, where it is whole.
fn whole_message(bytes: &[u8]) -> Option<(usize, usize)> {
    let head = bytes.windows(4).position(|w| w == b"\r\n\r\n")? + 4;
    let text = std::str::from_utf8(&bytes[..head]).unwrap();
    let length = text.lines().find_map(|line| line.strip_prefix("Content-Length: ")).map_or(0, |n| n.parse().unwrap());
    (bytes.len() >= head + length).then_some((head, length))
}

fn serve(db: &Database, port: u16, count: usize) {
    let students = Students::of(db);
    let listener = TcpListener::bind(("127.0.0.1", port)).unwrap();
    println!("listening {port}");
    for stream in listener.incoming().take(count) {
        students.serve(stream.unwrap());
    }
}

/// The client. Each connection takes a hundred messages.
fn ask(port: u16, times: usize, at_once: usize, method: &str) {
    let mut answers = vec![0; 65_536];
    // No put may name the student as a put before it did: SQLite writes nothing where nothing changes.
    let run = UNIX_EPOCH.elapsed().unwrap().as_micros();
    let start = Instant::now();
    for connection in 0..times.div_ceil(100) {
        let mut stream = TcpStream::connect(("127.0.0.1", port)).unwrap();
        let asked = 100.min(times - connection * 100);
        for first in (0..asked).step_by(at_once) {
            let numbers = first..(first + at_once).min(asked);
            let want = numbers.len();
            let messages: String = numbers.map(|n| message(method, connection * 100 + n, run)).collect();
            stream.write_all(messages.as_bytes()).unwrap();
            let mut have = 0;
            let mut seen = Vec::new();
            while have < want {
                let n = stream.read(&mut answers).unwrap();
                assert!(n > 0, "the server ended the connection");
                seen.extend_from_slice(&answers[..n]);
                while let Some((head, length)) = whole_message(&seen) {
                    assert!(seen.starts_with(b"HTTP/1.1 200"), "not answered with success");
                    seen.drain(..head + length);
                    have += 1;
                }
            }
        }
    }
    println!("{}", start.elapsed().as_micros());
}

fn message(method: &str, n: usize, run: u128) -> String {
    let code = n % 500;
    if method == "PUT" {
        let body = format!("{{\"name\":\"Student {n} {run}\"}}");
        format!("PUT /students/S{code} HTTP/1.1\r\nContent-Length: {}\r\n\r\n{body}", body.len())
    } else {
        format!("GET /students/S{code} HTTP/1.1\r\n\r\n")
    }
}

// ---- Importing ----

fn import(db: &Database, id: &str, file: &str) {
    let bytes = std::fs::read(file).unwrap();
    let text = std::str::from_utf8(&bytes).unwrap();
    db.run("BEGIN");
    let put = db.prepare("INSERT INTO student VALUES (?1, ?2) ON CONFLICT (code) DO UPDATE SET label = ?2");
    let mut rows = 0;
    for line in text.lines().skip(1) {
        let (code, label) = line.split_once(',').unwrap();
        put.run(&[Text(code), Text(label)]);
        rows += 1;
    }
    db.prepare("INSERT INTO import VALUES (?1, 'students', ?2, ?3)").run(&[Text(id), Blob(&bytes), Number(rows)]);
    db.run("COMMIT");
    println!("rows {rows}");
}

// ---- Closing ----

fn close(db: &Database) {
    db.run("BEGIN");
    let number = db.prepare("SELECT number FROM round WHERE open = 1").rows(&[], |row| row.number(0))[0];
    let left = "quota - (SELECT count(*) FROM placement12 WHERE placement12.project";
    let supervisors = format!("SELECT code, {left} IN (SELECT code FROM project WHERE supervisor = supervisor.code)) FROM supervisor");
    let projects = format!("SELECT code, supervisor, {left} = project.code) FROM project");
    let choices = "SELECT student, project FROM choice12 WHERE round = ?1 ORDER BY student, place";
    let lists = format!("SELECT student, group_concat(project) FROM ({choices}) GROUP BY student");
    let mut lines = db.prepare(&supervisors).rows(&[], |row| format!("S,{},{}\n", row.text(0), row.number(1)));
    lines.extend(db.prepare(&projects).rows(&[], |row| format!("P,{},{},{}\n", row.text(0), row.text(1), row.number(2))));
    lines.extend(db.prepare(&lists).rows(&[Number(number)], |row| format!("C,{},{}\n", row.text(0), row.text(1))));
    let text = lines.concat();
    let round = rounds::read(&text).unwrap();
    let mut profile = [0; rounds::RANKS];
    let put = db.prepare("INSERT INTO placement12 VALUES (?1, ?2, ?3, ?4)");
    for ((student, list), place) in round.students.iter().zip(rounds::solve(&round).places) {
        if let Some(k) = place {
            profile[k] += 1;
            put.run(&[Text(student), Number(number), Text(round.projects[list[k]].0), Number(k as i64 + 1)]);
        }
    }
    db.prepare("UPDATE round SET open = 0 WHERE number = ?1").run(&[Number(number)]);
    db.run("COMMIT");
    let ranks: Vec<String> = profile.iter().map(|n| n.to_string()).collect();
    println!("round {number} size {} profile {}", profile.iter().sum::<i64>(), ranks.join(" "));
}

fn main() {
    let words: Vec<String> = std::env::args().collect();
    let words: Vec<&str> = words.iter().map(|w| w.as_str()).collect();
    match words[1..] {
        ["serve", db, port, count, mode] => serve(&Database::open(db, mode), port.parse().unwrap(), count.parse().unwrap()),
        ["import", db, id, file, mode] => import(&Database::open(db, mode), id, file),
        ["close", db, mode] => close(&Database::open(db, mode)),
        ["ask", port, times, at_once, method] => ask(port.parse().unwrap(), times.parse().unwrap(), at_once.parse().unwrap(), method),
        _ => panic!("peer serve DB PORT COUNT MODE | import DB ID FILE MODE | close DB MODE | ask PORT TIMES AT_ONCE METHOD"),
    }
}
