#!/bin/sh
# The time of `add_in` and `find_in` at 1,000, 10,000 and 50,000 entries, in memory and in a file, beside the C library of
# SQLite on the same tables and statements: microseconds a call, and their ratio. Builds a small program over copies of the
# crates, and one in C (libsqlite3-dev), in a temporary folder, and runs both in turn. Both files have a write-ahead log
# and are synced once a transaction. A look-up by the three columns of the key uses their index: its time hardly grows
# with the entries.
set -eu
. "$(dirname "$0")/workspace.sh"

workspace sql_tables as2_names as2_media as2_parts as2_text as2_mic as2_mdn as2_agreement as2_exchange as2_posts as2_records as2_rows as2_store
echo "records_bench: as2_text as2_mic as2_exchange as2_posts as2_store sqlite" >> "$work/crates.txt"
mkdir -p "$work/crates/records_bench/src"
cat > "$work/crates/records_bench/src/main.rt" <<'PROGRAM'
//! Fills a store, in memory or in the file that the argument names, and prints how long the last thousand entries took to
//! add, and a thousand to find, in nanoseconds, at each of three sizes.
#![tactic(auto)]

ghost use Rattle.std.specs.Prelude.{◌≡◌, false};

use as2_exchange::{InEntry, StoreFault};
use as2_mic::Pieces;
use as2_posts::{Opened, document, first_entry};
use as2_store::Store;
use as2_text::{AsName, Head, MediaType, Moment};
use sqlite::{Alter, Connection};
use std::alloc::Global;
use std::env;
use std::error::Error;
use std::io::{self, Write};
use std::time::SystemTime;

const SIZES: [u64; 3] = [1_000, 10_000, 50_000];

fn entry(alloc: Global, number: u64) -> Option<InEntry> {
    let id = number.to_string(alloc).ok()?;
    let mut head = Head::new(alloc);
    head.append(b"Message-ID", id.as_bytes()).ok()?;
    let mut content = Pieces::new(alloc);
    content.append(b"abc").ok()?;
    let opened = Opened {
        from: AsName::plain(b"Buyer").ok()?,
        to: AsName::plain(b"Supplier").ok()?,
        media: MediaType::parse(b"text/plain").ok()?,
        content_type: b"text/plain",
    };
    let posted = document(alloc, opened, &head, content).ok()?.ok()?;
    Some(first_entry(number, Moment::new(1000)?, posted))
}

fn entries(alloc: Global, from: u64, to: u64) -> Option<Vec<InEntry>> {
    let mut entries = Vec::new(alloc);
    for number in from..to {
        entries.push(entry(alloc, number)?).ok()?;
    }
    Some(entries)
}

fn add<S: Alter>(store: &mut Store<S>, entries: &[InEntry]) -> Result<(), StoreFault> {
    for entry in entries {
        store.add_in(entry)?;
    }
    Ok(())
}

fn find<S: Alter>(alloc: Global, store: &mut Store<S>, size: u64) -> Option<u64> {
    let sender = AsName::plain(b"Buyer").ok()?;
    let receiver = AsName::plain(b"Supplier").ok()?;
    let mut found = 0u64;
    for turn in 0..1000u64 {
        let number = 1 + turn.wrapping_mul(size / 1000) % size.max(1);
        let id = number.to_string(alloc).ok()?;
        if let Some(_) = store.find_in(alloc, &sender, &receiver, id.as_str()).ok()? {
            found = found.wrapping_add(1);
        }
    }
    Some(found)
}

fn nanoseconds(since: SystemTime, now: SystemTime) -> u128 {
    match now.duration_since(since) {
        Ok(time) => time.as_nanos(),
        Err(_) => 0,
    }
}

fn measure<S: Alter>(rt: &HostRuntime, store: &mut Store<S>) -> io::Result<()> {
    let mut next = 1u64;
    let mut output = rt.stdout();
    for size in SIZES {
        let last = size.saturating_sub(999).max(next);
        if let Some(front) = entries(rt.alloc(), next, last) {
            let _ = add(store, front.as_slice());
        }
        let Some(thousand) = entries(rt.alloc(), last, size.saturating_add(1)) else {
            return Ok(());
        };
        let start = SystemTime::now(rt)?;
        let added = add(store, thousand.as_slice()).is_ok();
        let middle = SystemTime::now(rt)?;
        let found = find(rt.alloc(), store, size);
        let end = SystemTime::now(rt)?;
        let complete = added && found == Some(1000);
        writeln!(output, "{} {} {} {}", size, nanoseconds(start, middle), nanoseconds(middle, end), complete)?;
        next = size.saturating_add(1);
    }
    Ok(())
}

fn main(rt: HostRuntime) -> io::Result<()> {
    let words: Vec<String> = env::args(&rt)?.collect(rt.alloc())?;
    if let [_, path] = words.as_slice() {
        if let Ok(conn) = Connection::open(&rt, path.as_str()) {
            if conn.is_autocommit() {
                if let Ok(mut store) = Store::create(conn, 1) {
                    measure(&rt, &mut store)?;
                }
            }
        }
        return Ok(());
    }
    let conn = Connection::open_in_memory(rt.alloc())?;
    if let Ok(mut store) = Store::create(conn, 1) {
        measure(&rt, &mut store)?;
    }
    Ok(())
}
PROGRAM

cat > "$work/records.c" <<'PROGRAM'
// The same with the C library.
#include <sqlite3.h>
#include <stdio.h>
#include <string.h>
#include <time.h>

static sqlite3 *db;

static void must(int code) {
    if (code != SQLITE_OK && code != SQLITE_DONE && code != SQLITE_ROW)
        fprintf(stderr, "%s\n", sqlite3_errmsg(db));
}

static sqlite3_stmt *prepared(const char *text) {
    sqlite3_stmt *statement = NULL;
    must(sqlite3_prepare_v2(db, text, -1, &statement, NULL));
    return statement;
}

static void once(sqlite3_stmt *statement) {
    must(sqlite3_step(statement));
    must(sqlite3_reset(statement));
}

static long long now(void) {
    struct timespec time;
    clock_gettime(CLOCK_MONOTONIC, &time);
    return time.tv_sec * 1000000000LL + time.tv_nsec;
}

static sqlite3_stmt *begin, *insert, *piece, *next, *commit, *find, *pieces;

static void blob(sqlite3_stmt *statement, int place, const char *text) {
    sqlite3_bind_blob(statement, place, text, (int)strlen(text), SQLITE_STATIC);
}

static void add(long number) {
    char id[32];
    snprintf(id, sizeof id, "%ld", number);
    once(begin);
    sqlite3_bind_int64(insert, 1, number);
    blob(insert, 2, "Buyer");
    blob(insert, 3, "Supplier");
    blob(insert, 4, id);
    blob(insert, 5, id);
    blob(insert, 6, "text/plain");
    sqlite3_bind_int64(insert, 7, 3);
    sqlite3_bind_int64(insert, 8, 1000);
    sqlite3_bind_int64(insert, 9, 6);
    sqlite3_bind_int64(insert, 10, 1);
    sqlite3_bind_text(insert, 12, "sha1", 4, SQLITE_STATIC);
    blob(insert, 13, "qZk+NkcGgWq6PiVxeFDCbJzQ2J0=");
    sqlite3_bind_int64(insert, 14, 1);
    sqlite3_bind_int64(insert, 15, 0);
    sqlite3_bind_int64(insert, 16, 1);
    once(insert);
    sqlite3_bind_int64(piece, 1, number);
    sqlite3_bind_int64(piece, 2, 0);
    blob(piece, 3, "abc");
    once(piece);
    sqlite3_bind_int64(next, 1, number);
    sqlite3_bind_int64(next, 2, number + 1);
    once(next);
    once(commit);
}

static int found(long number) {
    char id[32], bytes[64];
    snprintf(id, sizeof id, "%ld", number);
    blob(find, 1, "Buyer");
    blob(find, 2, "Supplier");
    blob(find, 3, id);
    int seen = 0;
    while (sqlite3_step(find) == SQLITE_ROW) {
        for (int column = 1; column < 6; column++)
            memcpy(bytes, sqlite3_column_blob(find, column), (size_t)sqlite3_column_bytes(find, column));
        sqlite3_bind_int64(pieces, 1, sqlite3_column_int64(find, 0));
        while (sqlite3_step(pieces) == SQLITE_ROW) {
            memcpy(bytes, sqlite3_column_blob(pieces, 2), (size_t)sqlite3_column_bytes(pieces, 2));
            seen++;
        }
        must(sqlite3_reset(pieces));
    }
    must(sqlite3_reset(find));
    return seen;
}

int main(int count, char **words) {
    if (count != 3) return 2;
    must(sqlite3_open(words[1], &db));
    must(sqlite3_exec(db, "PRAGMA journal_mode = WAL; PRAGMA synchronous = FULL; PRAGMA foreign_keys = ON", NULL, NULL, NULL));
    static char text[65536];
    FILE *schema = fopen(words[2], "r");
    if (schema == NULL) return 2;
    size_t length = fread(text, 1, sizeof text - 1, schema);
    text[length] = 0;
    must(sqlite3_exec(db, text, NULL, NULL, NULL));
    begin = prepared("BEGIN IMMEDIATE");
    commit = prepared("COMMIT");
    insert = prepared("INSERT INTO inbox2 (number, sender, receiver, identifier_value, identifier, content_type, length, moment, outcome, how, url, digest, mic, mdn, tries, attempt, due) VALUES (?1, ?2, ?3, ?4, ?5, ?6, ?7, ?8, ?9, ?10, ?11, ?12, ?13, ?14, ?15, ?16, ?17)");
    piece = prepared("INSERT INTO inbox2_piece (number, position, bytes) VALUES (?1, ?2, ?3)");
    next = prepared("UPDATE meta SET next_receipt = ?2 WHERE next_receipt = ?1");
    find = prepared("SELECT number, sender, receiver, identifier_value, identifier, content_type, length, moment, outcome, how, url, digest, mic, mdn, tries, attempt, due FROM inbox2 WHERE sender = ?1 AND receiver = ?2 AND identifier_value = ?3 ORDER BY number");
    pieces = prepared("SELECT number, position, bytes FROM inbox2_piece WHERE number = ?1 ORDER BY position");
    const long sizes[3] = {1000, 10000, 50000};
    long number = 1;
    for (int i = 0; i < 3; i++) {
        long last = sizes[i] - 999 > number ? sizes[i] - 999 : number;
        while (number < last) add(number++);
        long long start = now();
        while (number <= sizes[i]) add(number++);
        long long middle = now();
        int seen = 0;
        for (long turn = 0; turn < 1000; turn++) seen += found(1 + turn * (sizes[i] / 1000) % sizes[i]);
        printf("%ld %lld %lld %s\n", sizes[i], middle - start, now() - middle, seen == 1000 ? "true" : "false");
    }
    return 0;
}
PROGRAM

# The tables, as the store itself makes them.
grep -o '"CREATE [^"]*"' "$top/crates/as2_store/src/creating.rt" | tr -d '"' | sed 's/$/;/' > "$work/schema"
echo "INSERT INTO meta (kind, version, next_receipt, next_document) VALUES ('as2-station', 1, 1, 1);" >> "$work/schema"
cc -O2 -o "$work/records" "$work/records.c" -lsqlite3
build records_bench

python3 - "$work" <<'DRIVER'
import os, subprocess, sys

work = sys.argv[1]
station = work + "/crates/records_bench/out/records_bench"
library = work + "/records"

def run(words, path):
    for name in (path, path + "-wal", path + "-shm"):
        if os.path.exists(name):
            os.remove(name)
    text = subprocess.run(words, stdout=subprocess.PIPE, check=True, cwd=work).stdout.decode()
    rows = [line.split() for line in text.splitlines()]
    assert len(rows) == 3 and all(row[3] == "true" for row in rows), text
    return [(int(row[0]), int(row[1]) / 1e6, int(row[2]) / 1e6) for row in rows]

for place, path in (("memory", work + "/none"), ("file", work + "/records.db")):
    best = {}
    for _ in range(3):
        for who, words in (
            ("station", [station] + ([path] if place == "file" else [])),
            ("library", [library, path if place == "file" else ":memory:", work + "/schema"]),
        ):
            for size, add, find in run(words, path):
                old = best.get((who, size), (add, find))
                best[who, size] = (min(old[0], add), min(old[1], find))
    for size in (1000, 10000, 50000):
        ours, theirs = best["station", size], best["library", size]
        print("%-6s %6d entries: add %7.1f us, library %7.1f us, ratio %.2f; find %6.1f us, library %6.1f us, ratio %.2f"
              % (place, size, ours[0], theirs[0], ours[0] / theirs[0], ours[1], theirs[1], ours[1] / theirs[1]))
DRIVER
