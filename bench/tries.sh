#!/bin/sh
# The time of Submit, `next`, Begin and Outcome of the station at 1,000, 10,000 and 100,000 documents in a file, and at
# 1,000 and 10,000 in memory, beside the C library of SQLite on the same tables and statements: microseconds a call, and
# their ratio. A whole try is `next`, Begin, and an Outcome whose receipt settles the document. Each content has 3,000
# bytes, and every document is due but those that were tried. Builds a small program over copies of the crates, and one in
# C (libsqlite3-dev, libssl-dev), in a temporary folder, in which the files lie too. Both files have a write-ahead log and
# are synced once a transaction. The C program keeps its statements prepared, heeds foreign keys, makes the request and
# reads the receipt. The two take turns of 150 documents, and a time is that of the quickest of six. In memory a DELETE of
# the kit copies its table, so that a try there takes longer with each document.
set -eu
. "$(dirname "$0")/workspace.sh"

workspace sql_tables as2_names as2_media as2_parts as2_text as2_mic as2_mdn as2_agreement as2_exchange as2_posts as2_records as2_audit as2_rows as2_views as2_json \
    as2_store as2_kept as2_station
echo "tries_bench: as2_text as2_mic as2_mdn as2_agreement as2_exchange as2_kept as2_station sqlite" >> "$work/crates.txt"
mkdir -p "$work/crates/tries_bench/src"
cat > "$work/crates/tries_bench/src/main.rt" <<'PROGRAM'
//! A station in memory, or over the file that the argument names. It takes its steps one for each byte of standard input,
//! and prints what each took in nanoseconds: for each size it submits documents until the last few hundred are left, then
//! those in turns, and then it tries as many in turns.
#![tactic(auto)]

ghost use Rattle.std.specs.Prelude.{◌≡◌, false};

use as2_agreement::Agreements;
use as2_exchange::{Answer, Event, Next, TryAnswer};
use as2_kept::{Kept, create};
use as2_mdn::Detail;
use as2_mic::{Alg, MicText, Pieces, mic_of};
use as2_station::Station;
use as2_text::{AsName, Head, Moment};
use sqlite::{Alter, Connection};
use std::alloc::Global;
use std::env;
use std::io::{self, Read, Write};
use std::time::SystemTime;

const SIZES: [u64; 3] = [1_000, 10_000, 100_000];

/// The turns of a size.
const TURNS: u64 = 6;

/// The documents of a turn.
const COUNT: u64 = 150;

const AGREEMENTS: &str = r#"
domain = "station.example"

[[organization]]
name = "Supplier"

[[partner]]
name = "Buyer"
url = "http://127.0.0.1:8081/as2"
receipt = "sync"
digest = "sha1"
content_type = "application/edi-x12"
max_tries = 2
retry_seconds = 30
overdue_seconds = 60
"#;

/// The content of each document.
static CONTENT: [u8; 3_000] = [b'x'; 3_000];

/// A document that is handed in.
fn submission(alloc: Global) -> Option<Event> {
    let mut content = Pieces::new(alloc);
    content.append(&CONTENT).ok()?;
    Some(Event::Submit {
        organization: AsName::plain(b"Supplier").ok()?,
        partner: AsName::plain(b"Buyer").ok()?,
        content,
        moment: Moment::new(1000)?,
    })
}

/// The answer to the request of the document of this number: a receipt that settles it.
fn receipt(alloc: Global, number: u64, mic: &MicText) -> Option<TryAnswer> {
    let mut head = Head::new(alloc);
    head.append(b"AS2-Version", b"1.0").ok()?;
    head.append(b"AS2-From", b"Buyer").ok()?;
    head.append(b"AS2-To", b"Supplier").ok()?;
    head.append(b"Message-ID", b"<mdn-1@buyer.example>").ok()?;
    head.append(
        b"Content-Type",
        b"multipart/report; report-type=disposition-notification; boundary=\"as2-mdn-1\"",
    )
    .ok()?;
    let mut body = Pieces::new(alloc);
    body.append(b"--as2-mdn-1\r\nContent-Type: text/plain\r\n\r\nReceipt 1 for the message named below.\r\nOutcome: processed\r\n\r\n--as2-mdn-1\r\nContent-Type: message/disposition-notification\r\n\r\nReporting-UA: buyer\r\nFinal-Recipient: rfc822; Buyer\r\nOriginal-Message-ID: <out-").ok()?;
    body.append(number.to_string(alloc).ok()?.as_bytes()).ok()?;
    body.append(b"@station.example>\r\nDisposition: automatic-action/MDN-sent-automatically; processed\r\nReceived-content-MIC: ").ok()?;
    body.append(mic.bytes()).ok()?;
    body.append(b", sha1\r\n\r\n--as2-mdn-1--\r\n").ok()?;
    Some(TryAnswer::Reply {
        status: 200,
        head,
        body,
    })
}

fn nanoseconds(since: SystemTime, now: SystemTime) -> u128 {
    match now.duration_since(since) {
        Ok(time) => time.as_nanos(),
        Err(_) => 0,
    }
}

/// What a turn took, and whether each call was answered as it should be.
#[derive(Clone, Copy)]
struct Turn {
    submit: u128,
    next: u128,
    begin: u128,
    outcome: u128,
    complete: bool,
}

const NOTHING: Turn = Turn {
    submit: 0,
    next: 0,
    begin: 0,
    outcome: 0,
    complete: true,
};

/// A station and its agreements.
#[derive(Drop)]
struct Desk<S: Alter> {
    alloc: Global,
    agreements: Agreements,
    station: Station<Kept<S>>,
    mic: MicText,
}

impl<S: Alter> Desk<S> {
    /// Whether the event is answered as it should be.
    fn takes(&mut self, event: Event) -> bool {
        match self.station.step(self.alloc, &self.agreements, event) {
            Ok(Answer::Submitted(_)) | Ok(Answer::Job(_)) => true,
            Ok(Answer::Settled(detail)) => detail == Detail::Processed,
            _ => false,
        }
    }

    fn next(&mut self) -> Option<u64> {
        match self.station.next(Moment::new(2000)?) {
            Ok(Some(Next::Document(number))) => Some(number),
            _ => None,
        }
    }

    /// Submits so many documents.
    fn fill(&mut self, count: u64) -> bool {
        let mut complete = true;
        for _ in 0..count {
            complete = complete
                && match submission(self.alloc) {
                    Some(event) => self.takes(event),
                    None => false,
                };
        }
        complete
    }

    /// Submits the documents of a turn.
    fn submit(&mut self, rt: &HostRuntime) -> io::Result<Turn> {
        let mut events: Vec<Event> = Vec::new(self.alloc);
        for _ in 0..COUNT {
            if let Some(event) = submission(self.alloc) {
                events.push(event)?;
            }
        }
        let mut complete = events.len() as u64 == COUNT;
        let start = SystemTime::now(rt)?;
        for event in events {
            complete = self.takes(event) && complete;
        }
        let end = SystemTime::now(rt)?;
        Ok(Turn {
            submit: nanoseconds(start, end),
            complete,
            ..NOTHING
        })
    }

    /// Tries the next document.
    fn try_next(&mut self, rt: &HostRuntime, turn: &mut Turn) -> io::Result<Option<()>> {
        let Some(moment) = Moment::new(2000) else {
            return Ok(None);
        };
        let start = SystemTime::now(rt)?;
        let found = self.next();
        let told = SystemTime::now(rt)?;
        let Some(number) = found else {
            return Ok(None);
        };
        let is_begun = self.takes(Event::Begin { number, moment });
        let begun = SystemTime::now(rt)?;
        let Some(answer) = receipt(self.alloc, number, &self.mic) else {
            return Ok(None);
        };
        let answered = SystemTime::now(rt)?;
        let is_settled = self.takes(Event::Outcome {
            number,
            answer,
            moment,
        });
        let end = SystemTime::now(rt)?;
        turn.next = turn.next.saturating_add(nanoseconds(start, told));
        turn.begin = turn.begin.saturating_add(nanoseconds(told, begun));
        turn.outcome = turn.outcome.saturating_add(nanoseconds(answered, end));
        Ok(if is_begun && is_settled { Some(()) } else { None })
    }

    /// Tries the documents of a turn.
    fn try_all(&mut self, rt: &HostRuntime) -> io::Result<Turn> {
        let mut turn = NOTHING;
        for _ in 0..COUNT {
            let tried = self.try_next(rt, &mut turn)?;
            turn.complete = tried.is_some() && turn.complete;
        }
        Ok(turn)
    }
}

/// Waits for a byte of standard input; whether there is one.
fn is_asked(rt: &HostRuntime) -> io::Result<bool> {
    let mut byte = [0u8; 1];
    Ok(rt.stdin().read(&mut byte)? == 1)
}

fn tell(rt: &HostRuntime, turn: Turn) -> io::Result<()> {
    writeln!(
        rt.stdout(),
        "{} {} {} {} {}",
        turn.submit,
        turn.next,
        turn.begin,
        turn.outcome,
        turn.complete
    )
}

fn measure<S: Alter>(rt: &HostRuntime, desk: &mut Desk<S>) -> io::Result<()> {
    let mut submitted = 0u64;
    for size in SIZES {
        if !is_asked(rt)? {
            return Ok(());
        }
        let count = size.saturating_sub(submitted).saturating_sub(TURNS * COUNT);
        let complete = desk.fill(count);
        tell(rt, Turn { complete, ..NOTHING })?;
        for turn in 0..2 * TURNS {
            if !is_asked(rt)? {
                return Ok(());
            }
            if turn < TURNS {
                tell(rt, desk.submit(rt)?)?;
            } else {
                tell(rt, desk.try_all(rt)?)?;
            }
        }
        submitted = size;
    }
    Ok(())
}

/// Measures a station over a connection without tables.
fn run<S: Alter + Drop>(rt: &HostRuntime, conn: Connection<S>) -> io::Result<()>
    requires { conn.in_transaction ≡ false }
{
    let Ok(agreements) = Agreements::read(rt.alloc(), AGREEMENTS) else {
        return Ok(());
    };
    if let Ok(kept) = create(conn, 1) {
        let mut desk = Desk {
            alloc: rt.alloc(),
            agreements,
            station: Station::new(kept),
            mic: mic_of(Alg::Sha1, &CONTENT),
        };
        measure(rt, &mut desk)?;
    }
    Ok(())
}

fn main(rt: HostRuntime) -> io::Result<()> {
    let words: Vec<String> = env::args(&rt)?.collect(rt.alloc())?;
    if let [_, path] = words.as_slice() {
        if let Ok(conn) = Connection::open(&rt, path.as_str()) {
            if conn.is_autocommit() {
                run(&rt, conn)?;
            }
        }
        return Ok(());
    }
    let conn = Connection::open_in_memory(rt.alloc())?;
    run(&rt, conn)
}
PROGRAM

cat > "$work/tries.c" <<'PROGRAM'
// The same with the C library.
#include <openssl/evp.h>
#include <openssl/sha.h>
#include <sqlite3.h>
#include <stdio.h>
#include <stdlib.h>
#include <string.h>
#include <strings.h>
#include <time.h>

#define TURNS 6
#define COUNT 150
#define CONTENT 3000
#define END 1000000000000LL
#define DOCUMENT "SELECT number, organization, partner, identifier_value, identifier, length, moment, tries, attempt, due, detail FROM outbox "

enum { TO_SEND = 1, TO_HEAR = 3, TO_END = 4 };
enum { IDLE = 1, RUNNING = 2, LAST = 3 };
enum { NEW = 1, SENDING = 2, PROCESSED = 5 };

static sqlite3 *db;
static char content[CONTENT];
static const char *domain = "station.example", *organization = "Supplier";

static const struct {
    const char *name, *url, *digest, *content_type;
    long long max_tries, retry_seconds;
} partner = {"Buyer", "http://127.0.0.1:8081/as2", "sha1", "application/edi-x12", 2, 30};

struct document {
    long long number, length, moment, tries, attempt, due, detail;
    char organization[129], partner[129], value[999], identifier[999];
    char *content;
    int is_settled;
};

struct field {
    const char *name, *value;
};

static void must(int code) {
    if (code != SQLITE_OK && code != SQLITE_DONE && code != SQLITE_ROW) {
        fprintf(stderr, "%s\n", sqlite3_errmsg(db));
        exit(1);
    }
}

static sqlite3_stmt *prepared(const char *text) {
    sqlite3_stmt *statement = NULL;
    must(sqlite3_prepare_v2(db, text, -1, &statement, NULL));
    return statement;
}

static void once(sqlite3_stmt *statement) {
    must(sqlite3_step(statement));
    must(sqlite3_reset(statement));
}

static long long now(void) {
    struct timespec time;
    clock_gettime(CLOCK_MONOTONIC, &time);
    return time.tv_sec * 1000000000LL + time.tv_nsec;
}

static sqlite3_stmt *begin, *commit, *counters, *raise_next, *put, *put_piece, *put_evidence, *find, *find_pieces, *find_evidence,
    *any_due, *least_due, *wait_for, *wait_no_more, *progress, *settle;

static void text(sqlite3_stmt *statement, int place, const char *bytes) {
    sqlite3_bind_blob(statement, place, bytes, (int)strlen(bytes), SQLITE_STATIC);
}

static void copy(char *to, size_t size, sqlite3_stmt *statement, int column) {
    size_t length = (size_t)sqlite3_column_bytes(statement, column);
    if (length >= size) exit(1);
    memcpy(to, sqlite3_column_blob(statement, column), length);
    to[length] = 0;
}

static void put_waiting(long long kind, long long number, long long due) {
    sqlite3_bind_int64(wait_for, 1, kind * END + number);
    sqlite3_bind_int64(wait_for, 2, kind);
    sqlite3_bind_int64(wait_for, 3, number);
    sqlite3_bind_int64(wait_for, 4, due);
    once(wait_for);
}

static void take_waiting(long long number) {
    const long long kinds[3] = {TO_SEND, TO_HEAR, TO_END};
    for (int i = 0; i < 3; i++) {
        sqlite3_bind_int64(wait_no_more, 1, kinds[i] * END + number);
        once(wait_no_more);
    }
}

static int submit_document(const char *from, const char *to, const char *bytes, size_t length, long long moment) {
    if (strcmp(from, organization) || strcmp(to, partner.name) || length > 1048576) return 0;
    if (sqlite3_step(counters) != SQLITE_ROW) return 0;
    long long number = sqlite3_column_int64(counters, 3);
    must(sqlite3_reset(counters));
    char identifier[300], value[300];
    int end = snprintf(identifier, sizeof identifier, "<out-%lld@%s>", number, domain);
    snprintf(value, sizeof value, "%.*s", end - 2, identifier + 1);
    once(begin);
    sqlite3_bind_int64(put, 1, number);
    text(put, 2, from);
    text(put, 3, to);
    text(put, 4, value);
    text(put, 5, identifier);
    sqlite3_bind_int64(put, 6, (long long)length);
    sqlite3_bind_int64(put, 7, moment);
    sqlite3_bind_int64(put, 8, 0);
    sqlite3_bind_int64(put, 9, IDLE);
    sqlite3_bind_int64(put, 10, moment);
    sqlite3_bind_int64(put, 11, NEW);
    once(put);
    sqlite3_bind_int64(put_piece, 1, number);
    sqlite3_bind_int64(put_piece, 2, 0);
    sqlite3_bind_blob(put_piece, 3, bytes, (int)length, SQLITE_STATIC);
    once(put_piece);
    put_waiting(TO_SEND, number, moment);
    sqlite3_bind_int64(raise_next, 1, number);
    sqlite3_bind_int64(raise_next, 2, number + 1);
    once(raise_next);
    once(commit);
    return 1;
}

static long long next_number(long long moment) {
    long long number = 0;
    sqlite3_bind_int64(any_due, 1, TO_SEND);
    sqlite3_bind_int64(any_due, 2, moment);
    int is_any = sqlite3_step(any_due) == SQLITE_ROW;
    must(sqlite3_reset(any_due));
    if (!is_any) return 0;
    sqlite3_bind_int64(least_due, 1, TO_SEND * END);
    sqlite3_bind_int64(least_due, 2, (TO_SEND + 1) * END);
    sqlite3_bind_int64(least_due, 3, moment);
    if (sqlite3_step(least_due) == SQLITE_ROW) number = sqlite3_column_int64(least_due, 0);
    must(sqlite3_reset(least_due));
    return number;
}

static int find_document(long long number, struct document *document) {
    sqlite3_bind_int64(find, 1, number);
    int is_found = sqlite3_step(find) == SQLITE_ROW;
    if (is_found) {
        document->number = sqlite3_column_int64(find, 0);
        copy(document->organization, sizeof document->organization, find, 1);
        copy(document->partner, sizeof document->partner, find, 2);
        copy(document->value, sizeof document->value, find, 3);
        copy(document->identifier, sizeof document->identifier, find, 4);
        document->length = sqlite3_column_int64(find, 5);
        document->moment = sqlite3_column_int64(find, 6);
        document->tries = sqlite3_column_int64(find, 7);
        document->attempt = sqlite3_column_int64(find, 8);
        document->due = sqlite3_column_int64(find, 9);
        document->detail = sqlite3_column_int64(find, 10);
    }
    must(sqlite3_reset(find));
    if (!is_found) return 0;
    document->content = malloc((size_t)document->length + 1);
    if (document->content == NULL) return 0;
    long long length = 0;
    sqlite3_bind_int64(find_pieces, 1, number);
    while (sqlite3_step(find_pieces) == SQLITE_ROW) {
        long long more = sqlite3_column_bytes(find_pieces, 2);
        if (length + more > document->length) break;
        memcpy(document->content + length, sqlite3_column_blob(find_pieces, 2), (size_t)more);
        length += more;
    }
    must(sqlite3_reset(find_pieces));
    sqlite3_bind_int64(find_evidence, 1, number);
    document->is_settled = sqlite3_step(find_evidence) == SQLITE_ROW;
    must(sqlite3_reset(find_evidence));
    if (length == document->length) return 1;
    free(document->content);
    return 0;
}

// The request of the document, in memory of its own.
static char *request(const struct document *document) {
    const char *authority = strstr(partner.url, "://") + 3, *target = strchr(authority, '/');
    char *job = malloc((size_t)document->length + 4096);
    if (job == NULL) return NULL;
    int head = snprintf(job, 4096,
        "POST %s HTTP/1.1\r\nHost: %.*s\r\nConnection: close\r\nAS2-Version: 1.0\r\nAS2-From: %s\r\nAS2-To: %s\r\nMessage-ID: %s\r\n"
        "Content-Type: %s\r\nContent-Transfer-Encoding: binary\r\nDisposition-Notification-To: as2@%s\r\n"
        "Disposition-Notification-Options: signed-receipt-micalg=optional, %s\r\nContent-Length: %lld\r\n\r\n",
        target, (int)(target - authority), authority, document->organization, document->partner, document->identifier,
        partner.content_type, domain, partner.digest, document->length);
    memcpy(job + head, document->content, (size_t)document->length);
    return job;
}

static int is_agreed(const struct document *document) {
    return !strcmp(document->organization, organization) && !strcmp(document->partner, partner.name);
}

static char *begin_try(long long number, long long moment) {
    struct document document;
    if (!find_document(number, &document)) return NULL;
    char *job = NULL;
    if (is_agreed(&document) && !document.is_settled && document.tries < partner.max_tries && document.due <= moment)
        job = request(&document);
    free(document.content);
    if (job == NULL) return NULL;
    long long tries = document.tries + 1, due = moment + partner.retry_seconds;
    int is_last = tries >= partner.max_tries;
    once(begin);
    sqlite3_bind_int64(progress, 1, number);
    sqlite3_bind_int64(progress, 2, tries);
    sqlite3_bind_int64(progress, 3, is_last ? LAST : RUNNING);
    sqlite3_bind_int64(progress, 4, due);
    sqlite3_bind_int64(progress, 5, SENDING);
    once(progress);
    take_waiting(number);
    put_waiting(is_last ? TO_END : TO_SEND, number, due);
    once(commit);
    return job;
}

// The value of the field, or NULL unless it stands once.
static const char *value_of(const struct field *head, int count, const char *name) {
    const char *value = NULL;
    for (int i = 0; i < count; i++) {
        if (strcasecmp(head[i].name, name)) continue;
        if (value != NULL) return NULL;
        value = head[i].value;
    }
    return value;
}

// The value of the field of a part, without blanks in front, and its length.
static const char *line_of(const char *part, const char *end, const char *name, size_t *length) {
    size_t size = strlen(name);
    for (const char *line = part; line < end;) {
        const char *stop = strstr(line, "\r\n");
        if (stop == NULL || stop > end) stop = end;
        if ((size_t)(stop - line) > size && line[size] == ':' && !strncasecmp(line, name, size)) {
            const char *value = line + size + 1;
            while (value < stop && *value == ' ') value++;
            *length = (size_t)(stop - value);
            return value;
        }
        line = stop + 2;
    }
    return NULL;
}

static int is_text(const char *value, size_t length, const char *wanted) {
    return value != NULL && length == strlen(wanted) && !memcmp(value, wanted, length);
}

// Whether the report in the body is the receipt for the document, and says that its content was processed as it was sent.
static int confirms(const char *type, const char *body, const struct document *document) {
    const char *boundary = strstr(type, "boundary=\"");
    if (strncasecmp(type, "multipart/report", 16) || boundary == NULL) return 0;
    char mark[80];
    snprintf(mark, sizeof mark, "--%.*s", (int)strcspn(boundary + 10, "\""), boundary + 10);
    const char *first = strstr(body, mark), *second = first ? strstr(first + strlen(mark), mark) : NULL;
    const char *end = second ? strstr(second + strlen(mark), mark) : NULL;
    if (end == NULL) return 0;
    size_t length = 0;
    const char *fields = strstr(second, "\r\n\r\n");
    if (fields == NULL || fields > end) return 0;
    const char *value = line_of(second, fields, "Content-Type", &length);
    if (!is_text(value, length, "message/disposition-notification")) return 0;
    fields += 4;
    value = line_of(fields, end, "Original-Message-ID", &length);
    if (!is_text(value, length, document->identifier)) return 0;
    value = line_of(fields, end, "Disposition", &length);
    if (value == NULL || (value = strchr(value, ';')) == NULL || strncmp(value, "; processed\r", 12)) return 0;
    value = line_of(fields, end, "Received-content-MIC", &length);
    unsigned char digest[20], mic[64];
    SHA1((const unsigned char *)document->content, (size_t)document->length, digest);
    EVP_EncodeBlock(mic, digest, sizeof digest);
    strcat((char *)mic, ", sha1");
    return is_text(value, length, (const char *)mic);
}

static int end_try(long long number, int status, const struct field *head, int count, const char *body, long long moment) {
    struct document document;
    if (!find_document(number, &document)) return 0;
    const char *from = value_of(head, count, "as2-from"), *to = value_of(head, count, "as2-to"), *type = value_of(head, count, "content-type");
    int is_settled = is_agreed(&document) && !document.is_settled && document.attempt != IDLE && status / 100 == 2
        && from && to && type && !strcmp(from, document.partner) && !strcmp(to, document.organization)
        && confirms(type, body, &document);
    free(document.content);
    if (!is_settled) return 0;
    once(begin);
    sqlite3_bind_int64(settle, 1, number);
    sqlite3_bind_int64(settle, 2, PROCESSED);
    once(settle);
    sqlite3_bind_int64(put_evidence, 1, number);
    sqlite3_bind_int64(put_evidence, 2, moment);
    text(put_evidence, 3, type);
    text(put_evidence, 4, body);
    once(put_evidence);
    take_waiting(number);
    once(commit);
    return 1;
}

static void turn_of_submits(void) {
    int is_complete = 1;
    long long start = now();
    for (int i = 0; i < COUNT; i++) is_complete &= submit_document("Supplier", "Buyer", content, CONTENT, 1000);
    printf("%lld 0 0 0 %s\n", now() - start, is_complete ? "true" : "false");
}

static void turn_of_tries(const char *mic) {
    static const struct field head[5] = {{"as2-version", "1.0"}, {"as2-from", "Buyer"}, {"as2-to", "Supplier"}, {"message-id", "<mdn-1@buyer.example>"},
        {"content-type", "multipart/report; report-type=disposition-notification; boundary=\"as2-mdn-1\""}};
    long long next = 0, begun = 0, ended = 0;
    int is_complete = 1;
    for (int i = 0; i < COUNT; i++) {
        long long start = now(), number = next_number(2000), told = now();
        char *job = begin_try(number, 2000);
        is_complete &= job != NULL;
        free(job);
        long long middle = now();
        char body[1024];
        snprintf(body, sizeof body,
            "--as2-mdn-1\r\nContent-Type: text/plain\r\n\r\nReceipt 1 for the message named below.\r\nOutcome: processed\r\n\r\n--as2-mdn-1\r\nContent-Type: message/disposition-notification\r\n\r\nReporting-UA: buyer\r\nFinal-Recipient: rfc822; Buyer\r\nOriginal-Message-ID: <out-%lld@station.example>\r\nDisposition: automatic-action/MDN-sent-automatically; processed\r\nReceived-content-MIC: %s, sha1\r\n\r\n--as2-mdn-1--\r\n",
            number, mic);
        long long answered = now();
        is_complete &= end_try(number, 200, head, 5, body, 2000);
        next += told - start;
        begun += middle - told;
        ended += now() - answered;
    }
    printf("0 %lld %lld %lld %s\n", next, begun, ended, is_complete ? "true" : "false");
}

int main(int count, char **words) {
    if (count != 3) return 2;
    must(sqlite3_open(words[1], &db));
    must(sqlite3_exec(db, "PRAGMA journal_mode = WAL; PRAGMA synchronous = FULL; PRAGMA foreign_keys = ON", NULL, NULL, NULL));
    static char tables[65536];
    FILE *schema = fopen(words[2], "r");
    if (schema == NULL) return 2;
    tables[fread(tables, 1, sizeof tables - 1, schema)] = 0;
    must(sqlite3_exec(db, tables, NULL, NULL, NULL));
    begin = prepared("BEGIN IMMEDIATE");
    commit = prepared("COMMIT");
    counters = prepared("SELECT kind, version, next_receipt, next_document FROM meta");
    raise_next = prepared("UPDATE meta SET next_document = ?2 WHERE next_document = ?1");
    put = prepared("INSERT INTO outbox (number, organization, partner, identifier_value, identifier, length, moment, tries, attempt, due, detail) VALUES (?1, ?2, ?3, ?4, ?5, ?6, ?7, ?8, ?9, ?10, ?11)");
    put_piece = prepared("INSERT INTO outbox_piece (number, position, bytes) VALUES (?1, ?2, ?3)");
    put_evidence = prepared("INSERT INTO evidence (number, moment, content_type, body) VALUES (?1, ?2, ?3, ?4)");
    find = prepared(DOCUMENT "WHERE number = ?1 ORDER BY number");
    find_pieces = prepared("SELECT number, position, bytes FROM outbox_piece WHERE number = ?1 ORDER BY position");
    find_evidence = prepared("SELECT number, moment, content_type, body FROM evidence WHERE number = ?1 ORDER BY number");
    any_due = prepared("SELECT number FROM waiting WHERE kind = ?1 AND due <= ?2 LIMIT 1");
    least_due = prepared("SELECT number FROM waiting WHERE place >= ?1 AND place < ?2 AND due <= ?3 ORDER BY place LIMIT 1");
    wait_for = prepared("INSERT INTO waiting (place, kind, number, due) VALUES (?1, ?2, ?3, ?4)");
    wait_no_more = prepared("DELETE FROM waiting WHERE place = ?1");
    progress = prepared("UPDATE outbox SET tries = ?2, attempt = ?3, due = ?4, detail = ?5 WHERE number = ?1");
    settle = prepared("UPDATE outbox SET attempt = 1, due = NULL, detail = ?2 WHERE number = ?1");
    memset(content, 'x', sizeof content);
    unsigned char digest[20], mic[64];
    SHA1((const unsigned char *)content, sizeof content, digest);
    EVP_EncodeBlock(mic, digest, sizeof digest);
    setvbuf(stdout, NULL, _IOLBF, 0);
    const long sizes[3] = {1000, 10000, 100000};
    long submitted = 0;
    for (int i = 0; i < 3; i++) {
        if (getchar() == EOF) return 0;
        int is_complete = 1;
        for (long n = submitted; n < sizes[i] - TURNS * COUNT; n++) is_complete &= submit_document("Supplier", "Buyer", content, CONTENT, 1000);
        printf("0 0 0 0 %s\n", is_complete ? "true" : "false");
        for (int turn = 0; turn < 2 * TURNS; turn++) {
            if (getchar() == EOF) return 0;
            if (turn < TURNS) turn_of_submits();
            else turn_of_tries((const char *)mic);
        }
        submitted = sizes[i];
    }
    return 0;
}
PROGRAM

# The tables, as the store itself makes them.
grep -o '"CREATE [^"]*"' "$top/crates/as2_store/src/creating.rt" | tr -d '"' | sed 's/$/;/' > "$work/schema"
echo "INSERT INTO meta (kind, version, next_receipt, next_document) VALUES ('as2-station', 1, 1, 1);" >> "$work/schema"
cc -O2 -o "$work/tries" "$work/tries.c" -lsqlite3 -lcrypto
build tries_bench

python3 - "$work" <<'DRIVER'
import os, subprocess, sys

work = sys.argv[1]
TURNS, COUNT = 6, 150

def ask(program):
    program.stdin.write(b"\n")
    program.stdin.flush()

def answer(program):
    row = program.stdout.readline().split()
    assert len(row) == 5 and row[4] == b"true", row
    return [int(time) / COUNT / 1e3 for time in row[:4]]

def turn_of(program):
    ask(program)
    return answer(program)

def start(words):
    return subprocess.Popen(words, stdin=subprocess.PIPE, stdout=subprocess.PIPE, cwd=work)

def compared(name, ours, theirs):
    return "%-9s %7.1f us, library %7.1f us, ratio %.2f" % (name, ours, theirs, ours / theirs)

for place, sizes in (("memory", (1000, 10000)), ("file", (1000, 10000, 100000))):
    ours, theirs = (["ours.db"], "theirs.db") if place == "file" else ([], ":memory:")
    station = start([work + "/crates/tries_bench/out/tries_bench"] + ours)
    library = start([work + "/tries", theirs, work + "/schema"])
    for size in sizes:
        ask(station)
        ask(library)
        answer(station)
        answer(library)
        submits, tries = [], []
        for turns in (submits, tries):
            for _ in range(TURNS):
                turns.append((turn_of(station), turn_of(library)))
        least = [min(turn[who][0] for turn in submits) for who in (0, 1)]
        print("%-6s %6d documents: %s" % (place, size, compared("Submit", *least)))
        for name, part in (("next", slice(1, 2)), ("Begin", slice(2, 3)), ("Outcome", slice(3, 4)), ("whole try", slice(1, 4))):
            least = [min(sum(turn[who][part]) for turn in tries) for who in (0, 1)]
            print("%-6s %6d documents: %s" % (place, size, compared(name, *least)), flush=True)
    for program in (station, library):
        program.stdin.close()
        program.wait()
DRIVER
