#!/bin/sh
# What the passing of time costs, in a file: microseconds of a Tick over 1,000, 10,000 and 100,000 documents of 3,000 bytes
# whose receipts are awaited, of which 0, 10 and 1,000 are overdue then; and of a post of a receipt that settles one of them.
# A Tick's time is the quickest of three, a post's the mean of 100 in the quickest of three turns. Builds a small program over
# copies of the crates in a temporary folder, in which the files lie too.
set -eu
. "$(dirname "$0")/workspace.sh"

workspace sql_tables as2_names as2_media as2_parts as2_text as2_mic as2_mdn as2_agreement as2_exchange as2_posts as2_records as2_audit as2_rows as2_views as2_json \
    as2_store as2_kept as2_station
echo "expire_bench: as2_text as2_mic as2_agreement as2_exchange as2_records as2_kept as2_station sqlite" >> "$work/crates.txt"
mkdir -p "$work/crates/expire_bench/src"
cat > "$work/crates/expire_bench/src/main.rt" <<'PROGRAM'
//! Makes a store of so many documents in the file that the arguments name, and prints what Ticks and posts take over it. The
//! documents of lower numbers are overdue at the moments of the Ticks, in turn.
#![tactic(auto)]

ghost use Rattle.std.specs.Prelude.{◌≡◌, false};

use as2_agreement::Agreements;
use as2_exchange::{Answer, Event};
use as2_kept::{adopt, create};
use as2_mic::{Alg, Pieces, mic_of};
use as2_records::Records;
use as2_station::Station;
use as2_text::{Head, Moment};
use sqlite::{Alter, Connection, Transaction, params};
use std::alloc::Global;
use std::env;
use std::io::{self, Write};
use std::time::SystemTime;

/// How many documents are overdue at a Tick, and the moment of the first of the Ticks of so many.
const TICKS: [(u64, u64); 3] = [(0, 1), (10, 11), (1_000, 21)];

/// The Ticks of a count, and the turns of posts.
const TURNS: u64 = 3;

/// The posts of a turn.
const POSTS: u64 = 100;

/// A moment that doesn't come.
const LATER: u64 = 2_000_000_000;

const AGREEMENTS: &str = r#"
domain = "station.example"
return_url = "http://127.0.0.1:8080/as2"

[[organization]]
name = "Supplier"

[[partner]]
name = "Buyer"
url = "http://127.0.0.1:8081/as2"
receipt = "async"
digest = "sha1"
content_type = "application/edi-x12"
max_tries = 2
retry_seconds = 30
overdue_seconds = 60
"#;

static CONTENT: [u8; 3_000] = [b'x'; 3_000];

/// When the receipt of the document of this number is overdue: three times ten documents, and three times a thousand.
fn due_of(number: u64) -> u64 {
    if number <= 30 {
        11 + number.saturating_sub(1) / 10
    } else if number <= 3_030 {
        21 + (number - 31) / 1_000
    } else {
        LATER
    }
}

/// Puts in the document of this number.
fn put<S: Alter>(alloc: Global, tx: &mut Transaction<'_, S>, number: u64) -> Option<()> {
    let digits = number.to_string(alloc).ok()?;
    let value = format!(in alloc; "out-{digits}@station.example").ok()?;
    let id = format!(in alloc; "<out-{digits}@station.example>").ok()?;
    let due = i64::try_from(due_of(number)).ok()?;
    let number = i64::try_from(number).ok()?;
    tx.execute(
        "INSERT INTO outbox VALUES (?1, x'537570706c696572', x'4275796572', ?2, ?3, 3000, 1000, 1, 1, ?4, 3)",
        params![number, value.as_bytes(), id.as_bytes(), due],
    )
    .ok()?;
    tx.execute(
        "INSERT INTO outbox_piece VALUES (?1, 0, ?2)",
        params![number, CONTENT.as_slice()],
    )
    .ok()?;
    tx.execute(
        "INSERT INTO waiting VALUES (3000000000000 + ?1, 3, ?1, ?2)",
        params![number, due],
    )
    .ok()?;
    Some(())
}

/// Puts in the documents with the numbers up to this.
fn fill<S: Alter>(alloc: Global, conn: &mut Connection<S>, count: u64) -> Option<()>
    requires { conn.old.in_transaction ≡ false }
{
    let mut tx = conn.transaction();
    for number in 1..count.saturating_add(1) {
        put(alloc, &mut tx, number)?;
    }
    tx.execute(
        "UPDATE meta SET next_document = ?1",
        params![i64::try_from(count.saturating_add(1)).ok()?],
    )
    .ok()?;
    tx.commit().ok()
}

fn nanoseconds(since: SystemTime, now: SystemTime) -> u128 {
    match now.duration_since(since) {
        Ok(time) => time.as_nanos(),
        Err(_) => 0,
    }
}

/// The receipt for the document of this number.
fn receipt(alloc: Global, number: u64) -> Option<(Head, Pieces)> {
    let mut head = Head::new(alloc);
    head.append(b"AS2-Version", b"1.0").ok()?;
    head.append(b"AS2-From", b"Buyer").ok()?;
    head.append(b"AS2-To", b"Supplier").ok()?;
    head.append(b"Message-ID", b"<mdn-1@buyer.example>").ok()?;
    head.append(
        b"Content-Type",
        b"multipart/report; report-type=disposition-notification; boundary=\"as2-mdn-1\"",
    )
    .ok()?;
    let mut body = Pieces::new(alloc);
    body.append(
        b"--as2-mdn-1\r\nContent-Type: text/plain\r\n\r\nReceipt 1 for the message named below.\r\nOutcome: processed\r\n\r\n--as2-mdn-1\r\nContent-Type: message/disposition-notification\r\n\r\nReporting-UA: buyer\r\nFinal-Recipient: rfc822; Buyer\r\nOriginal-Message-ID: <out-",
    ).ok()?;
    body.append(number.to_string(alloc).ok()?.as_bytes()).ok()?;
    body.append(
        b"@station.example>\r\nDisposition: automatic-action/MDN-sent-automatically; processed\r\nReceived-content-MIC: ",
    ).ok()?;
    body.append(mic_of(Alg::Sha1, &CONTENT).bytes()).ok()?;
    body.append(b", sha1\r\n\r\n--as2-mdn-1--\r\n").ok()?;
    Some((head, body))
}

/// The quickest of the Ticks from this moment on, in nanoseconds, if each tells of so many documents.
fn quickest_tick<R: Records>(
    rt: &HostRuntime,
    station: &mut Station<R>,
    agreements: &Agreements,
    first: u64,
    overdue: u64,
) -> io::Result<Option<u128>> {
    let mut quickest = u128::MAX;
    for turn in 0..TURNS {
        let Some(moment) = Moment::new(first.saturating_add(turn)) else {
            return Ok(None);
        };
        let start = SystemTime::now(rt)?;
        let answer = station.step(rt.alloc(), agreements, Event::Tick { moment });
        let end = SystemTime::now(rt)?;
        let is_ticked = match answer {
            Ok(Answer::Ticked(count)) => count == overdue,
            _ => false,
        };
        if !is_ticked {
            return Ok(None);
        }
        quickest = quickest.min(nanoseconds(start, end));
    }
    Ok(Some(quickest))
}

/// What the posts of receipts for the documents below this number take, in nanoseconds, if each is taken.
fn posts<R: Records>(
    rt: &HostRuntime,
    station: &mut Station<R>,
    agreements: &Agreements,
    end: u64,
) -> io::Result<Option<u128>> {
    let Some(moment) = Moment::new(2_000) else {
        return Ok(None);
    };
    let mut sum = 0u128;
    for place in 0..POSTS {
        let Some((head, body)) = receipt(rt.alloc(), end.saturating_sub(place)) else {
            return Ok(None);
        };
        let start = SystemTime::now(rt)?;
        let answer = station.post(rt.alloc(), agreements, &head, body, moment);
        let end = SystemTime::now(rt)?;
        let is_taken = match answer {
            Ok(answer) => answer.status == 200,
            Err(_) => false,
        };
        if !is_taken {
            return Ok(None);
        }
        sum = sum.saturating_add(nanoseconds(start, end));
    }
    Ok(Some(sum / POSTS as u128))
}

/// Measures a station whose documents have the numbers up to this.
fn measure<R: Records>(
    rt: &HostRuntime,
    station: &mut Station<R>,
    agreements: &Agreements,
    size: u64,
) -> io::Result<()> {
    for (overdue, first) in TICKS {
        if size > overdue.saturating_mul(TURNS) {
            if let Some(time) = quickest_tick(rt, station, agreements, first, overdue)? {
                writeln!(
                    rt.stdout(),
                    "{size} documents, a Tick of {overdue}: {} us",
                    time / 1_000
                )?;
            }
        }
    }
    let mut quickest = u128::MAX;
    for turn in 0..TURNS {
        let end = size.saturating_sub(turn.saturating_mul(POSTS));
        if let Some(time) = posts(rt, station, agreements, end)? {
            quickest = quickest.min(time);
        }
    }
    writeln!(
        rt.stdout(),
        "{size} documents, a post that settles one: {} us",
        quickest / 1_000
    )
}

fn main(rt: HostRuntime) -> io::Result<()> {
    let words: Vec<String> = env::args(&rt)?.collect(rt.alloc())?;
    let [_, path, size] = words.as_slice() else {
        return Ok(());
    };
    let Ok(size) = size.parse::<u64>() else {
        return Ok(());
    };
    let Ok(agreements) = Agreements::read(rt.alloc(), AGREEMENTS) else {
        return Ok(());
    };
    let Ok(conn) = Connection::open(&rt, path.as_str()) else {
        return Ok(());
    };
    if !conn.is_autocommit() {
        return Ok(());
    }
    let Ok(kept) = create(conn, 1) else {
        return Ok(());
    };
    let mut conn = kept.into_connection();
    if !conn.is_autocommit() || fill(rt.alloc(), &mut conn, size).is_none() {
        return Ok(());
    }
    if !conn.is_autocommit() {
        return Ok(());
    }
    if let Ok(kept) = adopt(conn) {
        measure(&rt, &mut Station::new(kept), &agreements, size)?;
    }
    Ok(())
}
PROGRAM

build expire_bench
for size in 1000 10000 100000; do
    rm -f "$work/store.db" "$work/store.db-wal"
    "$work/crates/expire_bench/out/expire_bench" "$work/store.db" "$size"
done
