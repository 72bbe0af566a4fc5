/* A bare C peer for speed comparisons: reads plain AS2 posts from standard input, records each in SQLite (WAL, FULL,
   one transaction a post, the same tables in spirit), answers the MDN with its MIC. No checks beyond what the path
   needs, so it is a bound from below on the work, not a product.
   cc -O2 peer.c -o peer -lsqlite3 -lcrypto ; ./peer STORE < posts > replies */
#include <openssl/sha.h>
#include <openssl/evp.h>
#include <sqlite3.h>
#include <stdio.h>
#include <stdlib.h>
#include <string.h>
#include <strings.h>
static char head[16384]; static char *body;
static const char *field(const char *name, char *out, size_t n) {
  size_t l = strlen(name);
  for (char *p = head; p && *p; p = strchr(p, '\n'), p = p ? p + 1 : 0)
    if (!strncasecmp(p, name, l) && p[l] == ':') {
      p += l + 1; while (*p == ' ') p++;
      size_t k = strcspn(p, "\r\n"); if (k >= n) k = n - 1; memcpy(out, p, k); out[k] = 0; return out; }
  out[0] = 0; return out;
}
static void must(int rc, int want, sqlite3 *db) { if (rc != want) { fprintf(stderr, "%s\n", sqlite3_errmsg(db)); exit(3); } }
int main(int argc, char **argv) {
  sqlite3 *db; sqlite3_stmt *ins, *cnt, *find;
  must(sqlite3_open(argc > 1 ? argv[1] : ":memory:", &db), SQLITE_OK, db);
  sqlite3_exec(db, "PRAGMA journal_mode=WAL; PRAGMA synchronous=FULL;"
    "CREATE TABLE IF NOT EXISTS meta(kind TEXT, version INTEGER, next_in INTEGER, next_out INTEGER);"
    "CREATE TABLE IF NOT EXISTS inbox(number INTEGER PRIMARY KEY, sender BLOB, receiver BLOB, id BLOB, content_type BLOB, content BLOB, moment INTEGER, mic BLOB, UNIQUE(sender,receiver,id));"
    "INSERT INTO meta SELECT 'peer',1,1,1 WHERE NOT EXISTS (SELECT 1 FROM meta);", 0, 0, 0);
  must(sqlite3_prepare_v2(db, "INSERT INTO inbox VALUES(?,?,?,?,?,?,?,?)", -1, &ins, 0), SQLITE_OK, db);
  must(sqlite3_prepare_v2(db, "UPDATE meta SET next_in=?", -1, &cnt, 0), SQLITE_OK, db);
  must(sqlite3_prepare_v2(db, "SELECT number FROM inbox WHERE sender=? AND receiver=? AND id=?", -1, &find, 0), SQLITE_OK, db);
  sqlite3_int64 next = 1; sqlite3_stmt *q; sqlite3_prepare_v2(db, "SELECT next_in FROM meta", -1, &q, 0);
  if (sqlite3_step(q) == SQLITE_ROW) next = sqlite3_column_int64(q, 0); sqlite3_finalize(q);
  static char inbuf[1 << 16]; setvbuf(stdin, inbuf, _IOFBF, sizeof inbuf);
  body = malloc(1 << 20);
  for (;;) {
    size_t n = 0; int c;
    while (n < sizeof head - 1 && (c = getchar()) != EOF) { head[n++] = c; if (n >= 4 && !memcmp(head + n - 4, "\r\n\r\n", 4)) break; }
    if (n < 4) break; head[n] = 0;
    char from[300], to[300], id[1100], type[300], len[32];
    field("AS2-From", from, sizeof from); field("AS2-To", to, sizeof to); field("Message-ID", id, sizeof id);
    field("Content-Type", type, sizeof type); field("Content-Length", len, sizeof len);
    size_t l = strtoul(len, 0, 10); if (l > 1 << 20 || fread(body, 1, l, stdin) != l) break;
    unsigned char d[20]; SHA1((unsigned char *)body, l, d); char mic[64]; EVP_EncodeBlock((unsigned char *)mic, d, 20);
    sqlite3_bind_text(find, 1, from, -1, SQLITE_STATIC); sqlite3_bind_text(find, 2, to, -1, SQLITE_STATIC); sqlite3_bind_text(find, 3, id, -1, SQLITE_STATIC);
    sqlite3_int64 number = next; int known = sqlite3_step(find) == SQLITE_ROW; if (known) number = sqlite3_column_int64(find, 0); sqlite3_reset(find);
    if (!known) {
      sqlite3_exec(db, "BEGIN IMMEDIATE", 0, 0, 0);
      sqlite3_bind_int64(ins, 1, next); sqlite3_bind_text(ins, 2, from, -1, SQLITE_STATIC); sqlite3_bind_text(ins, 3, to, -1, SQLITE_STATIC);
      sqlite3_bind_text(ins, 4, id, -1, SQLITE_STATIC); sqlite3_bind_text(ins, 5, type, -1, SQLITE_STATIC); sqlite3_bind_blob(ins, 6, body, l, SQLITE_STATIC);
      sqlite3_bind_int64(ins, 7, 1000); sqlite3_bind_text(ins, 8, mic, -1, SQLITE_STATIC); must(sqlite3_step(ins), SQLITE_DONE, db); sqlite3_reset(ins);
      sqlite3_bind_int64(cnt, 1, ++next); must(sqlite3_step(cnt), SQLITE_DONE, db); sqlite3_reset(cnt);
      must(sqlite3_exec(db, "COMMIT", 0, 0, 0), SQLITE_OK, db);
    }
    char rep[2048]; int k = snprintf(rep, sizeof rep, "--as2-mdn-%lld\r\nContent-Type: text/plain\r\n\r\nReceipt %lld for the message named below.\r\nOutcome: processed\r\n\r\n--as2-mdn-%lld\r\nContent-Type: message/disposition-notification\r\n\r\nReporting-UA: as2-station\r\nFinal-Recipient: rfc822; %s\r\nOriginal-Message-ID: %s\r\nDisposition: automatic-action/MDN-sent-automatically; processed\r\nReceived-content-MIC: %s, sha1\r\n\r\n--as2-mdn-%lld--\r\n", number, number, number, to, id, mic, number);
    printf("HTTP/1.1 200 OK\r\nDate: Thu, 01 Jan 1970 00:16:40 GMT\r\nAS2-Version: 1.0\r\nAS2-From: %s\r\nAS2-To: %s\r\nMessage-ID: <mdn-%lld@station.example>\r\nContent-Type: multipart/report; report-type=disposition-notification; boundary=\"as2-mdn-%lld\"\r\nContent-Length: %d\r\n\r\n%s", to, from, number, number, k, rep);
    fflush(stdout);
  }
  sqlite3_close(db); return 0;
}
