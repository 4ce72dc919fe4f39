//! What `--help` says of each command.

pub const INIT: &str = "\
N is 0 to {limit}. Writes N sectors of 512 zero bytes to LOG and the mark to LOG.mark, both synced.
Never overwrites a file: where LOG or LOG.mark is there, the status is 73. LOG must not end in .mark.
Keep LOG and LOG.mark together; without the mark nobody can tell whether the log's tail was lost.
Copy the mark first, then the log. When you restore an older log, keep the newer mark: an older one
cannot tell what is lost.
";

pub const PUT: &str = "\
Stores one block from each FILE, or one from standard input (also `-`), and prints its score; with
several files the file's name too. A score is printed once the block is on disk; several files are
synced together, as many as have room in 256 sectors, and their scores printed then. A block that is
held already is not stored twice; one that is damaged is stored again, which heals it.
A file that is refused or cannot be read is told on standard error, the others are stored all the
same; the status is that of the first failure.
A block is stored with the date of today, in UTC, or of SOURCE_DATE_EPOCH where that is set; one that
is held already keeps the date that it has.
  --type T         root, dir, ptr1 to ptr7, data (the default), or the type's number
  --date YYYYMMDD  the date: eight decimal digits, any that you like
  --adopt          take a log without a good mark as it is, and mark it
";

pub const GET: &str = "\
Three answers, never mixed up: the bytes with status 0; \"not held\" with status 11, the block was
never stored; \"not known\" with status 12, part of the log is damaged and nobody can tell. The last
two write nothing to standard output. With \"not known\" the log's first doubtful sector is told, and
its byte in the file: restore the doubtful sectors from a copy (see list), or store the block again.
  SCORE      40 hex digits
  --type T   root, dir, ptr1 to ptr7, data (the default), or the type's number
  --count N  the most bytes, 0 to 65535 (default 57344); a longer block is refused with 13
  --adopt    take a log without a good mark as it is, and mark it
";

pub const SERVE: &str = "\
Reads framed messages (size[2] type[1] tag[1] body) from standard input and writes the replies to
standard output, until a goodbye or the end of input, so that any transport can carry it: a pipe,
ssh, an inetd. A write is answered while its block waits in memory; a sync is answered when all that
was written before it is on disk, with the mark. Syncs that have come one behind the other, with
nothing but writes between, go to disk together, and they and these writes are answered then: send on
while you read the answers, without waiting for each, and they cost little. What waits is put on disk
besides when the next block has no room among the 256 sectors that may wait, at a goodbye, at the end
of input, and at the signals HUP, INT and TERM, which end the input (status 128 + n; the same signal
once more ends the program at once). Where the machine stops, the disk fails, the log is moved,
replaced or changed by others, or the program is ended at once (also by kill -9), a block that was
answered and not synced may be not held, or not known if a part of it arrived: store again what no
sync was answered for. Nothing that a sync answered for is lost by a stop.
A block that is held in the log already is compared with what the system gives for the file before a
write of it is answered, and stored anew where it was damaged meanwhile.
Input that ends inside a message is status 1. One writer at a time: while another holds the log, the
status is 75. A client that is silent holds it for as long as it is connected: let the transport end
what is idle (`socat -T 300`). Where standard error is the socket that the replies go to, nothing is
told there.
  --read-only     many at once, and beside a writer, whose blocks are found as soon as it has answered
                  a sync. Nothing is ever written: a block that is not held, or not marked yet, is
                  refused with 14 (no room)
  --wait SECONDS  how long another writer may still hold the log before it is status 75 (default 0)
  --date YYYYMMDD the date of the blocks that are stored, eight decimal digits; without it each has the
                  day in UTC on which its write came, or that of SOURCE_DATE_EPOCH where it is set
  --handshake     begin with the opening lines of the protocol: send `venti-02-skywimple` and wait for
                  the client's, at most 1,024 bytes and 5 s, before the log is opened; else status 76
  --adopt         take a log without a good mark as it is, and mark it
";

pub const DOUBT: &str = "\
For a log that does not fit its mark (status 65): brings a cut or missing file back to its length
and writes at the last marked sector, where that is lost, one that is neither blank nor sound. After
that all that was lost is \"not known\", never \"not held\". Writes nothing where nothing is lost.
Restoring the log from a copy is better, where there is one. When you restore an older log, keep the
newer mark: an older one cannot tell what is lost. Copy the mark first, then the log.
";

pub const INDEX: &str = "\
Writes LOG.index, where `serve`, `get` and `search` look first for a block: reading it then takes as long in
a long log as in a short one. Prints how many blocks it has. There is seldom a need: the first writer of a log
makes the index, each one keeps it and makes it anew where it is missing or another log's.
An index is a hint. Each block is looked at before it counts, and where no hint holds true the log is looked
through as without one: an index that is missing, old, damaged or another log's changes no answer, and
only costs time. It need not be copied with the log, and may be removed while no writer runs. A file of
that name that is no index is left alone (73); one that is empty or all zeros, as a power failure may leave
an index, counts as missing.
  --adopt    take a log without a good mark as it is, and mark it
";

pub const REPORT: &str = "\
Prints sectors, used, records, doubtful and the verdict: sound (status 0) or notknown (status 32);
then the first doubtful sector is told on standard error, with its byte in the file.
  --json      prints the same as one JSON object, with first_doubtful: the sector, or null
  --map       draws the log: # sound, ? doubtful, . blank; a cell with any doubtful sector is ?, and
              the number before a row is that of its first sector
  --svg FILE  writes the map as a picture; replaces FILE only if it is a picture. It is written under
              another name, synced, and then renamed; where the program is ended at once (kill -9), a
              file .skywimple-picture-* may stay beside it. With - it goes to standard output, in place
              of the lines above
  --width N   cells in a row (default: what COLUMNS, else the terminal, else 80 has room for)
  --adopt     take a log without a good mark as it is, and mark it
";

pub const LIST: &str = "\
Prints a line for each sound block, in the log's order: the sector where it starts, its type, its
size in bytes, its date and its score; and a line for each run of doubtful sectors: the first, how
many, and the byte of the file where they begin. The date is that of the write that stored the block,
as its writer gave it; a block that was stored before blocks had dates has none, and shows -. The status is 0, or 32 if any sector is doubtful.
A doubtful run can be restored from a copy of the log while no writer runs, with its sector and count:
  dd if=COPY of=LOG bs=512 skip=SECTOR seek=SECTOR count=COUNT conv=notrunc,fsync
  --json     prints JSON, an object on each line: sector, type, size, date (null where it has none)
             and score of a block; sector, count and byte of a doubtful run
  --adopt    take a log without a good mark as it is, and mark it
";

pub const READ: &str = "\
Writes the bytes of the file that ENTRY stands for: 80 hex digits, or the name of a file with the
40 bytes of an entry. Stops at the first offset that is refused and says which and why; what was
written before it is right. The status is the refusal's number. A missing block is never zeros; its
type and score are told, so that it can be fetched from a copy; where it is not known, the log's first
doubtful sector too. At a terminal, progress is shown where the file goes elsewhere. Each
leaf takes a scan of the log for each level of the tree.
  --adopt    take a log without a good mark as it is, and mark it
";

pub const WALK: &str = "\
Visits every block below the root SCORE (40 hex digits) and prints the visits spent, and `done` if
all could be read. Otherwise the first refusal is told and its number is the status; the type and
score of that block are printed, and where in the tree it is, so that it can be fetched from a copy:
entry 2/0, byte 1500 is byte 1500 of the file of entry 0 in the directory of entry 2. Where the block
is not known (12), the log's first doubtful sector is printed too, as first_doubtful.
Each visit looks through the log up to its block, some 10 ns for each sector: a full log of small
blocks takes a minute or two with 131,072 sectors, and about an hour and a half with 1,048,576. At a
terminal the time gone by and the time expected are shown.
  --allowance N  the most visits, up to 1000000 (the default)
  --adopt        take a log without a good mark as it is, and mark it
";

pub const COPY: &str = "\
Copies all that ROOT, a score of 40 hex digits, reaches in LOG to LOG2: each block behind those that it
links to, the root last. With --all every sound block of LOG, in the order of the log. LOG is only read.
LOG2 is written as `put` writes a log, and made where it is missing, as long as LOG or as its blocks need.
A block that LOG2 holds already is not stored twice: where a copy ended or was killed, run the same command
again; a second run adds nothing. Copied blocks have the date of the copy, not the one that they have in
LOG. What is below a root is synced before the root is written. A long copy goes in rounds, of 4,096 visits
first and four times as many each time: what the rounds so far settled stays, and the next run begins at the
root again and stores what is missing. At the end LOG2 is read anew, and walked from the root or looked
through for each block, before it is told that the copy is done.
Prints the visits and how many sectors were appended to LOG2. A refusal names its block as `walk` does (11,
12 with the first doubtful sector, 13, 16, 18, 20, 21, 23); 14 (full) and 15 (clash) speak of LOG2. What was
copied before stays and is sound. Where the root itself is refused, no LOG2 is made.
When to copy with --all: once a log had damage, it answers \"not known\" (12) for every block that it does
not hold, for ever, also when all its blocks were stored again. LOG2 has no damage, and says \"not held\"
(11) there. So store again first what was lost, as far as there is a source: in LOG2 a block that was lost
in LOG is \"not held\". --all prints how many blocks of LOG are in LOG2, how many sectors were appended, and how
many doubtful ones were left behind; where there are any, the status is 32. A block that is refused because
LOG2 has another of its score (15) is told and not counted; the others are copied all the same, it is not told
that the copy is done, and the status is 15, whatever else there is.
  --all            every sound block, in place of a root
  --allowance N    the most visits, at most 1000000 (the default)
  --date YYYYMMDD  the date of the copies (see put)
  --adopt          take LOG2 without a good mark as it is, and mark it
";

pub const PUT_FILE: &str = "\
Stores FILE, or standard input (`-`), as a tree: leaves of 57,344 bytes, over them pointer blocks of
2,867 scores, of the least depth; each without the zeros at its end, so that zeros take no room. When
all of it is on disk and reads back from the file as it was, prints the entry, 80 hex digits, which
`read` and `search` take. Where the log is full (14), what was stored stays, and the same command goes
on from there. What comes from standard input or a pipe is taken into memory first, before the log is
opened, so that a slow sender holds up no other writer.
  --date YYYYMMDD  the date of the blocks that are stored (see put)
  --adopt          take a log without a good mark as it is, and mark it
";

pub const SAVE: &str = "\
Stores each FILE as `put-file` does, a directory of them and a root over it. When all of it is on disk
and reads back from the log's file as it was, prints the root's score, which `restore`, `diff`, `search`
and `walk` take. A file is saved with its bytes and its name, the last component of its path, and with nothing
else. Before anything is written it is refused (64) if two files have one name, if a name has a line
feed in it or is not UTF-8, or if a FILE is a folder. A FILE that is a pipe is taken into memory before
the log is opened. The same files in the same order have the same
root; what is stored already is not stored twice.
The root's type is `skywimple save`. Its directory block has one entry, a directory, of which the first
file has the names of the others, in their order, each ended by a line feed.
  --date YYYYMMDD  the date of the blocks that are stored (see put); what is held keeps its own
  --adopt          take a log without a good mark as it is, and mark it
";

pub const RESTORE: &str = "\
Writes the files that `save` stored under ROOT (the score, 40 hex digits) to the folder DIR, which is
made if it is not there. Where a file of one of the names is there already, nothing is written, and the
status is 73. Each file is written under another name, synced, and then renamed: it is there whole or
not at all. One that appears meanwhile is not replaced either (on a file system without hard links it
is looked for just before): the status is 73 too, and the files before it are written. Where the
program is ended at once (kill -9), a file .skywimple-restore-* may stay in DIR; remove it.
A file of which a part cannot be read is not written, since nothing may stand in for what is lost; it is
told on standard error with the refusal, its block and the log's first doubtful sector. All others are
written, and the status is 33. A file of which the name is lost is named name-lost-N: it was the file N
of those that `save` was given; the status is 33 then too. Where the root itself cannot be read, or `save` did not make it,
nothing is written; the status is the refusal's number (16 for a root that `save` did not make).
A file takes its size from its entry, and blocks may stand in it many times: a root that someone else
made may lead to more bytes than any disk has. A file that goes beyond the limit is not written, is told,
and the status is 33. Long runs of zeros are left as holes, which take no room where the file system has
them.
  --limit N    the most bytes of all files together (default 4294967296, which is 4 GiB)
  --overwrite  replace files that are there; folders, the log and its mark never
  --adopt      take a log without a good mark as it is, and mark it
";

pub const DIFF: &str = "\
Compares the files that `save` stored under ROOT1 and ROOT2 (scores, 40 hex digits) by their names, and
prints a row for each that differs, in the order of ROOT1, then those that only ROOT2 has:
  added       only ROOT2 has a file of this name
  removed     only ROOT1 has
  changed     both have, and its bytes differ: its entry, with size and score, is another
  unreadable  could not be compared: its entry, or the list of names that it would stand in, is damaged
              or missing. Named are the refusal and for 12 the log's first doubtful sector. The file may
              have changed or not
A file that was renamed is removed and added. The order of the files is not compared.
What is compared are sizes and scores; the files themselves are not read. So a file that is damaged, and
the same in both roots, is no difference here (`restore` and `walk` find it); nor is a block of the
directories that both have, and two roots over one directory are equal without reading it. Where both
roots have one list of names, also a lost one, files are compared by their places.
The status is 0 if no file differs, 1 if some do, and 33 if any could not be compared or named, whatever
else differs. Where a root itself cannot be read, or `save` did not make it, nothing is printed; the
status is the refusal's number, which is never 1 (16 for a root that `save` did not make).
  --json   prints JSON, an object on each line: name; change: \"added\", \"removed\", \"changed\" or
           \"unreadable\"; with unreadable number and sector, which is null but for 12. Where a name is
           lost, it is null, and place is the file's place in the root that root tells (1 or 2), in both
           if there is no root
  --adopt  take a log without a good mark as it is, and mark it
";

pub const SEARCH: &str = "\
Asks QUERY of each card that `save` stored under ROOT, or of one card, by its entry (80 hex digits), and
prints a row for each: the answer, the card's name, and why. First those with yes, then not known, then
unreadable, then no; at the end their counts.
  yes         the query holds, by what the card says
  no          it does not
  not known   what the card says does not decide it. Named are the antigens of the query that nobody
              tested and that keep it open: each stands in a part of the query that is not known, and
              all parts around that are not known either. Once all of them are tested it is yes or no;
              testing any others changes nothing
  unreadable  no answer: the file is damaged, missing or no card. Named are the refusal, for 12 the
              log's first doubtful sector, and for 25 the line and byte where the card goes wrong
A card has at most 4,096 bytes, of lines NAME=present or NAME=absent, each ended by a line feed. A name
is 1 to 8 letters and digits, and none of and, or, not; names rise: digits, capitals, small letters.
A query has at most 256 bytes: names, `not`, `and`, `or` and round brackets, at most 16 deep, with one
space between any two of them. `not` binds tightest, `or` least. Quote it for the shell:
'not Vel and ( K or not Fya )'. One that is ill-formed is refused with 26 before any card is read; the
place of its first error is told, in bytes from 1 on.
Names are shown so that all of them can be seen: a backslash as \\\\, a character that is hidden or that
turns the text around by its number, as \\u{200b}, and a space at either end or after another one as
\\u{20}. Two names are never shown alike, but for characters that merely look alike, such as a letter's NFC
and NFD, or a Latin and a Greek A; --json keeps those apart too, since its strings have the name's bytes.
The status is 0 if each card is yes, no or not known, and 33 if any could not be read, or if names are
lost: then it is told below the table, and on the page, how many, the refusal and for 12 the log's first
doubtful sector, and a card without a name is listed by its place, (name lost: file N): it was the file
N of those that `save` was given. Cards are found by the index beside the log, and by a scan of the log
where that does not lead to them; at a terminal progress is shown.
  --json       prints JSON, an object on each line: name; answer: \"yes\", \"no\", \"not known\" or
               \"unreadable\"; with not known missing: the antigens; with unreadable number and sector,
               which is null but for 12. Where a name is lost, it is null, and place is the card's place
  --html FILE  writes a page that stands alone and prints well, with the query and the day (in UTC, or
               that of SOURCE_DATE_EPOCH); replaces FILE only if it is a page. It is written under
               another name, synced, and then renamed, so a search that fails leaves the page before
               it: look at its day. Where the program is ended at once (kill -9), a file
               .skywimple-page-* may stay beside it. With - it goes to standard output, in place of
               the table
  --adopt      take a log without a good mark as it is, and mark it
";

pub const CARD: &str = "\
Says whether FILE, or standard input (`-`), is a card, which `search --help` describes. If not, the first
place that is wrong is told by its line and by its byte in the line, both from 1 on, and the status is
25.
";

pub const DEMO: &str = "\
Saves the cards of four donors, one of whom nobody tested for the antigen, and asks who may give. Then a
sector is damaged: the card in it is unreadable, and never a no. What can be restored is, and saving the
cards again heals it. Each step is checked; if one does not go as said, the status is 1. The folder is
removed at the end.
  --date YYYYMMDD  the date of the blocks that are stored (see put)
";
