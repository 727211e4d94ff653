//! What `--help` prints.

pub const ALL: &str = "\
swistopal: look into a RocketMQ store folder, and rebuild its queues and its index from the commit log

  swistopal demo DIR       make a small store of a parcel sorter
  swistopal list DIR|FILE  list the records of the commit log or of one segment
  swistopal report DIR|FILE  give a shift in figures, from the commit log alone
  swistopal rebuild DIR    make consume queues and index from the commit log
  swistopal query DIR      find records by key, newest first
  swistopal queue DIR      show the records of one queue, in order
  swistopal show DIR POSITION  show one record whole
  swistopal check DIR      say what is sound, where it stops, what is missing and what to do next

swistopal COMMAND --help says more; --version gives the version.
A store folder has commitlog/ with 20-digit names, consumequeue/TOPIC/QUEUE/ and index/. The commit log is only read.
Topics, keys and tags are text in any language, as UTF-8; what cannot be seen of them is shown as \\xNN.
Results go to standard output, all else to standard error. Exit status: 0, 1 (a fault was found), 2 (bad usage).
";

pub const DEMO: &str = "\
swistopal demo DIR

Makes the folder DIR with the commit log of a parcel sorter's shift: inductions, diverts and trims, in three topics and
seven queues, the same bytes each time. DIR must not be there yet, or be empty.
";

pub const LIST: &str = "\
swistopal list DIR|FILE|- [--from POSITION] [--limit N] [--topic T] [--resync] [--long] [--json]

Lists the records and blanks of a store's commit log, of one segment file or of standard input: position, length, queue and
store time in milliseconds, then the number of the answer that ended it. A file's name of 20 digits is its first position;
any other file, and standard input, starts where its first record says. Zeros up to the end of the files are the log's end.

  --from POSITION      start at this record
  --limit N            at most N of them; if more follow, that is told
  --topic T            only records of this topic
  --from-time TIME     only records not stored before; milliseconds, or RFC 3339 as 2026-03-02T06:00:00Z
  --to-time TIME       only records not stored after
  --resync             go on behind damage, from the next place where a record or a blank stands, also where a segment is
                       missing; what is passed over has a line of its own, what is read behind it is marked
  --long               time also in RFC 3339, with topic, tags and keys
  --json               one object
  --jsonl              JSON Lines: an object for each line, the last one says how it ended
  --end POSITION       read up to here; zeros before it are then damage
  --segment-size S     if the first segment is cut short and its size cannot be told from the files, or if standard input
                       has several segments
";

pub const REPORT: &str = "\
swistopal report DIR|FILE [--from-time TIME] [--to-time TIME] [--queues FILE] [--html FILE] [--json]

Gives a shift in figures, from the commit log alone, before anything is rebuilt: records, blanks, body bytes, the smallest
and the largest record, index items; records by transaction type, by queue and by hour (UTC); first and last store time,
what was read and how it ended. A record counts by its own store time. A blank goes with the record before it, one before
all records with the first of them. The report ends where the log does or where it cannot be read, and says with which
number.

  --from-time TIME     only records not stored before; milliseconds, or RFC 3339 as 2026-03-02T06:00:00Z
  --to-time TIME       only records not stored after
  --queues FILE        only these queues one by one, 1 to 16, as for rebuild; otherwise all of the log, however many
  --html FILE          also a page with tables and plots, for a browser and for A4; FILE must not be there yet
  --json               one object
  --end POSITION, --segment-size S   as for list
";

pub const REBUILD: &str = "\
swistopal rebuild DIR [--into DIR] [--force] [--shorten] [--queues FILE] [--budget N] [--slots K] [--items N]

Makes DIR/consumequeue and DIR/index from DIR/commitlog. It works in DIR/swistopal.rebuild and puts the results into
their places at the end; it can be stopped at any time, even by a power cut, and the same command goes on. What is in the
way of the results is never deleted. It refuses where a broker holds the store's lock, and no option overrides that.

  --into DIR           the results and all else that is written go to this folder, which is made if it is not there; the
                       log is only read, and a link to it is put there, so that the folder is asked as a store is
  --force              put the results into the places of a consumequeue and index that are there, and keep those beside
                       them, with the time in their names, as consumequeue.2026-03-02T05-58-00Z; only you remove them
  --shorten            put results in place that have fewer entries or items than are there, or not the times of delivery
                       of SCHEDULE_TOPIC_XXXX, or that end where the log is damaged or a segment is missing; otherwise
                       that is refused
  --after-crash        go on though a file `abort` says that a broker did not end in order; none may be running anywhere
  --queues FILE        the queues, a line `TOPIC QUEUE` for each, 1 to 16; otherwise those of the log, in its order
  --budget N           at most N steps now; more to come is stop 9
  --batch N            steps that are kept together, 2,097,152 otherwise; a crash costs the time of one batch at most
  --entries R          entries of a queue's file, 1 to 300,000; otherwise 300,000, as RocketMQ has it
  --slots K            slots of the index, 1 to 5,000,000; otherwise 5,000,000, as RocketMQ has it
  --items N            items of the index, 2 to 20,000,000; otherwise 20,000,000, as RocketMQ has it
  --restart            begin anew and forget a rebuild that is under way
  --json               one object
  --end POSITION, --segment-size S   as for list
";

pub const QUERY: &str = "\
swistopal query DIR --key K [--topic T] [--from TIME] [--to TIME] [--limit N] [--body] [--scan] [--json]

Finds the records that carry a key, among KEYS or as UNIQ_KEY, newest first. Each one is read back from the log: one that
only shares the key's hash is left out and counted, one that does not stand in the log is a fault. What the index does not
reach is looked through in the log, behind damage too; records that are read behind damage are marked.

  --key K              text in any language, as UTF-8; it is compared byte for byte
  --unique-key K       the same, only as UNIQ_KEY
  --topic T            in this topic; otherwise in all of the store, for which the whole log is read once
  --from TIME          not stored before; milliseconds, or RFC 3339 as 2026-03-02T06:00:00Z
  --to TIME            not stored after
  --limit N            at most N records, 32 otherwise; if there are more, that is told
  --body               also the body; one that does not match its checksum is a fault
  --scan               look through the whole log instead of asking the index
  --json               one object
  --jsonl              JSON Lines: an object for each record, the last line has the rest
  --slots K            slots of the index, if they cannot be told from the file
  --end POSITION, --segment-size S   as for list
";

pub const QUEUE: &str = "\
swistopal queue DIR --topic T --queue N [--start N] [--limit N] [--tag TAG] [--body] [--json]

Shows the records of one queue in order, each one read back from the log. Those that are read behind damage are marked.

  --topic T, --queue N the queue
  --start N            from this entry on
  --limit N            at most N records; how many more there are is told
  --tag TAG            only entries with this tag's code; text in any language, as UTF-8
  --body               also the body; one that does not match its checksum is a fault
  --json               one object
  --jsonl              JSON Lines: an object for each record, the last line has the rest
  --end POSITION, --segment-size S   as for list
";

pub const SHOW: &str = "\
swistopal show DIR|FILE POSITION [--raw] [--json]

Shows one record whole: every field, hosts as addresses, properties as a table, tags, keys, whether the body matches its
checksum, and the body as text or, where it is none, as hexadecimal digits. A position inside a record shows that record.

  --raw                the body's bytes alone
  --json               one object
  --end POSITION, --segment-size S   as for list
";

pub const CHECK: &str = "\
swistopal check DIR [--bodies] [--queues FILE] [--slots K] [--items N] [--json|--jsonl]

Walks log, queues and index and says what is sound, where it stops and with which number, what is missing, and what to do
next. Queues and index are compared with those that the log gives, which are made in memory, behind damage too. What is
only past a limit of this tool is told as a limit, what is older than the log is counted, and neither is a fault. A record
whose text is no UTF-8 is damaged: which part of it, at which byte and what stands there is told. Nothing is written.

  --bodies             also judge each body by its checksum
  --queues FILE        compare only these queues; as for rebuild
  --slots K            slots of the index, if they cannot be told from the file
  --items N            items of the index, if it was made with another number than RocketMQ's
  --json               one object; each finding has a kind and its numbers
  --jsonl              an object for each finding, one for each line
  --end POSITION, --segment-size S   as for list

The numbers of the answers:
   0  done, caught up, chain ended or enough found
   1  a size breaks its limit, or the log or the index has another length
   2  a position, the readable end or an entry count is bad
   3  the directory is bad or has not 1 to 16 rows, or the queue buffer has another length
   4  the index header is bad
   5  the append request is outside the record rules
   6  the log is full
   7  a blank was written; try again at the new position
   8  the record is not wholly below the readable end
   9  the budget is spent
  10  the record is damaged
  11  the queue is not listed
  12  the queue is out of step
  13  the queue is full
  14  the index is full
  15  the index is ahead of the log
  16  the chain is broken
  17  the query or the queue reading is malformed
";
