"""The words that the program is called with: what is wrong with those that name no job, letter for
letter."""
from harness import Case, Ended

FORMS = """silt format FILE V B CAP NL NH S [OPTION]...  makes an empty store in a file
silt run FILE [OPTION]...                     replies to the lines of the standard input
silt tend FILE [OPTION]...                    does all background work that is due
silt check FILE [--shards M]                  prints what the store in a file consists of
silt dump FILE [--shards M]                   prints a line for each key that puts its value
silt plan KEYS V [OPTION]...                  prints the six numbers of a store for so many keys
silt script V B CAP NL NH S                   runs the lives of the standard input in memory
silt serve FILE PORT [OPTION]...              replies to the lines of a port's connections
silt stop ADDRESS [OPTION]...                 ends a server in order, and waits until it has ended
silt info ADDRESS [OPTION]...                 prints the numbers of a server, a line each

FILE  the file of the store
V     bytes of a value, 1 to 4096
B     buckets of a log's table, a power of two, 2 to 32768
CAP   rows of a log, 1 to 4 times B
NL    log regions, 2 to 8
NH    hash regions, 1 to 16
S     put rows of the store, and entries of a sorted region, 1 to 16777216
KEYS  keys that have values at one time
PORT  a port of this machine, at most 65535; 0 lets the system choose
ADDRESS  where a server is: a port of this machine, or an IP address and a port, as 10.0.0.1:7379 or [::1]:7379

--force           formats a file that holds keys or other data; they are lost
--sparse          gives the file its length alone, and does not write all of it
--shards M        format: makes the files FILE.0, FILE.1 .., each one of M shards of a store, 2 to 64
--tend            converts and merges between the lines, as long as work is due
--strict          ends with status 3 if a line was refused
--merge-at K      run --tend: merges once there are K hash stores, and not only if no region is free
--shards M        run: replies with the M shards in the files FILE.0, FILE.1 .. as one store
--merge-at K      tend: merges only if there are K hash stores; any number if left out
--shards M        tend: does that for each of the M shards in the files FILE.0, FILE.1 ..
--shards M        check: prints that of each of the M shards in the files FILE.0, FILE.1 ..
--shards M        dump: prints the lines of the M shards in the files FILE.0, FILE.1 ..
--memory BYTES    what the store may take of memory, merge included
--merge-writes E  merging writes at most E entries for each row; 9 where possible if left out
--shards M        plan: prints the six numbers of one of M shards, and what all of them take
--audit N         refuses every call after the first N, which it records in memory; the record is not printed
--sessions M      ends after M sessions; 0 has no end
--idle SECONDS    closes a connection that sends nothing for so long; 0 never does
--wait SECONDS    how long a command waits for room; 10 if left out, 0 refuses at once
--merge-at K      serve: merges once there are K hash stores; half of NH if left out
--pipeline        does the commands that a connection sent together with one flush
--resp            speaks the protocol of Redis clients in place of lines
--bind ADDRESS    serve --resp: listens on this IP address; 127.0.0.1 if left out
--password-file PATH  serve --resp: asks clients for the password in the first line of this file
--clients N       serves at most N connections at once, 1 to 1024; 64 if left out
--shards M        serve: serves the M shards in the files FILE.0, FILE.1 .. as one store; not with --audit
--mergers G       serve --shards: merges at most G shards at a time; any number if left out
--stay            goes on to serve if a write or a sync failed, and refuses what changes; else the server ends
--scrub HOURS     reads the whole store each HOURS hours, 1 to 8760, and reports what is damaged
--scrub-rate MB   serve --scrub: reads at most MB megabytes a second, 1 to 10000
--metrics PORT    a page of numbers for Prometheus at this port of this machine; 0 lets the system choose
--backup PATH     writes a backup to PATH when a client orders one; of a set, to a folder that PATH links to
--password-file PATH  stop: sends the password in the first line of this file
--password-file PATH  info: sends the password in the first line of this file
"""

# The values and the options of each job.
JOBS = {
    "format": ("FILE V B CAP NL NH S", "--force --sparse --shards"),
    "run": ("FILE", "--tend --strict --merge-at --shards"),
    "tend": ("FILE", "--merge-at --shards"),
    "check": ("FILE", "--shards"),
    "dump": ("FILE", "--shards"),
    "plan": ("KEYS V", "--memory --merge-writes --shards"),
    "script": ("V B CAP NL NH S", ""),
    "serve": (
        "FILE PORT",
        "--audit --sessions --idle --wait --merge-at --pipeline --resp --bind --password-file --clients --shards --mergers --stay --scrub --scrub-rate --metrics --backup",
    ),
    "stop": ("ADDRESS", "--password-file"),
    "info": ("ADDRESS", "--password-file"),
}
# What the help of a job with an input says of its lines.
LINES = """put KEY VALUE     sets the value of a key
delete KEY        deletes the value of a key
swap KEY OLD NEW  sets the value of a key to NEW if it is OLD; - is no value
get KEY           prints the value of a key
flush             makes all accepted commands safe from crashes
"""
FACTS = "info              prints the numbers of the store, a line each\n"
SHUTDOWN = "shutdown          ends the server once all that wait have their replies\n"
BACKUP = "backup            has a server with --backup write one\n"
STEPS = "convert, merge    does one step of background work\n"
STOPS = "stop K FILL       crashes the life before it at its K-th write or sync\n"
HELP_OF_LINES = {
    "run": LINES + FACTS + STEPS,
    "script": LINES + STEPS + STOPS,
    "serve": LINES + FACTS + SHUTDOWN + BACKUP,
}
MORE = """KEY is 40 hexadecimal digits, or = and a name. VALUE, OLD and NEW have two hexadecimal digits a byte.
docs/program.md has these lines, and the replies to them.
"""

# Why a word is no number.
NO_DIGITS = "a number is written in digits alone"
TOO_LARGE = "a number has at most ten digits, and is at most 4294967295"
SEPARATED = "a number is written without separators"
# Why a word is no address, and no number of clients.
NO_ADDRESS = "an address is written in digits, as 10.0.0.1"
CLIENTS = "a server has 1 to 1024 clients at once"
# Why a word says not where a server is.
NO_CONTACT = "it is a port, or an IP address and a port, as 10.0.0.1:7379 or [::1]:7379"
# Why a number of hours or of megabytes is none.
HOURS = "a store is scrubbed each 1 to 8760 hours"
RATE = "a scrub reads 1 to 10000 megabytes a second"
# What is wrong with an address that other machines reach.
UNGUARDED = "--bind {} needs --password-file: other machines reach this address"
# Of a set there is no record.
RECORD_OF_SET = "--audit is not for --shards: a record is a history of one store"
# Why backups cannot be written to a file.
NO_NAME = "a file has a name"
OWN = "a backup is another file than the store's"
DRAFT = "a backup is written to PATH.new first, and that is the store's file"
# Words with single spaces between them, and what is wrong with them.
COMPLAINTS = {
    "prune disk": "there is no job 'prune'",
    "scripts 2 2 4 2 2 8": "there is no job 'scripts'",
    "run": "FILE is missing",
    "run disk disk": "'disk' is one word too many",
    "run disk --fast": "'--fast' is no option here",
    "run disk --force": "'--force' is no option here",
    "run disk --tend=yes": "'--tend=yes' is no option here",
    "run disk --tend --tend": "--tend is given twice",
    "run disk --strict --strict": "--strict is given twice",
    "run disk --strict --tend --strict": "--strict is given twice",
    "run disk --strict=1": "'--strict=1' is no option here",
    "run --strict": "FILE is missing",
    "run disk --wait 1": "'--wait' is no option here",
    "run disk --stric": "'--stric' is no option here",
    "run --tend": "FILE is missing",
    "run --tend -- --tend --tend": "'--tend' is one word too many",
    "tend": "FILE is missing",
    "check": "FILE is missing",
    "check disk 2": "'2' is one word too many",
    "check disk disk2": "'disk2' is one word too many",
    "format": "FILE is missing",
    "format disk": "V is missing",
    "format disk 2 2 4 2 2": "S is missing",
    "format disk 2 2 4 2 2 8 8": "'8' is one word too many",
    "format disk 2 2 4 2 2 8 -- --force": "'--force' is one word too many",
    "format disk 2 2 4 2 2 8 --sparse --sparse": "--sparse is given twice",
    "format disk 2 2 4 2 2 8 --sparse=1": "'--sparse=1' is no option here",
    "format disk 2 2 4 2 2 8 --shards": "--shards needs a number behind it",
    "format disk 2 2 4 2 2 8 --shards=1": "--shards cannot be '1': a set has 2 to 64 shards",
    "run disk --shards 2 --shards 2": "--shards is given twice",
    "run disk --shards two": "--shards cannot be 'two': a number is written in digits alone",
    "script 2 2 4 2 2 8 --shards 2": "'--shards' is no option here",
    "tend disk --shards 1": "--shards cannot be '1': a set has 2 to 64 shards",
    "check disk --shards": "--shards needs a number behind it",
    "dump disk --shards 65": "--shards cannot be '65': a set has 2 to 64 shards",
    "plan 10 2 --shards 0": "--shards cannot be '0': a set has 2 to 64 shards",
    "plan 10 2 --shards 1": "--shards cannot be '1': a set has 2 to 64 shards",
    "plan 1000 --shards 2": "V is missing",
    "check disk --shards 0": "--shards cannot be '0': a set has 2 to 64 shards",
    "dump disk --shards 1": "--shards cannot be '1': a set has 2 to 64 shards",
    "tend disk --shards 65": "--shards cannot be '65': a set has 2 to 64 shards",
    "tend disk --shards 4 --merge-at 0": "--merge-at cannot be '0': a merge is of at least one hash store",
    "format disk 2 2 4 2 2 -8": "'-8' is no option here",
    "format disk 2 2 4 2 2 +8": f"S cannot be '+8': {NO_DIGITS}",
    "format disk 2 x 4 2 2 8": f"B cannot be 'x': {NO_DIGITS}",
    "format disk 2 2 4 2 2 ": f"S cannot be '': {NO_DIGITS}",
    "format disk 2 2 4 2 2 1,000": f"S cannot be '1,000': {SEPARATED}",
    "script": "V is missing",
    "script 2 2 4 2 2": "S is missing",
    "script 2 2 4 2 2 8 8": "'8' is one word too many",
    "script +2 2 4 2 2 8": f"V cannot be '+2': {NO_DIGITS}",
    "script 2 2 4 2 2 ": f"S cannot be '': {NO_DIGITS}",
    "script 2 2 4 2 2 4294967296": f"S cannot be '4294967296': {TOO_LARGE}",
    "script 2 2 4 2 2 00000000008": f"S cannot be '00000000008': {TOO_LARGE}",
    "plan": "KEYS is missing",
    "plan 1000": "V is missing",
    "plan 1_000 100": f"KEYS cannot be '1_000': {SEPARATED}",
    "plan 1,000 100": f"KEYS cannot be '1,000': {SEPARATED}",
    "plan 1.000 100": f"KEYS cannot be '1.000': {SEPARATED}",
    "plan 1000 100 --memory": "--memory needs a number behind it",
    "plan 1000 100 --memory=1MB": f"--memory cannot be '1MB': {NO_DIGITS}",
    "plan 1000 100 --merge-writes": "--merge-writes needs a number behind it",
    "plan 1000 100 --merge-writes --shards 2": "--merge-writes needs a number behind it",
    "plan 1000 100 --merge-writes 0": "--merge-writes cannot be '0': it is at least one entry for each row",
    "plan 1000 100 --merge-writes=-1": f"--merge-writes cannot be '-1': {NO_DIGITS}",
    "plan 1000 100 --merge-writes 2.5": f"--merge-writes cannot be '2.5': {SEPARATED}",
    "plan 1000 100 --merge-writes few": f"--merge-writes cannot be 'few': {NO_DIGITS}",
    "plan 1000 100 --merge-writes 4294967296": f"--merge-writes cannot be '4294967296': {TOO_LARGE}",
    "plan 1000 100 --merge-writes 4 --merge-writes 4": "--merge-writes is given twice",
    "plan 1000 --merge-writes 4": "V is missing",
    "run disk --merge-writes 4": "'--merge-writes' is no option here",
    "serve disk 0 --merge-writes 4": "'--merge-writes' is no option here",
    "serve disk 65536": "PORT cannot be '65536': a port is at most 65535",
    "serve disk 0 --audit": "--audit needs a number behind it",
    "serve disk 0 --audit --sessions 1": "--audit needs a number behind it",
    "serve disk 0 --audit --idle 1": "--audit needs a number behind it",
    "serve disk 0 --audit x": f"--audit cannot be 'x': {NO_DIGITS}",
    "serve disk 0 --audit=1 --audit 2": "--audit is given twice",
    "serve disk 0 --audit 1 --audit=1": "--audit is given twice",
    "serve disk 0 --sessions 1 2": "'2' is one word too many",
    "serve disk 0 --idle": "--idle needs a number behind it",
    "serve disk 0 --wait": "--wait needs a number behind it",
    "serve disk 0 --wait --pipeline": "--wait needs a number behind it",
    "serve disk 0 --merge-at": "--merge-at needs a number behind it",
    "serve disk 0 --merge-at 0": "--merge-at cannot be '0': a merge is of at least one hash store",
    "serve disk 0 --merge-at 2 --merge-at 3": "--merge-at is given twice",
    "run disk --merge-at 2": "--merge-at needs --tend",
    "run disk --strict --merge-at=2": "--merge-at needs --tend",
    "run disk --merge-at 2 -- --tend": "'--tend' is one word too many",
    "run disk --merge-at 0": "--merge-at cannot be '0': a merge is of at least one hash store",
    "run disk --merge-at --tend": "--merge-at needs a number behind it",
    "run --merge-at 2": "FILE is missing",
    "tend disk --merge-at": "--merge-at needs a number behind it",
    "tend disk --merge-at 2 --merge-at 2": "--merge-at is given twice",
    "tend disk --tend": "'--tend' is no option here",
    "check disk --merge-at 2": "'--merge-at' is no option here",
    "serve disk 0 --wait=": f"--wait cannot be '': {NO_DIGITS}",
    "serve disk 0 --wait 1.5": f"--wait cannot be '1.5': {SEPARATED}",
    "serve disk 0 --wait -1": "--wait needs a number behind it",
    "serve disk 0 --wait 10s": f"--wait cannot be '10s': {NO_DIGITS}",
    "serve disk 0 --wait 4294967296": f"--wait cannot be '4294967296': {TOO_LARGE}",
    "serve disk 0 --wait 1 --wait=1": "--wait is given twice",
    "serve disk 0 --strict": "'--strict' is no option here",
    "serve disk 0 --pipeline --pipeline": "--pipeline is given twice",
    "serve disk 0 --pipeline --idle 1 --pipeline": "--pipeline is given twice",
    "serve disk 0 --pipeline=1": "'--pipeline=1' is no option here",
    "serve disk 0 --resp --resp": "--resp is given twice",
    "serve disk 0 --resp 3": "'3' is one word too many",
    "serve disk 0 --bind 127.0.0.1": "--bind needs --resp",
    "serve disk 0 --password-file p": "--password-file needs --resp",
    "serve disk 0 --pipeline --bind 127.0.0.1": "--bind needs --resp",
    "serve disk 0 --resp --bind": "--bind needs an address behind it",
    "serve disk 0 --bind --resp": "--bind needs an address behind it",
    "serve disk 0 --resp --bind localhost": f"--bind cannot be 'localhost': {NO_ADDRESS}",
    "serve disk 0 --resp --bind=": f"--bind cannot be '': {NO_ADDRESS}",
    "serve disk 0 --resp --bind 10.0.0.1,10.0.0.2": f"--bind cannot be '10.0.0.1,10.0.0.2': {NO_ADDRESS}",
    "serve disk 0 --resp --bind 10.0.0.1": UNGUARDED.format("10.0.0.1"),
    "serve disk 0 --resp --bind=0.0.0.0": UNGUARDED.format("0.0.0.0"),
    "serve disk 0 --resp --bind ::": UNGUARDED.format("::"),
    "serve disk 0 --resp --bind 1270.0.0.1": UNGUARDED.format("1270.0.0.1"),
    "serve disk 0 --resp --bind 127.0.0.1 --bind ::1": "--bind is given twice",
    "serve disk 0 --resp --password-file": "--password-file needs a file behind it",
    "serve disk 0 --resp --password-file a --password-file b": "--password-file is given twice",
    "serve disk 0 --clients": "--clients needs a number behind it",
    "serve disk 0 --clients 0": f"--clients cannot be '0': {CLIENTS}",
    "serve disk 0 --clients 1025": f"--clients cannot be '1025': {CLIENTS}",
    "serve disk 0 --clients x": f"--clients cannot be 'x': {NO_DIGITS}",
    "serve disk 0 --clients 1 --clients=1": "--clients is given twice",
    "serve disk 0 --shards": "--shards needs a number behind it",
    "serve disk 0 --shards 1": "--shards cannot be '1': a set has 2 to 64 shards",
    "serve disk 0 --shards=65 --audit 2": "--shards cannot be '65': a set has 2 to 64 shards",
    "serve disk 0 --shards 2 --shards 2": "--shards is given twice",
    "serve disk 0 --audit 5 --shards 4": RECORD_OF_SET,
    "serve disk 0 --shards 64 --resp --audit=0": RECORD_OF_SET,
    "serve disk 0 --mergers 1": "--mergers needs --shards",
    "serve disk 0 --shards 2 --mergers": "--mergers needs a number behind it",
    "serve disk 0 --shards 2 --mergers 0": "--mergers cannot be '0': at least one shard is merged at a time",
    "serve disk 0 --shards 2 --mergers=one": f"--mergers cannot be 'one': {NO_DIGITS}",
    "serve disk 0 --shards 2 --mergers 4294967296": f"--mergers cannot be '4294967296': {TOO_LARGE}",
    "serve disk 0 --shards 2 --mergers 1 --mergers 1": "--mergers is given twice",
    "tend disk --shards 2 --mergers 1": "'--mergers' is no option here",
    "run disk --bind 127.0.0.1": "'--bind' is no option here",
    "serve disk 0 --stay --stay": "--stay is given twice",
    "serve disk 0 --stay=1": "'--stay=1' is no option here",
    "run disk --stay": "'--stay' is no option here",
    "serve disk 0 --scrub": "--scrub needs a number behind it",
    "serve disk 0 --scrub 0": f"--scrub cannot be '0': {HOURS}",
    "serve disk 0 --scrub 8761": f"--scrub cannot be '8761': {HOURS}",
    "serve disk 0 --scrub 1h": f"--scrub cannot be '1h': {NO_DIGITS}",
    "serve disk 0 --scrub 1 --scrub=1": "--scrub is given twice",
    "serve disk 0 --scrub-rate 1": "--scrub-rate needs --scrub",
    "serve disk 0 --scrub 1 --scrub-rate 0": f"--scrub-rate cannot be '0': {RATE}",
    "serve disk 0 --scrub 1 --scrub-rate 10001": f"--scrub-rate cannot be '10001': {RATE}",
    "serve disk 0 --scrub 1 --scrub-rate=2.5": f"--scrub-rate cannot be '2.5': {SEPARATED}",
    "serve disk 0 --metrics": "--metrics needs a number behind it",
    "serve disk 0 --metrics 65536": "--metrics cannot be '65536': a port is at most 65535",
    "serve disk 0 --metrics x": f"--metrics cannot be 'x': {NO_DIGITS}",
    "run disk --metrics 0": "'--metrics' is no option here",
    "serve disk 0 --backup": "--backup needs a file behind it",
    "serve disk 0 --backup --stay": "--backup needs a file behind it",
    "serve disk 0 --backup ": f"--backup cannot be '': {NO_NAME}",
    "serve disk 0 --backup=": f"--backup cannot be '': {NO_NAME}",
    "serve disk 0 --backup a --backup=a": "--backup is given twice",
    "serve disk 0 --backup disk": f"--backup cannot be 'disk': {OWN}",
    "serve --backup=disk disk 0": f"--backup cannot be 'disk': {OWN}",
    "serve disk 0 --shards 2 --backup disk": f"--backup cannot be 'disk': {OWN}",
    "serve disk.new 0 --backup disk": f"--backup cannot be 'disk': {DRAFT}",
    "serve .new.new 0 --shards 2 --backup .new": f"--backup cannot be '.new': {DRAFT}",
    "serve disk 0 --backup disk --audit 5 --shards 4": RECORD_OF_SET,
    "run disk --backup copy": "'--backup' is no option here",
    "stop": "ADDRESS is missing",
    "info": "ADDRESS is missing",
    "stop 7379 7380": "'7380' is one word too many",
    "stop 0": f"ADDRESS cannot be '0': {NO_CONTACT}",
    "stop 65536": f"ADDRESS cannot be '65536': {NO_CONTACT}",
    "stop ": f"ADDRESS cannot be '': {NO_CONTACT}",
    "info localhost": f"ADDRESS cannot be 'localhost': {NO_CONTACT}",
    "info localhost:7379": f"ADDRESS cannot be 'localhost:7379': {NO_CONTACT}",
    "info 10.0.0.1": f"ADDRESS cannot be '10.0.0.1': {NO_CONTACT}",
    "stop 7379 --password-file": "--password-file needs a file behind it",
    "stop 7379 --password-file a --password-file b": "--password-file is given twice",
    "info 7379 --resp": "'--resp' is no option here",
    "stop 7379 --sessions 1": "'--sessions' is no option here",
}


def form_of(job):
    """The form of one job, with what its values and its options are. It is made of the lines of all
    forms."""
    jobs, values, options = (
        [line + "\n" for line in part.splitlines()] for part in FORMS.split("\n\n")
    )
    form = [line for line in jobs if line.startswith(f"silt {job} ")]
    options = [
        line
        for line in options
        if not line.startswith(("--merge-at", "--shards", "--password-file"))
        or line.split()[2].rstrip(":") == job
    ]
    named, chosen = (
        [line for line in part if line.split()[0] in names.split()]
        for part, names in zip((values, options), JOBS[job])
    )
    return "".join([*form, "\n", *named, *(["\n", *chosen] if chosen else [])])


def forms_for(words):
    """The form of the job that these words name, or those of all jobs."""
    return form_of(words[0]) if words and words[0] in JOBS else FORMS


class Words(Case):
    """Words that name no job are refused with status 2, and make no file."""

    def tearDown(self):
        self.assertEqual(list(self.folder.iterdir()), [])

    def assert_usage(self, words, said):
        """The program prints `usage`, and says this on standard error."""
        self.assertEqual(self.silt(*words, text="flush\n"), Ended(2, "usage\n", said), words)

    def test_the_wrong_word_is_named(self):
        """The form of the job that was meant comes first, and what is wrong is the last line."""
        self.assert_usage([], FORMS + "\nsilt: no job is named\n")
        for words, complaint in COMPLAINTS.items():
            self.assert_usage(words.split(" "), f"{forms_for(words.split())}\nsilt: {complaint}\n")

    def test_where_backups_may_go(self):
        """Names are compared letter for letter. The words name a job, whose file is not there."""
        for path in ("disk.new", "disk.new.new", "./disk", "disk.0", "dis", "k", "-", " "):
            ended = self.silt("serve", "disk", 0, "--backup", path)
            self.assertEqual((ended.status, ended.out), (1, "refused 5 Device\n"), path)

    def test_no_other_job_is_shown(self):
        for job in JOBS:
            said = self.silt(job, "--none").err.splitlines()
            self.assertEqual(said[-1], f"silt: '--none' is no option here")
            self.assertEqual([line.split()[1] for line in said if line.startswith("silt ")], [job])
            shown = {line.split()[0] for line in said if line.startswith("--")}
            self.assertEqual(shown, set(JOBS[job][1].split()))

    def test_options_of_other_jobs(self):
        """Each option names a job only where it belongs."""
        words = {
            "format": "disk 2 2 4 2 2 8",
            "plan": "1000 2",
            "script": "2 2 4 2 2 8",
            "serve": "disk 0",
            "stop": "7379",
            "info": "7379",
        }
        for option in ("--strict", "--wait", "--tend", "--force"):
            for job in JOBS:
                if option not in JOBS[job][1].split():
                    call = [
                        job,
                        *words.get(job, "disk").split(),
                        option,
                        *(["1"] if option == "--wait" else []),
                    ]
                    self.assert_usage(call, f"{form_of(job)}\nsilt: '{option}' is no option here\n")

    def test_help_and_the_version_have_no_complaint(self):
        for words, said in (
            (["--help"], FORMS),
            (["-h"], FORMS),
            (["--version"], "silt 0.1.0\n"),
            (["-V"], "silt 0.1.0\n"),
        ):
            self.assert_usage(words, said)

    def test_help_of_a_job(self):
        """It has the job's form alone, and the lines that it replies to."""
        for job in JOBS:
            lines = f"\n{HELP_OF_LINES[job]}\n{MORE}" if job in HELP_OF_LINES else ""
            for words in (["--help"], ["-h"], ["disk", "--help"], ["--none", "--help"]):
                self.assert_usage([job, *words], form_of(job) + lines)

    def test_help_names_the_lines(self):
        for job in ("run", "script", "serve"):
            said = self.silt(job, "--help").err
            for word in ("put KEY VALUE", "delete KEY", "swap KEY OLD NEW", "get KEY", "flush"):
                self.assertIn(f"\n{word} ", said, job)
            self.assertIn("docs/program.md", said, job)

    def test_other_words_that_name_no_job(self):
        for words in (["help"], ["run", "\udcff"]):
            ended = self.silt(*words, text="flush\n")
            self.assertEqual((ended.status, ended.out), (2, "usage\n"), words)

    def test_a_full_device(self):
        """Why `usage` is not written comes behind what is wrong with the words."""
        with open("/dev/full", "wb") as full, self.start("prune", stdout=full) as running:
            ended = self.finish(running)
        said = (
            f"{FORMS}\nsilt: there is no job 'prune'\nsilt: No space left on device (os error 28)\n"
        )
        self.assertEqual(ended, Ended(1, "", said))
