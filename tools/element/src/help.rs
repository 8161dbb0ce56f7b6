//! What `--help` says.

/// `element --version`.
pub fn version() -> String {
    format!("element {}\n", env!("CARGO_PKG_VERSION"))
}

/// `element --help`.
pub const ELEMENT: &str = "\
Makes, checks, shows and runs object stores of the secure element.

usage: element SUBCOMMAND ..

  new FILE                 makes a factory store
  make FILE DESCRIPTION    makes a store from a readable description
  check FILE               says whether a store is well formed, else which record is malformed and why
  show FILE                shows each object: numbers, life cycle, expressions, data, how full or how far it is
  run FILE LIST            carries out a list of commands and keeps store and session

  element SUBCOMMAND --help    more about one of them
  element --version            the version

FILE holds the store. The session stands beside it in FILE.session: 4 bytes, opened, LcsG, LcsA and last
error; without that file the session is the fresh one. DESCRIPTION and LIST are texts, `-` is standard input.
The proved library judges every command and every store.

Exit status: 0 done; 1 the store is malformed, library and explainer disagree, or `run` met a command that
was not done; 2 bad use, or a file that cannot be read, understood or written.
Each error says what is wrong and what was expected.
";

/// `element new --help`.
pub const NEW: &str = "\
Makes a factory store: 14 objects, 6024 bytes.

usage: element new FILE [--force]

  --force    replaces a store that is there, and its session by the fresh one

Without --force nothing is written where FILE or FILE.session is there already.
Exit status: 0 done; 2 bad use, FILE is there already or cannot be written.
";

/// `element make --help`.
pub const MAKE: &str = "\
Makes a store from a description, one object to a line, numbers rising:

  F1D0 maximum 140 lcso creation change \"LcsO < operational\" read always execute always data 01 02
  F1D1 counter up value 12 threshold 300 lcso operational change always read always execute never
  F1D2 maximum 16 lcso operational change never read \"counter F1D1\" execute never data 54 49 43 4B 45 54
  F1D3 queue next 3 maximum 64 lcso operational change always read always execute never fare 46 41 52 45 fare 54 57 4F

usage: element make FILE DESCRIPTION [--force]

  --force    replaces a store that is there, and its session by the fresh one

  line        NUMBER maximum COUNT lcso STATE change EXPRESSION read EXPRESSION execute EXPRESSION [data HEX]
  counter     NUMBER counter DIRECTION value VALUE threshold VALUE lcso STATE and the three EXPRESSIONs as above
  queue       NUMBER queue [next VALUE] maximum COUNT lcso STATE and the three EXPRESSIONs; [fare HEX] for each fare
  NUMBER      four hex digits; E0C0, F1C0 and F1C2 live in the session and may not stand here
  COUNT       1 to 1500; of a queue at least 4
  DIRECTION   up or down
  VALUE       0 to 4294967295; any value may stand with any threshold
  STATE       creation (01), initialisation (03), operational (07) or termination (0F), by name or number
  EXPRESSION  always, never, or in quotes: conditions joined by and and or; and binds first
  condition   LcsG, LcsA or LcsO; then =, > or <; then a STATE. Or: counter NUMBER
  HEX         the bytes in use, two digits each, with or without blanks between; without data none is in use.
              Behind fare the bytes of its body, 1 to 200

`counter E120` holds while the counter up of that number is below its threshold, and each command that it
grants uses it up by one. It may name any number; where no counter up has it, it does not hold.
The fares of a queue are numbered by ones, the last of them just below next, which is the number that the
next fare gets; without next they are numbered from 0 on. Each takes 8 bytes and its body, and next takes 4:
together at most the maximum.
At most 7 conditions and 3 groups joined by or; at most 32 objects and 16384 bytes. Case does not matter.
A note begins with # and runs to the end of its line. DESCRIPTION may be - for standard input.
`element show FILE --description` writes such a text; what is made from it has the same bytes.
The library checks the made store; nothing is written where it is malformed.
Exit status: 0 done; 2 bad use, an error in the description (line and column are told), or FILE is there already.
";

/// `element check --help`.
pub const CHECK: &str = "\
Says whether a store is well formed, by the library. If not, says which record is malformed and why, by the
tool's own reading of the records; where the two disagree, it says so.

usage: element check FILE

Exit status: 0 well formed; 1 malformed, or library and reading disagree; 2 bad use or an unreadable file.
";

/// `element show --help`.
pub const SHOW: &str = "\
Shows the session and each object: number, kind, how full it is, used and maximum, LcsO, the three
expressions, and the data in use as rows of place, hex and text.

Of a queue it shows how many bytes are in use and free (a fare takes 8 and its body), the number that the
next fare gets, which fares are present, and each with its number and its body as rows.
Of a counter it shows the direction, value and threshold, and how many steps of 1 are left to go, or that it
is at or past its threshold. The bar of a counter up is its value as a part of its threshold, full from there
on. A counter down has no bar: its first value is not kept, so that only what is left to go is known.
Beside an expression with conditions on counters it shows how far these are, or that no counter up has the
number: such a condition does not hold.

usage: element show FILE [--description]

  --description    writes a description instead, from which `element make` gives the same bytes

Exit status: 0 done; 1 the store is malformed (what `element check` says is shown); 2 bad use or an unreadable file.
";

/// `element run --help`.
pub const RUN: &str = "\
Carries out a list of commands, each on what the one before left, and shows each command in words, its
response, and a refusal by its own number (the last error may hold a higher one). Of a counter that is read
whole, written or counted it shows how far it is then, as `element show` does. A read gives the bytes in use
from its offset on and may give fewer than it asked for: then both counts are shown. Length FFFF asks for all.
A command that is granted by conditions on counters moves these by one, a read too: each that moves is shown as
it stands then, behind the answer, which shows a counter before its step. Where access is denied by an
expression that names counters, it is shown with how far they are.
Of an append it shows the number that the fare got, of an acknowledgement which fares are gone; then those
that are present, and how many bytes are free. Refused, it shows what was missing: the bytes needed and free
(08), a number to give (0D), the fare of that number (05). A queue that is read whole is shown fare by fare.

usage: element run FILE LIST [--dry] [--accept-refusals] [--plain] [--room BYTES]

  --dry                keeps nothing
  --accept-refusals    exit status 0 also where a command is refused, or has no room for an answer
  --plain              prints for each command only its outcome, a blank and its response in hex, as the
                       program bench does
  --room BYTES         the room for each response, 0 to 65535; without it 1504, which every response fits,
                       as in the program bench

LIST has one command to a line in hex, two digits to a byte, upper or lower case, with or without blanks
between bytes; a note begins with # and runs to the end of its line; the word empty is the command of no
bytes. LIST may be - for standard input. An error is told with line and column, and nothing is run.

Store and session are kept in FILE and FILE.session when the whole list is carried out, before the answers
are printed. New files are finished beside them (FILE.element-next, FILE.session.element-next) and take their
places by rename: after an interruption both are the old ones or both the new ones. Runs on one folder wait
for each other. A run whose answers cannot be printed is kept all the same.
Exit status: 0 all commands were done; 1 a command was refused or had no room for an answer (all others are
carried out all the same), or the store is malformed, so that every command is refused; 2 bad use, or a file
that cannot be read, understood or written.
";
