//! What `help` and `--help` print.

pub const ALL: &str = "\
Plans, checks and rebuilds for small disk arrays coded with XOR.

usage: navorzim COMMAND ..

  demo      loses disks of a small array and brings them back, in front of you
  family    writes the code sheet of a known code

An array is a folder with a file a disk:
  split     makes an array of a file
  status    says which disks are there, and whether those that aren't can be rebuilt
  restore   rebuilds the missing disks
  join      makes the file of an array again, also where disks are missing

The same with a file of stripes, and with plans:
  encode    makes stripes of data
  decode    makes data of stripes
  plan      plans how to rebuild disks, or some of their rows, or shows why it can't be done
  check     judges a plan for a code and the lost disks
  test      says whether the surviving disks of a file of stripes can be sound
  rebuild   rebuilds what a plan wants in a file of stripes; the plan is checked first
  strip     takes a disk's strips out of a file of stripes
  show      draws a code, a plan, or why there is none
  help      help COMMAND, or COMMAND --help, tells more

A code has n disks of r symbols, N = n × r, and K data symbols; a symbol is L bytes.
A stripe is N × L bytes, symbol (disk × r + row) after symbol.

DISKS are the lost disks: one, like 3, or several, like 0,3 or 0-2, in any order.
Numbers are decimal. `--` ends the options. A dash, -, stands for standard input where a file
is read, once in a command, and for standard output after -o and --svg: what the command says
then goes to standard error. Data and stripes can't come from one and go to the other at once,
and an array is always a folder.

A file that is written takes the old one's place when it is complete; until then, and
after any refusal, the old one is as it was. Files are locked (flock) while they are worked
on; one that somebody else has locked is left alone, and the message says who has, or it is
waited for with --wait SECONDS. One that is written or replaced meanwhile is left to them. Owner,
group, permissions, access list and attributes stay, but setuid, setgid and sticky don't; what
can't be kept is narrowed. What is made of data, stripes or disks can be read by nobody who can't
read those. A signal leaves no temporary file; the .navorzim-*.part of a killed run is removed by
the next one that writes to the folder.

Exit status: 0 done, 1 refused, disks that can't be rebuilt or stripes that can't be sound,
2 misuse or a file that can't be used, 3 from status where disks are missing and can be rebuilt.
A refusal is its number, its place and a sentence, on standard error.
";

pub const DEMO: &str = "\
usage: navorzim demo [--keep DIR]

Splits a register into an array, loses a disk and restores it, then two, and joins the register
again; then tries a plan that was kept from another layout; brings one row of a stripe back for
somebody who waits for it; and asks about a disk that can't be rebuilt.

Works in a temporary folder, which is removed, or in DIR, which must be new or empty.
Exit status 0 only if everything came out right.

example: navorzim demo --keep demo-files
";

pub const FAMILY: &str = "\
usage: navorzim family single-parity K R -o CODE [--wait SECONDS]
       navorzim family liberation W K -o CODE [--wait SECONDS]
       navorzim family row-diagonal P -o CODE [--wait SECONDS]
       navorzim family evenodd P -o CODE [--wait SECONDS]

Writes the code sheet CODE.

  single-parity  K data disks of R rows and one parity disk; n at most 64, r 32, N 64
  liberation     K data disks of W rows and two parity disks; W is 3, 5 or 7, K 2 to W
  row-diagonal   P - 1 data disks of P - 1 rows and two parity disks; P is 3, 5 or 7
  evenodd        P data disks of P - 1 rows and two parity disks; P is 3, 5 or 7

  --wait SECONDS  waits so long for files that somebody else has locked

Refused: 36.

example: navorzim family liberation 5 5 -o code.sheet
example: navorzim family liberation 3 3 -o small.sheet
";

pub const SPLIT: &str = "\
usage: navorzim split CODE --symbol L DATA -o ARRAY [--wait SECONDS]

Makes an array of the file DATA: the folder ARRAY, which must be new or empty, with a file for
each disk, disk-0 and so on, and a text, `array`, that describes them. A disk's file holds its
strip of each stripe, r × L bytes, one after the other, and then a label: whose disk it is. The
last stripe is filled up with zeros; `array` has the data's length, so that join gives back just
what was there. Each split draws an identity from the system, so that no disk of another array,
or of an older version of the same data, is ever taken for one of this array.

The folder has its name only when all of it is complete and on disk. An empty folder that has the
name gives it up, and its rights with it. Whoever can't read DATA can't read the disks.

  --wait SECONDS  waits so long for files that somebody else has locked

Needs a code in which each data symbol stands somewhere as it is, as those of all families do:
else nothing is written.

Refused: the code sheet (1 to 6), 31 (L is 1 to 65,536).

example: navorzim split code.sheet --symbol 64 register.txt -o array/
";

pub const STATUS: &str = "\
usage: navorzim status ARRAY [--read] [--without DISKS] [--links] [--wait SECONDS]

Says of each disk of an array whether its file is there and has the right length and label, what
else is in the folder, and whether the disks that aren't there can be rebuilt, and what that
reads, or how much is gone. Nothing is written, and of a disk's file only the label is read.

  --read          reads every byte of every disk, and says which disk can't be read, and where
  --without DISKS takes these disks as lost, though they are there
  --links         takes links in the disks' places, for arrays whose disks lie on several media;
                  without it a link is no disk
  --wait SECONDS  waits so long for files that somebody else has locked

Exit status: 0 if all disks are there and sound to look at, 3 if some are missing and can be
rebuilt, 1 if they can't be rebuilt, or something else stands in a disk's place.

example: navorzim status array/
";

pub const RESTORE: &str = "\
usage: navorzim restore ARRAY [DISKS] [--plan PLAN] [--dry-run] [--without DISKS] [--links]
                        [--wait SECONDS]

Rebuilds the missing disks of an array, or of those only DISKS: one like 3, or several like 0,3.
Plans anew from the code in `array`, has the plan checked, for every block of stripes again,
and reads only the symbols that it needs, and of other disks the label. Surviving disks are never
written. What stands in a disk's place is never replaced: move it away first; by its label a disk
of another array is known, and never read as one of this array. A disk's file has its name only
when it is complete. Its rights are no wider than those of every file that was read; it goes to
another owner or group only if they and the folder all have that, else it stays with whoever runs
this, mode 600.

Where `array` is lost, the labels have it, if those that are there agree: it is written anew.

  --plan PLAN     goes by this plan, which is checked like any other. It must be for all disks that
                  can't be read, and bring the whole disks back
  --dry-run       says what would be read and written, and does nothing
  --without DISKS takes these disks as lost, though they are there: they are neither read nor
                  replaced. For disks that can't be read to their end
  --links         takes links in the disks' places
  --wait SECONDS  waits so long for files that somebody else has locked

If no plan can bring the disks back, says how much is gone, as plan does, and which disks could be
rebuilt all the same, or if another came back; writes nothing and ends with status 1.

Refused: the code sheet (1 to 6), 7 (no such disk), the plan (7 and 11 to 25).

example: navorzim restore array/
example: navorzim restore array/ --dry-run
";

pub const JOIN: &str = "\
usage: navorzim join ARRAY -o DATA [--without DISKS] [--links] [--wait SECONDS]

Makes the file of an array again, exactly as long as it was. Where disks are missing whose data
can be rebuilt from the others, that is done on the way; the array stays as it is.

  --without DISKS takes these disks as lost, though they are there, where they can't be read
  --links         takes links in the disks' places
  --wait SECONDS  waits so long for files that somebody else has locked

If no plan can bring the data back, says how much is gone, as restore does, writes no file and
ends with status 1.

example: navorzim join array/ -o joined.txt
";

pub const ENCODE: &str = "\
usage: navorzim encode CODE --symbol L DATA [--length BYTES] -o STRIPES [--wait SECONDS]

Reads the code sheet CODE and the file DATA, which holds K × L bytes for each stripe; writes
as many stripes of N × L bytes to STRIPES.

  --length BYTES  DATA has so many bytes, which need not fill the last stripe: it is filled up
                  with zeros. Without it DATA must be whole stripes' data, of one stripe or more
  --wait SECONDS  waits so long for files that somebody else has locked

Refused: the code sheet (1 to 6), 31 (L is 1 to 65,536), 33 (DATA isn't whole stripes' data).

example: navorzim encode code.sheet --symbol 64 register.txt -o stripes.bin
";

pub const DECODE: &str = "\
usage: navorzim decode CODE --symbol L STRIPES [--length BYTES] -o DATA [--wait SECONDS]

Reads the code sheet CODE and the stripes of N × L bytes in STRIPES; writes their data, K × L
bytes for each stripe, to DATA. Each data symbol is read where it stands as it is, and nothing
is rebuilt.

  --length BYTES  writes so many bytes, those that encode --length took. STRIPES must have just
                  as many stripes as they fill
  --wait SECONDS  waits so long for files that somebody else has locked

Needs a code in which each data symbol stands somewhere as it is, as those of all families do.

Refused: the code sheet (1 to 6), 31 (L is 1 to 65,536), 32 (STRIPES isn't whole stripes).

example: navorzim decode code.sheet --symbol 64 stripes.bin -o decoded.txt
";

pub const PLAN: &str = "\
usage: navorzim plan CODE DISKS [--want LIST] [--fewest] -o PLAN [--wait SECONDS]

Reads the code sheet CODE; writes the plan sheet PLAN, by which the lost disks DISKS can be
rebuilt: one, like 3, or several, like 0,3.

If no plan can do that, says how much is gone, writes no file and ends with status 1. \"3 of 4
symbols are beyond help, together 4 possibilities for each bit\" means: what survives leaves 4
possibilities for the same bit of these 3, so as much as 2 symbols is gone, and it fixes the
fourth, which --want brings back. The patterns show it: data that differs by one of them gives
the same bytes on all surviving disks.

  --want LIST  plans for these symbols of the disks only: it may read fewer symbols, and may be
               possible where whole disks are beyond help. LIST is rows, 0,2 or 0-2, of each of
               the disks, or symbols by number, s5,s7 or s5-s7, or both, separated by commas.
               Their order doesn't matter, and what is named twice counts once. Without --want
               the whole disks are wanted.
  --fewest     plans with the fewest reads: no plan that brings the same symbols back reads fewer
               of the surviving ones, however long it is. For small arrays: at most 16 symbols may
               survive
  --wait SECONDS  waits so long for files that somebody else has locked

A plan for one disk is a sheet of edition 1, with --want of edition 2; one for several disks, or
with --fewest, is a sheet of edition 3.

Refused: the code sheet (1 to 6), 7 (no such disk), 23 (more symbols than the disks have, or one
that isn't on them; its place counts the wanted symbols from the lowest, from 0), with --fewest
41 (more than 16 symbols survive; its place is their number).

example: navorzim plan code.sheet 0 -o plan.sheet
example: navorzim plan code.sheet 0,3 -o both.sheet
example: navorzim plan code.sheet 0 --want 2,4 -o rows.sheet
example: navorzim plan small.sheet 0 --fewest -o fewest.sheet
";

pub const CHECK: &str = "\
usage: navorzim check CODE DISKS PLAN

Reads the code sheet CODE and the plan sheet PLAN, and judges whether the plan brings the lost
disks DISKS, one like 3 or several like 0,3, or the symbols that it lists, back for every stripe
of this code; says how many surviving symbols it reads, and which rows it brings back if it
lists some. A plan is for the very disks that it was made for, no more and no fewer.

Refused: the code sheet (1 to 6), 7 (no such disk), the plan (7 and 11 to 25).

example: navorzim check code.sheet 0 plan.sheet
example: navorzim check code.sheet 0,3 both.sheet
";

pub const TEST: &str = "\
usage: navorzim test CODE DISKS --symbol L STRIPES [--wait SECONDS]

Reads the code sheet CODE and the stripes of N × L bytes in STRIPES, and says of each whether
what survives of it can be sound when the disks DISKS, one like 3 or several like 0,3, are lost:
whether some stripe of this code agrees with it on every byte of the other disks. For use before
a rebuild, which would spread a damaged byte. What the lost strips hold doesn't matter. Nothing
is written.

Where stripes aren't sound, the first ten are named, each with the lowest byte column, 0 to L - 1,
that shows it: some surviving symbol is wrong in this byte. Which one isn't known. The answer says
how many equations among the surviving symbols it went by, and how many symbols stand in one:
damage to the others can't be seen.

  --wait SECONDS  waits so long for files that somebody else has locked

Refused: the code sheet (1 to 6), 7 (no such disk), 31 (L is 1 to 65,536), 32 (STRIPES isn't
whole stripes). Exit status: 0 if all stripes are sound, 1 if one isn't.

example: navorzim test code.sheet 0 --symbol 64 stripes.bin
example: navorzim test code.sheet 0,3 --symbol 64 stripes.bin
";

pub const REBUILD: &str = "\
usage: navorzim rebuild CODE DISKS PLAN --symbol L STRIPES -o OUT [--wait SECONDS]
       navorzim rebuild CODE DISKS PLAN --symbol L STRIPES --in-place [--wait SECONDS]

Reads the code sheet CODE, the plan sheet PLAN and the stripes of N × L bytes in STRIPES;
writes them with the strips of the lost disks DISKS, one like 3 or several like 0,3, rebuilt in
each to OUT or, if --in-place asks for it, in place of STRIPES. A plan made with --want rebuilds
the rows that it lists; the disks' other rows stay as they are. The plan is checked for every
stripe; what the lost strips hold doesn't matter.

A wrong L, disk or code is refused only where the lengths or the plan don't fit it. Where they
do, good symbols are overwritten: the answer says which L, disks and code were used, so keep
STRIPES until it has been read.

  --wait SECONDS  waits so long for files that somebody else has locked

Refused: the code sheet (1 to 6), 7 (no such disk), the plan (7 and 11 to 25), 31 (L is 1 to
65,536), 32 (STRIPES isn't whole stripes). STRIPES is then as it was.

example: navorzim rebuild code.sheet 0 plan.sheet --symbol 64 stripes.bin -o rebuilt.bin
example: navorzim rebuild code.sheet 0,3 both.sheet --symbol 64 stripes.bin -o rebuilt.bin
example: navorzim rebuild code.sheet 0 plan.sheet --symbol 64 stripes.bin --in-place
";

pub const STRIP: &str = "\
usage: navorzim strip CODE DISK --symbol L STRIPES -o OUT [--wait SECONDS]

Reads the code sheet CODE and the stripes of N × L bytes in STRIPES; writes the strips of
disk DISK, r × L bytes of each stripe, one after the other to OUT.

  --wait SECONDS  waits so long for files that somebody else has locked

Refused: the code sheet (1 to 6), 7 (no such disk), 31 (L is 1 to 65,536), 32 (STRIPES isn't
whole stripes).

example: navorzim strip code.sheet 0 --symbol 64 stripes.bin -o disk0.bin
";

pub const SHOW: &str = "\
usage: navorzim show CODE [--disk DISKS] [--plan PLAN | [--want LIST] [--fewest]] [--svg FILE]
                     [--wait SECONDS]

Reads the code sheet CODE and draws it: disks as columns, rows as cells.

  --disk DISKS these disks are lost, one like 3 or several like 0,3: plans their rebuild and
               draws what is read and the steps, or, with status 1, what is beyond help and
               the patterns that show it; up to eight of them have letters, which stand in the
               cells of the symbols that they show on
  --plan PLAN  draws this plan for the lost disks instead; it is checked first. One that ends
               wrong (21) is drawn with the symbol that does and the data symbol that is off,
               with status 1
  --want LIST  plans for these symbols of the lost disks only, as plan --want does; the lost
               symbols that aren't wanted are drawn apart
  --fewest     draws a plan with the fewest reads, as plan --fewest makes it, and says so
  --svg FILE   writes the picture to FILE besides, or with - to standard output instead
  --wait SECONDS  waits so long for files that somebody else has locked

Colours appear on a terminal, unless NO_COLOR is set; COLUMNS sets the width (else the
terminal's own, or 80).

Refused: the code sheet (1 to 6), 7 (no such disk), the plan (7 and 11 to 25), the list (23), with
--fewest 41 (more than 16 symbols survive).

example: navorzim show code.sheet --disk 0 --svg plan.svg
example: navorzim show code.sheet --disk 0,3
example: navorzim show code.sheet --disk 0 --want 2
example: navorzim show small.sheet --disk 0 --fewest
";
