//! The texts of `--help`.

pub const ALL: &str = "\
printbox: tolerance films, Sagem GDI jobs and strips of a pocket gauge

  printbox check SHEET.. [--load LOAD]
  printbox draw SHEET [--load LOAD] [--page N] [--band B] [-o FILE]
  printbox draw SHEET [--load LOAD] --all DIR
  printbox list SHEET [--load LOAD]
  printbox job check JOB..
  printbox job lines JOB [--page N] [-o FILE]
  printbox job make PBM.. [--paper PAPER] [--tray T] [--copies N] [--toner-save] -o FILE
  printbox strip FILE.. [-o DIR]
  printbox strip make PICTURE [--plain] [--palette HH] [--margins A,B] [--density N] -o FILE
  printbox explain NUMBER

`printbox COMMAND --help` tells more of each. Pages, bands and lines are counted from 0. A file
named `-` is standard input, or with -o standard output; `--` ends the options.

The exit status is 0 when all is done, 1 when a file or a packet is refused, and 2 for bad
arguments, a file that can't be read or output that can't be written.

What is refused, with which number and place, every dot drawn, read or printed, and every byte of a
job is the answer of the proved library. What the tool works out for itself is not proved: the words
after a refusal's number and place, among them the page, band and command that a place lies in; the
bands and the width of a picture, read from the sheet's herald; the width and height in a page head;
where a packet begins; the packets that `strip make` writes; and the PBM and PGM files.
";

pub const CHECK: &str = "\
printbox check SHEET.. [--load LOAD]

Checks sheets with a load; without --load the load is empty. A folder stands for the files in it,
in the order of their names; folders in it, names that start with a dot and the load are passed
over.

Of one file it prints one line:

  passed, 3 pages of 40 bands
  refused 7 at 14: unknown command code (page 0, band 0, first command)

Of more files, or a folder, it prints a line for each, with its name, and a total. Number and place
are the proved library's; what follows the colon is worked out by the tool, and not proved.
`printbox explain 7` tells more.

The exit status is 0 when all pass, 1 when one is refused, 2 when one can't be read.
";

pub const DRAW: &str = "\
printbox draw SHEET [--load LOAD] [--page N] [--band B] [-o FILE]
printbox draw SHEET [--load LOAD] --all DIR

Draws a page as a PBM picture (P4), of imageFSize by imageSSize dots; or with --band one band of it,
of imageFSize by the band's rows.

  --load LOAD   the load; without it the load is empty
  --page N      the page, counted from 0; without it page 0
  --band B      the band, counted from 0; without it the whole page
  -o FILE       the picture's file; without it standard output, which may not be a terminal
  --all DIR     every page, as DIR/page-0.pbm and so on; DIR is made where it is not there

A page or band is drawn as the library draws it, which looks at the sheet's counts before it and at
its own commands; where the check refuses the sheet for something else, that is said on standard
error. --all checks the sheet first, and then no page is refused. A file is written whole or not at
all.
";

pub const LIST: &str = "\
printbox list SHEET [--load LOAD]

Checks a sheet and prints every band of every page, each row as hexadecimal:

  pages 1 bands 2
  page 0 band 0 rows 2 dots 3
  0000
  7000

A sheet that is refused prints one line, as `refused 7 at 14`, and the exit status is 1. Without
--load the load is empty.
";

pub const JOB: &str = "\
printbox job check JOB..
printbox job lines JOB [--page N] [-o FILE]
printbox job make PBM.. [--paper PAPER] [--tray T] [--copies N] [--toner-save] -o FILE

Checks, reads and makes Sagem GDI jobs. `printbox job check --help` and so on tells more.
";

pub const JOB_CHECK: &str = "\
printbox job check JOB..

Checks Sagem GDI jobs. A folder stands for the files in it. It prints `passed, 3 pages`, or number,
place and what is wrong, as `check` does for sheets:

  refused 24 at 113: the job ends where bytes are needed (page 0, line 7)

The exit status is 0 when all pass, 1 when one is refused, 2 when one can't be read.
";

pub const JOB_LINES: &str = "\
printbox job lines JOB [--page N] [-o FILE]

Checks a job and writes the lines of a page as a PBM picture (P4), of the width and height in its
page head.

  --page N   the page, counted from 0; without it page 0
  -o FILE    the picture's file; without it standard output, which may not be a terminal
";

pub const JOB_MAKE: &str = "\
printbox job make PBM.. [--paper PAPER] [--tray T] [--copies N] [--toner-save] -o FILE

Makes a Sagem GDI job of PBM pictures (P4 or P1), a page of each. A file may hold several.

  --paper PAPER   A4 (4762 x 6778 dots), A5 (3298 x 4726), Letter (4900 x 6364) or Monarch (2128 x
                  4264): the page has this size, with the picture at its left and top and white
                  beside it; a larger picture is not taken. Without it the page has the picture's
                  size, and the format of the paper that has just this size, else of A4.
  --tray T        the input tray, 0 to 4294967295: 0 automatic (the default), 1 automatic tray, 3
                  manual
  --copies N      1 to 255; 1 by default
  --toner-save    saves toner
  -o FILE         the job's file, or - for standard output

A job over 16,777,216 bytes, or a picture that no page can have (over 16,383 by 65,535 dots, or
empty), is refused, and nothing is written.
";

pub const STRIP: &str = "\
printbox strip FILE.. [-o DIR]

Receives what a pocket gauge sent to its strip printer, in files of the bytes as they came, and
prints a line for each packet:

  at 0: initialize
  at 10: data, band 1 of 9
  at 660: data, end of page
  at 670: print, 1 band, margins 1 and 3, density 64
  at 684: inquiry
  at 694: refused 31, checksum 1A2B, and the sum is 1A2C

The first number is the place of the packet's mark, 88 33 hex, in the file, counted from 0. Margins
are those before and after the page. A file without any packet prints `no packet`. Of more files
each line has the name of its file, and a total follows.

  -o DIR   writes each printed page as a PGM picture (P5) of 160 dots by 16 for each band, in the
           greys 255, 170, 85 and 0: DIR/page-0.pgm and so on, or DIR/page-00.pgm when a file has
           ended after more than ten; of more files DIR/NAME-page-0.pgm, where NAME is the file's
           without its ending. DIR is made where it is not there. A page of 0 bands has no picture.

What a packet does, its numbers, the number of a refusal and every dot are the proved library's; the
place of a packet and the words after a refusal's number are worked out by the tool, and not proved.
`printbox explain 31` tells more.

The exit status is 0 when no packet is refused, 1 when one is, 2 when a file can't be read or a
picture can't be written. A file that ends inside a packet says so in its last line. That is no
refusal, since a printer would wait for the rest, so the status stays.
";

pub const STRIP_MAKE: &str = "\
printbox strip make PICTURE [--plain] [--palette HH] [--margins A,B] [--density N] -o FILE

Makes the stream that prints a PGM (P5 or P2) or PBM (P4 or P1) picture of 160 dots width, as a
pocket gauge would send it, so that `strip` or a printer can be tried without one. Each dot gets the
nearest of the four shades, which are white and a third, two thirds and all of black. The last band
is filled up with white. Of a picture over 144 rows the pages are printed with no margin between. A
file may hold several pictures, and each has its margins.

  --plain         sends every band plain; without it a band is sent coded where that is shorter
  --palette HH    the palette in hexadecimal, the shade of index 0 in its highest two bits; 1B by
                  default, where each index is its own shade. Where a palette lacks a shade, the
                  nearest that it has is printed.
  --margins A,B   the margins before and after a picture, 0 to 15; 1,3 by default
  --density N     the density, 0 to 255; 64 by default
  -o FILE         the stream's file, or - for standard output

A picture of another width or of no rows is not taken, and then nothing is written.
";

pub const EXPLAIN: &str = "\
printbox explain NUMBER

Tells in a sentence what the refusal of this number means: 1 to 13 and 15 of sheets, 1 and 21 to
27 of jobs, 31 to 36 of the strip printer.
";
