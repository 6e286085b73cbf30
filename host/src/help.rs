//! The texts of `--help` and `--version`. The man page, man/choughbell.1, says more.

pub const VERSION: &str = concat!("choughbell ", env!("CARGO_PKG_VERSION"), "\n");

pub const HELP: &str = "\
choughbell cuts XML by a list of paths, by a filter that is proved.

  choughbell cut -l LIST [DOCUMENT] [-o OUTPUT]   the cut of a document by a list
  choughbell cut {-l LIST -o OUTPUT}.. [DOCUMENT] up to four cuts of it in one reading
  choughbell rows -l LIST [DOCUMENT] [-o OUTPUT]  a table for a spreadsheet: path and text of
                                                  each element that the list selects
  choughbell check [DOCUMENT]..                   whether documents would be taken
  choughbell batch -l LIST -d FOLDER DOCUMENT..   the cuts of many documents, into a folder
  choughbell batch -l LIST [BATCH] [-o OUTPUT]    the same from a batch file to another
  choughbell pack [LIST] [-o OUTPUT]              a list from text to its packed form
  choughbell unpack [LIST] [-o OUTPUT]            and from the packed form back to text
  choughbell covers --narrow LIST --wide LIST     whether one list is covered by another
  choughbell mend [DOCUMENT] [-o OUTPUT]          what is whole of one that stops half way,
                                                  and the end tags that are missing
  choughbell show -l LIST [DOCUMENT] [-o PAGE]    a page to look at: what becomes of each part
  choughbell explain [NUMBER]                     what an answer or an exit status means

A file that is not named, or named -, is the standard input or output.

  -l, --list LIST      the paths, one to a line: / (child), // (descendant), /self:: (the
                       element itself) or /descendant-or-self:: (it or any under it) and
                       then * or a name, again and again; behind the last of them perhaps
                       a test of an attribute, [@name=\"value\"]; one space and # at the end
                       keep the whole entry
  -e, --path PATH      one path, in place of a list or behind its lines; may be given again
      --packed         LIST is in its packed form; of covers, both are
  -o, --output OUTPUT  is replaced when all is there to write, and else stays as it was; of
                       several lists each has its own behind it
  -d, --folder FOLDER  where the cuts of a batch go, under the names of the documents
      --count          print only: kept, the elements selected, the length of the cut; and
                       on a second line: name tests, how many were tried
      --each           print only: for each line of the list how many elements it selects
      --plain          cut by the plain engine: the same cut and the same numbers, slower,
                       and without name tests
      --narrow LIST    of two lists, the one whose every path should be covered
      --wide LIST      by a path of this one, marked if that is. Then the cut by the wide
                       list serves the narrow list as the master does. Prints yes, or each
                       narrow line that nothing covers
  -q, --quiet          no message and no numbers, only the exit status and what is to be
                       written
      --json           print the numbers as one line of JSON, of batch one for each document
                       too; on the standard output, or on the standard error where the
                       document goes to the other
  -h, --help           this text
  -V, --version        the version
      --               what follows is no option

Exit status: 0 written, sound or covered; 1 to 3 a list is refused, 13 a packed list, 4 to 8
and 10 the document (of a batch, the first that is), 11 the batch; 12 no root tag to mend;
20 not covered; 64 wrong usage; 66 no input; 73 no output; 74 reading or writing failed. Of
several cuts it is that of the first that is not written.

For example, with `//commune/hamlet #` and `//place[@type=\"village\"]` as lines of atlas.lst:

  choughbell cut -l atlas.lst master.xml -o atlas.xml
";
