//! What `--help` and `--version` print.

/// The version is the package's.
pub const VERSION: &str = concat!("muon-tool ", env!("CARGO_PKG_VERSION"), "\n");

/// The commands and options, for a terminal of 80 columns.
pub const HELP: &str = "\
usage: muon-tool COMMAND [--level N] FILE ...

Reads a MUON text by the proved library.  FILE is the text, `-` standard input.

  check FILE             tell whether the text is accepted
  check FILE STORED      tell whether STORED is the stored file of the text
  list [--tree] FILE     list the nodes, seven numbers each; or as a tree
  values FILE            list the literals: line:column, path, kind and value
  get FILE PATH          print one value, by the path that values prints
  plain FILE [OUT]       write the plain form: no comments, no space
  convert FILE [OUT]     write the plain form of a text that may have arrows <-
  store FILE STORED      write the stored file

  --level N   read at level 1 or 2 (the default); not for store, check STORED
  --tree      of list: roles, kinds and literals in place of numbers
  -h, --help  print this;  --version  print the version
  --          what follows is no option

Without OUT, or with `-` for the file to write, standard output is written.
Nothing is written if the text is refused, and never over the text.

status: 0 accepted, 1 refused or no such value, 2 wrong call, or a file cannot
be read or written.  muon(1) has the language and the refusals.
";
