//! What `--help` says beyond the options.

/// The road from two relays over three stations, and one sitting, as they are pasted into a shell.
pub const ROAD: &str = "\
cat > licence.txt <<'END'
# Products: 0 raw stage, 1 hourly means, 2 yearly totals.
# Facts: 5 licence, 6 past its ninety days, 7 research, 8 own station.
any
  permit 0004
  grant 0001 label 1 reason 1 obligations 7
    all
      has 5
      not
        has 6
  grant 0002 label 2 reason 2
    any
      has 7
      has 8
END
vierskof join --hex AAA2AA AAAA2A --to binary > river.table
vierskof reduce licence.txt --table river.table |
  vierskof narrow --facts 7=present |
  vierskof complete --facts 5=present,6=absent,7=present
vierskof evaluate licence.txt --facts 5=present,6=absent,7=present
";

const DOCUMENTS: &str = "\
What a sheet is
  A sheet is a policy: who may read which products, on which conditions and
  with which obligations. Its conditions ask for facts about a request. A fact
  has a number from 0 to 1023 and is present, absent or unknown.

What a record is
  A record is what facts have made of a sheet. A resolved record holds the
  decision, and why. A pending record holds what is left of the policy, and
  shows which facts it still needs. Both hold the facts that were consulted,
  and the number of the sheet: --sheet gives it to evaluate and reduce, and
  narrow and complete take only a record of the sheet that it names. Without
  it the number is 0, that of a sheet without one.

What a register is
  A register tells which of its numbered sheets is in force for a group on a
  day: the latest of the group's entries whose effective day is not after that
  day, on equal days the one with the greater number; a withdrawn entry never
  is. It has no text form: an entry is two words, group (8 bits), withdrawn
  (1), zero (7), sheet number (16), and then the day, counted from 1900-01-01.

What a batch is
  Up to 64 requests, each a line with a group, a day and facts. The command
  batch decides each by the sheet that a register has in force for it, out of
  the sheets that it is given with their numbers, within an allowance of nodes:
  a node counts each time that it is visited, policy and condition alike.

The text form
  One node a line; what belongs under a node is indented by two spaces; #
  begins a comment. A list has commas and no spaces. Four hexadecimal digits
  are a set of products, product 0 the last bit: 0003 is products 0 and 1.

  Policies:
    permit 0003       permits these products
    deny              permits nothing
    grant 0003 hidden label 4 reason 9 obligations 7,12
                      permits these products with these obligations if the
                      one condition under it is true, and denies with this
                      reason if not; a hidden deny is to be presented as if
                      the product did not exist; the label names the clause;
                      what stands after the products may be left out
    all               permits what all policies under it permit; denies if
                      one of them does, or if there is none
    any               permits what any policy under it permits; denies if
                      none does
    or-else           of two policies the first, or the second if that denies
  Conditions:
    has 5             true if fact 5 is present
    not               true if the one condition under it is false
    all, any          true if all are, or any is; false with none under it
    always, never     true, false
  A record begins with the line resolved or pending, which says the number of
  its sheet if it has one, and, if facts were consulted, a second line:
    pending sheet 7
    consulted 5=present,6=absent,9=silent
  in which silent is a fact that the table ended before: it counts as absent.
  Then comes its tree, in which what is decided stands as
    permit-with-trace 0003 label 4 obligations 7 facts 5,6
    deny-with-trace hidden denied 0003 label 1 reason 2 facts 5
  An obligation may stand twice in a list. A grant has at most 64 of them, a
  permit-with-trace 127, all other lists 4095 items.

Levels
  Networks that grade access by levels, and not by products, give evaluate,
  reduce, narrow and complete an outcome table: --levels FILE. It says how many
  levels there are, 1 to 16, numbered from 0, and for each ordered pair of them
  the level in which the two meet, and then so the one in which they join; #
  begins a comment:
    2       # levels
    0 0 0 1 # meets of 0 and 0, 0 and 1, 1 and 0, 1 and 1
    0 1 1 1 # joins
  or the same numbers as bytes. Both have to be commutative and associative and
  to absorb each other. The four digits of an outcome are then the number of a
  level: all permits what its policies meet in, and any what they join in. Each
  command of a road takes the same table.

Windows
  A list of retention windows says what facts are while a reading has an age,
  one window a line; # begins a comment:
    open 6 0..90 days       fact 6 is present from 0 to 90 days
    closed 6 10..20 days    but absent from 10 to 20 days
    open 7 0..9 years       fact 7 is present for ten years
  Both ends are included, and years are completed ones. Closed goes before
  open, in whatever order the windows stand. The command window sets the facts
  of a table by such a list.

The tight form
  For a narrow link the command pack makes one run of bits of a sheet or a
  record, without the words' unused bits and with one bit for what is absent:
  often about half of the words' bytes, and never more of them. The command
  unpack gives the same words again, which is proved; no other command takes
  the tight form.

The road in four commands
  Two relays join their tables: one knows that fact 6 is absent, the other
  that fact 8 is. With what both know the sheet is reduced, the district
  narrows the record with its own facts, and the archive completes it with
  all of them. If none of them contradicts another, the road ends in the
  effect and the products that evaluate gives in one sitting with all facts:
  this is proved, for every sheet. With reduce --in-order and narrow
  --in-order it ends in the same obligations, label, reason and shape as
  well. Paste this into a shell:

";

const STATUS: &str = "
Exit status
  0  decided: the answer stands on standard output
  1  refused: `refused NUMBER: WHY (WHERE)` on standard error, and no output
  2  usage: an option, a file that can't be read or written, or a fault in
     a text, with its line
  With --status the four calls end with 0 for a permit, 3 for a deny and 4
  for a record that is still pending.";

/// The long help's end.
pub fn guide() -> String {
    [DOCUMENTS, ROAD, STATUS].concat()
}
