# extract-all.

test_extract() {
  fresh
  sample demo
  ends 0 read demo.img PARTS -o parts
  ends 0 read demo.img LOG --as lengths -o log
  ends 0 extract-all demo.img dir
  prints '1|PARTS            |done|3|384|0|01-PARTS' '3|LOG              |done|6|426|0|03-LOG'
  says
  same dir/01-PARTS parts
  holds 'as many host files as files' [ "$(ls -A dir)" = "$(lines 01-PARTS 03-LOG)" ]
  # nothing is overwritten, unless it is asked for
  echo mine >dir/01-PARTS
  rm dir/03-LOG
  ends 2 extract-all --as lengths demo.img dir
  prints '1|PARTS            |failed|-|-|-|-' '3|LOG              |done|6|426|0|03-LOG'
  says 'galz: 01-PARTS: dir/01-PARTS: File exists'
  holds 'a host file that was there stays' [ "$(cat dir/01-PARTS)" = mine ]
  same dir/03-LOG log
  ln -s away dir/away
  ends 0 extract-all --force demo.img dir
  same dir/01-PARTS parts
  ends 0 extract-all --as raw demo.img raw
  tr -d '\n' <parts | cmp -s - raw/01-PARTS
  holds 'raw has no newlines' [ $? -eq 0 ]
}

# one refused file: the rest is had
test_some_refused() {
  fresh
  sample other-level
  sample wrong-mark
  ends 1 extract-all other-level.img dir
  prints '1|?|refused 14|-|-|-|-' '3|LOG              |done|6|426|0|03-LOG'
  says 'galz: 01: refused 14 (slot 1): the file is of another level than space, 1 and 2'
  holds 'what was refused is not there' [ "$(ls -A dir)" = 03-LOG ]
  ends 1 extract-all wrong-mark.img more
  prints '1|PARTS            |refused 17|-|-|-|-' '3|LOG              |done|6|426|0|03-LOG'
  says 'galz: 01-PARTS: refused 17 (sector ordinal 15): a sector of the extent has the incorrect-data mark but is not defective'
  poke wrong-mark.img "$(vol1 89)" 9
  ends 1 extract-all wrong-mark.img none
  prints
  says 'galz: refused 3 (position 89): a rule of the label VOL1 is broken: the number of sides S'
  stands dir more other-level.img wrong-mark.img
}

test_extract_lost() {
  fresh
  sample demo
  poke demo.img "$(record 2 1)" '\x20'
  ends 1 extract-all demo.img dir
  prints '1|PARTS            |done|3|384|0|01-PARTS' '3|LOG              |refused 20|-|-|-|-'
  ends 1 extract-all --salvage demo.img saved
  prints '1|PARTS            |done|3|384|0|01-PARTS' '3|LOG              |gaps|3|188|1|03-LOG'
  says 'galz: 03-LOG: gap: block 0 is lost (records so far 0)'
  holds 'the rest of LOG is had' [ "$(wc -l <saved/03-LOG)" -eq 3 ]
}

# names that a host would take amiss
test_host_names() {
  fresh
  sample two-sided
  poke two-sided.img "$(label 1 6)" '../A "?'
  poke two-sided.img "$(label 2 6)" '                 '
  ends 0 extract-all two-sided.img dir
  prints '1|../A "?          |done|2|400|0|01-.._A___' '2|                 |done|3|800|0|02'
  holds 'the host names are safe' [ "$(ls -A dir)" = "$(lines 01-.._A___ 02)" ]
  ends 2 extract-all two-sided.img two-sided.img
  prints
  says 'galz: two-sided.img: File exists'
  ends 2 extract-all two-sided.img none/dir
  says 'galz: none/dir: No such file or directory'
  limited 2 extract-all two-sided.img limited
  holds 'no host file is left half written' [ -z "$(ls -A limited)" ]
}
