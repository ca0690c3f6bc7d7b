# create and delete: what they store and print, what they refuse, and that no other byte changes.

# IMAGE SLOT NAME B FORMAT LEVEL R BLOCKING START END: puts a new file's label into a slot by hand, all 129 bytes of the sector
put_label() {
  poke "$1" "$(label "$2" 0)" "$(printf '\\x00HDR1 %-17s%5s %5s %5s%1s   %1s%9s%4s%5s%1s%11s%5s%49s' \
    "$3" "$4" "$9" "${10}" "$5" "$6" '' "$7" '' "$8" '' "$9" '')"
}

# IMAGE SLOT: marks a slot deleted by hand, two bytes
put_deleted() { poke "$1" "$(label "$2" 0)" '\x10D'; }

# NAME B FORMAT LEVEL R BLOCKING N WORDS..: such a label for N records is made in 'demo' by those options, from 04001 on, and nothing else changes
makes() {
  local want=("${@:1:6}") n=$7 end
  shift 7
  sample demo
  cp demo.img want.img
  end=$(printf '%02d%03d' $((4 + (n - 1) / 8)) $(((n - 1) % 8 + 1)))
  put_label want.img 2 "${want[@]}" 04001 "$end"
  ends 0 create "$@" demo.img "${want[0]}" "$n"
  prints 'slot 2' 'start 04001' "end $end"
  says
  same demo.img want.img
  ends 0 judge demo.img
  holds "$n records fewer are free" grep -qx "free $((16 - n))" "$scratch/out"
}

# every option, alone and with others; numbers with and without zeros before them; the longest names and the blank one
test_create() {
  fresh
  makes TEST 00128 '' '' '' '' 8 --block-length 128
  makes TEST 00001 '' '' '' '' 1 --block-length 1
  makes TEST 00128 '' '' 0128 '' 9 --block-length 0000128 --record-length 128
  makes EIGHTCHR 00100 F '' '' '' 16 --format F --block-length 00100
  makes TEST 00120 '' 1 0030 B 3 --level 1 --blocked --block-length 120 --record-length 30
  makes TEST 00128 '' 1 '' '' 2 --level 2 --level 1 --block-length 64 --block-length 128
  makes 'A-Z09 !"%_' 01024 F 2 0256 B 8 --level 2 --format F --blocked --block-length 1024 --record-length 256
  makes 'SEVENTEEN OF THEM' 00256 V 2 0100 B 16 --level 2 --format V --blocked --block-length 256 --record-length 100
  makes TEST 00004 V 2 '' '' 1 --level 2 --format V --block-length 4
  makes TEST 00512 S 2 0000 B 4 --level 2 --format S --blocked --block-length 512 --record-length 0
  makes TEST 00005 S 2 9999 B 4 --level 2 --format S --blocked --block-length 5 --record-length 9999
  makes '' 00128 '' '' '' '' 8 --block-length 128
  ends 0 read demo.img ''
  prints
  stands demo.img want.img
}

# the lowest deleted slot, and the lowest run of that length: over the end of a cylinder, of a side, past a defective cylinder; slots on side 1
test_places() {
  fresh
  sample demo
  ends 0 delete demo.img PARTS
  ends 0 create --block-length 128 -o eight.img demo.img NEW 8
  prints 'slot 1' 'start 01001' 'end 01008'
  ends 0 create --block-length 128 demo.img NEW 9
  prints 'slot 1' 'start 04001' 'end 05001'
  ends 0 create --block-length 128 demo.img NEXT 8
  prints 'slot 2' 'start 01001' 'end 01008'
  sample two-sided
  ends 0 delete --slot 2 two-sided.img
  prints 'freed 9'
  ends 0 create --block-length 256 two-sided.img THIRD 3
  prints 'slot 2' 'start 01104' 'end 02002'
  ends 0 create --block-length 256 two-sided.img FOURTH 6
  prints 'slot 3' 'start 02003' 'end 02104'
  ends 0 delete two-sided.img FIRST
  prints 'freed 7'
  ends 0 create --block-length 256 two-sided.img FIFTH 6
  prints 'slot 1' 'start 01001' 'end 01102'
  ends 0 list two-sided.img
  prints 'VOLUME DEMO01 L=2 I=8 D=4 P=256 S=2 FREE=1' '1|FIFTH            |.|F|-|256|256|01001|01102|0|0' \
    '2|THIRD            |.|F|-|256|256|01104|02002|0|0' '3|FOURTH           |.|F|-|256|256|02003|02104|0|0'
}

# the last slot and the last address of the largest volume, and all of the smallest
test_ends() {
  fresh
  sample largest
  ends 0 delete --slot 45 largest.img
  prints 'freed 104'
  cp largest.img want.img
  ends 1 create --block-length 1024 largest.img LAST 417
  says 'galz: refused 29: no 417 free records in a row (416 are free in all)'
  same largest.img want.img
  ends 0 create --block-length 1024 largest.img LAST 416
  prints 'slot 45' 'start 89001' 'end 96126'
  put_label want.img 45 LAST 01024 '' '' '' '' 89001 96126
  same largest.img want.img
  sample smallest
  ends 0 delete --slot 1 smallest.img
  prints 'freed 1'
  ends 0 create --block-length 128 smallest.img WHOLE 1
  prints 'slot 1' 'start 01001' 'end 01001'
}

# two bytes change; the file is no longer found, the others are as they were
test_delete() {
  fresh
  sample demo
  cp demo.img want.img
  put_deleted want.img 3
  ends 0 delete -o new.img demo.img LOG
  prints 'freed 16'
  says
  same new.img want.img
  ends 0 delete --slot 3 demo.img
  prints 'freed 16'
  same demo.img want.img
  ends 1 read demo.img LOG
  ends 0 list demo.img
  prints 'VOLUME DEMO01 L=5 I=10 D=8 P=128 S=1 FREE=32' '1|PARTS            |.|F|-|128|128|01001|01008|3|0'
  ends 0 delete demo.img PARTS
  prints 'freed 8'
  put_deleted want.img 1
  same demo.img want.img
  stands demo.img new.img want.img
}

# SLOT FREED: a delete of broken.img that nothing hinders
drops() {
  cp broken.img want.img
  put_deleted want.img "$1"
  ends 0 delete --slot "$1" broken.img
  prints "freed $2"
  same broken.img want.img
}

# what reading and writing refuse may be deleted: access, a section, a wrong mark, a split block, any dates
test_delete_damaged() {
  fresh
  sample demo
  broken "$(label 3 42)" X && drops 3 16
  broken "$(label 3 45)" C && drops 3 16
  broken "$(record 1 6)" '\x10' && drops 1 8
  broken "$(label 3 75)" 02004 && drops 3 16
  broken "$(label 3 67)" 999999 && drops 3 16
  broken "$(label 1 29)" 01008 && poke broken.img "$(label 1 75)" 01008 && drops 1 1
}

test_undeleted() {
  fresh
  sample demo
  cp demo.img "$scratch/before.img"
  local slot
  for slot in 0 2 4 999999999999999999; do
    changes_nothing 1 delete --slot "$slot" demo.img
    says 'galz: refused 13: there is no label in that slot or of that name'
  done
  changes_nothing 1 delete -o new.img demo.img NONE
  says 'galz: refused 13: there is no label in that slot or of that name'
  changes_nothing 1 delete demo.img log
  poke demo.img "$(label 3 43)" P
  cp demo.img "$scratch/before.img"
  changes_nothing 1 delete demo.img LOG
  says 'galz: refused 24 (slot 3): the file is write-protected'
  poke demo.img "$(label 3 44)" 3
  cp demo.img "$scratch/before.img"
  changes_nothing 1 delete --slot 3 demo.img
  says 'galz: refused 14 (slot 3): the file is of another level than space, 1 and 2'
}

# POSITION TEXT WORDS..: the label that these options make breaks a rule there
unmade() {
  local position=$1 text=$2
  shift 2
  changes_nothing 1 create "$@"
  says "galz: refused 10 (slot 0, position $position): the label to be made breaks a rule: $text"
}

# each position that can be at fault, the lowest first
test_unmade() {
  fresh
  sample demo
  cp demo.img "$scratch/before.img"
  local name="the file's name: only capitals, digits, spaces and !\"%&'()*+,-./:;<=>?_ (no small letters); at most 8 of them, 17 at level 2"
  local block='the block length B: from 1 (V 4, S 5) to D*P, above P a multiple of P; V and S to 9999; level space to P'
  local format='the record format: V and S at level 2 alone' none='the end of the extent: n is 0'
  local record='the record length R: in F equal to B, or if blocked a divisor of B; in V from 4 to B'
  local blocking='the blocking: S is blocked always, level space never'
  unmade 6 "$name" --block-length 128 demo.img test 8
  unmade 6 "$name" --block-length 128 demo.img 'A#' 8
  unmade 6 "$name" --block-length 128 demo.img "$(printf 'A\302\226')" 8
  unmade 6 "$name" --block-length 128 demo.img NINECHARS 8
  unmade 6 "$name" --block-length 128 --level 1 demo.img NINECHARS 8
  unmade 6 "$name" --block-length 0 --format V demo.img test 0
  unmade 23 "$block" --block-length 0 demo.img TEST 0
  unmade 23 "$block" --block-length 129 demo.img TEST 8
  unmade 23 "$block" --block-length 256 demo.img TEST 8
  unmade 23 "$block" --block-length 1152 --level 2 demo.img TEST 8
  unmade 23 "$block" --block-length 99999 --level 2 demo.img TEST 8
  unmade 23 "$block" --block-length 3 --level 2 --format V demo.img TEST 8
  unmade 23 "$block" --block-length 4 --level 2 --format S --blocked demo.img TEST 8
  unmade 35 "$none" --block-length 128 demo.img TEST 0
  unmade 35 "$none" --block-length 128 --format V demo.img TEST 0
  unmade 35 "$none" --block-length 128 demo.img PARTS 0
  unmade 40 "$format" --block-length 128 --format V demo.img TEST 8
  unmade 40 "$format" --block-length 128 --level 1 --format S --blocked demo.img TEST 8
  unmade 54 "$record" --block-length 128 --record-length 64 demo.img TEST 8
  unmade 54 "$record" --block-length 128 --level 1 --blocked --record-length 30 demo.img TEST 8
  unmade 54 "$record" --block-length 128 --level 2 --format V --record-length 3 demo.img TEST 8
  unmade 63 "$blocking" --block-length 128 --blocked demo.img TEST 8
  unmade 63 "$blocking" --block-length 128 --level 2 --format S -o new.img demo.img TEST 8
  stands demo.img
}

# names in use, the last one, a blank one; no slot, no run; the order of all of them
test_no_room() {
  fresh
  sample demo
  cp demo.img "$scratch/before.img"
  changes_nothing 1 create --block-length 128 demo.img PARTS 8
  says 'galz: refused 12 (slot 1): the name is that of the file in slot 1'
  changes_nothing 1 create --block-length 128 --level 2 -o new.img demo.img LOG 99
  says 'galz: refused 12 (slot 3): the name is that of the file in slot 3'
  changes_nothing 1 create --block-length 128 demo.img NEW 17
  says 'galz: refused 29: no 17 free records in a row (16 are free in all)'
  changes_nothing 1 create --block-length 128 demo.img NEW 999999999999999999
  says 'galz: refused 29: no 999999999999999999 free records in a row (16 are free in all)'
  ends 0 create --block-length 128 demo.img '' 16
  cp demo.img "$scratch/before.img"
  changes_nothing 1 create --block-length 128 demo.img '' 1
  says 'galz: refused 12 (slot 2): the name is that of the file in slot 2'
  changes_nothing 1 create --block-length 128 demo.img NEW 1
  says 'galz: refused 28: no deleted slot: delete a file first'
  # free records on both sides of LOG, 24 in all
  ends 0 delete --slot 1 demo.img
  ends 0 delete --slot 2 demo.img
  cp demo.img "$scratch/before.img"
  changes_nothing 1 create --block-length 128 demo.img NEW 17
  says 'galz: refused 29: no 17 free records in a row (24 are free in all)'
  # the name of a file of another level is no name
  sample other-level
  ends 0 create --block-length 128 other-level.img PARTS 8
  prints 'slot 2' 'start 04001' 'end 04008'
}

# the volume comes first, and its own 10 and 12 are not those of the label to be made
test_unmade_volumes() {
  fresh
  sample demo
  local words
  for words in 'create --block-length 0 broken.img LOG 0' 'create --block-length 128 broken.img NEW 8' 'delete broken.img LOG' 'delete --slot 9 broken.img'; do
    broken "$(label 3 6)" 'PARTS'
    cp broken.img want.img
    # shellcheck disable=SC2086
    ends 1 $words
    prints
    says 'galz: refused 12 (slot 3): two files with one name, that of the file in the slot'
    same broken.img want.img
    broken "$(label 3 23)" '00257'
    # shellcheck disable=SC2086
    ends 1 $words
    says 'galz: refused 10 (slot 3, position 23): a rule of the label HDR1 is broken: the block length B'
    head -c 902 demo.img >broken.img
    # shellcheck disable=SC2086
    ends 1 $words
    says 'galz: refused 1: the image is shorter than 903 bytes'
  done
}

# A run is free whatever marks its sectors have: a wrong one is warned of, a defective one holds nothing, one whose check failed becomes good again.
test_marks() {
  fresh
  sample demo
  seq 100001 100003 | sed 's/$/ABCD/' >three
  poke demo.img "$(record 4 3)" '\x10'
  cp demo.img marked.img
  ends 0 create --block-length 10 -o two.img demo.img NEW 2
  says
  ends 0 create --block-length 10 demo.img NEW 3
  prints 'slot 2' 'start 04001' 'end 04003'
  says 'galz: warning: reading and writing the new file is refused (17): sector ordinal 36 has the incorrect-data mark but is not defective'
  ends 1 write demo.img NEW three
  says 'galz: refused 17 (sector ordinal 36): a sector of the extent has the incorrect-data mark but is not defective'
  poke marked.img "$(record 4 3)" '\x10F'
  ends 0 create --block-length 10 marked.img NEW 3
  says
  ends 1 write marked.img NEW three
  says 'galz: refused 27 (blocks needed 3): more blocks are needed than the extent holds'
  sample demo
  poke demo.img "$(record 4 3)" '\x20'
  ends 0 create --block-length 10 demo.img NEW 3
  says
  ends 0 write demo.img NEW three
  ends 0 read demo.img NEW
  same "$scratch/out" three
}

# HOSTFILE WORDS..: a file of 5 records made by these options takes a list, gives it back and goes
goes_round() {
  local list=$1
  shift
  ends 0 create "$@" demo.img 'NEW' 5
  prints 'slot 2' 'start 04001' 'end 04005'
  ends 0 read demo.img NEW
  prints
  ends 0 write demo.img NEW "$list"
  ends 0 read demo.img NEW
  same "$scratch/out" "$list"
  ends 0 salvage demo.img NEW
  same "$scratch/out" "$list"
  ends 0 delete demo.img NEW
  prints 'freed 5'
}

# made, written, read and dropped in each format; the other files stay as they are all the time
test_goes_round() {
  fresh
  sample demo
  ends 0 extract-all --as lengths demo.img before
  seq 10000001 10000005 >fixed
  seq 10000001 10000040 >blocked
  printf 'ONE\n\nTHREE\n%0300d\n' 4 >spanned
  printf 'ONE\n\nTHREE\n%096d\n' 4 >variable
  goes_round fixed --block-length 8
  goes_round blocked --level 1 --blocked --block-length 128 --record-length 8
  goes_round variable --level 2 --format V --block-length 128 --record-length 100
  goes_round variable --level 2 --format V --blocked --block-length 256
  goes_round spanned --level 2 --format S --blocked --block-length 128 --record-length 0
  ends 0 extract-all --as lengths demo.img after
  holds 'the other files stay' diff -r before after
  ends 0 judge demo.img
  holds 'all that was free is free' grep -qx 'free 16' "$scratch/out"
}

# NAME N: makes a file and fills it with its own name
fills() {
  seq 1 "$2" | sed "s/.*/$1/" >"$1"
  ends 0 create --block-length "${#1}" demo.img "$1" "$2"
  ends 0 write demo.img "$1" "$1"
}

# a volume is emptied, filled to the last record and slot, and that again
test_filled_again() {
  fresh
  sample demo
  ends 0 delete demo.img PARTS
  ends 0 delete demo.img LOG
  ends 0 list demo.img
  prints 'VOLUME DEMO01 L=5 I=10 D=8 P=128 S=1 FREE=40'
  fills WHOLE 40
  cp demo.img "$scratch/before.img"
  changes_nothing 1 create --block-length 128 demo.img NEW 1
  says 'galz: refused 29: no 1 free records in a row (0 are free in all)'
  ends 0 delete demo.img WHOLE
  prints 'freed 40'
  fills FIRST 7
  fills SECOND 1
  fills THIRD 32
  ends 0 list demo.img
  prints 'VOLUME DEMO01 L=5 I=10 D=8 P=128 S=1 FREE=0' '1|FIRST            |.|F|-|5|5|01001|01007|7|0' \
    '2|SECOND           |.|F|-|6|6|01008|01008|1|0' '3|THIRD            |.|F|-|5|5|02001|05008|32|0'
  cp demo.img "$scratch/before.img"
  changes_nothing 1 create --block-length 128 demo.img NEW 1
  says 'galz: refused 28: no deleted slot: delete a file first'
  ends 0 delete demo.img SECOND
  fills AGAIN 1
  local name
  for name in FIRST AGAIN THIRD; do
    ends 0 read demo.img "$name"
    same "$scratch/out" "$name"
  done
}

# where the new image goes: over the old one, as a new file with its mode, behind a link; elsewhere; onto itself by -o; from standard input
test_new_images() {
  fresh
  sample demo
  chmod 600 demo.img
  cp demo.img old.img
  cp demo.img want.img
  put_label want.img 2 NEW 00128 '' '' '' '' 04001 04008
  ln demo.img other.img
  ln -s demo.img link.img
  local marked words
  marked=$(marks old.img)
  ends 0 create --block-length 128 link.img NEW 8
  same demo.img want.img
  same other.img old.img
  holds 'the link stays' [ -L link.img ]
  holds 'the mode is kept' [ "$(stat -c %a demo.img)" = 600 ]
  ends 0 create -o new.img old.img NEW 8 --block-length 128
  same new.img want.img
  ends 0 create --block-length 128 -o other.img other.img NEW 8
  same other.img want.img
  input=old.img
  ends 0 create --block-length 128 -o piped.img -- - NEW 8
  input=/dev/null
  same piped.img want.img
  cp old.img want.img
  put_deleted want.img 3
  ends 0 delete -o piped.img old.img LOG
  same piped.img want.img
  cp old.img same.img
  ends 0 delete -o same.img same.img LOG
  same same.img want.img
  input=old.img
  ends 0 delete --slot 3 -o piped.img -
  input=/dev/null
  same piped.img want.img
  holds 'an image that is not to be changed is not touched' [ "$(marks old.img)" = "$marked" ]
  stands demo.img link.img new.img old.img other.img piped.img same.img want.img
}

# errors of the host: nothing printed, nothing changed
test_unstored() {
  fresh
  sample demo
  cp demo.img "$scratch/before.img"
  mkfifo pipe
  local words command
  for words in 'create --block-length 128' 'delete'; do
    command=${words%% *}
    # shellcheck disable=SC2086
    set -- $words
    local operands=(demo.img NEW 8)
    [ "$command" = create ] || operands=(demo.img LOG)
    changes_nothing 2 "$@" -o none/new.img "${operands[@]}"
    says 'galz: none/new.img: No such file or directory'
    changes_nothing 2 "$@" -o pipe "${operands[@]}"
    says 'galz: pipe: not a regular file'
    changes_nothing 2 "$@" none.img "${operands[@]:1}"
    says 'galz: none.img: No such file or directory'
    limited 2 "$@" "${operands[@]}"
    holds 'a limit is an error of the host' [ "$said" = 'galz: demo.img: File too large' ]
    same demo.img "$scratch/before.img"
    stands demo.img pipe
    # what cannot be printed is an error, of an image that is stored
    cp demo.img new.img
    "${front[@]}" "$folder/galz" "$@" new.img "${operands[@]:1}" >/dev/full 2>"$scratch/err"
    holds "galz $command into a full disk ends with 2" [ $? -eq 2 ]
    holds "galz $command says that the disk is full" [ "$(cat "$scratch/err")" = 'galz: standard output: No space left on device' ]
    holds "galz $command has stored the image" [ "$(cmp -l demo.img new.img | wc -l)" -gt 1 ]
    rm new.img
  done
}
