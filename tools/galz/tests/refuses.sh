# What is said of each refusal that a command can meet: all but 19, 23 and 25, which follow from places, outputs and lengths that galz does not give.

# OFFSET BYTES: a copy of 'demo' with bytes changed
broken() {
  cp demo.img broken.img
  poke broken.img "$1" "$2"
}

# TEXT: the refusal of broken.img as a volume, which every command gives alike
volume_says() {
  ends 1 judge broken.img
  prints
  says "galz: refused $1"
}

# every judged position with the name of its field
fields() {
  cat <<'END'
VOL1 1 the label's name, VOL1
VOL1 5 the volume's name
VOL1 11 access to the volume
VOL1 38 the owner's name
VOL1 72 the type of recording, A
VOL1 76 the code of the physical record's length P
VOL1 77 the sequence of sectors
VOL1 80 the version of the standard, 3
VOL1 81 the last data cylinder L
VOL1 83 the last sector of an index side I
VOL1 85 the last sector of a data side D
VOL1 89 the number of sides S
ERMAP 1 the label's name, ERMAP
ERMAP 7 the first defective cylinder
ERMAP 11 the second defective cylinder
HDR1 6 the file's name
HDR1 23 the block length B
HDR1 29 the start of the extent
HDR1 35 the end of the extent
HDR1 40 the record format
HDR1 41 the bypass mark
HDR1 42 access to the file
HDR1 43 the write protection
HDR1 44 the level
HDR1 45 the mark of a file on several volumes
HDR1 46 the number of the file's section
HDR1 48 the date of creation
HDR1 54 the record length R
HDR1 58 the unused count U
HDR1 63 the blocking
HDR1 64 the organization of the file
HDR1 67 the expiry date
HDR1 73 the mark of checking or copying
HDR1 75 the data end
END
}

# the name of the field stands behind the place, for every judged position: a small a is right in none of them
test_fields() {
  fresh
  sample demo
  local table position name
  while read -r table position name; do
    case $table in
    VOL1) broken "$(vol1 "$position")" a && volume_says "3 (position $position): a rule of the label VOL1 is broken: $name" ;;
    ERMAP) broken "$(ermap "$position")" a && volume_says "7 (position $position): a rule of the label ERMAP is broken: $name" ;;
    HDR1) broken "$(label 3 "$position")" a && volume_says "10 (slot 3, position $position): a rule of the label HDR1 is broken: $name" ;;
    esac
  done < <(fields)
}

test_volumes() {
  fresh
  sample demo
  head -c 902 demo.img >broken.img
  volume_says '1: the image is shorter than 903 bytes'
  broken "$(ermap 0)" '\x10'
  volume_says '2 (index sector 5): the index sector does not have the valid data mark'
  broken "$(vol1 0)" '\x20'
  volume_says '2 (index sector 7): the index sector does not have the valid data mark'
  broken "$(vol1 11)" X
  volume_says '4 (position 11): VOL1 restricts the access to the volume'
  head -c 9545 demo.img >broken.img
  volume_says '5: the image does not have the length that VOL1 says'
  broken "$(record 1 3)" '\x01'
  volume_says '6 (sector ordinal 12): the kind byte of the sector is none of the three that it may be'
  broken "$(label 2 0)" '\x20'
  volume_says '8 (slot 2): the slot'"'"'s sector failed its check or is defective'
  broken "$(label 2 1)" X
  volume_says '9 (slot 2): the slot holds neither a label HDR1 nor a deleted one'
  broken "$(label 3 29)" 01008
  volume_says '11 (slot 3): the extent shares a physical record with that of a lower slot'
  broken "$(label 3 6)" 'PARTS'
  volume_says '12 (slot 3): two files with one name, that of the file in the slot'
  # every command gives the volume's refusal, and only the listing prints it too
  for words in 'read broken.img LOG' 'salvage broken.img LOG' 'write broken.img LOG /dev/null' 'extract-all broken.img dir' 'read --slot 1 broken.img'; do
    # shellcheck disable=SC2086
    ends 1 $words
    prints
    holds "$words gives the refusal" grep -qx 'galz: refused 12 (slot 3): .*' "$scratch/err"
  done
  ends 1 list broken.img
  prints 'REFUSED 12 3'
}

# The version digit at 79, where table 2 as printed has it: refused at 80 by every command, with a hint; only there, and only where 80 is wrong.
test_version() {
  fresh
  sample demo
  local version='3 (position 80): a rule of the label VOL1 is broken: the version of the standard, 3'
  local hint="$version (3 stands at 79, where table 2 as printed has it)"
  broken "$(vol1 79)" '3 '
  volume_says "$hint"
  ends 1 list broken.img
  prints 'REFUSED 3 80'
  says "galz: refused $hint"
  for words in 'read broken.img LOG' 'salvage broken.img LOG' 'write broken.img LOG /dev/null' 'extract-all broken.img dir' 'delete broken.img LOG' \
    'create --block-length 128 broken.img NEW 1'; do
    # shellcheck disable=SC2086
    ends 1 $words
    prints
    says "galz: refused $hint"
  done
  broken "$(vol1 79)" '32'
  volume_says "$hint"
  broken "$(vol1 79)" ' 2'
  volume_says "$version"
  broken "$(vol1 77)" '143 '
  volume_says '3 (position 77): a rule of the label VOL1 is broken: the sequence of sectors'
  for right in ' 3' '33' 'X3' '\x003' '\xff3'; do
    broken "$(vol1 79)" "$right"
    ends 0 judge broken.img
    says
  done
}

# SLOT TEXT: reading a file of broken.img says so
file_says() {
  ends 1 read --slot "$1" -o none broken.img
  prints
  says "galz: refused $2"
}

test_files() {
  fresh
  sample demo
  cp demo.img broken.img
  file_says 2 '13: there is no label in that slot or of that name'
  broken "$(label 1 44)" 3
  file_says 1 '14 (slot 1): the file is of another level than space, 1 and 2'
  broken "$(label 3 42)" X
  file_says 3 '15 (slot 3): the label restricts the access to the file'
  broken "$(label 3 45)" C
  file_says 3 '16 (slot 3): the file goes on from or to another volume'
  broken "$(record 1 6)" '\x10'
  file_says 1 '17 (sector ordinal 15): a sector of the extent has the incorrect-data mark but is not defective'
  broken "$(label 3 75)" 02004
  file_says 3 '18 (slot 3): the data end splits a block, or U is not 0 in a file without blocks'
  broken "$(record 2 1)" '\x20'
  file_says 3 '20 (block 0): the block is lost: a sector of it failed its check'
  broken $(($(record 2 1) + 1)) 0003
  file_says 3 '21 (block 0, offset 0): the block'"'"'s content breaks a rule'
  stands broken.img demo.img
  broken "$(label 3 43)" P
  ends 1 write --slot 3 broken.img /dev/null
  says 'galz: refused 24 (slot 3): the file is write-protected'
}

# a file that ends within a spanned record: its second block is cut off by the data end
test_cut() {
  fresh
  sample two-sided
  cp two-sided.img broken.img
  ends 0 list broken.img
  holds 'the sample has a spanned file from 01104' grep -q '^2|SECOND ON SIDE 1 |2|S|B|512|0|01104|' "$scratch/out"
  poke broken.img "$(label 2 58)" '     '
  poke broken.img "$(label 2 75)" 02002
  ends 1 read --slot 2 broken.img
  says 'galz: refused 22: the file ends within a spanned record'
}
