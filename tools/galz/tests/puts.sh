# write: what it stores, and what it leaves of the host's files.

# IMAGE FORM WORDS..: reads a file in a form, writes the same again into an emptied one, reads it back
round_trip() {
  local image=$1 form=$2 slot=$3
  shift 3
  ends 0 read --as "$form" --slot "$slot" -o given "$image"
  ends 0 write --slot "$slot" "$image" /dev/null -o empty.img
  ends 0 read --slot "$slot" empty.img
  prints
  ends 0 write --as "$form" "$@" --slot "$slot" empty.img given
  ends 0 read --as "$form" --slot "$slot" empty.img
  same "$scratch/out" given
  ends 0 read --as lengths --slot "$slot" "$image" -o before
  ends 0 read --as lengths --slot "$slot" empty.img -o after
  same before after
}

test_round_trips() {
  fresh
  sample demo
  sample two-sided
  round_trip demo.img lines 1
  round_trip demo.img raw 1 --record-length 128
  round_trip demo.img lines 3
  round_trip demo.img lengths 3
  round_trip two-sided.img lines 2
  round_trip two-sided.img lengths 2
}

# full files of each format from the independent program's lists, by standard input
test_full_files() {
  local format
  for format in F V S; do
    fresh
    sample "write-$format-10"
    "$compare" bodies "write-$format-10" >bodies
    "$compare" lengths "write-$format-10" >lengths
    # the bodies, which are letters, cut by their lengths
    awk 'NR == FNR { all = $0; next } { print substr(all, at + 1, $1); at += $1 }' bodies lengths >list
    input=list
    ends 0 write --slot 1 "write-$format-10.img" -
    input=/dev/null
    holds "$format is written" grep -q "^galz: records $(wc -l <lengths), bytes $(wc -c <bodies), blocks [1-9]" "$scratch/err"
    ends 0 read --slot 1 "write-$format-10.img"
    same "$scratch/out" list
    cat list list >twice
    ends 1 write --slot 1 "write-$format-10.img" twice
    holds "$format does not hold it twice" grep -q '^galz: refused 27 (blocks needed ' "$scratch/err"
    ends 0 read --as raw --slot 1 "write-$format-10.img"
    same "$scratch/out" bodies
  done
}

# the last line needs no newline; empty records; no records
test_forms() {
  fresh
  sample demo
  printf 'one\n\nthree' >list
  ends 0 write demo.img LOG list
  says 'galz: records 3, bytes 8, blocks 1'
  ends 0 read demo.img LOG
  prints one '' three
  printf 'abcdefgh' >list
  ends 0 write --as raw --record-length 3 demo.img LOG list
  ends 0 read demo.img LOG
  prints abc def gh
  ends 0 write demo.img LOG /dev/null
  says 'galz: records 0, bytes 0, blocks 0'
  ends 0 list demo.img
  holds 'LOG has no blocks' grep -qx '3|LOG              |2|V|B|256|100|02001|03008|0|0' "$scratch/out"
  cp demo.img before.img
  printf '\003\0\0\0abc\004\0\0\0abc' >list
  ends 2 write --as lengths demo.img LOG list
  says 'galz: list: ends within the record that begins at byte 7'
  printf '\003\0\0\0abc\0\0\0' >list
  ends 2 write --as lengths demo.img LOG list
  says 'galz: list: ends within the record that begins at byte 7'
  printf '\377\377\377\377' >list
  ends 2 write --as lengths demo.img LOG list
  says 'galz: list: ends within the record that begins at byte 0'
  same demo.img before.img
}

# FILE: what a write that is not done must not change
marks() { stat -c '%i %Y %y %s %a' "$1"; }

# The image is never changed in place: a new file gets its name. Other names of the old one keep the old bytes.
test_replaced() {
  fresh
  sample demo
  chmod 600 demo.img
  cp demo.img before.img
  ln demo.img other.img
  ln -s demo.img link.img
  inode=$(stat -c %i demo.img)
  echo NEW >list
  ends 0 write link.img LOG list
  same other.img before.img
  holds 'the image is a new file' [ "$(stat -c %i demo.img)" != "$inode" ]
  holds 'with the mode of the old one' [ "$(stat -c %a demo.img)" = 600 ]
  holds 'the link stays' [ -L link.img ]
  ends 0 read demo.img LOG
  prints NEW
  stands before.img demo.img link.img list other.img
  marked=$(marks before.img)
  ends 0 write -o new.img before.img LOG list
  same new.img demo.img
  same other.img before.img
  holds 'an image that is not to be changed is not touched' [ "$(marks before.img)" = "$marked" ]
  stands before.img demo.img link.img list new.img other.img
  input=before.img
  ends 0 write -o piped.img - LOG list
  input=/dev/null
  same piped.img new.img
}

# STATUS WORDS..: a write after which the image is as it was and nothing else stands
changes_nothing() {
  local marked names
  marked=$(marks demo.img) names=$(ls -A)
  ends "$@"
  prints
  holds "$last leaves the image alone" [ "$(marks demo.img)" = "$marked" ]
  same demo.img "$scratch/before.img"
  holds "$last leaves no file" [ "$(ls -A)" = "$names" ]
}

test_unchanged() {
  fresh
  sample demo
  cp demo.img "$scratch/before.img"
  printf '%0101d\n' 1 >long
  seq 1 5000 >many
  mkfifo pipe
  changes_nothing 1 write demo.img LOG long
  says 'galz: refused 26 (record 0): the record, counted from 0, has a length that the label does not allow'
  changes_nothing 1 write demo.img LOG many
  holds '27 is said' grep -q '^galz: refused 27 (blocks needed [0-9]*): more blocks' "$scratch/err"
  changes_nothing 1 write -o new.img demo.img LOG many
  changes_nothing 1 write demo.img NONE long
  changes_nothing 1 write --slot 2 demo.img long
  changes_nothing 2 write demo.img LOG none
  says 'galz: none: No such file or directory'
  changes_nothing 2 write demo.img LOG /dev/zero
  says 'galz: /dev/zero: longer than what any volume holds'
  changes_nothing 2 write -o none/new.img demo.img PARTS /dev/null
  says 'galz: none/new.img: No such file or directory'
  changes_nothing 2 write -o pipe demo.img PARTS /dev/null
  says 'galz: pipe: not a regular file'
  changes_nothing 2 write none.img LOG long
  says 'galz: none.img: No such file or directory'
  limited 2 write demo.img LOG /dev/null
  holds 'a limit is an error of the host' [ "$said" = 'galz: demo.img: File too large' ]
  same demo.img "$scratch/before.img"
  stands demo.img long many pipe
}

# a closed standard stream does not get into a file of ours
test_closed() {
  fresh
  sample demo
  echo NEW >list
  "${front[@]}" "$folder/galz" write demo.img LOG list <&- >&- 2>&-
  holds 'a write needs no standard streams' [ $? -eq 0 ]
  ends 0 read demo.img LOG
  prints NEW
  holds 'the image has its length' [ "$(stat -c %s demo.img)" -eq 9546 ]
}

# SIGNAL WORDS..: a run of galz, started by these words, that does not come to its end by itself; it has begun once the new file is there beside its place
begins() {
  local signal=$1 turn
  shift
  # job control is for where env cannot set signals
  set -m
  "$@" "${front[@]}" "$folder/galz" read --slot 1 -o out F-4900.img 2>/dev/null &
  run=$!
  set +m
  for turn in $(seq 1 200); do
    ls -A | grep -q '^\.galz-' && break
    sleep 0.05
  done
  holds "$signal: the new file stood beside its place" [ "$turn" -lt 200 ]
}

# SIGNAL: this one ends the run, and nothing is left
ended_by() {
  kill -s "$1" "$run"
  wait "$run" 2>/dev/null
  holds "$1 ends the run" [ $? -eq $((128 + $(kill -l "$1"))) ]
  last="a signal $1"
  stands F-4900.img
}

# A signal ends a run and leaves nothing; one that its parent ignores does not end it.
test_signals() {
  fresh
  sample F-4900
  # records of one byte, more than a million
  poke F-4900.img "$(label 1 54)" 0001
  local signal
  for signal in TERM INT HUP; do
    begins "$signal" "${default[@]}"
    ended_by "$signal"
  done
  [ ${#default[@]} -gt 0 ] || return 0
  for signal in INT HUP; do
    begins "$signal" env --default-signal --ignore-signal="$signal"
    kill -s "$signal" "$run"
    sleep 0.2
    ended_by TERM
  done
}

# Where the tests run as one who may do anything, the ones of permissions run as another user, if that can be done here.
test_permissions() {
  fresh
  sample demo
  cp "$folder/galz" tool
  echo NEW >list
  local other=()
  [ "$(id -u)" -ne 0 ] || other=(setpriv --reuid 65534 --regid 65534 --clear-groups)
  mkdir open && cp demo.img open/demo.img && chmod 444 open/demo.img && chmod 777 open && chmod 755 "$scratch" . tool && chmod 644 list
  if [ ${#other[@]} -gt 0 ]; then
    chown 65534:65534 open open/demo.img
    cp -p open/demo.img owned.img
    ends 0 write owned.img LOG list
    holds 'the owner and the mode are kept' [ "$(stat -c '%u %g %a' owned.img)" = '65534 65534 444' ]
  fi
  "${other[@]}" "${front[@]}" ./tool --version >/dev/null 2>&1 || { echo 'permissions: not tested, another user cannot run programs here'; return; }
  local words
  for words in 'write open/demo.img LOG list' 'create --block-length 1 open/demo.img NEW 1' 'delete open/demo.img LOG'; do
    # shellcheck disable=SC2086
    "${other[@]}" "${front[@]}" ./tool $words >"$scratch/out" 2>"$scratch/err"
    holds "$words: a write-protected image is not replaced" [ $? -eq 2 ]
    last="galz $words"
    prints
    says 'galz: open/demo.img: Permission denied'
    same open/demo.img demo.img
    # shellcheck disable=SC2086
    "${other[@]}" "${front[@]}" ./tool $words -o open/new.img >/dev/null 2>&1
    holds "$words: but may be written elsewhere" [ $? -eq 0 ]
  done
  chmod 555 open
  "${other[@]}" "${front[@]}" ./tool write -o open/newer.img open/demo.img LOG list 2>"$scratch/err"
  holds 'a folder that may not be written is an error' [ $? -eq 2 ]
  chmod 000 open/demo.img
  "${other[@]}" "${front[@]}" ./tool judge open/demo.img 2>"$scratch/err"
  holds 'so is an image that may not be read' [ $? -eq 2 ]
}
