# judge, cylinders and list, the help texts, and the example.

test_client() {
  fresh
  sample demo
  "${front[@]}" "$folder/client" demo.img LOG >"$scratch/out" 2>"$scratch/err"
  status=$? last=client
  holds "client ends with 0, is $status" [ "$status" -eq 0 ]
  says
  holds "client lists, reads, writes, salvages, makes and drops" [ "$(wc -l <"$scratch/out")" -eq 31 ]
  holds "client salvages behind the gap" grep -qx 'salvaged 3: 90 bytes, FFFFFFFFFF' "$scratch/out"
  tail -n 9 "$scratch/out" | sed '2,8d' >"$scratch/made"
  holds "client makes a file and drops it" cmp -s "$scratch/made" <(lines 'made: slot 2, 8 records from 04001 on' \
    'dropped: 8 records free again, the sector at byte 1032 changed')
  same demo.img "$top/samples/demo.img"
  "${front[@]}" "$folder/client" demo.img NONE >"$scratch/out" 2>"$scratch/err"
  holds "client without its file ends with 1" [ $? -eq 1 ]
}

test_help() {
  ends 0 --version
  prints 'galz 1.2 (GOST 28081-89)'
  ends 0 --help
  says
  cp "$scratch/out" "$scratch/help"
  for command in judge cylinders list read salvage write create delete extract-all; do
    ends 0 "$command" --help
    says
    holds "the help of $command is a part of all help" [ "$(head -n 1 "$scratch/out")" = "$(grep -m 1 "^galz $command" "$scratch/help")" ]
  done
}

# NUMBER SENTENCE
in_manual() { grep -A 1 -x "$1" "$scratch/manual" | grep -qiF "$2."; }

# the manual page has what the tool says: each refusal's number and sentence, each option, each command
test_manual() {
  local number sentence word
  sed 's/\\-/-/g' "$top/tools/galz/galz.1" >"$scratch/manual"
  while IFS='|' read -r number sentence; do
    holds "the manual has refusal $number" in_manual "$number" "$sentence"
  done < <(sed -nE 's/^\t\[([0-9]+)\] = \{ ("[^"]*"|NULL), ("[^"]*"|NULL), "([^"]*)".*/\1|\4/p' "$top/tools/galz/refusals.c")
  ends 0 --help
  for word in $(grep -oE -e '(^| |\[)-[-a-z]+|galz [a-z-]+' "$scratch/out" | tr -d '[ ' | sed 's/^galz//' | sort -u); do
    holds "the manual has $word" grep -qF -e "$word" "$scratch/manual"
  done
}

test_judge() {
  fresh
  sample demo
  sample two-sided
  ends 0 judge demo.img
  prints 'volume DEMO01' 'L 5' 'I 10' 'D 8' 'P 128' 'S 1' 'defects none' 'slots 3' 'labels 2' 'free 16'
  says
  ends 0 judge two-sided.img
  prints 'volume DEMO01' 'L 2' 'I 8' 'D 4' 'P 256' 'S 2' 'defects 1 3' 'slots 9' 'labels 2' 'free 0'
  poke two-sided.img "$(ermap 11)" '   '
  ends 0 judge two-sided.img
  holds 'one defective cylinder is shown' grep -qx 'defects 1' "$scratch/out"
  input=demo.img
  ends 0 judge -
  holds 'an image from standard input is judged' grep -qx 'free 16' "$scratch/out"
  input=/dev/null
}

# L D1 D2: by a walk that counts good cylinders, the line of each data cylinder: c; where the c-th good one is if d1 alone is skipped; where it is
walk_of() {
  awk -v l="$1" -v d1="$2" -v d2="$3" 'BEGIN {
    for (c = 1; c <= l; c++) {
      do q++; while (q == d1)
      do n++; while (n == d1 || n == d2)
      print c "|" q "|" n
    }
  }'
}

# L D1 D2: the lines are those of the walk, and each record of the file over all data cylinders begins with the number of the cylinder that it stands on
skips_as_walked() {
  sample "defects-$1-$2-$3"
  walk_of "$1" "$2" "$3" >walk
  ends 0 cylinders "defects-$1-$2-$3.img"
  same "$scratch/out" walk
  says
  ends 0 read "defects-$1-$2-$3.img" CYLINDERS
  cut -c 1-2 "$scratch/out" | uniq >read
  same read <(awk -F '|' '{ printf "%02d\n", $3 }' walk)
}

test_cylinders() {
  local d1 d2
  fresh
  for d1 in 0 1 2 3 4 5; do
    skips_as_walked 5 "$d1" 0
    [ "$d1" = 0 ] || for ((d2 = d1 + 1; d2 <= 6; d2++)); do skips_as_walked 5 "$d1" "$d2"; done
  done
  skips_as_walked 1 1 2
  skips_as_walked 96 96 97
  # "4. d1=10, d2=11: cylinder 9 is 9, 10 is 12." "5. L=73, d1=73, d2=74: 72 is 72, 73 is 75."
  skips_as_walked 73 10 11
  holds 'example 4' cmp -s <(sed -n '9,10p' walk) <(lines '9|9|9' '10|11|12')
  sample defects-12-10-11
  same defects-12-10-11.img "$top/samples/defects.img"
  skips_as_walked 73 73 74
  holds 'example 5' cmp -s <(sed -n '72,$p' walk) <(lines '72|72|72' '73|74|75')
  # one cylinder named twice, on which a walk and the two comparisons would part
  cp "$top/samples/defects.img" broken.img
  poke broken.img "$(ermap 11)" 100
  ends 1 cylinders broken.img
  prints
  says 'galz: refused 7 (position 11): a rule of the label ERMAP is broken: the second defective cylinder'
  "${front[@]}" "$folder/cylinders" >"$scratch/out" 2>"$scratch/err"
  status=$?
  holds "galz_physical of every L, pair and cylinder: $(cat "$scratch/out")" [ "$status" -eq 0 ]
  holds 'all of them' grep -qx '13356632 cylinders compared' "$scratch/out"
}

test_list() {
  for image in "$top"/samples/*.img; do
    # 'TOO LONG' is the listing program's own: galz lists what the library takes
    [ "$(basename "$image")" != long.img ] || continue
    want=0
    grep -q '^REFUSED' "${image%.img}.txt" && want=1
    ends "$want" list "$image"
    same "$scratch/out" "${image%.img}.txt"
    if [ "$want" -eq 0 ]; then says; else holds 'the refusal is said too' grep -q '^galz: refused' "$scratch/err"; fi
  done
  ends 1 list "$top/samples/long.img"
  prints 'REFUSED 3 1'
}

# against the independent program's text, on its samples and on drawn images, the largest of 5,283,408 bytes
test_listed() {
  local tally
  tally=$("$top/compare/target/release/listed" --count 100 --most 99999999 -- \
    sh -c '"$@" list - 2>/dev/null; [ $? -le 1 ]' sh "${front[@]}" "$folder/galz" | tee "$scratch/listed" | tail -n 1)
  case $tally in
  *' passed, 0 failed') passed=$((passed + ${tally%% *})) ;;
  *)
    cat "$scratch/listed"
    failed=$((failed + 1))
    ;;
  esac
}

# an image without end, one that is longer than any volume, one of 0 bytes, none, a folder
test_images() {
  fresh
  : >empty.img
  ends 1 judge empty.img
  prints
  says 'galz: refused 1: the image is shorter than 903 bytes'
  ends 1 list empty.img
  prints 'REFUSED 1 0'
  ends 1 judge /dev/zero
  says 'galz: refused 3 (position 1): a rule of the label VOL1 is broken: the label'"'"'s name, VOL1'
  "$compare" sample largest-one >largest.img
  ends 0 list largest.img
  truncate -s 2G largest.img
  ends 1 judge largest.img
  says 'galz: refused 5: the image does not have the length that VOL1 says'
  for command in judge cylinders list; do
    ends 2 "$command" none.img
    prints
    says 'galz: none.img: No such file or directory'
  done
  ends 2 judge .
  says 'galz: .: Is a directory'
}

# what cannot be printed is not done
test_output() {
  fresh
  sample demo
  sample V-100
  local words
  for words in '--help' '--version' 'judge demo.img' 'list demo.img' 'read demo.img LOG' 'read --slot 1 V-100.img' 'salvage --slot 1 V-100.img'; do
    # shellcheck disable=SC2086
    "${front[@]}" "$folder/galz" $words >/dev/full 2>"$scratch/err"
    holds "galz $words into a full disk ends with 2" [ $? -eq 2 ]
    holds "galz $words says that the disk is full" [ "$(grep -cx 'galz: standard output: No space left on device' "$scratch/err")" -eq 1 ]
  done
  "${front[@]}" "$folder/galz" list demo.img >&- 2>"$scratch/err"
  holds 'a closed standard output is an error' [ $? -eq 2 ]
}
