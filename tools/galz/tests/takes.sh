# read and salvage.

test_read() {
  fresh
  sample demo
  ends 0 read demo.img LOG
  says
  holds 'LOG has six lines' [ "$(wc -l <"$scratch/out")" -eq 6 ]
  holds 'its records come in order' [ "$(cut -c 1-7 "$scratch/out" | tr '\n' ,)" = 'STARTED,DRIVE 1,VOLUME ,PARTS O,THREE R,CLOSED.,' ]
  cp "$scratch/out" lines
  ends 0 read --slot 3 demo.img
  same "$scratch/out" lines
  ends 0 read -o log demo.img LOG
  prints
  same log lines
  holds 'a new host file has the mode of any new file' [ "$(stat -c %a log)" = "$(printf '%o' $((0666 & ~0$(umask))))" ]
  ends 0 read --as raw demo.img LOG
  tr -d '\n' <lines | cmp -s - "$scratch/out"
  holds 'raw is the bytes alone' [ $? -eq 0 ]
  ends 0 read demo.img --as lengths LOG
  holds 'a length is four bytes, the lowest first' [ "$(head -c 11 "$scratch/out" | od -An -c | tr -d ' \n')" = '`\0\0\0STARTED' ]
  holds 'lengths are 4 bytes a record more' [ "$(wc -c <"$scratch/out")" -eq $((96 + 76 + 66 + 96 + 56 + 36 + 24)) ]
  stands demo.img lines log
}

# names with spaces, blank names, names of no file
test_names() {
  fresh
  sample two-sided
  ends 0 read two-sided.img 'SECOND ON SIDE 1'
  holds 'three records, the middle one empty' [ "$(awk '{ printf "%d,", length }' "$scratch/out")" = 700,0,100, ]
  poke two-sided.img "$(label 2 6)" '                 '
  ends 0 read two-sided.img ''
  holds 'a blank name is a name' [ "$(wc -l <"$scratch/out")" -eq 3 ]
  for name in SECOND first 'FIRST THAT IS MUCH TOO LONG' FIRSTX; do
    ends 1 read two-sided.img "$name"
    prints
    says 'galz: refused 13: there is no label in that slot or of that name'
  done
  for slot in 0 3 10 999999999999999999; do
    ends 1 read --slot "$slot" two-sided.img
    says 'galz: refused 13: there is no label in that slot or of that name'
  done
  cp two-sided.img -- -odd.img
  ends 0 read -- -odd.img FIRST
}

# whole files of each format against what the independent program says they have
test_whole_files() {
  local format records bytes
  for format in F V S; do
    fresh
    sample "$format-10"
    read -r records bytes < <("$compare" given read <"$format-10.img")
    ends 0 read --as raw --slot 1 -o raw "$format-10.img"
    ends 0 read --as lengths --slot 1 -o lengths "$format-10.img"
    holds "$format: $bytes bytes" [ "$(wc -c <raw)" -eq "$bytes" ]
    holds "$format: $records records" [ "$(wc -c <lengths)" -eq $((bytes + 4 * records)) ]
    ends 0 salvage --as lengths --slot 1 "$format-10.img"
    same "$scratch/out" lengths
    says "galz: records $records, bytes $bytes, gaps 0, blocks lost 0"
  done
}

test_newlines() {
  fresh
  sample demo
  printf '\003\0\0\0a\nb\001\0\0\0c\001\0\0\0\n' >odd
  ends 0 write --as lengths demo.img LOG odd
  ends 0 read demo.img LOG
  prints a b c '' ''
  says 'galz: warning: record 0 has a newline in it, so that lines do not say where it ends; --as lengths does'
  ends 0 read --as lengths demo.img LOG
  says
  same "$scratch/out" odd
}

# one block lost, then all; a spanned record that reaches into a lost block
test_salvage() {
  fresh
  sample demo
  ends 0 read -o whole demo.img LOG
  poke demo.img "$(record 2 3)" '\x20'
  ends 1 read demo.img LOG
  holds 'what was read comes' [ "$(wc -l <"$scratch/out")" -eq 3 ]
  says 'galz: refused 20 (block 1): the block is lost: a sector of it failed its check'
  ends 1 read -o none demo.img LOG
  ends 1 salvage demo.img LOG
  head -n 3 whole | cmp -s - "$scratch/out"
  holds 'the records of block 0 are salvaged' [ $? -eq 0 ]
  says 'galz: gap: block 1 is lost (records so far 3)' 'galz: records 3, bytes 238, gaps 1, blocks lost 1'
  ends 1 salvage -o saved demo.img LOG
  head -n 3 whole | cmp -s - saved
  holds 'and stand in the host file' [ $? -eq 0 ]
  poke demo.img "$(record 2 1)" '\x20'
  ends 1 salvage demo.img LOG
  prints
  says 'galz: gap: block 0 is lost (records so far 0)' 'galz: gap: block 1 is lost (records so far 0)' 'galz: records 0, bytes 0, gaps 2, blocks lost 2'
  stands demo.img saved whole
  sample S-10-lost
  ends 1 salvage --slot 1 S-10-lost.img --as lengths
  sums=$(tail -n 1 "$scratch/err" | awk '{ print $3 + $7, $5 + 0 }')
  holds 'as many answers and bytes as the independent program gives' [ "$sums" = "$("$compare" given salvage <S-10-lost.img)" ]
}

# The rest of a record that began before the gap is dropped: block 0 has the first part of a record of 700 bytes. 01104 is the last sector of physical
# cylinder 2, as cylinder 1 is defective.
test_dropped() {
  fresh
  sample two-sided
  poke two-sided.img $((16 * 129 + 15 * 257)) '\x21'
  ends 1 salvage --slot 2 two-sided.img
  holds 'an empty record and one of 100 bytes are had' [ "$(awk '{ printf "%d,", length }' "$scratch/out")" = 0,100, ]
  says 'galz: gap: block 0 is lost (records so far 0)' 'galz: records 2, bytes 100, gaps 1, blocks lost 1'
}

# a refusal in the midst: nothing of a host file, the old one stays
test_host_files() {
  fresh
  sample demo
  echo old >log
  chmod 640 log
  ln -s log link
  poke demo.img $(($(record 2 3) + 1)) 'XXXX'
  ends 1 read -o log demo.img LOG
  says 'galz: refused 21 (block 1, offset 0): the block'"'"'s content breaks a rule'
  ends 1 salvage -o log demo.img LOG
  says 'galz: refused 21 (block 1, offset 0): the block'"'"'s content breaks a rule' 'galz: records 3, bytes 238, gaps 0, blocks lost 0'
  holds 'the old host file stays' [ "$(cat log)" = old ]
  stands demo.img link log
  ends 0 read -o link demo.img PARTS
  holds 'the file behind a link is replaced' [ "$(head -c 6 log)" = 000104 ]
  holds 'the link stays' [ -L link ]
  holds 'its mode is kept' [ "$(stat -c %a log)" = 640 ]
  mkfifo pipe
  ends 2 read -o pipe demo.img PARTS
  says 'galz: pipe: not a regular file'
  ends 2 read -o . demo.img PARTS
  says 'galz: .: not a regular file'
  ends 2 read -o none/log demo.img PARTS
  says 'galz: none/log: No such file or directory'
  limited 2 read -o big demo.img PARTS
  holds 'a limit is an error of the host' [ "$said" = 'galz: big: File too large' ]
  stands demo.img link log pipe
}
