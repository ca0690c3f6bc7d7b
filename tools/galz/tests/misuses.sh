# Wrong usage: status 2, one line on standard error, nothing done.

test_misused_words() {
  fresh
  sample demo
  ends 2
  misused 'a command is missing'
  ends 2 lists demo.img
  misused 'no such command: lists'
  ends 2 list
  misused 'an operand is missing'
  ends 2 list demo.img demo.img
  misused 'one operand too many: demo.img'
  ends 2 list a b c d e
  misused 'one operand too many: e'
  ends 2 list --force demo.img
  misused 'no such option: --force'
  ends 2 judge -o x demo.img
  misused 'no such option: -o'
  ends 2 cylinders
  misused 'an operand is missing'
  ends 2 cylinders demo.img 5
  misused 'one operand too many: 5'
  ends 2 read demo.img
  misused 'an operand is missing'
  ends 2 read --slot 3 demo.img LOG
  misused 'one operand too many: LOG'
  ends 2 extract-all demo.img
  misused 'an operand is missing'
  ends 2 delete demo.img
  misused 'an operand is missing'
  ends 2 delete --slot 1 demo.img LOG
  misused 'one operand too many: LOG'
  ends 2 create --block-length 128 demo.img NEW
  misused 'an operand is missing'
  ends 2 create --block-length 128 demo.img NEW 8 8
  misused 'one operand too many: 8'
  stands demo.img
}

test_misused_options() {
  fresh
  sample demo
  cp demo.img "$scratch/before.img"
  ends 2 read demo.img LOG --as
  misused 'a value is missing: --as'
  for form in '' line LINES; do
    ends 2 read --as "$form" demo.img LOG
    misused 'not a value of the option: --as'
  done
  for slot in '' x -1 1x ' 1' 9999999999999999999; do
    ends 2 read --slot "$slot" demo.img
    misused 'not a value of the option: --slot'
  done
  for output in '' -; do
    ends 2 read -o "$output" demo.img LOG
    misused 'not a value of the option: -o'
  done
  for length in 0 -1 x 4294967296; do
    ends 2 write --as raw --record-length "$length" demo.img LOG /dev/null
    misused 'not a value of the option: --record-length'
  done
  ends 2 write --as raw demo.img LOG /dev/null
  misused '--as raw and --record-length go together'
  ends 2 write --record-length 5 demo.img LOG /dev/null
  misused '--as raw and --record-length go together'
  ends 2 write - LOG /dev/null
  misused 'an image from standard input needs -o'
  ends 2 write -o x - LOG -
  misused 'image and host file cannot both be standard input'
  same demo.img "$scratch/before.img"
  stands demo.img
}

# OPTION VALUE..: values that an option of create does not have
misvalued() {
  local value
  for value in "${@:2}"; do
    ends 2 create "$1" "$value" demo.img NEW 8
    misused "not a value of the option: $1"
  done
}

# fields that the label has no room for, options of other commands, an image that cannot be replaced
test_misused_makes() {
  fresh
  sample demo
  cp demo.img "$scratch/before.img"
  misvalued --block-length '' x -1 1x ' 1' 100000 99999999999999999999
  misvalued --record-length '' x -1 10000 4294967296
  misvalued --format '' f X FV ' '
  misvalued --level '' 0 3 12 ' ' .
  ends 2 create demo.img NEW 8
  misused 'an option is missing: --block-length'
  ends 2 create --block-length
  misused 'a value is missing: --block-length'
  ends 2 create --block-length 128 demo.img 'EIGHTEEN CHARACTER' 8
  misused 'a name of more than 17 bytes: EIGHTEEN CHARACTER'
  local records
  for records in '' x 8x ' 8' 1000000000000000000; do
    ends 2 create --block-length 128 demo.img NEW "$records"
    misused "not a number of records: $records"
  done
  ends 2 create --block-length 128 demo.img NEW -1
  misused 'no such option: -1'
  ends 2 create --slot 2 --block-length 128 demo.img 8
  misused 'no such option: --slot'
  ends 2 create --as lines --block-length 128 demo.img NEW 8
  misused 'no such option: --as'
  ends 2 delete --block-length 128 demo.img LOG
  misused 'no such option: --block-length'
  ends 2 write --blocked demo.img LOG /dev/null
  misused 'no such option: --blocked'
  ends 2 delete - LOG
  misused 'an image from standard input needs -o'
  ends 2 create --block-length 128 - NEW 8
  misused 'an image from standard input needs -o'
  same demo.img "$scratch/before.img"
  stands demo.img
}
