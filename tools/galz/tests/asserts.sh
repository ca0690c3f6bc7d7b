# Asserts and helpers of the tests. Read by .ci/test-c, which sets top, compare and scratch, and in each round front and folder: the words that run a program,
# and where the programs are. Tests run in a folder of their own, $work.
work=$scratch/work
input=/dev/null

# The words that start a program with every signal as it is by default, where env has them. What starts the tests may have some ignored, which galz respects:
# nohup HUP, a shell without job control INT of what runs in the background.
default=()
if env --default-signal true 2>/dev/null; then default=(env --default-signal); fi

# empties the tests' folder
fresh() { cd "$scratch" && rm -rf "$work" && mkdir "$work" && cd "$work" || exit 2; }

# WHAT COMMAND..: counts whether a command succeeds
holds() {
  local what=$1
  shift
  if "$@"; then passed=$((passed + 1)); else
    failed=$((failed + 1))
    echo "not so ($round): $what"
    sed 's/^/  stderr: /' "$scratch/err" | head -n 5
  fi
}

# STATUS WORDS..: runs galz, keeps what it writes, asserts the exit status
ends() {
  local want=$1
  shift
  last="galz $*"
  "${front[@]}" "$folder/galz" "$@" <"$input" >"$scratch/out" 2>"$scratch/err"
  status=$?
  holds "$last ends with $want, is $status" [ "$status" -eq "$want" ]
}

# STATUS WORDS..: the same where no file may have a byte; what it says is in said
limited() {
  local want=$1
  shift
  last="galz $*, limited"
  said=$(ulimit -f 0 && "${front[@]}" "$folder/galz" "$@" <"$input" 2>&1 >/dev/null)
  status=$?
  holds "$last ends with $want, is $status" [ "$status" -eq "$want" ]
}

lines() { [ $# -eq 0 ] || printf '%s\n' "$@"; }
is_out() { lines "$@" | cmp -s - "$scratch/out"; }
is_err() { lines "$@" | cmp -s - "$scratch/err"; }

# LINE..: all of standard output, or of standard error, of the last run
prints() { holds "$last prints ${1:-nothing}" is_out "$@"; }
says() { holds "$last says ${1:-nothing}" is_err "$@"; }

# of the last run: nothing on standard output, and wrong usage said in one line
misused() {
  prints
  holds "$last says $1" grep -qxF "galz: $1; see galz --help" "$scratch/err"
}

# FILE FILE; NAME..: all that is in the tests' folder
same() { holds "$1 is $2 after $last" cmp -s "$1" "$2"; }
stands() { holds "$* stand after $last, not $(ls -A | tr '\n' ' ')" [ "$(ls -A)" = "$(lines "$@" | sort)" ]; }

# IMAGE OFFSET BYTES: overwrites bytes, given as for printf
poke() { printf '%b' "$3" | dd of="$1" bs=1 seek="$2" conv=notrunc status=none; }

# where a position of VOL1, ERMAP or a slot's label stands, 0 being the sector's kind; and, in the volume 'demo', the kind of the record at CYLINDER SECTOR
vol1() { echo $((6 * 129 + $1)); }
ermap() { echo $((4 * 129 + $1)); }
label() { echo $((($1 + 6) * 129 + $2)); }
record() { echo $((10 * 129 + (($1 - 1) * 8 + $2 - 1) * 129)); }

# NAME: the sample, as NAME.img in the tests' folder
sample() { "$compare" sample "$1" >"$1.img"; }
