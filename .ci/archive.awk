# Reads a disassembly ('objdump -d -r -w --no-show-raw-insn') and prints what the code does, one fact to a line, 'fact<TAB>name<TAB>number'.
#
# The depth of the stack is followed from a function's first instruction along every jump: push, pop, and sub, add and lea of a constant on rsp; anything
# else that changes rsp is a fact of its own ('moved'), so that no depth is guessed. Where a jump goes through a table, what no direct jump reaches is taken
# to be its target, with the depth at that jump. A depth that two ways give differently, or that is not 0 at a return or at a jump
# out of the function, is a fact too ('uneven').
# Below the stack pointer ('red') is every operand with a negative distance from rsp, whether it is read, written or only named.
# Deepest is the longest way over the calls, with their return addresses, the function's own included; of a function that is not here only that address.

BEGIN { FS = "\t"; prefix = "^(data16|addr32|cs|ds|es|ss|lock|rep|repz|repnz|notrack|bnd|rex(\\.[WRXB]+)?)$" }

/^[0-9a-f]+ <.*>:$/ {
  name = $0
  sub(/^[0-9a-f]+ </, "", name)
  sub(/>:$/, "", name)
  names[++functions] = name
  first[name] = count + 1
  next
}

/^ *[0-9a-f]+:\t/ {
  count++
  at = $1
  gsub(/[ :]/, "", at)
  place[name, at] = count
  within[count] = name
  last[name] = count
  target[count] = symbol($4)
  words = split($2, word, " ")
  for (k = 1; k < words && word[k] ~ prefix; k++) if (word[k] ~ /^rep/) facts["string", name]++
  verb[count] = word[k]
  operands[count] = word[k + 1]
  look(count)
}

END {
  for (f = 1; f <= functions; f++) follow(names[f])
  for (f = 1; f <= functions; f++) {
    name = names[f]
    print "frame\t" name "\t" own[name] + 0
    print "deepest\t" name "\t" 8 + deepest(name)
  }
  for (fact in facts) { split(fact, part, SUBSEP); print part[1] "\t" part[2] "\t" facts[fact] }
  print "all\tfunctions\t" functions
  print "all\tinstructions\t" count
}

# what a relocation names: a section of one function by the function, without the distance
function symbol(text) {
  sub(/[-+]0x[0-9a-f]+$/, "", text)
  sub(/^\.text\./, "", text)
  return text
}

# facts that an instruction shows alone
function look(i,    v, o, f) {
  v = verb[i]; o = operands[i]; f = within[i]
  if (o ~ /%[xyz]?mm[0-9]/) vector(f, v, o)
  if (v ~ /^f[a-z0-9]+$/ || o ~ /%st/) facts["x87", f]++
  if (v ~ /^(call|jmp)q?$/ && o ~ /^\*/) facts[v ~ /^call/ ? "calls-through" : "jumps-through", f]++
  if (v ~ /^i?div[bwlq]?$/) facts["divisions", f]++
  if (v == "ud2") facts["traps", f]++
  if (v ~ /^endbr/) facts["landings", f]++
  if (v ~ /^(in|out|ins|outs|hlt|cli|sti|int|int3|into|iret|syscall|sysret|sysenter|sysexit|cpuid|rdtscp?|rdpmc|rdmsr|wrmsr|rdrand|rdseed|invd|wbinvd|invlpg|swapgs|l[gil]dt|lmsw|ltr|clts|xsetbv|x?save.*|xrstor.*|fx.*)[bwlq]?$/ || o ~ /%[cd]r[0-9]/)
    facts["system", f]++
  if (o ~ /%[fg]s:/) facts["thread", f]++
  if (o ~ /-0x[0-9a-f]+\(%rsp/) red(i)
  if (v ~ /^call/) has_call[f] = 1
  else if ((v == "lea" || v == "mov") && (o ~ /^%rsp,/ || o ~ /\(%rsp.*\),%r/ && v == "lea")) names_stack[f]++
}

# vector registers: what moves bytes, what computes on whole numbers or bits, what computes on fractions; and what wants the stack aligned
function vector(f, v, o) {
  facts["vector", f]++
  if (v ~ /^v?(mov|lddqu)/) facts["vector-moves", f]++
  else if (v ~ /^v?(p|xorp|andp|andnp|orp|unpck|shufp)/) facts["vector-bits", f]++
  else facts["vector-other", f]++
  if (v ~ /^v?(add|sub|mul|div|sqrt|max|min|rcp|rsqrt|round|dp|hadd|hsub|cmp[a-z]*|u?comi|cvt[a-z0-9]*|fn?m[a-z0-9]*)(ss|sd|ps|pd)/ || v ~ /^v?cvt/) facts["fractions", f]++
  if (v ~ /^v?mov(aps|apd|dqa)/ && o ~ /\(%rsp/) facts["aligned-stack", f]++
}

# a number as objdump shows it; one with all its high bits set is negative
function number(text) {
  sub(/^\$/, "", text)
  if (text ~ /^-/) return -number(substr(text, 2))
  if (text ~ /^0xffffffff/) return hex(substr(text, 11)) - 4294967296
  return hex(substr(text, 3))
}
function hex(digits,    n, k) {
  for (k = 1; k <= length(digits); k++) n = n * 16 + index("0123456789abcdef", substr(digits, k, 1)) - 1
  return n + 0
}

# how far below rsp an operand names bytes
function below(i,    o) {
  o = operands[i]
  sub(/\(%rsp.*/, "", o)
  sub(/.*,/, "", o)
  sub(/^[^-]*/, "", o)
  return -number(o)
}
function red(i) {
  facts["red", within[i]]++
  if (below(i) > facts["red-depth", within[i]]) facts["red-depth", within[i]] = below(i)
}

# what an instruction adds to the depth
function grows(i,    v, o) {
  v = verb[i]; o = operands[i]
  if (v ~ /^push/) return 8
  if (v ~ /^pop/) return -8
  if (o !~ /,%rsp$/ || v ~ /^(cmp|test)/) { if (v ~ /^(leave|enter|xchg)/ && (v !~ /xchg/ || o ~ /%rsp(,|$)/)) facts["moved", within[i]]++; return 0 }
  if (v ~ /^subq?$/ && o ~ /^\$/) return number(substr(o, 1, index(o, ",") - 1))
  if (v ~ /^addq?$/ && o ~ /^\$/) return -number(substr(o, 1, index(o, ",") - 1))
  if (v == "lea" && o ~ /^-?0x[0-9a-f]+\(%rsp\),%rsp$/) return -number(substr(o, 1, index(o, "(") - 1))
  facts["moved", within[i]]++
  return 0
}

function reaches(i, d) {
  if (i in depth) { if (depth[i] != d) facts["uneven", within[i]]++; return }
  depth[i] = d
  waiting[++waits] = i
}

# the depths of a function
function follow(f,    i) {
  has_jump = 0
  reaches(first[f], 0)
  flow(f)
  for (i = first[f]; i <= last[f]; i++) {
    if (i in depth || verb[i] ~ /^(nop|int3|xchg)/) continue
    if (!has_jump) { facts["unreached", f]++; continue }
    reaches(i, jump_depth)
    flow(f)
  }
  if (!has_call[f]) { facts["leaf", f] = 1; if (names_stack[f]) facts["leaf-names-stack", f] = names_stack[f] }
}
function flow(f,    i, d) {
  while (waits > 0) {
    i = waiting[waits--]
    d = depth[i]
    if (d > own[f]) own[f] = d
    if (operands[i] ~ /-0x[0-9a-f]+\(%rsp/ && d + below(i) > own[f]) own[f] = d + below(i)
    step(f, i, d)
  }
}
function step(f, i, d,    v) {
  v = verb[i]
  if (v ~ /^ret/) { if (d != 0) facts["uneven", f]++; return }
  if (v == "ud2" || v == "hlt") return
  if (v ~ /^call/) site(f, i, d + 8)
  if (v ~ /^j/ && operands[i] ~ /^\*/) { has_jump = 1; jump_depth = d; return }
  if (v ~ /^j/) {
    if (target[i] != "" || !((f, operands[i]) in place)) { site(f, i, d); if (d != 0) facts["uneven", f]++ }
    else reaches(place[f, operands[i]], d)
    if (v ~ /^jmp/) return
  }
  if (i == last[f]) { facts["uneven", f]++; return }
  d += grows(i)
  if (d > own[f]) own[f] = d
  reaches(i + 1, d)
}

# a call, or a jump out of the function
function site(f, i, d,    to) {
  to = target[i]
  if (to == "") { facts["unknown-call", f]++; return }
  sites[f]++
  site_to[f, sites[f]] = to
  site_depth[f, sites[f]] = d
  if (!(to in first)) facts["outside", to]++
}

# bytes below a function's return address
function deepest(f,    k, d, most) {
  if (f in known) return known[f]
  if (!(f in first)) return 0
  if (busy[f]) { facts["recursion", f]++; return 0 }
  busy[f] = 1
  most = own[f] + 0
  for (k = 1; k <= sites[f]; k++) {
    d = site_depth[f, k] + deepest(site_to[f, k])
    if (d > most) most = d
  }
  busy[f] = 0
  return known[f] = most
}
