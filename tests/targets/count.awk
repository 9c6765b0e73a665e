# Instructions of each call, from what the emulator logs by "in_asm,exec,nochain": a listing of every block when it is translated, which is just before
# its first run, and a line for every run. `entry` is where sleep_plan begins, `helpers` are the beginnings of what the archive calls. A line a call:
# its instructions, not those of helpers, and its calls of helpers.
function plain(address) { sub(/^0x/, "", address); sub(/^0+/, "", address); return address }
BEGIN { n = split(helpers, list, " "); for (i = 1; i <= n; i++) helper[plain(list[i])] = 1; entry = plain(entry) }
/^IN:/ { listed = 0 }
# the bytes of a long instruction go on in a line of their own, without a word
/^0x[0-9a-f]+: +([0-9a-f][0-9a-f] ?)+ *$/ { next }
/^0x/ { if (listed++ == 0) { sub(/:$/, "", $1); first = plain($1) } }
/^Trace/ {
  split($4, part, "/")
  at = plain(part[2])
  if (listed) {
    if (first != at) { print "the log has a listing of " first " before a run of " at > "/dev/stderr"; exit 1 }
    size[$3] = listed
    listed = 0
  }
  if (at in helper) { called[call]++; next }
  if (at == entry) call++
  instructions[call] += size[$3]
}
END { for (i = 1; i <= call; i++) print instructions[i], called[i] + 0 }
