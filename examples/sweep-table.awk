# A table of the lines of examples/sweep.sh, a row for each loss that was asked: the runs, how many of them are done, how many read
# every message, and the middle and the last time at which those that are done end. messages=N is how many messages a run should read.
#     sort -n -k 1 -k 5 LINES | awk -v messages=20 -f examples/sweep-table.awk
function fail(text) { print "sweep-table.awk: " text > "/dev/stderr"; failed = 1; exit 1 }
function row() {
    if (runs) print "| " loss " | " runs " | " done " | " all " | " (done ? ends[int((done + 1) / 2)] : "-") " | " (done ? ends[done] : "-") " |"
    runs = done = all = 0
}
BEGIN {
    if (messages !~ /^[0-9]+$/) fail("say how many messages a run should read: -v messages=N")
    print "| Lost of 1,000 frames | Runs | Done | All " messages " messages read | Middle end, ms | Last end, ms |"
    print "|---|---|---|---|---|---|"
}
NF != 6 { fail("line " NR " is no line of sweep.sh: " $0) }
!runs || $1 != loss {
    row()
    loss = $1
    if (loss in known) fail("line " NR " has the loss " loss " again; sort the lines with sort -n -k 1 -k 5")
    known[loss] = 1
}
{ runs++; all += $6 == messages }
$4 == "done" { ends[++done] = $5 }
END { if (!failed) row() }
