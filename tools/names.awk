# Puts the name beside each refusal and result of what stepper prints, in columns for people.
BEGIN {
    split("SHORT_ROOM BAD_STATE BAD_FIELD NO_TASK NO_TARGET NO_ENTRY NOT_SERVING STILL_SERVING FULL RETIRED BAD_RECORD END_OF_LOG", refusals, " ")
    split("WAITS ELAPSED SERVED CALL_EXPIRED TASKING_ERROR ACCEPTED DELAY_TAKEN ELSE_TAKEN NOT_NOW PROGRAM_ERROR DONE", results, " ")
    form = "%-8s %-16s %-16s %-4s %-5s %-7s %-4s"
}

# A refused step has no result, and an accepted one no refusal.
function refusal(n) { return n == 0 ? "0 -" : n " " refusals[n] }
function result(n, refused) { return refused ? n " -" : n " " results[n + 1] }

NR == 1 { line = sprintf(form, $1, $2, $3, $4, $5, $6, $7) }
NR > 1 {
    line = sprintf(form, $1, refusal($2), result($3, $2 != 0), $4, $5, $6, $7)
    for (i = 8; i < NF; i += 5) line = line "  | " $(i + 1) " " result($(i + 2), 0) " " $(i + 3) " " $(i + 4)
}
{ sub(/ +$/, "", line); print line; fflush() }
