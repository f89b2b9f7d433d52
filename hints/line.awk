# Says what is wrong with a line that isn't a schedule line (docs/formats.md, "Schedule"), as far as its
# form shows. `number` is the line's.

function say(text) { printf "kds: line %d: %s\n", number, text; told = 1; exit }
function is_number(text) { return text ~ /^(0|[1-9][0-9]*)$/ }
function is_key(text) { return text ~ /^(0|[1-9][0-9]*)\/(0|[1-9][0-9]*)$/ }
function is_worker(text) { return text ~ /^w[1-9][0-9]*$/ }
function is_actor(text) { return is_number(text) && length(text) < 4 && text > 0 }

BEGIN { commands = "survey, rows, make, take, renew, free, open, read, give, mark, cut" }

# The fields of a command on leases after its word, each by the letter of its kind.
function form_of(word) {
    if (word == "survey" || word == "rows") return word
    if (word == "make") return "make KEY, make KEY latest or make KEY time M"
    if (word == "take") return "take KEY COUNTER wN"
    if (word == "renew" || word == "free") return word " TENURE COUNTER"
    if (word == "open" || word == "give") return word " TENURE"
    if (word == "read") return "read TENURE POSITION LIMIT, with a LIMIT of 1 to 10,000"
    if (word == "mark") return "mark TENURE COUNTER NUMBER or mark TENURE COUNTER end"
    if (word == "cut") return "cut KEY COUNTER"
    return ""
}

function check_command(first,    word) {
    word = field[first]
    if (word == "") say("after the actor a command is missing: one of " commands)
    if (form_of(word) == "") say("there is no command " word ": it is one of " commands)
    if (word ~ /^(make|take|cut)$/ && !is_key(field[first + 1]))
        say("KEY is STREAM/SHARD, as 1/0, not \"" field[first + 1] "\"")
    if (word == "take" && !is_worker(field[first + 3]))
        say("the worker is w and a number from 1, as w1, not \"" field[first + 3] "\"")
    say("the form is " form_of(word))
}

function check_api() {
    if (count < 3) say("after api an operation is missing, as in: 1000 api ListStreams {}")
    if (field[3] !~ /^[A-Za-z0-9]+$/ || length(field[3]) > 64)
        say("the operation is 1 to 64 letters or digits, not \"" substr(field[3], 1, 80) "\"")
    if (count < 4) say("after the operation a space and a body are missing: write at least a space, or {}")
}

function check_worker() {
    if (!is_worker(field[3])) say("the worker is w and a number from 1, as w1, not \"" field[3] "\"")
    if (field[4] !~ /^(tally|lines|users)$/) say("KIND is tally, lines or users, not \"" field[4] "\"")
    say("after KIND: nothing, latest, or time and a time in milliseconds")
}

{
    text = $0
    if (text ~ /^journal [0-9]+$/) say("this looks like a journal: use audit")
    if (text ~ /\r$/) say("it ends with CR LF: take the CR out with tr -d '\\r'")
    if (text ~ /^[0-9]+\t/ || text ~ /^[0-9]+ [a-z]+\t/) say("fields are separated by one space, not by a tab")
    if (text ~ /^[ \t]*$/) say("it is empty; tools/schedule takes blank lines out")
    if (text ~ /^[ \t]*#/) say("it is a comment; tools/schedule takes comments out")
    if (text ~ /^[0-9]+-[0-9]+-[0-9]+/) say("a time is a number of milliseconds; tools/schedule makes them of dates")
    if (text ~ /^ /) say("it begins with a space")
    # split by one space, so that two are seen
    count = split(text, field, /[ ]/)
    if (!is_number(field[1]))
        say("the first field must be a time in milliseconds (no leading zeros), not \"" substr(field[1], 1, 80) "\"")
    if (length(field[1]) > 19 || (length(field[1]) == 19 && field[1] "" > "4611686018427387903"))
        say("a time is in milliseconds, below 2^62: this has " length(field[1]) " digits")
    if (count < 2 || field[2] !~ /^(api|raw|worker|step|stop|hand)$/) {
        if (field[2] == "" && count > 2) say("write one space after the time, not two")
        say("the second field is api, raw, worker, step, stop or hand, not \"" substr(field[2], 1, 80) "\"")
    }
    if (field[2] == "api") { if (field[3] == "" && count > 3) say("write one space after api, not two"); check_api() }
    for (i = 3; i <= count; i++) if (field[i] == "") say("write one space between two fields, and none at the end")
    if (field[2] == "raw") {
        if (!is_actor(field[3])) say("the actor is 1 to 999, not \"" field[3] "\"")
        check_command(4)
    }
    if (field[2] == "worker") check_worker()
    if (field[2] ~ /^(step|stop)$/) say(field[2] " has one field, the worker's actor, as 1000")
    if (field[2] == "hand") {
        if (count >= 4 && !is_key(field[4])) say("KEY is STREAM/SHARD, as 1/0, not \"" field[4] "\"")
        say("hand has two fields, the worker's actor and KEY, as in: 1000 hand 1000 1/0")
    }
}
