# Reads a command line: awk -f words.awk -f line.awk words.txt CALLED PROGRAM WORDS... What it prints is read by the
# shell: kind (help, version, build, install or run), page (the command whose page is wanted), words (those of the
# program, in its order), files (the numbers of the WORDS that are files, or a folder), reads (whether it reads) and
# the extra words that are there. A line that is wrong is told on standard error, with status 1.

# How many letters are to be put in, taken out or exchanged to come from one word to the other.
function distance(a, b,    i, j, row, last, d, m) {
    for (j = 0; j <= length(b); j++)
        row[j] = j
    for (i = 1; i <= length(a); i++) {
        last = row[0]
        row[0] = i
        for (j = 1; j <= length(b); j++) {
            d = last + (substr(a, i, 1) != substr(b, j, 1))
            last = row[j]
            m = row[j] < row[j - 1] ? row[j] + 1 : row[j - 1] + 1
            row[j] = d < m ? d : m
        }
    }
    return row[length(b)]
}

# The word of the list that is nearest.
function nearest(word, list,    n, i, all, d, least, best) {
    n = split(list, all, " ")
    least = -1
    for (i = 1; i <= n; i++) {
        d = distance(word, all[i])
        if (least < 0 || d < least) {
            least = d
            best = all[i]
        }
    }
    return best
}

function refuse(said) {
    print called ": " said | "cat >&2"
    print "`" called " --help" (command == "" ? "" : " " command) "` says more" | "cat >&2"
    close("cat >&2")
    exit 1
}

# Whether the word is a canonical decimal within the range of that option or command.
function is_within(word, of) {
    return word ~ /^(0|[1-9][0-9]?[0-9]?[0-9]?[0-9]?[0-9]?[0-9]?)$/ && word + 0 >= low[program, command, of] + 0 && word + 0 <= high[program, command, of] + 0
}

function range_of(of) {
    return "a number from " low[program, command, of] " to " high[program, command, of]
}

# The first of the words that is the command's name, and 0 where none is.
function place_of_command(    i, ended) {
    for (i = 4; i < ARGC; i++) {
        if (ARGV[i] == "--" && !ended)
            ended = 1
        else if (!ended && ARGV[i] in takes_value)
            i++
        else if (ended || ARGV[i] !~ /^-./)
            return i
    }
    return 0
}

# An option, with the value behind its sign or in the next word; answers how many words further it went.
function take_option(i,    word, given, has, known) {
    word = ARGV[i]
    if (match(word, /^--[a-z]+=/)) {
        has = 1
        given = substr(word, RLENGTH + 1)
        word = substr(word, 1, RLENGTH - 1)
    }
    known = options_of[program, command]
    if (is_in(word, commons)) {
        if (kind == "run" || kind == "build")
            kind = substr(word, 3)
    } else if (!is_in(word, known)) {
        refuse("`" word "` is no option" (command == "" ? "" : " of " command) "; the nearest is `" nearest(word, known commons) "`")
    }
    if (seen[word]++ && commands_of[program] != "")
        refuse("`" word "` stands twice")
    if (has && !(word in takes_value))
        refuse("`" word "` takes no value")
    if (word in takes_value && !has) {
        if (i + 1 >= ARGC)
            refuse("`" word "` wants a value behind it")
        given = ARGV[i + 1]
    }
    if (word == "--install") {
        # the folder is found by the number of its word, and one behind a sign by what stands behind that
        files = " " (i - 3 + !has)
        signed = has
    } else if (is_in(word, known)) {
        if (word in takes_value && !is_within(given, word))
            refuse("`" word "` wants " range_of(word) ", and `" given "` is none")
        if (is_extra[program, command, word])
            extras = extras " " substr(word, 3) "=1"
        else
            words = words " " word (word in takes_value ? " " given : "")
        if (is_extra[program, command, word] == 0)
            options++
        if (alone[program, command, word])
            lonely = word
    }
    return word in takes_value && !has
}

# What stands behind the command: its number, and files.
function take_other(i,    word) {
    word = ARGV[i]
    if (wants_number) {
        wants_number = 0
        if (!is_within(word, command))
            refuse(command " wants " range_of(command) ", and `" word "` is none")
        number = " " word
    } else if (taken < most) {
        taken++
        files = files " " (i - 3)
    } else if (most == 0) {
        refuse((command == "" ? program : command) " reads no file, as `" word "`")
    } else {
        refuse((command == "" ? program : command) " reads " (most == 1 ? "one file" : "two files") ", and `" word "` is one more")
    }
}

BEGIN {
    read_words(ARGV[1])
    called = ARGV[2]
    program = ARGV[3]
    kind = "run"
    at = 0
    if (commands_of[program] != "") {
        at = place_of_command()
        if (at && ARGV[at] == "help") {
            kind = "help"
            for (i = at + 1; i < ARGC && page == ""; i++)
                if (ARGV[i] !~ /^-/)
                    page = ARGV[i]
            if (page == "help")
                page = ""
            if (page != "" && !is_in(page, commands_of[program]))
                refuse("`" page "` is no command; the nearest is `" nearest(page, commands_of[program]) "`")
            print "kind=help page=" page
            exit 0
        }
        if (at && !is_in(ARGV[at], commands_of[program]))
            refuse("`" ARGV[at] "` is no command; the nearest is `" nearest(ARGV[at], commands_of[program] " help") "`")
        if (at)
            command = ARGV[at]
    } else if (ARGC == 5 && ARGV[4] == "help" && (getline line < "help") < 0) {
        print "kind=help page="
        exit 0
    }
    wanted = shape[program, command]
    wants_number = wanted ~ /^N/
    most = wanted ~ /\.\./ ? 1000000 : gsub(/FILE|LOG|LINES/, "&", wanted)
    for (i = 4; i < ARGC; i++) {
        if (i == at)
            continue
        if (ARGV[i] == "--" && !ended)
            ended = 1
        else if (!ended && ARGV[i] == "-h")
            kind = "help"
        else if (!ended && ARGV[i] ~ /^-./)
            i += take_option(i)
        else
            take_other(i)
    }
    if (kind == "run") {
        if (commands_of[program] != "" && command == "")
            refuse("a command is missing:" commands_of[program] " help")
        if (wants_number)
            refuse(command " wants " range_of(command))
        if (lonely != "" && options > 1)
            refuse("`" lonely "` stands alone, without another option")
        if (most > 100 && taken > 1 && is_in("--svg", words))
            refuse("`--svg` takes one file")
        if (is_in("--svg", words) && extras ~ /json/)
            refuse("`--svg` and `--json` don't go together")
    }
    sub(/^ /, "", files)
    print "kind=" kind " page=" command " words='" command number words "' files='" files "' reads=" (most > 0) extras " signed=" signed + 0
}
