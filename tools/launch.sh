# What `arterial` does with its arguments. To be read by a script that has set `checkout` (empty where the program is
# installed), `program`, and `tools`, the folder that has the package streettools.
[ -n "$checkout" ] && . "$tools/trust.sh"
sheet=

say() {
    echo "arterial: $*" >&2
}

# Runs a command of the tools. Python takes Ctrl-C once it can do so without a traceback.
python() {
    set_python
    trap '' INT
    exec "$found" -B "$tools/streettools" "$@"
}

# Runs `look`. Where Python may write here it keeps compiled modules: a report then starts in a third of the time.
look() {
    set_python
    trap '' INT
    exec "$found" "$tools/streettools" "$@"
}

# Finds Python: that of a virtual environment, that of the system, any other.
set_python() {
    found=${VIRTUAL_ENV:+$VIRTUAL_ENV/bin/python3}
    [ -x "$found" ] || found=/usr/bin/python3
    [ -x "$found" ] || found=$(command -v python3) || {
        say "python3 is missing, which this command needs"
        exit 125
    }
}

# Whether the arguments are certainly right, so that nothing has to be added to the program's answer.
are_right() {
    case "$*" in
    run | live | band | respond | --version | "run --workers "[0-8]) true ;;
    *) false ;;
    esac
}

# Whether a text on standard input begins with a byte order mark; a pipe can't be looked at.
has_mark() {
    [ -f /dev/stdin ] && [ "$(head -c 3 /dev/stdin)" = "$(printf '\357\273\277')" ]
}

# Runs the program, and adds to its answer what it does not say: which command was meant, that a byte order mark is in
# the way, what was expected if an input is invalid. If the reader of its output has gone, nothing is added.
run_and_explain() {
    [ -n "$tried" ] && ulimit -c 0
    # (a link is that of a smaller system, whose setpriv lacks this)
    guard=$(command -v setpriv) && [ ! -L "$guard" ] && guard="$guard --pdeathsig TERM" || guard=
    # shellcheck disable=SC2086
    { said=$($guard "$program" "$@" 2>&1 >&3 3>&-); } 3>&1
    status=$?
    [ "$status" = 4 ] && [ -p /dev/stdout ] && exit 4
    [ "$tried$status" = yes124 ] && show_failed "$said" && exit 124
    [ -n "$said" ] && printf '%s\n' "$said" >&2
    case $status:$said in
    1:*) show_meant "$1" ;;
    2:* | 5:*)
        if has_mark; then
            mark="a byte order mark (EF BB BF), which does not belong to it"
            say "the text begins with $mark: save it as UTF-8 without one"
        elif [ "$status" = 2 ]; then
            show_refusal "$1" "$said"
        elif [ "$1" = check ]; then
            show_expected "$said"
        fi
        ;;
    7:overlap:*)
        shift
        show_overlap "$said" "$@"
        ;;
    esac
    exit "$status"
}

# Says that a run-time check of the unproved program failed, and in which function, by the report of the checks.
show_failed() {
    case $1 in
    *"rss limit"*) say "the unproved program took more than 4 GB of memory, so its output is not an answer" && return ;;
    esac
    set_python
    # shellcheck disable=SC2046
    where=$("$found" -B "$tools/streettools" launch where "$program" $(printf '%s\n' "$1" | sed -n 's/^frame \(0x[0-9a-f]*\).*/\1/p'))
    say "a run-time check of the unproved program failed, so its output is not an answer: $where"
}

# Says where all commands are listed, and which one may have been meant.
show_meant() {
    set_python
    "$found" -B "$tools/streettools" launch meant "$@" >&2
}

# Shows, after the program's line about a text that is not a trace, the line that was read and the expected line.
show_expected() {
    if [ -f /dev/stdin ]; then
        (set_python && "$found" -B "$tools/streettools" launch due "$program" "$1")
    else
        say "with the name of a file, arterial check FILE also shows the line read and the expected line"
    fi
}

# Shows, after the program's line about an overlap that breaks a rule, what the rule asks.
show_overlap() {
    [ -f /dev/stdin ] && (set_python && "$found" -B "$tools/streettools" launch overlap "$@")
}

# Shows, after the program's line about an invalid scenario, what was expected and what was found.
show_refusal() {
    if [ -n "$sheet" ]; then
        say "arterial plan check $sheet says why"
        return
    fi
    if [ -f /dev/stdin ]; then
        (set_python && "$found" -B "$tools/streettools" launch refused "$@")
        return
    fi
    case $2 in
    *"not JSON") say "one cause can be a byte order mark (EF BB BF) at its beginning, which does not belong to JSON" ;;
    esac
    case $1:$2 in
    run:* | respond:*) say "with the name of a file, arterial $1 FILE also shows what was expected and what was found" ;;
    esac
}

# Prints the help that a word (-h or --help) asks for: of all commands, or of one.
help_of() {
    [ -n "$checkout" ] && ! is_proved && program=
    python launch help "$program" "$@"
}

# the tools, and the launcher's own commands
case $1 in
prove)
    [ -n "$checkout" ] || { say "the program is installed here, and proved in a checkout" && exit 125; }
    shift
    python launch prove "$@"
    ;;
take)
    [ -n "$checkout" ] || { say "the program is installed here; a proof is taken over in a checkout" && exit 125; }
    shift
    python launch take "$@"
    ;;
-h | --help) [ $# = 1 ] && help_of "$1" ;;
run | check | overlaps | live | judge | band | respond | generate | survey)
    for word; do
        case $word in --help | -h) help_of "$word" "$1" ;; esac
    done
    ;;
look) [ -f "$tools/streettools/look/command.py" ] && look "$@" ;;
*[!a-z]* | launch | shared | "") ;;
*) [ -f "$tools/streettools/$1/command.py" ] && python "$@" ;;
esac

# Puts the scenario of a timing sheet on standard input.
run_sheet() {
    set_python
    sheet=$1
    made=$("$found" -B "$tools/streettools" plan scenario "$1") || exit
    say "$1 is a timing sheet: the scenario that it makes is run (arterial plan scenario writes it)"
    case $made in
    *'"veh":'* | *'"ped":'*) ;;
    *) say "no detector calls in this run: arterial cosim queues brings vehicles; recall = \"maximum\" calls without them" ;;
    esac
    exec <<END
$made
END
}

# The name of a file among the arguments of a command that reads one replaces standard input.
case $1 in
run | check | overlaps | judge | band | respond)
    place=0 is_value=no file=
    for word; do
        shift
        place=$((place + 1))
        if [ "$is_value" = yes ]; then
            is_value=no
        else
            case $word in
            --joined) ;;
            --*) is_value=yes ;;
            *) [ $place -gt 1 ] && [ -z "$file" ] && file=${word:-./} && continue ;;
            esac
        fi
        set -- "$@" "$word"
    done
    if [ -n "$file" ] && [ "$file" != - ]; then
        why=
        [ -e "$file" ] || why="no such file"
        [ -d "$file" ] && why="is a directory"
        [ -z "$why" ] && [ ! -r "$file" ] && why="permission denied"
        [ -z "$why" ] || { say "$file: $why" && exit 3; }
        case $1:$file in
        run:*.toml | run:*.xlsx) run_sheet "$file" ;;
        *) exec <"$file" ;;
        esac
    fi
    ;;
esac

if [ -n "$checkout" ]; then
    is_proved
    case $? in
    0) is_taken && say "proved by its maker, not here (./arterial prove confirms it here)" ;;
    123)
        say "refused: $program is not the program that was proved here. ./arterial prove proves and builds it again"
        exit 123
        ;;
    *)
        reason=$why
        # --version and words that the source answers need no program
        is_tried || python launch unproved "$reason" "$@"
        [ -n "$ARTERIAL_BUILT" ] || say "$reason: the unproved program answers (./arterial prove proves it here)"
        # a failed run-time check is not an answer: it has a status that the program doesn't have
        export ASAN_OPTIONS='exitcode=124:abort_on_error=0:hard_rss_limit_mb=4096:stack_trace_format="frame %o"'
        tried=yes
        ;;
    esac
fi
if [ -z "$tried" ] && are_right "$@" && ! [ -p /dev/stdout ] && ! [ -p /dev/stdin ] && ! [ -f /dev/stdin ]; then
    exec "$program" "$@"
fi
run_and_explain "$@"
