#!/usr/bin/env bash
# Runs `wqplan explain` for each number, each fault, each word of an answer and each directive, by number and by name, in upper and
# lower case, and the example that it prints, whose answer has to be that number, and to standard error its diagnosis, or that fault,
# or a line that begins with that word, or, of a declaration with that directive, a plan, or if it is one of unsure lines, a hang that
# needs its line. The figures in an explanation have to be those of docs/FORMAT.md. Also runs it without a word, and with words that
# have no explanation.
# Run it once the gate or `rt run` has built the program. The argument, if there is one, names another program.
set -u
. "$(dirname "$0")/../lib/script.bash"
root=$(realpath -- "$(dirname "$0")/../..")
program=$(realpath -m -- "${1:-$root/crates/wqplan/out/wqplan}")
built explain wqplan "$program"
format=$root/docs/FORMAT.md
tables=$root/docs/tables
rule=$root/tests/lib/standard_error.py

work=$(mktemp -d)
trap 'rm -rf -- "$work"' EXIT
cd -- "$work" || exit 1
mkdir bin
ln -s -- "$program" bin/wqplan

# figures: the numbers of two or more digits in what is read, and those that begin with 0x, each once.
figures() {
    grep -oE '0x[0-9A-F]+|[0-9][0-9,]*[0-9]' | sort -u
}

# limits: those of the numbers in what is read that have a comma.
limits() {
    grep -oE '\b[0-9]+(,[0-9]{3})+\b' | sort -u
}

# prose: what `out` says in words: without its first line, the commands, and the number that it is about.
prose() {
    sed -E '1d; /^    /d; s/`(refused|no) [0-9]+/`/g' out
}

# formed WORD HEADING: whether `out`, what explains this word, has its form: nothing on standard error, no long line, a section of
# docs/FORMAT.md, which is left in the file `section`, and, below this heading, how to mend it or what to do.
formed() {
    is "explain $1: nothing on standard error" '' "$(cat err)"
    is "explain $1: no line of more than 80 bytes" '' "$(LC_ALL=C grep -E '.{81}' out)"
    local section
    section=$(sed -n 's/^The rule: docs\/FORMAT\.md, "\(.*\)"$/\1/p' out)
    is "explain $1: the section is there" "## $section" "$(grep -Fx -- "## $section" "$format")"
    awk -v heading="## $section" '/^## / { on = $0 == heading } on' "$format" >section
    has "explain $1: $2" . "$(below "$2")"
}

# same WORD OTHER: whether `out`, what explains the one word, is what explains the other one.
same() {
    cp out first
    run explain "$2"
    is "explain $2: as $1" 0 "$status$(cmp out first 2>&1)"
}

# below HEADING: the lines of `out` behind this line, up to an empty one.
below() {
    awk -v heading="$1" '$0 == heading { on = 1; next } on && $0 == "" { exit } on' out
}

# explained NUMBER NAME STATUS ANSWER: whether the number is explained, and its example ends with this status and answer, and with
# the diagnosis of the last file of its last command, or of standard input where that names none.
explained() {
    run explain "$1"
    is "explain $1" "0: $1 $2" "$status: $(head -n 1 out)"
    formed "$1" 'To mend it:'
    is "explain $1: its figures stand in the section" '' "$(comm -23 <(prose | figures) <(figures <section))"
    is "explain $1: its limits are those of its row" "$(grep -F -- "| $2 |" "$format" | limits)" "$(prose | limits)"
    same "$1" "$2"
    same "$1" "+00$1"
    same "$1" "${2^^}"
    same "$1" "${2,,}"
    mkdir "example$1"
    below 'To see it:' >"example$1/commands"
    local words file said=yes
    words=$(sed -n '$s/.*wqplan //p' "example$1/commands")
    file=${words##* }
    [ "$file" != plan ] || file='<stdin>'
    # (behind a certificate may be the workqueues that stay)
    [[ $words != 'check '*' '*' '* ]] || file=$(cut -d' ' -f3 <<<"$words")
    # (what the lines before the last one print, if they ask something too, is an answer like its own)
    head -n -1 "example$1/commands" >"example$1/earlier"
    tail -n 1 "example$1/commands" >"example$1/last"
    (cd "example$1" && PATH=$work/bin:$PATH limited bash earlier) >earlier 2>/dev/null
    is "explain $1: the examples before the last" '' "$(grep -vE "^$4\$" earlier)"
    (cd "example$1" && PATH=$work/bin:$PATH limited bash last) >out 2>err
    has "explain $1: the example" "^$3: $4\$" "$?: $(cat out)"
    python3 -B "$rule" out err "$file" || said="$(cat err)"
    is "explain $1: the diagnosis of the example" yes "$said"
}

while read -r number name; do
    explained "$number" "$name" 2 "refused $number line [0-9]+"
done < <(sed -nE 's/^\| ([0-9]+) \| ([A-Z][A-Za-z]+) \|.*/\1 \2/p' "$format")
while read -r number name; do
    explained "$number" "$name" 1 "no $number( .*)?"
done < <(sed -nE 's/^\| `no (5[0-9])[^|]*` \| ([A-Z][A-Za-z]+) \|.*/\1 \2/p' "$format")

# Each fault: its example ends with status 3 and that line. No input meets `fault tally`, so that has no example.
faults=$(sed -nE 's/^\| `fault ([a-z]+)` \|.*/\1/p' "$format")
is 'docs/FORMAT.md has all faults' "$(grep -c '^fault: ' "$tables/numbers.txt")" "$(wc -l <<<"$faults")"
for name in $faults; do
    run explain "$name"
    is "explain $name" "0: $name fault" "$status: $(head -n 1 out)"
    formed "$name" 'To mend it:'
    below 'To see it:' >commands
    if [ "$name" = tally ]; then
        is "explain $name: no example" '' "$(cat commands)"
        continue
    fi
    mkdir "example$name"
    (cd "example$name" && PATH=$work/bin:$PATH limited bash ../commands) >out 2>err
    is "explain $name: the example" "3:: fault $name" "$?:$(cat out): $(tail -n 1 err)"
done

# Each word of an answer: a line that its example prints begins with it, and the last command of the example is one of those of its
# row. `fault` is a line of standard error.
awk '/^## / { on = $0 == "## The command `explain`" } on' "$format" | sed -nE 's/^\| `([a-z? ]+)` \| (.*) \|$/\1:\2/p' >words
is 'docs/FORMAT.md has all words of answers' "$(grep -c '^word: ' "$tables/words.txt")" "$(wc -l <words)"
while IFS=: read -r word commands; do
    run explain "$word"
    is "explain $word" "0: $word answer" "$status: $(head -n 1 out)"
    formed "$word" 'What to do:'
    below 'To see it:' >commands
    same "$word" "${word^^}"
    same "$word" "${word^}"
    mkdir "example $word"
    (cd "example $word" && PATH=$work/bin:$PATH limited bash ../commands) >out 2>err
    [ "$word" != fault ] || tail -n 1 err >out
    has "explain $word: the example" $'\n'"${word//\?/\\?}( |"$'\n)' $'\n'"$(cat out)"$'\n'
    has "explain $word: the command of the example" '`'"$(sed -n '$s/.*wqplan \([a-z]*\).*/\1/p' commands)"'`|any' "$commands"
done <words

# Each directive: its example has a line of it, and prints a plan, or a hang that needs that line.
directives=$(sed -nE 's/^- a directive: (.*);$/\1/p' "$format" | grep -oE '`[a-z]+\??`' | tr -d '`')
is 'docs/FORMAT.md has all directives' "$(grep -c '^directive: ' "$tables/directives.txt")" "$(wc -l <<<"$directives")"
while read -r name; do
    line=${name//\?/\\?}
    run explain "$name"
    is "explain $name" "0: $name directive" "$status: $(head -n 1 out)"
    formed "$name" 'What to do:'
    below 'To see it:' >commands
    same "$name" "${name^^}"
    has "explain $name: the example has such a line" "('|n)$line a" "$(cat commands)"
    mkdir "example $name"
    (cd "example $name" && PATH=$work/bin:$PATH limited bash ../commands) >out 2>err
    ended=$?
    case $name in
        *\?) has "explain $name: the example prints a hang" $'^1:unsure 1\n'"$line a" "$ended:$(cat out)" ;;
        *) has "explain $name: the example prints a plan" '^0::plan [0-9]+'$'\n' "$ended:$(cat err):$(cat out)" ;;
    esac
done <<<"$directives"

# All titles: those of the numbers, with their names, those of the faults, those of the words of answers, and those of directives.
{
    sed -nE 's/^\| ([0-9]+) \| ([A-Z][A-Za-z]+) \|.*/\1 \2/p' "$format"
    sed -nE 's/^\| `no (5[0-9])[^|]*` \| ([A-Z][A-Za-z]+) \|.*/\1 \2/p' "$format"
} | sort -n >titles
is 'docs/FORMAT.md has all numbers' "$(grep -c '^number: ' "$tables/numbers.txt")" "$(wc -l <titles)"
sed 's/$/ fault/' <<<"$faults" >>titles
sed 's/:.*/ answer/' words >>titles
sed 's/$/ directive/' <<<"$directives" >>titles
run explain
is 'explain without a word' '0' "$status$(cat err)$(cmp out titles 2>&1)"

# Each title without its last word is explained, and that title is the first line.
while read -r title; do
    run explain "${title% *}"
    is "explain ${title% *}: its title" "0: $title" "$status: $(head -n 1 out)"
done <titles

# What has no explanation: a line that says so, and all titles. Each number below the highest that is never printed, and the one above
# it; one of more than 32 bits, what is no number, names with something more or less, with a letter beyond ASCII (a Kelvin sign for the
# k of `stuck`), the words of a title, a part of a word, and an empty word.
sed -nE 's/^([0-9]+) .*/\1/p' titles >numbers
for word in $(seq 0 $(($(tail -n 1 numbers) + 1)) | grep -vxFf numbers) 4294967295 4294967296 18446744073709551617 1x x ++1 '+' '1 ' ' 1' 0x1 TextTooLon TextTooLong1 reads \
    'read fault' 'fault read' '1 TextTooLong' 'item directive' items 'safe ' safer not lawful 'not  lawful' notlawful 'safe answer' answer '' \
    $'caf\303\251' $'stuc\342\204\252'; do
    run explain "$word"
    is "explain '$word'" "2: $(cat titles)" "$status: $(tail -n +2 out)"
    is "explain '$word': one line above the titles" $((1 + $(wc -l <titles))) "$(wc -l <out)"
    is "explain '$word': nothing on standard error" '' "$(cat err)"
done

# An option that isn't there, and two words, are mistakes on the command line.
for words in -1 '1 2' 'read 1' --all; do
    # Each word is an argument of its own.
    run explain $words
    is "explain $words" '2:' "$status:$(cat out)"
    has "explain $words: standard error" . "$(cat err)"
done
full=$'wqplan: <stdout>: no space left\nfault write'
limited "$program" explain 1 >/dev/full 2>err
is 'a full device' "3: $full" "$?: $(cat err)"
limited "$program" explain >/dev/full 2>err
is 'all titles on a full device' "3: $full" "$?: $(cat err)"

counts_of explain
