# shellcheck shell=sh
# Sourced after command.sh by the commands that take a zkIR program as a file. They have a folder `room` for what they make.

text_bytes=524288 # the longest text that `assemble` takes

grouped() { echo "$1" | sed -e :a -e 's/^\([0-9]*[0-9]\)\([0-9]\{3\}\)/\1,\2/' -e ta; } # 1234567 as 1,234,567

words_of() { # TABLE NUMBER WORDS: of the line that begins with the number in docs/TABLE.txt, what stands behind that many words
    awk -v number="$2" -v words="$3" '
        $1 == number { for (i = 1; i <= words; i++) $i = ""; sub(/^ */, ""); print }' "$root/docs/$1.txt"
}

refusal_in_words() { words_of stops "$1" 3; } # NUMBER

build_programs() {
    [ -z "${are_built-}" ] || return 0
    "$root/tools/zkir" build || exit 2
    are_built=1
}

is_text() { # FILE: it has bytes, and none but those of a text
    [ -s "$1" ] && [ "$(LC_ALL=C tr -d '\011\012\015\040-\176\200-\377' <"$1" | wc -c)" -eq 0 ]
}

# Leaves the program's bytes in input, their number in length, and in taken what the file was taken as. A text that is
# refused ends the command, with 10 + the refusal's number.
take_program() { # FILE
    case $1 in
    *.[zZ][kK]) take_text "$1" ;;
    *.[hH][eE][xX])
        "$root/tools/words" "$1" >"$room/input" || exit 2
        taken='spelled as words'
        ;;
    *)
        cat "$1" >"$room/input" || exit 2
        taken='taken as they are'
        if is_text "$room/input"; then
            taken="$taken, THOUGH IT IS A TEXT: instructions are read from a file whose name ends in .zk, words in .hex"
        fi
        ;;
    esac
    length=$(($(wc -c <"$room/input")))
}

take_text() { # FILE
    cat "$1" >"$room/text" || exit 2
    length=$(($(wc -c <"$room/text")))
    if [ $length -gt $text_bytes ]; then
        echo "== refused 9: $1 has $(grouped $length) bytes, and a text may have $(grouped $text_bytes)"
        exit 19
    fi
    build_programs
    "$root/tools/zkir" assemble <"$room/text" >"$room/input" 2>"$room/refused" || {
        # shellcheck disable=SC2046
        refuse_text "$1" $(cat "$room/refused")
    }
    lines=$(awk 'END { print NR }' "$room/text")
    taken="assembled from $lines line$([ "$lines" -eq 1 ] || echo s)"
}

refuse_text() { # FILE refused 10 line LINE mistake MISTAKE column COLUMN, and where a value does not fit: value VALUE
    if [ "${2-} ${3-} ${4-}" = 'refused 10 line' ]; then
        echo "== refused 10: $(refusal_in_words 10): $1"
        say_what_is_wrong "$5" "${7-}" "${9-}" "${11-}"
        exit 20
    fi
    cat "$room/refused" >&2
    echo "$command_name: the program assemble failed" >&2
    exit 2
}

# ---- a bad line, in words

bytes_of_line() { # LINE: of the text, as numbers, without the line's end
    head -n "$1" "$room/text" | tail -n 1 | od -An -v -tu1 | awk '
        { for (i = 1; i <= NF; i++) byte[++bytes] = $i }
        END {
            if (byte[bytes] == 10 && byte[--bytes] == 13) bytes--
            for (i = 1; i <= bytes; i++) printf "%s ", byte[i]
            print ""
        }'
}

shown() { # the bytes whose numbers it reads; those that a terminal does not show as escapes
    # shellcheck disable=SC2059
    printf "$(awk '{
        for (i = 1; i <= NF; i++)
            if ($i == 9) printf "\\\\t"
            else if ($i == 13) printf "\\\\r"
            else if ($i < 32 || $i == 127) printf "\\\\u{%x}", $i
            else printf "\\%03o", $i
    }')"
}

item_at() { # COLUMN: of the numbers that it reads, those of the name or the number there, with its sign, or of one byte
    awk -v at="$1" '
        function is_part(byte) { return byte >= 48 && byte <= 57 || byte >= 65 && byte <= 90 || byte >= 97 && byte <= 122 }
        {
            end = at + ($at == 43 || $at == 45)
            while (end <= NF && is_part($end)) end++
            for (i = at; i < end || i == at; i++) printf i == at ? "%s" : " %s", $i
        }'
}

particular() { # MISTAKE COLUMN: what the mistake is about, in the line whose bytes it reads
    item=$(item_at "$2")
    if [ -z "$item" ]; then
        echo 'end of line'
    elif [ "$1" = 1 ] && { [ "$item" -le 32 ] || [ "$item" -ge 127 ]; }; then
        echo "byte $item"
    else
        echo "$item" | shown
    fi
}

say_what_is_wrong() { # LINE MISTAKE COLUMN VALUE: the line, and unless MISTAKE is empty what is wrong with it and where
    bytes=$(bytes_of_line "$1")
    printf 'line %s: %s' "$1" "$(echo "$bytes" | shown)"
    [ -z "$2" ] || printf ': %s (column %s: %s)' "$(words_of mistakes "$2" 2)" "$3" "${4:-$(echo "$bytes" | particular "$2" "$3")}"
    echo
}
