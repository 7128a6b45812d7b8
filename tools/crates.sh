# shellcheck shell=sh
# Sourced after command.sh by the commands that go by crates.txt. A line is NAME: LIBRARY .., or NAME staticlib: LIBRARY ..

crates_all() { sed -n 's/^\([a-z_0-9]*\)\( staticlib\)*:.*/\1/p' "$root/crates.txt"; } # prints every crate, leaves first

crates_under() { # CRATE..: prints those crates and all that they are built on, leaves first
    awk -F: -v crates="$*" '
        function need(names,    list, i) { for (i = split(names, list, " "); i > 0; i--) needed[list[i]] = 1 }
        BEGIN { need(crates) }
        !/^#/ && NF { sub(/ .*/, "", $1); crate[++lines] = $1; built_on[$1] = $2 }
        END {
            for (i = lines; i > 0; i--) if (crate[i] in needed) need(built_on[crate[i]])
            for (i = 1; i <= lines; i++) if (crate[i] in needed) print crate[i]
        }' "$root/crates.txt"
}
