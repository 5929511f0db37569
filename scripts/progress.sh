# Sourced by `test`: what `rt ci` prints, in a line for each crate, must-fail edit and program.

# progress CRATES EDITS: reads what `rt ci` prints, and prints a line for each crate, must-fail edit and program as soon as rt tells of it, a crate's
# with the seconds that had passed by then. All that rt
# printed of one that failed, and whatever else it says, is printed as it stands.
progress() {
    local line crate=0 edit=0 kept=() bad_edit='' start=$SECONDS
    # rt prints a crate's lines before its verdict, and the lines of an edit that did not reach the prover after it.
    local proved='^rt: ([a-z0-9_]+) (proved|is kept)'
    local refused='^rt: must-fail ([^ ]+): refused, as it must be'
    local ran="^rt: ([a-z0-9_]+) ran(.*), and wrote what its file stdout has$"
    while IFS= read -r line || [ -n "$line" ]; do
        if [[ $line != 'rt: '* ]]; then
            if [ -n "$bad_edit" ]; then echo "$line"; else kept+=("$line"); fi
            continue
        fi
        bad_edit=''
        if [[ $line =~ $proved ]]; then
            crate=$((crate + 1))
            echo "[$crate of $1] ${BASH_REMATCH[1]}: ${BASH_REMATCH[2]} (at $((SECONDS - start)) s)"
        elif [[ $line =~ $refused ]]; then
            edit=$((edit + 1))
            echo "must-fail edit $edit of $2: ${BASH_REMATCH[1]}: refused"
        elif [[ $line =~ $ran ]]; then
            echo "program ${BASH_REMATCH[1]}${BASH_REMATCH[2]}: wrote what its file stdout has"
        else
            [ "${#kept[@]}" -eq 0 ] || printf '%s\n' "${kept[@]}"
            echo "$line"
            [[ $line != *' NOT PROVED'* ]] || crate=$((crate + 1))
            [[ $line != 'rt: must-fail '* ]] || { edit=$((edit + 1)); bad_edit=yes; }
        fi
        kept=()
    done
    [ "${#kept[@]}" -eq 0 ] || printf 'rt ci: %s\n' "${kept[@]}"
}
