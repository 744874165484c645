# places.sh: where the program, the table and what scripts share lie, in this repository or where tools/install has put them. Read by other scripts, which
# have set `here` to the folder in which they lie. SPCWAVE and TABLE name another program and another table.

# The first of these files that is there, or else the first.
first_of() {
    local name
    for name; do
        if [ -e "$name" ]; then printf '%s\n' "$name"; return; fi
    done
    printf '%s\n' "$1"
}

program=${SPCWAVE:-$(first_of "$here/../crates/spcwave/out/spcwave" "$here/../../bin/spcwave")}
table=${TABLE:-$(first_of "$here/../examples/gauss.table" "$here/gauss.table")}
render_one=$here/render_one
