# Read by the other scripts. `take_turns PROGRAM "CRATES" "USED" [COMMIT]` proves and builds the bench
# PROGRAM_bench.rt.txt over the crates, of which it uses some by name, as they stand here and, where a
# commit is given, as they stood there. It runs both by turns, and with them the command in `beside`,
# and leaves all lines in $work/times, those of the commit with before_ in front.
here=$(cd "$(dirname "$0")" && pwd)
top=$(dirname "$here")
work=$(mktemp -d)
trap 'rm -rf "$work"' EXIT
beside=

# build FOLDER PROGRAM CRATES USED
build() {
    cd "$work/$1"
    for crate in $3; do
        grep "^$crate:" all.txt >> crates.txt
    done
    rt new "crates/$2_bench" start_io > "$work/log" 2>&1
    echo "$2_bench: $4" >> crates.txt
    rm -rf BUILD.bazel "crates/$2_bench/"{BUILD.bazel,stdin,stdout,src,specs,proofs}
    mkdir "crates/$2_bench/src"
    # The source lies there under another name, since the gate reads no code outside crates/.
    cp "$here/$2_bench.rt.txt" "crates/$2_bench/src/main.rt"
    cd "crates/$2_bench"
    rt run > "$work/first" 2>> "$work/log" || { tail -20 "$work/log"; exit 1; }
}

take_turns() {
    mkdir -p "$work/now/crates"
    for crate in $2; do
        mkdir "$work/now/crates/$crate"
        cp -r "$top/crates/$crate/"{src,specs,proofs} "$work/now/crates/$crate/"
    done
    cp "$top/crates.txt" "$work/now/all.txt"
    build now "$1" "$2" "$3"
    if [ $# -gt 3 ]; then
        mkdir "$work/before"
        for crate in $2; do
            git -C "$top" archive "$4" "crates/$crate" crates.txt | tar -x -C "$work/before"
            rm -rf "$work/before/crates/$crate/must-fail"
        done
        mv "$work/before/crates.txt" "$work/before/all.txt"
        build before "$1" "$2" "$3"
    fi
    for _ in 1 2 3 4 5; do
        "$work/now/crates/$1_bench/out/$1_bench" >> "$work/times"
        if [ $# -gt 3 ]; then
            "$work/before/crates/$1_bench/out/$1_bench" | sed 's/^/before_/' >> "$work/times"
        fi
        if [ -n "$beside" ]; then
            "$beside" >> "$work/times"
        fi
    done
}

# The least time of each line, and its ratios to the Rust loop and to what stood before.
show_times() {
    awk '
        $3 == "nanoseconds" {
            time = $2 / $5
            if (!($1 in each)) lines[++n] = $1
            if (!($1 in each) || time < each[$1]) each[$1] = time
        }
        END {
            for (i = 1; i <= n; i++) {
                c = lines[i]
                printf "%-20s %8.2f microseconds each, %9.0f a second\n", c, each[c] / 1000, 1e9 / each[c]
            }
            for (i = 1; i <= n; i++) {
                c = lines[i]
                if (c ~ /^(before|rust)_/) continue
                text = ""
                if ("copy" in each) text = text sprintf(", %.1f copies of a codeword", each[c] / each["copy"])
                if (("rust_" c) in each) text = text sprintf(", %.2f of the Rust loop", each[c] / each["rust_" c])
                if (("before_" c) in each) text = text sprintf(", %.2f of what stood before", each[c] / each["before_" c])
                if (text != "") print c ": " substr(text, 3)
            }
        }' "$work/times"
}
