#!/bin/bash
# Builds pcs_c and pcs_run_c, the libraries for testbenches, and the examples of examples/testbench over
# them, and runs them; then with a bug planted in the RTL, which has to be found. A part whose tools are
# missing is left out by name.
#
#     bench/testbench.sh [PROGRAM] [LIBRARY] [RUN_LIBRARY]
#
# PROGRAM is the built program, for the whole program over memory, the example behind pipes and the picture
# of a capture; LIBRARY is libpcs_c.a and RUN_LIBRARY libpcs_run_c.a, which are built by `rt lib` where they
# aren't there. ROUNDS is how many inputs of each kind are compared under Verilator.
set -u
top=$(cd "$(dirname "$0")/.." && pwd) || exit 1
program=${1:-$top/crates/pcs_cli/out/pcs_cli}
library=${2:-$top/crates/pcs_c/out/libpcs_c.a}
run_library=${3:-$top/crates/pcs_run_c/out/libpcs_run_c.a}
flags=(-O2 -Wall -Wextra -Werror -pedantic -I "$top/include")
rounds=${ROUNDS:-1000}
examples=$top/examples/testbench
work=$(mktemp -d)
trap 'rm -rf "$work"' EXIT
export PYTHONDONTWRITEBYTECODE=1
passed=0 failed=0 left_out=0

# tell NAME LOG STATUS: whether a command, whose last lines are in LOG, did as it should.
tell() {
    if [ "$3" = 0 ]; then
        passed=$((passed + 1))
        echo "passed: $1"
    else
        failed=$((failed + 1))
        echo "FAILED: $1"
        tail -n 5 "$work/$2"
    fi
}

# run NAME COMMAND..: runs a command, and tells.
run() {
    local name=$1
    shift
    "$@" > "$work/log" 2>&1
    tell "$name" log $?
}

# needs NAME TOOL..: whether the tools of a part are here.
needs() {
    local name=$1 tool
    shift
    for tool; do
        command -v "$tool" > /dev/null && continue
        left_out=$((left_out + 1))
        echo "left out: $name, for want of $tool"
        return 1
    done
}

# finds NAME COMMAND..: a comparison with a planted bug has to end with differences.
finds() {
    local name=$1
    shift
    ("$@" || true) > "$work/log" 2>&1
    grep -q 'FAILED: [1-9][0-9]* differences' "$work/log"
    tell "$name" log $?
}

# make_library CRATE LIBRARY: builds a library where it isn't there.
make_library() {
    [ -e "$2" ] && return
    needs "the library of $1" rt || return 1
    (cd "$top/crates/$1" && rt lib) > "$work/log" 2>&1
    tell "the library of $1" log $?
    [ -e "$2" ]
}

in_c() {
    run "C, built" cc -std=c11 "${flags[@]}" "$examples/example.c" "$library" -o "$work/example"
    run "C" "$work/example"
    if needs "the header in C++" c++; then
        printf '#include "pcs.h"\nint main() { uint8_t octets[15]; return pcs_marker(0, octets); }\n' > "$work/header.cpp"
        run "the header in C++, built" c++ -std=c++17 "${flags[@]}" "$work/header.cpp" "$library" -o "$work/header"
        run "the header in C++" "$work/header"
    fi
}

in_python() {
    run "Python, the library built" cc -shared -o "$work/libpcs_c.so" -Wl,--whole-archive "$library" -Wl,--no-whole-archive
    run "Python" env PCS_LIBRARY="$work/libpcs_c.so" python3 "$examples/example.py"
    run "all functions, recomputed in Python" env PCS_LIBRARY="$work/libpcs_c.so" python3 "$top/bench/recompute.py"
}

in_verilator() {
    local plant name
    for plant in "" RS=1 RS=2 LINE=1 BLOCK=1 LEVEL=1; do
        name="Verilator, ${plant:-no bug}"
        if ! verilator --binary -j 1 -O1 --top-module tb "-GROUNDS=$rounds" ${plant:+"-G$plant"} "$examples"/{pcs_pkg,tb,rs_encoder,scrambler,block_encoder,level_encoder}.sv \
            "$library" -Mdir "$work/verilated$plant" -o tb > "$work/log" 2>&1; then
            tell "$name, built" log 1
        elif [ -z "$plant" ]; then
            run "$name" "$work/verilated/tb"
        else
            finds "$name" "$work/verilated$plant/tb"
        fi
    done
}

in_icarus() {
    local plant name
    run "Icarus, the tasks built" cc -std=gnu11 -Wall -Wextra -Werror -O2 -fPIC -shared -I "$(icarus_headers)" -I "$top/include" \
        "$examples/pcs_vpi.c" "$library" -o "$work/pcs.vpi"
    for plant in "" RS=1 RS=2 LINE=1; do
        name="Icarus, ${plant:-no bug}"
        if ! iverilog -g2012 -Ptb_vpi.ROUNDS=3 ${plant:+"-Ptb_vpi.$plant"} -o "$work/simulation" "$examples"/{tb_vpi.v,rs_encoder.sv,scrambler.sv} \
            > "$work/log" 2>&1; then
            tell "$name, built" log 1
        elif [ -z "$plant" ]; then
            run "$name" vvp -M "$work" -m pcs "$work/simulation"
            grep -q '^SAME' "$work/log"
            tell "$name, all the same" log $?
        else
            finds "$name" vvp -M "$work" -m pcs "$work/simulation"
        fi
    done
}

# Where vpi_user.h is: beside the program, as Icarus is installed.
icarus_headers() {
    echo "$(dirname "$(dirname "$(command -v iverilog)")")/include/iverilog"
}

# The capture of the example frames, damaged: the events of its report as they come between pipes, and as a waveform.
with_program() {
    "$program" encode --period 4 < "$top/examples/frames.txt" > "$work/sent"
    "$program" impair skew=3:21 burst=0:6100:300 < "$work/sent" > "$work/capture"
    "$program" report < "$work/capture" > "$work/report"
    python3 "$examples/pipe.py" "$program" "$work/capture" > "$work/piped" 2> "$work/log"
    tell "between pipes" log $?
    cut -c 7- "$work/piped" | diff - "$work/report" > "$work/log"
    tell "between pipes, the same lines" log $?
    [ "$(grep -c '^ *[0-9][0-9]*  pair' "$work/piped")" -ge 5 ]
    tell "between pipes, before the end" piped $?
    run "a waveform" "$top/tools/capture-to-vcd" "$work/capture" "$work/report" "$work/waves.vcd"
    run "a waveform, read back" python3 "$top/bench/read_vcd.py" "$work/capture" "$work/report" "$work/waves.vcd"
}

# The whole program over memory; the kit's liblibc_c.a calls malloc for it.
whole_program() {
    local memory leaks=(valgrind -q --leak-check=full --error-exitcode=1)
    memory=$(dirname "$(dirname "$(readlink -f "$(command -v rt)")")")/c/liblibc_c.a
    make_library pcs_run_c "$run_library" || return
    run "the whole program in C, built" cc -std=c11 "${flags[@]}" "$examples/run.c" "$run_library" "$memory" -o "$work/run"
    run "the whole program in C" "$work/run"
    ! needs "all memory given back" valgrind || run "all memory given back" "${leaks[@]}" "$work/run"
    if needs "its header in C++" c++; then
        {
            printf '#include "pcs_run.h"\nint main() { uint8_t none[1] = {}, output[1], line[64]; size_t written, noted;\n'
            printf 'return pcs_run(none, 0, none, 0, output, 1, &written, line, &noted) != PCS_USAGE; }\n'
        } > "$work/run_header.cpp"
        run "its header in C++, built" c++ -std=c++17 "${flags[@]}" "$work/run_header.cpp" "$run_library" "$memory" -o "$work/run_header"
        run "its header in C++" "$work/run_header"
    fi
    run "the whole program in Python, built" cc -shared -o "$work/libpcs_run_c.so" -Wl,--whole-archive "$run_library" -Wl,--no-whole-archive "$memory"
    run "the whole program, ten commands as the program" env PCS_RUN_LIBRARY="$work/libpcs_run_c.so" \
        python3 "$examples/pcs_run.py" "$program" "$top/examples/frames.txt"
}

make_library pcs_c "$library" || exit 1
! needs "C" cc || in_c
! needs "Python" cc python3 || in_python
! needs "Verilator" verilator make c++ || in_verilator
! needs "Icarus" cc iverilog vvp || in_icarus
! needs "the whole program" rt cc python3 "$program" || whole_program
! needs "the program" "$program" python3 || with_program
echo "$passed passed, $failed failed, $left_out left out"
[ "$failed" = 0 ]
