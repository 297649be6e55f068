# Measures runs of `fanwatch`; the scripts beside this one source it. It sets `top`.
set -eu
top=$(cd -- "$(dirname -- "${BASH_SOURCE[0]}")/.." && pwd)
by_python='
import resource, subprocess, sys, time
begun = time.monotonic()
status = subprocess.run(sys.argv[2:]).returncode
took = time.monotonic() - begun
peak = resource.getrusage(resource.RUSAGE_CHILDREN).ru_maxrss
print(f"Wall time (s): {took:.2f}\nMaximum resident set size (kbytes): {peak}", file=open(sys.argv[1], "w"))
sys.exit(status)
'

# measure INPUT [WORD..]: runs the program with the words, or else `script`, on what the function INPUT writes.
# What the program prints is thrown away.
measure() {
    local input measured words=("${@:2}") status=0
    [[ ${#words[@]} -gt 0 ]] || words=(script)
    input=$(mktemp)
    measured=$(mktemp)
    trap "rm -f -- '$input' '$measured'" EXIT
    "$1" >"$input"

    # the first call builds what is missing, and is not measured
    "$top/fanwatch" script <"$top/examples/first.fan" >/dev/null

    if [[ -x /usr/bin/time ]]; then
        /usr/bin/time -v -o "$measured" "$top/fanwatch" "${words[@]}" <"$input" >/dev/null || status=$?
        grep -E 'Elapsed|Maximum resident' "$measured" | tr -d '\t'
    else
        python3 -c "$by_python" "$measured" "$top/fanwatch" "${words[@]}" <"$input" >/dev/null || status=$?
        cat -- "$measured"
    fi
    echo "Status of the program: $status"
    rm -f -- "$input" "$measured"
}
