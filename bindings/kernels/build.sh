#!/bin/sh
# Builds the images of this folder for 512 bits, as `certify cc` makes them: axpy_16 and axpy_8192 have buffers of so many words.
set -e
cd "$(dirname "$0")"
folder=$(mktemp -d)
trap 'rm -r "$folder"' EXIT

# A parameter of a job: r SIZE, rw SIZE, or n MOST VALUE.
parameter() {
    case $1 in
        n) echo "{ kind = \"scalar\", lo = 0, hi = $2, value = $3 }" ;;
        *) head -c "$2" /dev/zero >"$folder/bytes-$2"; echo "{ kind = \"buffer\", mode = \"$1\", size = $2, file = \"bytes-$2\" }" ;;
    esac
}

# The image, the function, and its parameters.
made() {
    image=$1 entry=$2 list=
    shift 2
    for each; do list="$list$(parameter $each), "; done
    printf 'image = "none"\nvlen = 512\nagnostic = "keep"\nmax = 1000000000\nparam = [%s]\n' "$list" >"$folder/job.toml"
    ../../tools/certify/certify cc "$entry.c" "$folder/job.toml" --entry "$entry" --vlen 512 -o "$image.elf"
    chmod -x "$image.elf"
}

for words in 16 8192; do
    made "axpy_$words" axpy "rw $((4 * words))" "r $((4 * words))" "r $((4 * words))" "n $words $words" "n 4294967295 3"
done
made fold fold "rw 64" "r 8192" "n 2048 2048"
made merge merge "rw 64" "r 64"
made spin spin "rw 64" "n 100000000 1000"
