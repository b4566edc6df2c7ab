# For scripts that show that a misuse does not compile: a library crate `misuse` in a copy of the repository.
# Source it with the name of the script in `name` and the crates that `misuse` is built on in `deps`. It uses what the
# gate has left in the crates' out/.
top=$(cd "$(dirname "${BASH_SOURCE[0]}")/.." && pwd)
work=$(mktemp -d) || exit 1
trap 'rm -rf "$work"' EXIT
mkdir -p "$work/crates/misuse/src"
# those crates, and what they are built on
queue=$deps
while [ -n "$queue" ]; do
    read -r crate queue <<<"$queue"
    [ ! -e "$work/crates/$crate" ] || continue
    cp -R "$top/crates/$crate" "$work/crates/$crate"
    line=$(grep "^$crate:" "$top/crates.txt")
    echo "$line" >>"$work/crates.txt"
    queue="$queue ${line#*:}"
    queue=${queue# }
done
echo "misuse: $deps" >>"$work/crates.txt"

# accepted: whether the program on standard input compiles and is proved; what was said is in the file `log`
accepted() {
    cat >"$work/crates/misuse/src/lib.rt"
    (cd "$work/crates/misuse" && rt check) >"$work/log" 2>&1
}

fail() {
    echo "$name: $1"
    cat "$work/log"
    exit 1
}

# because LINE:COLUMN REASON: the program was refused there for that reason
because() {
    grep -q "^src/lib.rt:$1:.*error\[$2" "$work/log"
}
