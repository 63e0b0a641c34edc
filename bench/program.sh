# To be sourced by a script that is given a program, or none: the program to be measured in `program`, the built one where none is
# given, and an empty folder in `work`. `measured` runs Python over both, with the modules of bench/ and tests/.
program=$(realpath -m "${1:-$(dirname "${BASH_SOURCE[0]}")/../target/mtn}")
cd "$(dirname "${BASH_SOURCE[0]}")/.." || exit 1
[ "$#" -gt 0 ] || ./mtn --version >/dev/null || exit 1
work=$(mktemp -d)
trap 'rm -rf "$work"' EXIT
measured() { PYTHONDONTWRITEBYTECODE=1 PYTHONPATH="bench:tests" python3 - "$program" "$work"; }
