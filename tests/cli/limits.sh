# shellcheck shell=bash
# The limits of pdi.h in the environment, for the scripts here in shell and Python, so that none of them writes such a number down again.

# read_limits: compiles limits.c in $dir. The caller sets $here, $root and $dir.
read_limits() {
    "${CC:-gcc}" "-I$root/include" "$here/limits.c" -o "$dir/limits"
    "$dir/limits" >"$dir/limits.env"
    set -o allexport
    # shellcheck source=/dev/null
    . "$dir/limits.env"
    set +o allexport
}

# grouped NUMBER: 1234567 as 1,234,567
grouped() {
    sed -e ':again' -e 's/\([0-9]\)\([0-9]\{3\}\)\($\|,\)/\1,\2\3/' -e 't again' <<<"$1"
}
