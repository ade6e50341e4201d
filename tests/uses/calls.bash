# The command and two of its words, each called by its name, as a user types it.
set -o pipefail
python() { "$PYTHON" -B "$@"; }
pgboard() { python "$TOP/bindings/python/pgboard" "$@"; }
modelcheck() { pgboard modelcheck "$@"; }
synthesise() { pgboard synthesise "$@"; }
# the command without what root may do in spite of a mode
limited() {
    local without=()
    [ "$(id -u)" != 0 ] || without=(setpriv --inh-caps=-all --bounding-set=-all)
    "${without[@]}" "$PYTHON" -B "$TOP/bindings/python/pgboard" "$@"
}
