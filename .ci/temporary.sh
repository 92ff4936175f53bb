# shellcheck shell=bash
# Sourced by bash: temporary files lie in memory where there is room for them, until the shell ends.
# A check makes and deletes some thousand small files in its temporary folder, which on a disk takes up to half of a light check's time
# (as of the older kit).
# rt wants 3 GB of room for them. It runs the proved programs from such a folder, as nobody: so others may pass through it, and it has to be one from which programs run.
in_memory=$(mktemp -d /dev/shm/aspda.XXXXXX 2>/dev/null || true)
if [ -n "$in_memory" ]; then
    trap 'rm -rf "$in_memory"' EXIT
    chmod 711 "$in_memory"
    if [ "$(df --output=avail -k "$in_memory" | tail -n 1)" -ge 8000000 ] && cp "$(type -P true)" "$in_memory" && "$in_memory/true" 2>/dev/null; then
        export TMPDIR=$in_memory
    fi
fi
