#!/usr/bin/env bash
# A book that lasts: desks, servers and disks that fail, in SQLite and in a PostgreSQL server that the tests start for
# themselves. Takes Debian's python3, and its packages postgresql and python3-psycopg, which it installs; where it cannot,
# one line says so, and under CI it fails.
set -euo pipefail
cd -- "$(dirname -- "$(readlink -f -- "$0")")/.."

python=/usr/bin/python3
said=$(mktemp)
trap 'rm -f "$said"' EXIT

missing() {
    compgen -G '/usr/lib/postgresql/*/bin/postgres' >/dev/null || echo postgresql
    $python -c 'import psycopg' 2>/dev/null || echo python3-psycopg
}
install_missing() {
    # no cluster of the machine's own is wanted: the tests make theirs
    mkdir -p /etc/postgresql-common && [ -e /etc/postgresql-common/createcluster.conf ] ||
        echo 'create_main_cluster = false' >/etc/postgresql-common/createcluster.conf
    # shellcheck disable=SC2046  # a word each
    DEBIAN_FRONTEND=noninteractive apt-get install -qq -y --no-install-recommends $(missing) >"$said" 2>&1
}
if [ -n "$(missing)" ]; then
    install_missing || { sleep 10; apt-get update -qq >/dev/null 2>&1; install_missing; } || true
    if [ -n "$(missing)" ]; then
        echo "not installed, and apt-get could not, so nothing is tried with PostgreSQL: $(missing | xargs)"
        [ -z "${CI:-}" ] || exit 1
    fi
fi

status=0
(cd python && $python -W always -m unittest -q tests.book.verbs tests.book.faults tests.book.moving tests.book.killed) >"$said" 2>&1 ||
    status=$?
cat "$said"
[ $status = 0 ] || exit $status
# a file or a connection that is not closed is told as a warning alone
if grep -E 'ResourceWarning|DeprecationWarning' "$said"; then
    echo 'warnings, see above' >&2
    exit 1
fi
