# What the worked loaders' scripts share: a PostgreSQL and an SQLite of their own, the loader built, and the trials that are the same for files and
# for media. A script sources it, has `contents` and `load` of its own, and sets `loader`, its program.

root=$(dirname -- "$(dirname -- "$(readlink -f -- "${BASH_SOURCE[0]}")")")
work=
server=

# Where the amount (C12) begins in a payment, and where the digit that is damaged stands in it.
amount_in_payment=79
digit_in_amount=5

fail() { # MESSAGE
    echo "failed: $1" >&2
    exit 1
}

# A second line of the figures stands below the first.
report() { # WHAT FIGURES
    printf '  %-12s%s\n' "$1" "${2//$'\n'/$'\n              '}"
}

# The folder of PostgreSQL's programs, the newest where there are several; nothing where it is not installed.
postgresql_programs() {
    find /usr/lib/postgresql -path '*/bin/initdb' -printf '%h\n' 2>/dev/null | sort -V | tail -n 1
}

install_packages() { # PACKAGES..
    DEBIAN_FRONTEND=noninteractive apt-get install -y --no-install-recommends "$@"
}

# Debian's postgresql makes a server of its own and starts it, which nobody has asked for here. An installation that is there keeps its settings.
want_no_other_server() {
    local settings=/etc/postgresql-common/createcluster.conf
    [ ! -e "$settings" ] || return 0
    install_packages postgresql-common
    echo "create_main_cluster = false" >>"$settings"
}

install_missing() {
    local missing=()
    command -v python3 >/dev/null || missing+=(python3)
    command -v sqlite3 >/dev/null || missing+=(sqlite3)
    [ -n "$(postgresql_programs)" ] || missing+=(postgresql)
    [ ${#missing[@]} -gt 0 ] || return 0
    [ "$(id -u)" -eq 0 ] || fail "missing, for root to install with apt-get: ${missing[*]}"
    apt-get update >&2
    [ -n "$(postgresql_programs)" ] || want_no_other_server >&2
    install_packages "${missing[@]}" >&2
}

# Builds the loader, from the C files given.
build_loader() { # OPTION-OR-FILE..
    local archive
    archive=$("$root/library")
    mkdir -p "$(dirname "$loader")"
    "$root/tools/x86-64" cc -std=c11 -O2 -Wall -Wextra -Werror -I"$root/include" -o "$loader" "$@" "$archive"
}

# PostgreSQL does not run as root: its package has made a user for it.
as_server() { # COMMAND..
    if [ "$(id -u)" -eq 0 ]; then
        (cd / && exec setpriv --reuid=postgres --regid=postgres --init-groups "$@")
    else
        "$@"
    fi
}

# The server listens at a socket in its own folder, which nobody else can enter, and at no port.
start_postgresql() {
    local log=$work/postgresql.log
    as_server "$programs/initdb" --pgdata="$server/data" --username=loader --auth=trust --no-locale --encoding=UTF8 --no-sync \
        >"$log" 2>&1 || fail "initdb: $(cat "$log")"
    as_server "$programs/pg_ctl" start --wait --pgdata="$server/data" --options="-k $server -p 5432 -c listen_addresses=" \
        >"$log" 2>&1 || fail "pg_ctl: $(cat "$log")"
}

clean_up() {
    if [ -n "$server" ] && [ -e "$server/data/postmaster.pid" ]; then
        as_server "$programs/pg_ctl" stop --wait --mode=fast --pgdata="$server/data" >/dev/null || echo "PostgreSQL has not stopped" >&2
    fi
    rm -rf -- ${work:+"$work"} ${server:+"$server"}
}

in_postgresql() { # OPTIONS..
    "$programs/psql" --no-psqlrc --quiet --no-align --tuples-only --set=ON_ERROR_STOP=1 --set=FETCH_COUNT=10000 \
        --host="$server" --port=5432 --username=loader --dbname=postgres "$@"
}

in_sqlite() { # [SQL]
    sqlite3 -batch -bail -init /dev/null "$work/payments.sqlite" "$@"
}

query() { # STORE SQL
    case $1 in
    postgresql) in_postgresql --command="$2" ;;
    sqlite) in_sqlite "$2" ;;
    esac
}

# Starts both stores, with the tables and views of a script of SQL. All of it is removed when the script ends.
start_stores() { # SQL-SCRIPT
    programs=$(postgresql_programs)
    trap clean_up EXIT
    trap 'exit 1' HUP INT TERM
    work=$(mktemp -d)
    server=$(as_server mktemp -d)
    start_postgresql
    in_postgresql --file="$1"
    in_sqlite <"$1"
}

same_in_both() {
    local in_one in_other
    in_one=$(contents postgresql)
    in_other=$(contents sqlite)
    [ "$in_one" = "$in_other" ] || fail "the stores differ: $in_one and $in_other"
    report "in both" "$in_one"
}

# The view puts leading zeros back.
shown_by_both() { # CONDITION BANK-CODE|ACCOUNT
    local store shown
    for store in postgresql sqlite; do
        shown=$(query "$store" "select bank_code, account from payments_as_written where $1")
        [ "$shown" = "$2" ] || fail "$store shows $shown as written, not $2"
    done
}

# Makes a copy that has a letter in the place of one byte.
damage() { # INPUT COPY BYTE
    cp "$1" "$2"
    printf X | dd of="$2" bs=1 seek="$3" conv=notrunc status=none
}

refused_by_both() { # NUMBER INPUT REFUSAL
    local store before after said status
    for store in postgresql sqlite; do
        before=$(contents "$store")
        status=0
        said=$(load "$store" "$1" "$2" 2>&1) || status=$?
        after=$(contents "$store")
        report loader "$said"
        [ "$status" -eq 1 ] || fail "the loader has ended with $status, not with 1"
        [ "$said" = "$3" ] || fail "the loader does not say what was expected: $3"
        [ ! -e "$work/rows" ] || fail "the loader has written rows of a refused input"
        [ "$after" = "$before" ] || fail "$store is not as it was: $before, now $after"
        report "$store" "as before: $after"
    done
}
