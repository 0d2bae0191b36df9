#!/usr/bin/env bash
# Starts or stops a PostgreSQL server for rows.py, of Debian's package postgresql, as the user nobody. It listens on a
# socket in BENCH_DIR only and keeps its data there.
# Usage: bench/postgres.sh start|stop
set -eu
folder=${BENCH_DIR:-/tmp/lembokuj-bench}/postgres
programs=$(ls -d /usr/lib/postgresql/*/bin | sort -V | tail -n 1)
as_nobody="setpriv --reuid=nobody --regid=nogroup --clear-groups"
case "$1" in
start)
  if [ ! -d "$folder/data" ]; then
    mkdir -p "$folder"
    chown nobody:nogroup "$folder"
    cd "$folder"
    $as_nobody "$programs/initdb" -D "$folder/data" -U bench --no-locale -E UTF8 -A trust >"$folder/made" 2>&1
  fi
  cd "$folder"
  $as_nobody "$programs/pg_ctl" -D "$folder/data" -l "$folder/log" -w start -o "-c listen_addresses='' \
    -c unix_socket_directories=$folder -c shared_buffers=1GB -c work_mem=512MB -c max_wal_size=4GB -c fsync=off \
    -c synchronous_commit=off -c full_page_writes=off -c autovacuum=off -c max_parallel_workers=8 \
    -c max_parallel_workers_per_gather=4 -c jit=off" >"$folder/started"
  ;;
stop) cd "$folder" && $as_nobody "$programs/pg_ctl" -D "$folder/data" -m fast -w stop >"$folder/stopped" ;;
esac
