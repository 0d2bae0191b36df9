#!/usr/bin/env bash
# Starts or stops a ClickHouse server for compare.py, of Debian's packages clickhouse-server and clickhouse-client, as the
# user nobody. It listens only on this machine and keeps what it needs in BENCH_DIR.
# Usage: bench/clickhouse.sh start|stop
set -eu
folder=${BENCH_DIR:-/tmp/lembokuj-bench}/clickhouse
case "$1" in
start)
  mkdir -p "$folder/data" "$folder/scratch"
  cat >"$folder/config.xml" <<XML
<yandex>
 <logger><level>warning</level><log>$folder/log</log><errorlog>$folder/errors</errorlog></logger>
 <tcp_port>19000</tcp_port><listen_host>127.0.0.1</listen_host>
 <mark_cache_size>5368709120</mark_cache_size>
 <path>$folder/data/</path><tmp_path>$folder/scratch/</tmp_path>
 <users_config>users.xml</users_config><default_profile>default</default_profile><default_database>default</default_database>
</yandex>
XML
  cat >"$folder/users.xml" <<XML
<yandex>
 <profiles><default><max_memory_usage>10000000000</max_memory_usage></default></profiles>
 <users><default><password></password><networks><ip>127.0.0.1</ip></networks>
  <profile>default</profile><quota>default</quota></default></users>
 <quotas><default></default></quotas>
</yandex>
XML
  chown -R nobody:nogroup "$folder"
  cd "$folder"
  setpriv --reuid=nobody --regid=nogroup --clear-groups /usr/sbin/clickhouse-server --config-file="$folder/config.xml" \
    >"$folder/output" 2>&1 &
  echo $! >"$folder/pid"
  sleep 3
  ;;
stop) kill "$(cat "$folder/pid")" && rm "$folder/pid" ;;
esac
