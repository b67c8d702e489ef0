#!/bin/sh
# Makes a cluster in the current folder, and runs a parallel CREATE INDEX and twenty transactions.
set -e
export LC_ALL=C
initdb -D data -A trust > initdb.txt
echo "unix_socket_directories = '$PWD'" >> data/postgresql.conf
pg_ctl -D data -l data/log -w start
createdb -h "$PWD" bench
pgbench -h "$PWD" -i -s 1 bench
psql -h "$PWD" bench -c 'set max_parallel_maintenance_workers = 2; set min_parallel_table_scan_size = 0;
  create index on pgbench_accounts(bid);'
pgbench -h "$PWD" -t 10 -c 2 bench
pg_ctl -D data stop
