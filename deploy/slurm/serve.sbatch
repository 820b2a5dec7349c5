#!/bin/sh
# Sessions as an array job, several side by side in each task, at one server that has the task's processors for workers.
#
#   sbatch --array=1-N serve.sbatch FOLDER PER
#
# Task k takes PER names of FOLDER/list, from line (k - 1) * PER + 1 on, at most 64; each session is a tenant of its own. Replies
# as by sessions.sbatch, and the server's lines of usage, for accounting, in FOLDER/usage.k.
#SBATCH --job-name=omptaskd-serve --ntasks=1 --cpus-per-task=2 --mem=500M
#SBATCH --requeue
#SBATCH --output=/dev/null
folder=$1 per=$2
at=$(mktemp -d) || exit 2
trap 'rm -rf "$at"' EXIT
first=$(((SLURM_ARRAY_TASK_ID - 1) * per + 1))
names=$(sed -n "$first,$((first + per - 1))p" "$folder/list")
count=0 tenants=
for name in $names; do
  count=$((count + 1))
  tenants="$tenants s$count"
done
[ "$count" -gt 0 ] || exit 2
# shellcheck disable=SC2086
/usr/bin/omptaskd serve --socket "$at/socket" --workers "$SLURM_CPUS_PER_TASK" --sessions 16 --count "$count" $tenants > "$at/usage" &
server=$!
until [ -S "$at/socket" ]; do
  kill -0 "$server" || exit 2
  sleep 0.05
done
k=0 clients=
for name in $names; do
  k=$((k + 1))
  (
    beside=$folder/$name.replies.$SLURM_JOB_ID~
    { printf '["hello","s%d"]\n' "$k"; cat "$folder/$name.in"; } | nc -N -U "$at/socket" | tail -n +2 > "$beside" &&
      mv "$beside" "$folder/$name.replies"
  ) &
  clients="$clients $!"
done
# shellcheck disable=SC2086
wait $clients
wait "$server" && mv "$at/usage" "$folder/usage.$SLURM_ARRAY_TASK_ID"
