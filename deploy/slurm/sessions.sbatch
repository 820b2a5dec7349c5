#!/bin/sh
# Sessions as an array job, one task each.
#
#   sbatch --array=1-N%16 sessions.sbatch FOLDER
#
# Line k of FOLDER/list names a session, FOLDER/NAME.in, whose replies become FOLDER/NAME.replies. Replies depend on the session's
# bytes alone: so a task that is run again, since its node failed, writes the same file, and no half of one is ever seen.
#SBATCH --job-name=omptaskd --ntasks=1 --cpus-per-task=1 --mem=200M
#SBATCH --requeue
#SBATCH --output=/dev/null
folder=$1
name=$(sed -n "${SLURM_ARRAY_TASK_ID}p" "$folder/list")
[ -n "$name" ] || exit 2
beside=$folder/$name.replies.$SLURM_JOB_ID~
/usr/bin/omptaskd solo < "$folder/$name.in" > "$beside" && mv "$beside" "$folder/$name.replies"
