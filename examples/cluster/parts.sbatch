#!/bin/sh
#SBATCH --job-name=parts
#SBATCH --cpus-per-task=2
#SBATCH --mem=512M
#SBATCH --requeue
# One task of an array of TASKS: parts.sbatch FOLDER CODE DIGEST TASKS. It computes every TASKS-th part from its own number on, if that has no answer yet.
left=$("$SCALE" list "$1") || exit 1
failed=0
for part in $(echo "$left" | awk -v task="$SLURM_ARRAY_TASK_ID" -v tasks="$4" 'NF && ($1 - task) % tasks == 0'); do
    "$SCALE" one "$1" "$part" "$2" --of "$3" || failed=1
done
exit "$failed"
