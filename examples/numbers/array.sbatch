#!/bin/sh
#SBATCH --job-name=fst-batch
#SBATCH --cpus-per-task=1
# A task of a Slurm array: lines SIZE * (task - 1) + 1 to SIZE * task of LINES_FILE through the cascade of FIRST and
# SECOND, to ANSWERS.task, with the numbers that they have in the whole file.
set -eu
task=$SLURM_ARRAY_TASK_ID
before=$(((task - 1) * SIZE))
LC_ALL=C sed -n "$((before + 1)),$((before + SIZE))p" "$LINES_FILE" |
  fst batch "$FIRST" "$SECOND" - - |
  LC_ALL=C awk -F '\t' -v OFS='\t' -v before="$before" '{ $1 += before } 1' > "$ANSWERS.$task.draft"
mv "$ANSWERS.$task.draft" "$ANSWERS.$task"
