#!/bin/bash
# One task of a job array of Slurm: sbatch --wait --array=1-N slurm_part.sbatch TEXT CONVERT'S FLAGS
# Takes its part of N of TEXT, cut after line feeds, through the program, and leaves it as TEXT.NUMBER.out once it is whole.
set -o pipefail
text=$1 whole=$1.$SLURM_ARRAY_TASK_ID.out
shift
split -n "l/$SLURM_ARRAY_TASK_ID/$SLURM_ARRAY_TASK_COUNT" "$text" | nfstream convert "$@" > "$whole.new" && mv "$whole.new" "$whole"
