#!/usr/bin/env bash
#SBATCH --job-name=aspenum
#SBATCH --ntasks=1
#SBATCH --requeue
# Solves the parts of a program as a Slurm array, one a task; the folder lies where all machines see it.
#   prepare.sh 500 parts < program.aspif
#   sbatch --array=1-$(wc -l < parts/cubes) slurm.sh parts [OPTION OF aspenum]..
#   join.py parts                         once all tasks have ended
cd "$1" || exit 1
shift
[ -e "out/$SLURM_ARRAY_TASK_ID" ] || exec sh part.sh "$SLURM_ARRAY_TASK_ID" "$@"
