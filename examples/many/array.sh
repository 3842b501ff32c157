#!/bin/sh
# An array job of Slurm: one task for each fabric from 1 to 100, each with one processor.
#   sbatch array.sh
#   cat results/* | sort -n > results.txt
#SBATCH --job-name=drill
#SBATCH --array=1-100
#SBATCH --cpus-per-task=1
#SBATCH --output=results/%a.log
set -eu
cd "${SLURM_SUBMIT_DIR:-$(dirname "$0")}"
mkdir -p results
./drill_one "$SLURM_ARRAY_TASK_ID" > "results/$SLURM_ARRAY_TASK_ID"
