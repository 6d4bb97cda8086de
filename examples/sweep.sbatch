#!/bin/sh
#SBATCH --job-name=netsh-sweep
#SBATCH --array=1-100
#SBATCH --ntasks=1
#SBATCH --mem=200M
#SBATCH --time=10
#SBATCH --output=sweep.%a.lines
# A sweep as a Slurm array: each task is a seed, and runs the world of the file BASE with each loss.
#     sbatch --export=ALL,BASE=base.world examples/sweep.sbatch
for loss in ${LOSSES:-0 20 50 100 150 200 250 300 400 500}; do
    "${SWEEP:-examples/sweep.sh}" "$BASE" "$SLURM_ARRAY_TASK_ID" "$loss"
done
