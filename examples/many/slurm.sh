#!/usr/bin/env bash
#SBATCH --job-name=dtx
#SBATCH --ntasks=1
#SBATCH --cpus-per-task=1
#SBATCH --mem=64M
# One piece as one job of an array, over a folder that all machines share. excite.sh, receive.sh and network.sh submit it
# where SLURM=1, in that folder, and wait for all of them.

exec ./piece.sh "$SLURM_ARRAY_TASK_ID"
