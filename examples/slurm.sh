#!/bin/sh
#SBATCH --job-name=nbrun
#SBATCH --cpus-per-task=4
#SBATCH --requeue
# One process a shard: sbatch --array=0-$((N - 1)) slurm.sh SHARDS, with the N that shards.py printed. The kernels of a shard share its processors:
# ask for no more than a node has. A shard that was cut off, or whose node was lost, runs again: each output is what it was or a whole notebook.
# Slurm ends whatever kernels a shard leaves behind.
exec "${NBRUN:-/opt/nbrun/bin/nbrun}" --jobs "$1/$(printf %03d "$SLURM_ARRAY_TASK_ID").json" --kernel-path /usr/share/jupyter/kernels
