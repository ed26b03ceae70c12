#!/usr/bin/env bash
# A Slurm array that plans the nights of a list, one folder on each line and one task a night. From the top of the repository:
#   sbatch --array=1-$(grep -c '' LIST) examples/many/nights.sbatch LIST NODES
#SBATCH --job-name=nights
#SBATCH --ntasks=1
#SBATCH --cpus-per-task=1
#SBATCH --mem=256M
#SBATCH --time=00:10:00
#SBATCH --output=nights-%A.log
#SBATCH --open-mode=append
folder=$(sed -n "${SLURM_ARRAY_TASK_ID}p" "$1")
[ -n "$folder" ] || { echo "nights: $1 has no line $SLURM_ARRAY_TASK_ID" >&2; exit 2; }
exec examples/many/night "$folder" "$2"
