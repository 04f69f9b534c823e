#!/bin/sh
# An array job of Slurm: each task checks one history of a folder that all nodes share. At the top of the checkout:
#
#     CASBENCH=$PWD/casbench sbatch --wait --array=0-$(($(ls DIR/*.ndjson | wc -l) - 1)) examples/machines/slurm.sbatch DIR --profile opensearch
#     PYTHONPATH=recording python3 -m casbench_recording.verdicts DIR
#
#SBATCH --job-name=casbench
#SBATCH --ntasks=1
#SBATCH --cpus-per-task=1
#SBATCH --mem=1G
#SBATCH --output=casbench-%A_%a.out

folder=$1
shift
exec examples/machines/judge-one.sh "$folder" "$SLURM_ARRAY_TASK_ID" "$@"
