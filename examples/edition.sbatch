#!/bin/sh
#SBATCH --job-name=edition
#SBATCH --cpus-per-task=1
# A part of a price list, as a task of a Slurm job array: the plans that names.NNNN names, a line each, to lines.NNNN.
# docs/GUIDE.md, "Many machines", shows the whole.
# That a plan is refused is no failure of the task; that one cannot be read is.
part=$(printf %04d "$SLURM_ARRAY_TASK_ID")
xargs -r -d '\n' sh -c 'yaffledesk list "$@" || [ $? -eq 1 ]' list <"names.$part" >"lines.$part"
