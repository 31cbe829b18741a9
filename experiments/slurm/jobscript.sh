#!/bin/sh
# properties = {properties}
# A job of Slurm: where it ends well, it says so in a file, which needs no question to Slurm (status.py).
trap '[ $? = 0 ] && [ "$SWEEP_JOBS" ] && : > "$SWEEP_JOBS/$SLURM_JOB_ID.done"' EXIT
{exec_job}
