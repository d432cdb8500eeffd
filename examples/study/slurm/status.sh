#!/bin/sh
# Snakemake calls it with the number of a job: it says whether the job runs, has succeeded, or has failed, as where it
# was killed for its time or memory.
case $(sacct --jobs="$1" --format=State --noheader --parsable2 | head -n 1) in
COMPLETED) echo success ;;
"" | PENDING | CONFIGURING | RUNNING | COMPLETING | SUSPENDED | REQUEUED) echo running ;;
*) echo failed ;;
esac
