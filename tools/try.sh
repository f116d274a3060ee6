#!/bin/sh
# Proves and builds clampcheck and runs it on a job: tools/try.sh [JOB]. Without a job it takes examples/sign.job.
# tools/try.sh --svg [JOB] does the same for curvesvg, which writes the job's curve as path data.
# It ends with 0 where the program answered, 2 where it refused the job, 3 where there is no answer.
top=$(cd "$(dirname "$0")/.." && pwd) || exit 3
command -v python3 >/dev/null || { echo "Python 3 (python3) is not on the PATH." >&2; exit 3; }
exec python3 -B "$top/tools/prove_and_run.py" "$@"
