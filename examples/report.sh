#!/bin/sh
# A report for cron: report.sh IN OUT [options of nbrun]. A line in a crontab, where each % has to be written \%:
#   30 3 * * * /opt/nbrun/share/nbrun/examples/report.sh /srv/reports/sales.ipynb "/srv/reports/$(date +\%F).ipynb" --cwd /srv/reports
# It tries again what may go well later, and keeps nbrun's lines in a log. It prints only what somebody has to look at, so that cron mails that.
# One run at a time has a given OUT: a second one that comes meanwhile ends with 75.
set -u
if [ $# -lt 2 ]; then
    echo "usage: report.sh IN OUT [options of nbrun]" >&2
    exit 2
fi
nbrun=${NBRUN:-/opt/nbrun/bin/nbrun}
kernels=${KERNELS:-/usr/share/jupyter/kernels}
in=$1
out=$2
shift 2
log=${LOG:-$out.log}
exec 9>"$out.lock" || exit 10
if ! flock -n 9; then
    echo "$in: another run has $out" >&2
    exit 75
fi
for try in 1 2 3; do
    # The lock isn't handed on: a kernel that stays behind must not hold it. The hint is what nbrun prints to standard error.
    hint=$("$nbrun" "$in" "$out" --kernel-path "$kernels" "$@" 2>&1 >>"$log" 9>&-)
    status=$?
    case $status in
    0 | 11) exit 0 ;;
    3 | 6 | 7 | 8 | 10 | 12 | 14 | 16) [ "$try" = 3 ] || sleep "${WAIT:-300}" ;; # it may go well later
    *) break ;;                                                                  # it would end in the same way
    esac
done
echo "$in: status $status after $try tries: $(tail -n 1 "$log")" >&2
[ -z "$hint" ] || echo "$hint" >&2
exit "$status"
