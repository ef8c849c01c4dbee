# shellcheck shell=bash
# Read by the tools of bash that take --built alone: --help prints what is at their head, and at any other word they end
# with 2.
case ${*:---built} in
--built) ;;
--help) sed -n '2,/^set/s/^# \{0,1\}//p' "$0" && exit ;;
*) echo "${0##*/}: takes no words but --built and --help" >&2 && exit 2 ;;
esac
