#!/bin/bash
# Sends the requests on standard input to a hub, and prints their replies.
#
#     ask.sh PORT < requests
#
# The exit status is 0 if all are answered, 1 if one is refused, 2 for other words, 3 if the hub can't be reached or leaves.
if [[ ! $1 =~ ^[0-9]+$ || $# -ne 1 ]]; then
    sed -n '2,6s/^# \{0,1\}//p' "$0" >&2
    exit 2
fi
requests=$(cat)
# The lines of a change behind its first begin with one of these letters; each other line is a request.
left=$(grep -cv '^[idrmu] ' <<< "$requests")
exec 3<>"/dev/tcp/127.0.0.1/$1" || exit 3
printf '%s\n' "$requests" >&3
status=0
# The last line of a reply begins with ok or no.
while ((left > 0)) && IFS= read -r line <&3; do
    printf '%s\n' "$line"
    case $line in
        ok*) ((left--)) ;;
        no*) ((left--)); status=1 ;;
    esac
done
((left == 0)) || exit 3
exit "$status"
