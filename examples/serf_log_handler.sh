#!/bin/sh
# Appends a line for `serf-replay judge` for each user event and each query that an agent passes to its handlers:
#     serf agent -event-handler user=./serf_log_handler.sh -event-handler query=./serf_log_handler.sh
# The line begins with the date and the time of day, in UTC, which `judge` prints with it.
# SERF_LOG names the file. Standard output stays empty, so this script never answers a query.
#
# With arguments, which are the file and a command, it also runs the command as the handler:
#     serf agent -event-handler 'user=./serf_log_handler.sh /var/log/handlers.log ./deploy.sh'
# For a user event, the log then says that the handler began, and how it ended: `judge` finds handlers that were cut off or that failed.
# The command has the same standard input, output and environment as a handler, and this script ends with its status.
#
# Each text is one word: a space is %20, a newline %0A, a carriage return %0D and a percent sign %25. An empty text is -, and the
# text - is %2D.
# Serf adds a newline to a payload that doesn't end with one, so the script leaves out one newline at its end.
# Serf passes no query ID to a handler, so the line has a checksum of the query's name and payload instead.
own_locale=${LC_ALL-unset}
LC_ALL=C
export LC_ALL
return=$(printf '\r')

# Prints the text on standard input as one word.
word() {
	text=$(tr -d '\000' | sed "s/%/%25/g; s/ /%20/g; s/$return/%0D/g; s/\$/%0A/" | tr -d '\n' | sed 's/%0A$//')
	case $text in
	'') text=- ;;
	-) text=%2D ;;
	esac
	printf '%s' "$text"
}

# Appends a line with its date.
append() {
	printf '%s %s\n' "$(date -u +%Y-%m-%dT%H:%M:%SZ)" "$1" >>"$log"
}

# Runs the command in the locale of this script's caller.
run() {
	case $own_locale in
	unset) unset LC_ALL ;;
	*) LC_ALL=$own_locale ;;
	esac
	"$@"
}

log=${SERF_LOG:-serf.log}
if [ $# -gt 0 ]; then
	log=$1
	shift
fi
case $SERF_EVENT in
user | query) ;;
*)
	[ $# -eq 0 ] && exit 0
	run exec "$@"
	;;
esac
if [ $# -gt 0 ]; then
	# The payload is read twice, from a file that is removed before the command begins.
	input=$(mktemp) || run exec "$@"
	cat >"$input" && exec 3<"$input" 4<"$input" || exit
	rm "$input"
else
	exec 3<&0
fi

node=$(printf '%s' "$SERF_SELF_NAME" | word)
payload=$(word <&3)
exec 3<&-
case $SERF_EVENT in
user)
	name=$(printf '%s' "$SERF_USER_EVENT" | word)
	event="$node $SERF_USER_LTIME $name $payload"
	if [ $# -eq 0 ]; then
		append "event $event"
		exit
	fi
	append "begun $event"
	(run exec "$@") <&4 4<&-
	status=$?
	append "ended $event $status"
	exit $status
	;;
query)
	name=$(printf '%s' "$SERF_QUERY_NAME" | word)
	sum=$(printf '%s %s' "$name" "$payload" | cksum)
	append "query $node $SERF_QUERY_LTIME ${sum%% *}"
	[ $# -eq 0 ] && exit 0
	run exec "$@" <&4 4<&-
	;;
esac
