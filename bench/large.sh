#!/usr/bin/env bash
# A network of 64 access points and 1,024 stations, the most that a script may list (the scripts are made by bench/large.py).
# How long a replay takes, and how much memory, at a quarter, a half and the whole of the largest script: associations, fast transitions,
# payloads of one octet each way and new group keys. What one handshake, one payload of one octet and one fast transition cost where 1,024
# stations are listed and have sessions, beside the same where there is one station: two scripts, of 10 and of 60, the one less the other,
# over 50. What a new group key costs a session, at an access point with 1,024 sessions: by itself, and with its two messages.
# And what a round of sixteen events at each access point costs, beside the same events one by one: payloads of 1, of 256 and of 1,500 octets
# to each station, and authentication requests, at each of which the access point pulls a key from another. A third script has all lines
# but these; what each of the two costs more is the cost of the events.
# Instructions are counted by callgrind of valgrind, and where that is missing seconds of one processor are measured. The seconds of rounds
# are by the clock, the least of three runs, and also those of all processors together. Prints one figure a line, and what it means. It runs
# the program that `rt ci` proved and built, and says so and ends with 1 where there is none. Run it from anywhere in the repository, with
# nothing else running.
source "$(dirname "$0")/common.sh"
built kehtrop

# It ends where one of the sessions did not begin at both ends, one of the payloads was not handed up or one of the group keys not drawn;
# and says what was replayed.
went_well() { # REPORT SESSIONS PAYLOADS ROAMS GROUP-KEYS
    if [ "$(grep -c '^finish ' "$1")" != $((2 * $2)) ] || [ "$(grep -c '^up ' "$1")" != "$3" ] \
        || [ "$(grep -c '^install a[0-9]* all gtk' "$1")" != $((64 + $5)) ]; then
        echo "a session, a payload or a group key did not come to its end" >&2
        exit 1
    fi
    echo "$(($2 - $4)) associations, $4 roams, $3 payloads and $5 new group keys"
}

python3 bench/large.py "$work" mixed
replays went_well

# The instructions, or else the seconds, of the replay of a script. It ends where something in it was refused.
of_script() { # NAME
    "$program" replay < "$work/$1" > "$work/$1.report"
    if ! tail -3 "$work/$1.report" | grep -q '^end frames .* answered 0 refused 0 ignored 0$'; then
        echo "a frame of $1 was refused" >&2
        exit 1
    fi
    counted "$work/$1.profile" "$work/$1" 20 replay
}

python3 bench/large.py "$work" one
for piece in handshake payload roam; do
    few=$(of_script "$piece.1.10")
    more=$(of_script "$piece.1.60")
    many_few=$(of_script "$piece.1024.10")
    many_more=$(of_script "$piece.1024.60")
    of_one "one $piece, one station" "$few" "$more" 50
    of_one "one $piece, 1024 stations" "$many_few" "$many_more" 50
    python3 -c "print('one $piece, 1024 stations beside one: %+.2f %%' % (100 * (($many_more - $many_few) / ($more - $few) - 1)))"
done
none=$(of_script none)
of_one "a new group key, a session of 1024" "$none" "$(of_script drawn)" 1024
of_one "a new group key with its messages, a session of 1024" "$none" "$(of_script rekeyed)" 1024

# The cost of one round of 1,024 events, over all rounds: as rounds, and one by one.
many=10
python3 bench/large.py "$work" rounds "$many"
of_rounds() { # NAME TEXT
    local way clock processors clock_neither processors_neither
    for way in neither alone round; do
        read -r clock processors < <(clocked "$work/$1.report" "$work/$1.$way" "$program" replay)
        grep -c '^sent ' "$work/$1.report" > "$work/$1.$way.sent"
        if [ "$way" = neither ]; then
            clock_neither=$clock processors_neither=$processors
            continue
        fi
        python3 -c "
clock, processors = ($clock - $clock_neither) / $many, ($processors - $processors_neither) / $many
print('1024 events at 64 access points, $2, %s: %.4g ms by the clock, %.4g ms of all processors' % ({'alone': 'one by one', 'round': 'as one round'}['$way'], 1e3 * clock, 1e3 * processors))"
    done
    if ! cmp -s "$work/$1.alone.sent" "$work/$1.round.sent"; then
        echo "the rounds did not send what the single events sent" >&2
        exit 1
    fi
}
for octets in 1 256 1500; do of_rounds "$octets" "payloads of $octets octets"; done
of_rounds pulls "authentication requests"
