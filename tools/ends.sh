#!/usr/bin/env bash
# How the program ends between its real streams: the number that it exits with, the whole of what it writes to standard output, and
# the line on standard error; at each limit of a script, too, and one past it. It prints the cases that are wrong and a last line with
# counts; its status is 0 where none is wrong.
# Whole scripts with their reports, and lines that are refused, stand in the files of `tools/ends`.
# It runs the program that `rt ci` or `rt run` proved and built (or the one named by KEHTROP, as `tools/build_unproved.sh` leaves one), and does nothing
# where there is none. Run it from anywhere in the repository.
source "$(dirname "$0")/program.sh"
work=$(mktemp -d)
trap 'rm -rf "$work"' EXIT

right=0 wrong=0
# One case: the number, the line on standard error, a file with what standard output gets, the script, the words.
ends() { # NUMBER SAYS WRITES SCRIPT WORDS..
    local number=$1 says=$2 writes=$3 script=$4 ended=0
    shift 4
    "$program" "$@" < "$script" > "$work/written" 2> "$work/said" || ended=$?
    judge "$number" "$says" "$writes" "$ended" "$*"
}

judge() { # NUMBER SAYS WRITES ENDED NAME
    # The word that is wrong in a line, and its cause, are looked at where the text names them.
    case "$2" in *" (word "*) ;; *) sed -i 's/^\(line .*\) (word [0-9][^()]*);/\1;/' "$work/said" ;; esac
    if [ -n "$2" ]; then printf '%s\n' "$2" > "$work/to_say"; else : > "$work/to_say"; fi
    if [ "$4" = "$1" ] && cmp -s "$work/to_say" "$work/said" && cmp -s "$3" "$work/written"; then
        right=$((right + 1))
        return
    fi
    wrong=$((wrong + 1))
    echo "$5: ended with $4, and not $1; or other texts:"
    diff "$work/to_say" "$work/said" || true
    diff "$3" "$work/written" || true
}

stored=crates/kehtrop
none=/dev/null
usage="kehtrop 0.1

usage: kehtrop replay < SCRIPT
       kehtrop live PORT < SCRIPT
       kehtrop storm NUMBER
       kehtrop journal < SCRIPT
       kehtrop link PORT END < SCRIPT

  replay    runs the script on standard input, and writes its report to standard output
  live      runs it with frames on UDP sockets of this machine, from that port on, from 1024 to
            64000 in one to ten digits
  storm     runs 2000 events that the number makes, from 0 to 4294967295 in one to ten digits,
            and writes the summary of their report to standard output
  journal   runs the script on standard input, and writes the file of its journal, which holds keys,
            to standard output
  link      runs the script of one end of a link between two processes, holder or asker, on
            standard input, with datagrams on UDP sockets of this machine: the holder's on that
            port, the asker's on the next one

The program ends with
  0  done
  1  these words are no command
  2  a line of the script is refused
  3  the script could not be read
  4  the output could not be written
  5  out of memory
  6  a socket failed
  7  the seed could not be drawn
  8  a line of the script goes past a limit

Example:
  printf 'domain 1\\n' | kehtrop replay"
ends 0 "" "$stored/stdout" "$stored/stdin" replay

# The example of the usage.
printf 'domain 1\n' > "$work/least"
printf 'end frames 0 accepted 0 answered 0 refused 0 ignored 0\nkeys installed 0 resumed 0 used 0 handed-up 0\npremises fresh yes no-collision yes unforged yes\n' > "$work/nothing"
ends 0 "" "$work/nothing" "$work/least" replay

# Words that are no command: nothing is written, and nothing read of what stands on standard input. Which of them is wrong stands
# before the usage.
no_command="has to be replay, live, storm, journal or link"
no_port="has to be a port from 1024 to 64000, in one to ten digits"
no_number="has to be a number from 0 to 4294967295, in one to ten digits"
no_end="has to be holder or asker"
too_many="is one too many"
passes_over() { # SAYS WORDS..
    local ended=0 says=$1
    shift
    { "$program" "$@" > "$work/written" 2> "$work/said" || ended=$?; cat > "$work/unread"; } < "$stored/stdin"
    if ! cmp -s "$stored/stdin" "$work/unread"; then ended="$ended, and read"; fi
    judge 1 "$says
$usage" $none "$ended" "$*"
}
passes_over "word 1 $no_command"
passes_over "a word is not UTF-8" $'\xff'
passes_over "word 2 $no_number" storm ""
passes_over_each() { # SAYS WORDS..
    local says=$1
    shift
    for words in "$@"; do
        # shellcheck disable=SC2086
        passes_over "$says" $words
    done
}
passes_over_each "word 1 $no_command" "frob" "x" "Replay" "Storm 1" "--help" "-h" "help" "help storm" "--version" "-V" "-- replay"
passes_over_each "word 2 $too_many" "replay replay" "replay x" "replay x.txt" "replay storm 5" "replay --help" "journal x" "journal journal" "journal --help"
passes_over_each "word 2 $no_number" "storm" "storm x" "storm -1" "storm +1" "storm 4294967296" "storm 00000000001" "storm --help" "storm x --" "storm x -- 5"
passes_over_each "word 3 $too_many" "storm 0 0" "storm 1 2" "live 20000 20000" "replay -- x" "replay -- --" "journal -- x"
# Behind the command `--` is passed over once.
passes_over_each "word 3 $no_number" "storm --" "storm -- -5" "storm -- --" "storm -- x 5"
passes_over_each "word 3 $no_port" "live --" "live -- x" "live -- -- 20000"
passes_over_each "word 4 $too_many" "storm 0 -- 0" "storm -- 0 0" "live 20000 -- --" "live -- 20000 x"
passes_over_each "word 2 $no_port" "live" "live x" "live -1" "live 80" "live 1023" "live 64001" "live 65001" "live 00000020000" "live 67560"
passes_over_each "word 2 $no_port" "link" "link x" "link holder 20000" "link 1023 holder" "link 64001 asker" "link --help"
passes_over_each "word 3 $no_end" "link 20000" "link 20000 x" "link 20000 Holder" "link 20000 askers" "link 20000 a1"
passes_over_each "word 4 $no_end" "link 20000 --" "link -- 20000 x" "link -- 20000"
passes_over_each "word 4 $too_many" "link 20000 holder asker" "link 20000 asker x"
ends 0 "" "$work/nothing" "$work/least" replay --
for words in "live 1024" "live 64000"; do
    # shellcheck disable=SC2086
    ends 0 "" "$work/nothing" "$work/least" $words
done

# The file of a journal: the lines of the script, each with one line feed, and then those of the entries; nothing where the script is
# refused, and nothing where it cannot be read.
printf 'audit 1\nscript 1\ndomain 1\n' > "$work/file"
ends 0 "" "$work/file" "$work/least" journal
ends 0 "" "$work/file" "$work/least" journal --
printf 'audit 1\nscript 3\ndomain 1\r\n\n# the end\n' > "$work/file"
printf 'domain 1\r\n\n# the end' > "$work/script"
ends 0 "" "$work/file" "$work/script" journal
(cat "$stored/stdin"; echo frob) > "$work/script"
ends 2 "line $(wc -l < "$work/script"): no such word here; the form is that of connect, roam with ft-psk, deliver, alter, cut, inject, retry, rekey, send, expire, revoke, leave, secret with domain 2, renew with domain 2 without ft-psk, announce with mfp or round" $none "$work/script" journal
ends 3 "the script could not be read: is a directory" $none / journal

# An end of a link: what is refused in its script, before it has a socket. tools/link.sh has ends that speak to each other.
key="key $(printf '%064x' 5)"
links() { # NUMBER SAYS LINES
    printf '%b' "$3" > "$work/script"
    ends "$1" "$2" $none "$work/script" link 20000 asker
    ends "$1" "$2" $none "$work/script" link 0000020000 holder
}
links 0 "" "link 1"
links 0 "" "link 1\r\n\n# a comment\n$key\nseed draw\nssid net\n"
links 2 "line 1: not the first line of a script (word 1: it is missing); the form is link 1" ""
links 2 "line 1: not the first line of a script (word 1: no line begins so); the form is link 1" "domain 1\n"
links 2 "line 1: not the first line of a script (word 2); the form is link 1" "link 2\n"
links 2 "line 2: no such word here (word 1: its lines stand later in a script); the form is key <64 digits>" "link 1\nssid net\n"
links 2 "line 2: wrong arguments (word 2: too few or too many digits); the form is key <64 digits>" "link 1\nkey 00\n"
links 2 "line 3: no such word here (word 1: its lines stand earlier in a script); the form is seed <64 digits or draw>" "link 1\n$key\n$key\n"
printf 'link 1\nask x\n' > "$work/script"
ends 2 "line 2: no such word here (word 1: only at the other end of a link); the form is key <64 digits>" $none "$work/script" link 20000 holder
ends 2 "line 2: no such word here (word 1: its lines stand later in a script); the form is key <64 digits>" $none "$work/script" link 20000 asker
links 2 "line 3: no such word here (word 1: no line begins so); the form is seed <64 digits or draw>" "link 1\n$key\npassphrase password\n"
ends 3 "the script could not be read: is a directory" $none / link 20000 asker
(printf 'link 1\n'; head -c 8193 /dev/zero | tr '\0' '#') > "$work/script"
ends 8 "a line of more than 8192 octets" $none "$work/script" link 20000 holder
(printf 'link 1\n'; head -c 65536 /dev/zero | tr '\0' '\n') > "$work/script"
ends 8 "more than 65536 lines" $none "$work/script" link 20000 holder

# A storm writes its summary alone, whatever is on standard input: here a folder, which cannot be read. The summaries are those that
# another implementation makes.
stormed() { # NUMBER FRAMES ACCEPTED ANSWERED REFUSED IGNORED INSTALLED RESUMED USED HANDED-UP
    echo "end frames $2 accepted $3 answered $4 refused $5 ignored $6
keys installed $7 resumed $8 used $9 handed-up ${10}
premises fresh yes no-collision yes unforged yes" > "$work/storm"
    ends 0 "" "$work/storm" / storm "$1"
}
stormed 1 737 367 3 756 0 104 1 62 3
stormed 2 707 361 6 756 1 104 0 38 2
stormed 3 778 406 1 714 1 137 0 46 3
stormed 4 801 412 15 705 0 117 1 49 3
stormed 5 739 364 7 718 0 127 1 58 2
stormed 6 761 421 8 688 1 100 4 41 1
stormed 7 794 432 7 667 1 70 1 47 2
stormed 8 806 405 9 683 0 104 0 43 2
stormed 9 794 408 9 694 0 105 2 43 1
stormed 0 745 395 8 743 0 88 2 52 4
ends 0 "" "$work/storm" $none storm 0
ends 0 "" "$work/storm" "$stored/stdin" storm 0000000000
ends 0 "" "$work/storm" $none storm -- 0

# The lines before the one at fault, and what they write.
printf 'domain 1\nseed %064x\nssid net\npassphrase password\nakm psk\nap 0200000000aa r0kh-1\nsta 0200000000bb\n' 7 > "$work/header"
printf 'install a1 all gtk 1\n' > "$work/started"
printf 'install a1 all gtk 1\nopen s1 a1 connect\nsent 1 s1 a1 assoc-req 61\n' > "$work/begun"
# One case: the first lines of the script, the line behind them, the text without the number of the line, and what is written.
refuses() { # LINES LINE TEXT WRITES
    (head -n "$1" "$work/header"; printf '%s\n' "$2") > "$work/script"
    ends 2 "line $(($1 + 1)): $3" "$4" "$work/script" replay
}
any="that of renew-at with domain 2 without ft-psk, mfp with domain 2 without psk, ap, sta, connect, roam with ft-psk, deliver, alter, cut, inject, retry, rekey, send, expire, revoke, leave, secret with domain 2, renew with domain 2 without ft-psk, announce with mfp or round"
later="that of sta, connect, roam with ft-psk, deliver, alter, cut, inject, retry, rekey, send, expire, revoke, leave, secret with domain 2, renew with domain 2 without ft-psk, announce with mfp or round"
events="that of connect, roam with ft-psk, deliver, alter, cut, inject, retry, rekey, send, expire, revoke, leave, secret with domain 2, renew with domain 2 without ft-psk, announce with mfp or round"
within="that of deliver, alter, cut, inject, retry, rekey, send, expire, revoke or end"
send="send <node> <node or all> <tid 0 to 15 or -> <digits>"
key="passphrase <8 to 63 octets> or psk <64 digits>"
refuses 0 "domain 3" "not the first line of a script; the form is domain 1 or domain 2" $none
refuses 1 "seed draw" "no such line in this kind of run; the form is seed <64 digits>" $none
refuses 1 "seed 00" "wrong arguments; the form is seed <64 digits>" $none
refuses 2 "sid net" "no such word here; the form is ssid <1 to 32 octets>" $none
refuses 3 "key 00" "no such word here; the form is $key" $none
refuses 3 "psk 00" "wrong arguments; the form is psk <64 digits>" $none
refuses 3 "passphrase 1234567" "wrong arguments; the form is passphrase <8 to 63 octets>" $none
refuses 4 "akm wpa" "wrong arguments; the form is akm <psk, psk-sha256 or ft-psk>" $none
refuses 5 "ap 0200000000aa" "wrong arguments; the form is ap <12 digits> <R0KH-ID of 1 to 48 octets>" $none
refuses 5 "turn" "no such line in this kind of run; the form is $any" $none
refuses 6 "sta 0200000000aa" "address or R0KH-ID used before; the form is sta <12 digits>" "$work/started"
refuses 7 "ap 0200000000cc r0kh-2" "no such word here; the form is $later" "$work/started"
refuses 7 "end" "no such word here; the form is $later" "$work/started"
refuses 7 "roam s1 a1" "no such word here; the form is $later" "$work/started"
refuses 7 "conect s1 a1" "no such word here; the form is $later" "$work/started"
refuses 7 "connect s2 a1" "no such node, or a node of the other kind; the form is connect <sta> <ap>" "$work/started"
refuses 7 "retry s1 a1" "no such node, or a node of the other kind; the form is retry <ap> <sta>" "$work/started"
refuses 7 "rekey s1" "no such node, or a node of the other kind; the form is rekey <ap>" "$work/started"
refuses 7 "send s1 all - 00" "no such node, or a node of the other kind; the form is $send" "$work/started"
refuses 7 "send s1 a1 16 00" "wrong arguments; the form is $send" "$work/started"
refuses 7 "expire a1" "wrong arguments; the form is expire <ap> <sta>" "$work/started"
refuses 7 "leave a1" "no such node, or a node of the other kind; the form is leave <sta>" "$work/started"
refuses 7 "deliver 1 to a1" "no such frame was sent; the form is deliver <n> to <node>" "$work/started"
refuses 7 "inject a1 0" "wrong arguments; the form is inject <node> <digits>" "$work/started"
printf 'connect s1 a1\n' >> "$work/header"
refuses 8 "deliver 1 too a1" "wrong arguments; the form is deliver <n> to <node>" "$work/begun"
refuses 8 "alter 1 61 01 to a1" "place or length outside the frame; the form is alter <n> <place> <2 digits> to <node>" "$work/begun"
refuses 8 "cut 1 62 to a1" "place or length outside the frame; the form is cut <n> <length> to <node>" "$work/begun"
refuses 8 "sta 0200000000cc" "no such word here; the form is $events" "$work/begun"

(head -n 7 "$work/header"; echo round; echo "rekey a1") > "$work/script"
ends 2 "line 10: the script ends in a round; the form is end" "$work/started" "$work/script" replay
(head -n 7 "$work/header"; echo round; echo "leave s1") > "$work/script"
ends 2 "line 9: no such word here; the form is $within" "$work/started" "$work/script" replay

# Whole scripts behind a header, of lines with and without their ends.
whole() { # NUMBER SAYS WRITES SCRIPT
    printf '%b' "$4" > "$work/script"
    ends "$1" "$2" "$3" "$work/script" replay
}
for script in '' '\n' '\r\n' 'domain 3\n' 'domain 2 ' 'domain 1\r' 'domain 1\r\r\n'; do
    whole 2 "line 1: not the first line of a script; the form is domain 1 or domain 2" $none "$script"
done
for script in '' '\n' '\r\n' '\n\n# a comment\n\r\n#'; do whole 0 "" "$work/nothing" "domain 1$script"; done
ieee="domain 1\nseed 000102030405060708090a0b0c0d0e0f101112131415161718191a1b1c1d1e1f\nssid IEEE\n"
for passphrase in 12345678 '  234567 ' 123456789012345678901234567890123456789012345678901234567890123; do
    whole 0 "" "$work/nothing" "${ieee}passphrase $passphrase\n"
done
for ssid in '~  ' ' two  spaces ' 0123456789abcdef0123456789abcdef; do
    whole 0 "" "$work/nothing" "$(printf '%b' "$ieee" | head -n 2)\nssid $ssid\n"
done
whole 2 "line 4: wrong arguments; the form is passphrase <8 to 63 octets>" $none "${ieee}passphrase 1234567890123456789012345678901234567890123456789012345678901234\n"
psk="psk f42c6fc52df0ebef9ebb4b90b38a5f902e83fe1b135a70e23aed762e9710a12e\n"
for lines in '' 'akm ft-psk\n' 'akm ft-psk\nmdid a1B2\n'; do whole 0 "" "$work/nothing" "$ieee$psk$lines"; done
printf 'install a1 all gtk 1\nend frames 0 accepted 0 answered 0 refused 0 ignored 0\nkeys installed 1 resumed 0 used 0 handed-up 0\npremises fresh yes no-collision yes unforged yes\n' > "$work/quiet"
for ap in 'FEDCBA987654 r0kh-1' '020000000001 !~' '020000000001 0123456789abcdef0123456789abcdef0123456789abcdef'; do
    whole 0 "" "$work/quiet" "$ieee${psk}akm psk\nap $ap\n"
done

# The stored script without its last line feed; and with the other suite, its key, capital digits, a line more and carriage returns.
head -c -1 "$stored/stdin" > "$work/script"
ends 0 "" "$stored/stdout" "$work/script" replay
sed -e '/^seed/{y/abcdef/ABCDEF/;s/^sEED/seed/;}' -e 's/^passphrase .*/psk f42c6fc52df0ebef9ebb4b90b38a5f902e83fe1b135a70e23aed762e9710a12e/' \
    -e 's/^akm .*/akm psk-sha256/' -e 's/^sta /\n&/' "$stored/stdin" | sed 's/$/\r/' > "$work/script"
ends 0 "" "$stored/stdout" "$work/script" replay

# Each example, its events written with numbers of ten digits and capital digits, has its report.
for example in examples/*.txt; do
    case "$example" in examples/live_*) continue ;; esac
    awk 'function node(k) { if ($k != "all") $k = sprintf("%s%010d", substr($k, 1, 1), substr($k, 2)) }
        function number(k) { if ($k != "-") $k = sprintf("%010d", $k) }
        /^(connect|roam|retry|expire|revoke|renew) / { node(2); node(3) }
        /^renew-at / { number(2) }
        /^(rekey|leave) / { node(2) }
        /^announce / { node(2); $3 = toupper($3) }
        /^secret / { node(2) }
        /^(sta|secret) / && $3 == "psk" { $4 = toupper($4) }
        /^(deliver|alter|cut) / { number(2); node(NF) }
        /^(alter|cut) / { number(3) }
        /^alter / { $4 = toupper($4) }
        /^inject / { node(2); $3 = toupper($3) }
        /^send / { node(2); node(3); number(4); $5 = toupper($5) }
        { print }' "$example" > "$work/script"
    ends 0 "" "${example%txt}report" "$work/script" replay
done

# Lines behind both nodes, of which that one is refused.
breaks() { # NUMBER-OF-LINE TEXT WRITES LINES
    (head -n 7 "$work/header"; printf '%b' "$4") > "$work/script"
    ends 2 "line $1: $2" "$3" "$work/script" replay
}
breaks 8 "wrong arguments; the form is connect <sta> <ap>" "$work/started" 'connect s1\n'
breaks 8 "no such node, or a node of the other kind; the form is connect <sta> <ap>" "$work/started" 'connect a1 s1\n'
breaks 8 "address or R0KH-ID used before; the form is sta <12 digits>" "$work/started" 'sta 0200000000bb\nconnect s1 a1\n'
breaks 9 "no such frame was sent; the form is deliver <n> to <node>" "$work/begun" 'connect s1 a1\ndeliver 2 to a1\n'
breaks 11 "place or length outside the frame; the form is cut <n> <length> to <node>" "$work/begun" 'connect s1 a1\n\n# one octet too many\ncut 1 62 to a1\n'
for lines in 'round\n' 'round'; do breaks 9 "the script ends in a round; the form is end" "$work/started" "$lines"; done
breaks 10 "no such node, or a node of the other kind; the form is rekey <ap>" "$work/started" 'round\nrekey a1\nrekey a2\nend\n'
for lines in 'round\nconnect s1 a1\nend\n' 'round\nround\n' 'round\nleave s1\n'; do
    breaks 9 "no such word here; the form is $within" "$work/started" "$lines"
done
breaks 10 "no such word here; the form is $events" "$work/started" 'round\nend\nsta 020000000012\n'
breaks 10 "no such node, or a node of the other kind; the form is deliver <n> to <node>" "$work/begun" 'connect s1 a1\nround\ndeliver 1 to s1\n'
breaks 11 "no such frame was sent; the form is deliver <n> to <node>" "$work/begun" 'connect s1 a1\nround\ndeliver 1 to a1\ndeliver 2 to a1\nend\n'
breaks 11 "the script ends in a round; the form is end" "$work/begun" 'connect s1 a1\nround\ndeliver 1 to a1\n'
breaks 8 "no such word here; the form is $later" "$work/started" '\xff\n'

# A folder can be opened as standard input, and not read.
ends 3 "the script could not be read: is a directory" $none / replay

# At each limit, and one past it. A text that stands so many times; what is wanted is told as to `ends`.
times() { # NUMBER TEXT
    # shellcheck disable=SC2046,SC2059
    if [ "$1" -gt 0 ]; then printf "$2%.0s" $(seq "$1"); fi
}
summary() { # FRAMES ACCEPTED REFUSED INSTALLED RESUMED USED HANDED-UP
    echo "end frames $1 accepted $2 answered 0 refused $3 ignored 0"
    echo "keys installed $4 resumed $5 used $6 handed-up $7"
    echo "premises fresh yes no-collision yes unforged yes"
}

# A round of so many events, and what stands behind them.
round_of() { # NUMBER SAYS WRITES EVENTS BEHIND
    (head -n 7 "$work/header"; echo round; times "$4" 'inject a1 00\n'; printf '%b' "$5") > "$work/script"
    ends "$1" "$2" "$3" "$work/script" replay
}
(cat "$work/started"; times 1024 'took a1 unread refused malformed 1 1 1\n'; summary 0 0 1024 1 0 0 0) > "$work/round"
round_of 0 "" "$work/round" 1024 'end\n'
round_of 2 "line 1033: the script ends in a round; the form is end" "$work/started" 1024 ''
round_of 2 "line 1033: no such word here; the form is $within" "$work/started" 1024 'frob\n'
round_of 8 "more than 1024 events in a round" "$work/started" 1025 'end\n'
round_of 8 "more than 1024 events in a round" "$work/started" 1025 ''

# So many lines, the first `domain 1` and the others comments, a comment of so many octets, and what stands behind it.
commented() { # NUMBER SAYS LINES OCTETS BEHIND
    local writes=$none
    if [ "$1" = 0 ]; then writes=$work/nothing; fi
    (echo "domain 1"; times $(($3 - 1)) '#\n'; times "$4" '#'; printf '%b' "$5") > "$work/script"
    ends "$1" "$2" "$writes" "$work/script" replay
}
long="a line of more than 8192 octets"
many="more than 65536 lines"
no_word="no such word here; the form is seed <64 digits>"
commented 0 "" 1 8192 ''
commented 0 "" 1 8192 '\n'
commented 0 "" 1 8191 '\r\n'
commented 0 "" 1 8191 '\r'
commented 8 "$long" 1 8193 ''
commented 8 "$long" 1 8193 '\n'
commented 8 "$long" 1 8192 '\r\n'
commented 8 "$long" 1 8193 '\nfrob\n'
commented 2 "line 3: $no_word" 1 8192 '\nfrob\n'
commented 0 "" 65536 0 ''
commented 8 "$many" 65536 1 ''
commented 8 "$many" 65536 0 'frob\n'
commented 8 "$many" 65537 0 ''
commented 2 "line 65536: $no_word" 65535 0 'frob'
commented 8 "$long" 65536 8193 ''

# The front of a line, so many digits, and no line feed.
digits() { # NUMBER SAYS WRITES FRONT DIGITS
    (head -n 7 "$work/header"; printf '%s' "$4"; times "$5" 0) > "$work/script"
    ends "$1" "$2" "$3" "$work/script" replay
}
(cat "$work/started"; echo "took a1 assoc-req refused not-for-me"; summary 0 0 1 1 0 0 0) > "$work/zeros"
(cat "$work/started"; echo "used a1 all 1 1"; echo "sent 1 a1 all data 2344"; summary 1 0 0 1 0 1 0) > "$work/to_all"
digits 0 "" "$work/zeros" "inject a1 " 4800
digits 2 "line 8: wrong arguments; the form is inject <node> <digits>" "$work/started" "inject a1 " 4801
digits 8 "an injected frame of more than 2400 octets" "$work/started" "inject a1 " 4802
digits 0 "" "$work/to_all" "send a1 all - " 4608
digits 2 "line 8: wrong arguments; the form is $send" "$work/started" "send a1 all - " 4609
digits 8 "a payload of more than 2304 octets" "$work/started" "send a1 all - " 4610

# So many access points and stations, of which so many access points start.
nodes() { # APS STAS
    # shellcheck disable=SC2046
    printf 'ap 0200000001%02x r0kh-%d\n' $(for n in $(seq 0 $(($1 - 1))); do echo "$n $n"; done)
    # shellcheck disable=SC2046
    if [ "$2" -gt 0 ]; then printf 'sta 02000000%04x\n' $(seq 512 $(($2 + 511))); fi
}
starts() { # APS
    # shellcheck disable=SC2046
    printf 'install a%d all gtk 1\n' $(seq "$1")
}
network() { # NUMBER SAYS WRITES APS STAS
    (head -n 5 "$work/header"; nodes "$4" "$5") > "$work/script"
    ends "$1" "$2" "$3" "$work/script" replay
}
starts 64 > "$work/all_start"
for aps in 17 64; do
    (starts "$aps"; summary 0 0 0 "$aps" 0 0 0) > "$work/started_all"
    network 0 "" "$work/started_all" "$aps" 0
done
network 0 "" "$work/started_all" 64 1024
network 8 "more than 64 access points" "$work/all_start" 65 0
network 8 "more than 1024 stations" "$work/started" 1 1025

# Each of as many stations as there may be asks for an association: its AID is its place from 1, with the two highest bits set, and octets
# 28 and 29 of its response have it, the low one first.
(head -n 5 "$work/header"; nodes 1 1024; awk 'BEGIN { for (k = 1; k <= 1024; k++) print "connect s" k " a1\ndeliver " 3 * k - 2 " to a1" }') > "$work/script"
ended=0
"$program" journal < "$work/script" 2> "$work/said" | awk '$3 == "sent" && $6 == "assoc-resp" { print $5, substr($7, 57, 4) }' > "$work/written" || ended=$?
awk 'BEGIN { for (k = 1; k <= 1024; k++) printf "s%d %02x%02x\n", k, k % 256, 192 + int(k / 256) }' > "$work/aids"
judge 0 "" "$work/aids" "$ended" "the AIDs of 1024 stations"

# Lines behind as many access points, or stations, as there may be.
many() { # NUMBER SAYS WRITES APS STAS LINES
    (head -n 5 "$work/header"; nodes "$4" "$5"; printf '%b' "$6") > "$work/script"
    ends "$1" "$2" "$3" "$work/script" replay
}
for line in 'ap fedcba987654 r0kh-64' 'ap 020000000101 r0kh-64' 'ap fedcba987654 r0kh-1'; do
    many 8 "more than 64 access points" "$work/all_start" 64 0 "$line\n"
done
for line in 'ap fedcba987654 r0kh 64' 'ap 010000000001 r0kh-64'; do
    many 2 "line 70: wrong arguments; the form is ap <12 digits> <R0KH-ID of 1 to 48 octets>" "$work/all_start" 64 0 "$line\n"
done
many 2 "line 70: address or R0KH-ID used before; the form is sta <12 digits>" "$work/all_start" 64 0 'sta 02000000013f\n'
(cat "$work/all_start"; printf 'open s1 a64 connect\nsent 1 s1 a64 assoc-req 61\n') > "$work/last_begun"
many 2 "line 72: no such word here; the form is $events" "$work/last_begun" 64 0 'sta 020000000011\nconnect s1 a64\nap fedcba987654 r0kh-64\n'
many 2 "line 71: no such node, or a node of the other kind; the form is connect <sta> <ap>" "$work/all_start" 64 0 'sta 020000000011\nconnect s1 a65\n'
for line in 'sta fedcba987654' 'sta 020000000201'; do many 8 "more than 1024 stations" "$work/started" 1 1024 "$line\n"; done
for line in 'sta 010000000001' 'sta 0200000000010'; do
    many 2 "line 1031: wrong arguments; the form is sta <12 digits>" "$work/started" 1 1024 "$line\n"
done
(cat "$work/started"; echo "took s1024 unread refused malformed 1 1 1") > "$work/last_took"
many 2 "line 1032: no such word here; the form is $events" "$work/last_took" 1 1024 'inject s1024 00\nsta fedcba987654\n'
many 2 "line 1031: no such node, or a node of the other kind; the form is inject <node> <digits>" "$work/started" 1 1024 'inject s1025 00\n'

# Lines in a round that is full: others than events are taken or refused as ever.
full() { # NUMBER SAYS WRITES LINES
    (head -n 7 "$work/header"; echo round; times 1024 'rekey a1\n'; printf '%b' "$4") > "$work/script"
    ends "$1" "$2" "$3" "$work/script" replay
}
for line in 'rekey a1' 'inject a1 00'; do full 8 "more than 1024 events in a round" "$work/started" "$line\n"; done
full 2 "line 1033: no such node, or a node of the other kind; the form is rekey <ap>" "$work/started" 'rekey a2\n'
full 2 "line 1033: wrong arguments; the form is rekey <ap>" "$work/started" 'rekey\n'
full 2 "line 1033: no such word here; the form is $within" "$work/started" 'connect s1 a1\n'
full 2 "line 1033: no such frame was sent; the form is deliver <n> to <node>" "$work/started" 'deliver 1 to a1\n'
(cat "$work/started"; times 512 'install a1 all gtk 2\ninstall a1 all gtk 1\n'; echo "install a1 all gtk 2"; summary 0 0 0 1026 0 0 0) > "$work/renewed"
full 0 "" "$work/renewed" '# rekey a1\nend\nrekey a1\n'

# The longest payload behind a handshake, which is handed up.
exchange='deliver 1 to a1\ndeliver 2 to s1\ndeliver 3 to s1\ndeliver 4 to a1\ndeliver 5 to s1\ndeliver 6 to a1\n'
(cat "$work/header"; printf '%b' "$exchange"; printf 'send s1 a1 - '; times 4608 7; printf '\ndeliver 7 to a1\n') > "$work/script"
(cat "$work/begun"; echo "took a1 assoc-req accepted
open a1 s1 connect
sent 2 a1 s1 assoc-resp 36
sent 3 a1 s1 m1 131
took s1 assoc-resp accepted
took s1 m1 accepted
sent 4 s1 a1 m2 153
took a1 m2 accepted
sent 5 a1 s1 m3 187
took s1 m3 accepted
install s1 a1 ptk
install s1 a1 gtk 1
finish s1 a1
sent 6 s1 a1 m4 131
took a1 m4 accepted
install a1 s1 ptk
finish a1 s1
used s1 a1 0 1
sent 7 s1 a1 data 2344
took a1 data accepted"; printf 'up a1 s1 0 0 1 '; times 4608 7; echo; summary 7 7 0 4 0 1 1) > "$work/carried"
ends 0 "" "$work/carried" "$work/script" replay

# The front of a line, so many octets, and what stands behind their digits: behind both nodes, or in a round.
long_line() { # NUMBER SAYS WRITES LINES OCTETS BEHIND
    (head -n 7 "$work/header"; printf '%b' "$4"; times "$5" 5A; printf '%s\n' "$6") > "$work/script"
    ends "$1" "$2" "$3" "$work/script" replay
}
# It is too long, or refused with the text, in line 8 or 9.
too_long() { # LINES OCTETS BEHIND
    local limit="an injected frame of more than 2400 octets"
    case "$1" in *send*) limit="a payload of more than 2304 octets" ;; esac
    long_line 8 "$limit" "$work/started" "$1" "$2" "$3"
}
refused_long() { # TEXT LINES OCTETS BEHIND
    local number=8
    case "$2" in round*) number=9 ;; esac
    long_line 2 "line $number: $1" "$work/started" "$2" "$3" "$4"
}
inject="the form is inject <node> <digits>"
too_long 'inject s1 ' 2401 ''
too_long 'inject s2 ' 2401 ''
too_long 'inject s1 ' 4000 ''
too_long 'round\ninject a1 ' 2401 ''
too_long 'round\ninject s1 ' 2401 ''
refused_long "wrong arguments; $inject" 'inject s1 ' 2400 5
refused_long "wrong arguments; $inject" 'inject x1 ' 2401 ''
refused_long "wrong arguments; $inject" 'inject s1 ' 2401 5
refused_long "wrong arguments; $inject" 'inject s1 ' 2400 0g
refused_long "no such node, or a node of the other kind; $inject" 'inject s2 ' 2400 ''
refused_long "no such node, or a node of the other kind; $inject" 'round\ninject s1 ' 2400 ''
for line in 'send s1 a1 - ' 'send a1 all 15 ' 'send a1 s2 - ' 'send s1 all - ' 'round\nsend s1 a1 - '; do too_long "$line" 2305 ''; done
too_long 'send s1 a1 - ' 4000 ''
for line in 'send s1 a1 16 ' 'send s1 x1 - ' 'send x1 a1 - '; do refused_long "wrong arguments; the form is $send" "$line" 2305 ''; done
refused_long "wrong arguments; the form is $send" 'send s1 a1 - ' 2305 5
refused_long "wrong arguments; the form is $send" 'send s1 a1 - ' 2304 0g
refused_long "no such node, or a node of the other kind; the form is $send" 'send a1 s2 - ' 2304 ''
refused_long "no such node, or a node of the other kind; the form is $send" 'round\nsend s1 a1 - ' 2304 ''

# Lines of just so many octets: an EAPOL-Key frame whose 2364 octets end an injected frame of 2400, and one that would have one more; to
# all with a TID; and in a round.
framed() { # REPORT LENGTH FRONT BEHIND
    (head -n 7 "$work/header"; printf '%binject a1 080100000200000000aa0200000000bb0200000000aa0000aaaa03000000888e0203%s02' "$3" "$2"
        times 2363 00; printf '\n%b' "$4") > "$work/script"
    (cat "$work/started"; echo "took a1 eapol refused malformed $1"; summary 0 0 1 1 0 0 0) > "$work/framed"
    ends 0 "" "$work/framed" "$work/script" replay
}
framed "2 97 5" 093c '' ''
framed "2 2 4" 093d '' ''
framed "2 97 5" 093C 'round\n' 'end\n'
(cat "$work/started"; echo "used a1 all 1 1"; echo "sent 1 a1 all data 2346"; summary 1 0 0 1 0 1 0) > "$work/to_all"
long_line 0 "" "$work/to_all" 'send a1 all 15 ' 2304 ''
long_line 0 "" "$work/to_all" 'send a1 all 15 ' 2303 00
(head -n -7 "$work/carried"; echo "used a1 s1 0 1"; echo "sent 7 a1 s1 data 2344"; summary 7 6 0 4 0 1 0) > "$work/in_round"
(cat "$work/header"; printf '%b' "$exchange"; printf 'round\nsend a1 s1 - '; times 2304 5A; printf '\nend\n') > "$work/script"
ends 0 "" "$work/in_round" "$work/script" replay

# What a payload carries is what stands in its line.
(head -n -7 "$work/carried"; echo "used s1 a1 0 1"; echo "sent 7 s1 a1 data 45"; echo "took a1 data accepted"; echo "up a1 s1 0 5 1 00ff5a"
    summary 7 7 0 4 0 1 1) > "$work/handed"
(cat "$work/header"; printf '%b' "$exchange"; printf 'send s1 a1 5 00Ff5a\ndeliver 7 to a1\n') > "$work/script"
ends 0 "" "$work/handed" "$work/script" replay

# Associations of 64 stations, of which # is the number in the texts, and A to F those of their frames.
associated() { # TEXT
    awk -v text="$1" 'BEGIN {
        for (sta = 0; sta < 64; sta++) {
            line = text
            gsub("#", sta + 1, line)
            for (k = 1; k <= 6; k++) gsub(substr("ABCDEF", k, 1), sta * 6 + k, line)
            print line
        }
    }'
}

# Behind them the first one associates once more, its row is revoked, and it associates again: no row is left for it, for those that are
# revoked count.
(printf '%b' "${ieee}passphrase password\nakm ft-psk\nmdid a1b2\n"; nodes 2 64
    associated 'connect s# a1
deliver A to a1
deliver B to s#
deliver C to s#
deliver D to a1
deliver E to s#
deliver F to a1'
    echo 'connect s1 a1
deliver 385 to a1
deliver 386 to s1
deliver 387 to s1
deliver 388 to a1
deliver 389 to s1
deliver 390 to a1
revoke a1 s1
connect s1 a1
deliver 391 to a1
deliver 392 to s1
deliver 393 to s1
deliver 394 to a1
deliver 395 to s1
deliver 396 to a1
roam s1 a2
deliver 397 to a2
revoke a1 s2
roam s2 a2
deliver 399 to a2
roam s3 a2
deliver 401 to a2') > "$work/script"
(starts 2
    associated 'open s# a1 connect
sent A s# a1 assoc-req 67
took a1 assoc-req accepted
open a1 s# connect
sent B a1 s# assoc-resp 141
sent C a1 s# m1 131
took s# assoc-resp accepted
took s# m1 accepted
sent D s# a1 m2 276
took a1 m2 accepted
sent E a1 s# m3 323
took s# m3 accepted
install s# a1 ptk
install s# a1 gtk 1
finish s# a1
sent F s# a1 m4 131
took a1 m4 accepted
install a1 s# ptk
finish a1 s#
put a1 s# held'
    echo 'close s1 a1 session
open s1 a1 connect
sent 385 s1 a1 assoc-req 67
took a1 assoc-req accepted
open a1 s1 connect
sent 386 a1 s1 assoc-resp 141
sent 387 a1 s1 m1 131
took s1 assoc-resp accepted
took s1 m1 accepted
sent 388 s1 a1 m2 276
took a1 m2 accepted
sent 389 a1 s1 m3 323
took s1 m3 accepted
install s1 a1 ptk
resume s1 a1 gtk 1
finish s1 a1
sent 390 s1 a1 m4 131
took a1 m4 accepted
close a1 s1 session
install a1 s1 ptk
finish a1 s1
put a1 s1 held-already
revoke a1 s1 revoked
close s1 a1 session
open s1 a1 connect
sent 391 s1 a1 assoc-req 67
took a1 assoc-req accepted
open a1 s1 connect
sent 392 a1 s1 assoc-resp 141
sent 393 a1 s1 m1 131
took s1 assoc-resp accepted
took s1 m1 accepted
sent 394 s1 a1 m2 276
took a1 m2 accepted
sent 395 a1 s1 m3 323
took s1 m3 accepted
install s1 a1 ptk
resume s1 a1 gtk 1
finish s1 a1
sent 396 s1 a1 m4 131
took a1 m4 accepted
close a1 s1 session
install a1 s1 ptk
finish a1 s1
put a1 s1 full
open s1 a2 roam
sent 397 s1 a2 ft-req 167
took a2 ft-req refused name
look a2 s1 absent
sent 398 a2 s1 ft-resp 30
revoke a1 s2 revoked
open s2 a2 roam
sent 399 s2 a2 ft-req 167
took a2 ft-req refused name
look a2 s2 absent
sent 400 a2 s2 ft-resp 30
open s3 a2 roam
sent 401 s3 a2 ft-req 167
took a2 ft-req accepted
look a2 s3 found
open a2 s3 roam
sent 402 a2 s3 ft-resp 175
end frames 402 accepted 397 answered 0 refused 2 ignored 0
keys installed 198 resumed 2 used 0 handed-up 0
premises fresh yes no-collision yes unforged yes') > "$work/full"
ends 0 "" "$work/full" "$work/script" replay

# Behind as many frames as have numbers, 65535, and lines that send one more: from then on no event outside a round, and no round.
(head -n 8 "$work/header"; yes 'deliver 1 to a1' | head -n 32767) > "$work/all_frames"
(cat "$work/begun"
    awk 'BEGIN { for (n = 2; n < 65535; n += 2) {
        print "took a1 assoc-req accepted"
        if (n > 2) print "close a1 s1 attempt"
        print "open a1 s1 connect"
        print "sent " n " a1 s1 assoc-resp 36"
        print "sent " n + 1 " a1 s1 m1 131"
    } }') > "$work/all_sent"
frames() { # NUMBER SAYS LINES REPORT
    (cat "$work/all_frames"; printf '%b' "$3") > "$work/script"
    (cat "$work/all_sent"; printf '%b' "$4") > "$work/report"
    ends "$1" "$2" "$work/report" "$work/script" replay
}
late='close s1 a1 attempt\nopen s1 a1 connect\nsent 65536 s1 a1 assoc-req 61\n'
frames 0 "" 'round\ndeliver 65535 to a1\nend\nconnect s1 a1\n# rekey a1\n' \
    "took a1 m1 refused not-for-me\n$late$(summary 65536 32767 1 1 0 0 0)\n"
for line in 'rekey a1' 'deliver 65536 to a1' 'round'; do frames 8 "more than 65535 frames sent" "connect s1 a1\n$line\n" "$late"; done
frames 2 "line 32777: no such node, or a node of the other kind; the form is rekey <ap>" 'connect s1 a1\nrekey a2\n' "$late"
frames 2 "line 32777: no such frame was sent; the form is deliver <n> to <node>" 'connect s1 a1\ndeliver 65537 to a1\n' "$late"

# A device that takes no octet; what it got is not looked at.
fills() { # SCRIPT WORDS..
    local script=$1 ended=0
    shift
    "$program" "$@" < "$script" > /dev/full 2> "$work/said" || ended=$?
    : > "$work/written"
    judge 4 "the output could not be written: no storage space" $none "$ended" "$* to a full device"
}
if [ -c /dev/full ]; then
    fills "$stored/stdin" replay
    fills "$stored/stdin" journal
else
    echo "skipped: no /dev/full, so no device that is full"
fi

# Where the lines of a round cannot be written no more is read than the 512 octets in which its line stands. Where no event and no round was
# run, those of nodes are tried at the end, whatever else was found; and where there are none nothing is.
if [ -c /dev/full ]; then
    (cat "$work/header"; times 2000 '#\n'; echo frob) > "$work/script"
    ended=0
    { "$program" replay > /dev/full 2> "$work/said" || ended=$?; cat > "$work/unread"; } < "$work/script"
    if ! tail -c +513 "$work/script" | cmp -s - "$work/unread"; then ended="$ended, and read on"; fi
    : > "$work/written"
    judge 4 "the output could not be written: no storage space" $none "$ended" "an event to a full device, after which no more is read"
    (head -n 7 "$work/header"; echo frob) > "$work/script"
    fills "$work/script" replay
    printf 'domain 1\nfrob\n' > "$work/script"
    ended=0
    "$program" replay < "$work/script" > /dev/full 2> "$work/said" || ended=$?
    judge 2 "line 2: $no_word" $none "$ended" "a header to a full device"
fi

# The report is written as rounds end: the lines of each are at a pipe before the next line of the script is given.
mkfifo "$work/given" "$work/taken"
"$program" replay < "$work/given" > "$work/taken" 2> "$work/said" &
exec 5> "$work/given" 6< "$work/taken"
head -n 7 "$work/header" >&5
: > "$work/came"
for event in 'connect s1 a1:3' 'deliver 1 to a1:4' 'deliver 2 to s1:1' 'deliver 3 to s1:2' 'deliver 4 to a1:2' 'deliver 5 to s1:5' 'deliver 6 to a1:3'; do
    printf '%s\n' "${event%:*}" >&5
    for ((number = 0; number < ${event#*:}; number++)); do
        if ! IFS= read -r -t 20 line <&6; then
            echo "late" >> "$work/came"
            break 2
        fi
        printf '%s\n' "$line" >> "$work/came"
    done
done
exec 5>&-
cat <&6 >> "$work/came"
exec 6<&-
ended=0
wait $! || ended=$?
mv "$work/came" "$work/written"
(head -n 20 "$work/carried"; summary 6 6 0 4 0 0 0) > "$work/report"
judge 0 "" "$work/report" "$ended" "a report at a pipe, round by round"

# A pipe that nobody reads any more is such an end too, and none by a signal.
mkfifo "$work/unheard"
exec 7<> "$work/unheard"
exec 8> "$work/unheard"
exec 7>&-
ended=0
"$program" replay < "$stored/stdin" >&8 2> "$work/said" 8>&- || ended=$?
exec 8>&-
: > "$work/written"
judge 4 "the output could not be written: broken pipe" $none "$ended" "replay to a pipe that nobody reads"

# Live runs. Two ports that nobody has, as far as this machine tells.
is_taken() { # PORT
    grep -qi "^ *[0-9]*: \(0100007F\|0\{8\}\|0\{32\}\):$(printf %04X "$1") " /proc/net/udp /proc/net/udp6 2> /dev/null
}
port=$((20000 + RANDOM % 10000))
while is_taken "$port" || is_taken $((port + 1)); do port=$((port + 2)); done

# Each case of the files `tools/ends/*.cases`: the lines behind `front` stand before those of each case, and their reports before its own,
# which is one of those that `or` parts.
mkdir "$work/cases"
awk -v to="$work/cases/" '
    function put(name, text) { printf "%s", text > (to n "." name); close(to n "." name) }
    function done() {
        if (title == "") return
        put("title", title); put("lines", lines)
        for (k = 1; k <= many; k++) put("report" k, reports[k])
        title = ""
    }
    FNR == 1 { done(); part = "" }
    /^$/ || (part == "" && /^#/) { next }
    $0 == "front" { done(); front = report = ""; part = "front"; next }
    /^case / { done(); n = sprintf("%03d", n + 1); title = substr($0, 6); lines = front; reports[many = 1] = report; part = "case"; next }
    $0 == "reports" { part = part "s reports"; next }
    $0 == "or" { reports[++many] = report; next }
    part == "front" { front = front $0 "\n"; next }
    part == "fronts reports" { report = report $0 "\n"; next }
    part == "case" { lines = lines $0 "\n"; next }
    { reports[many] = reports[many] $0 "\n" }
    END { done() }
' tools/ends/*.cases
for lines in "$work"/cases/*.lines; do
    ended=0
    "$program" replay < "$lines" > "$work/written" 2> "$work/said" || ended=$?
    report=${lines%lines}report1
    for other in "${lines%lines}"report*; do
        if cmp -s "$other" "$work/written"; then report=$other; fi
    done
    judge 0 "" "$report" "$ended" "$(cat "${lines%lines}title")"
done

# The fronts of refused lines, and what they write.
mkdir "$work/fronts"
stands() { # NAME LINES REPORT
    printf '%b' "$2" > "$work/fronts/$1"
    printf '%b' "$3" > "$work/fronts/$1 report"
}
seeded="domain 1\nseed 000102030405060708090a0b0c0d0e0f101112131415161718191a1b1c1d1e1f\n"
whole_header="$ieee${psk}akm psk\n"
ft="$ieee${psk}akm ft-psk\n"
ap="ap 020000000001 r0kh-1\n"
sta="sta 020000000011\n"
first="install a1 all gtk 1\n"
opened="${first}open s1 a1 connect\nsent 1 s1 a1 assoc-req 62\n"
sent="${opened}used a1 all 1 1\nsent 2 a1 all data 45\n"
stands 0 "" ""
stands 1 "domain 1\n" ""
stands 2 "$seeded" ""
stands 3 "$ieee" ""
stands 4 "$ieee$psk" ""
stands header "$whole_header" ""
stands ap "$whole_header\n$ap" "$first"
stands sta "$whole_header$sta" ""
stands both "$whole_header# nodes\n$ap\n#\n$sta# events\n" "$first"
stands connected "$whole_header$ap${sta}connect s1 a1\n" "$opened"
stands frames "$whole_header$ap${sta}connect s1 a1\nsend a1 all - 68656c6c6f\n" "$sent"
stands open "$whole_header$ap${sta}connect s1 a1\nsend a1 all - 68656c6c6f\nround\n" "$sent"
stands closed "$whole_header$ap${sta}round\nrekey a1\ninject a1 00\n\nend\n" "${first}install a1 all gtk 2\ntook a1 unread refused malformed 1 1 1\n"
stands "empty round" "$whole_header$ap${sta}sta fedcba987654\nround\nend\n" "$first"
stands turned "$whole_header${ap}turn\n" "$first"
stands "turned round" "$whole_header${ap}turn\n# a round\nround\n" "$first"
stands "ft 5" "$ft" ""
stands "ft header" "${ft}mdid a1B2\n" ""
stands "ft both" "${ft}mdid a1B2\n$ap$sta" "$first"
stands "ft connected" "${ft}mdid a1B2\n$ap${sta}connect s1 a1\n" "${first}open s1 a1 connect\nsent 1 s1 a1 assoc-req 67\n"
stands "second 1" "domain 2\n" ""
second="${whole_header/domain 1/domain 2}"
stands "second header" "$second" ""
stands "second at" "$second# a comment\n\nrenew-at 0000000007\n" ""
stands "second ft header" "${ft/domain 1/domain 2}mdid a1B2\n" ""
stands "second ap" "$second$ap" "$first"
stands "second both" "$second$ap$sta" "$first"
stands "second open" "$second$ap${sta}round\n" "$first"
stands "ft open" "${ft}mdid a1B2\n$ap${sta}round\n" "$first"
sha="${second/akm psk/akm psk-sha256}"
both_first="${first}install a1 all igtk 4\n"
stands "sha header" "$sha" ""
stands "sha at" "${sha}renew-at 7\n" ""
stands "mfp header" "${sha}# a comment\nmfp\n" ""
stands "mfp ap" "${sha}mfp\n$ap" "$both_first"
stands "mfp both" "${sha}mfp\n$ap$sta" "$both_first"
stands "mfp open" "${sha}mfp\n$ap${sta}round\n" "$both_first"

# What follows the last of their lines, and ends well.
follows() { # FRONT LINES REPORT
    { cat "$work/fronts/$1"; printf '%b' "$2"; } > "$work/script"
    { cat "$work/fronts/$1 report"; printf '%b' "$3"; } > "$work/report"
    ends 0 "" "$work/report" "$work/script" replay
}
follows closed 'connect s1 a1\nround\nend\ninject s1 00\n' \
    "open s1 a1 connect\nsent 1 s1 a1 assoc-req 62\ntook s1 unread refused malformed 1 1 1\n$(summary 1 0 2 2 0 0 0)\n"
follows closed '' "$(summary 0 0 1 2 0 0 0)\n"
follows "empty round" 'inject s2 00\n' "took s2 unread refused malformed 1 1 1\n$(summary 0 0 1 1 0 0 0)\n"

# A line of the header that may be there, and what `renew` does where there is no session.
follows "second at" "$ap${sta}renew a1 s1\n" "${first}idle a1 no-session\n$(summary 0 0 0 1 0 0 0)\n"
follows "second header" "renew-at 1\n$ap" "$first$(summary 0 0 0 1 0 0 0)\n"
follows "second header" "renew-at 4294967295\n" "$(summary 0 0 0 0 0 0 0)\n"

# The other such line, after the first or without it, and what `announce` does.
follows "sha header" "mfp\n" "$(summary 0 0 0 0 0 0 0)\n"
follows "sha at" "mfp\n$ap" "$both_first$(summary 0 0 0 2 0 0 0)\n"
follows "second ft header" "mfp\n$ap" "$both_first$(summary 0 0 0 2 0 0 0)\n"
follows "mfp both" "announce a1 aB\n" "used a1 all 4 1\nsent 1 a1 all action 44\n$(summary 1 0 0 2 0 1 0)\n"
follows "mfp both" "rekey a1\nannounce a1 00\n" "install a1 all gtk 2\ninstall a1 all igtk 5\nused a1 all 5 1\nsent 1 a1 all action 44\n$(summary 1 0 0 4 0 1 0)\n"
follows "mfp both" "announce a1 $(times 4608 7)\n" "used a1 all 4 1\nsent 1 a1 all action 2347\n$(summary 1 0 0 2 0 1 0)\n"
# past its longest payload; reasons 2 and 3 go before that limit, and reason 4 after it
over() { # NUMBER SAYS FRONT LINE
    { cat "$work/fronts/$3"; printf '%s\n' "$4"; } > "$work/script"
    ends "$1" "$2" "$work/fronts/$3 report" "$work/script" replay
}
many="$(times 4610 7)"
over 8 "a payload of more than 2304 octets" "mfp both" "announce a1 $many"
over 8 "a payload of more than 2304 octets" "mfp both" "announce a2 $many"
lines_so() { echo $(($(wc -l < "$work/fronts/$1") + 1)); }
over 2 "line $(lines_so "mfp both"): wrong arguments; the form is announce <ap> <digits>" "mfp both" "announce x1 $many"
over 2 "line $(lines_so "second both"): no such word here; the form is $later" "second both" "announce a1 $many"

# Each refused line of those files, behind its front.
for file in tools/ends/refused_lines.txt tools/ends/refused_causes.txt; do
    kind='' place='' text=''
    while IFS= read -r line; do
        case "$line" in
            '= '*)
                line=${line#= }
                kind=${line%% *} place=${line#* } text=${line#*: }
                place=${place%%:*}
                ;;
            *)
                if [ -z "$kind" ] || [ -z "$line" ]; then continue; fi
                { cat "$work/fronts/$place"; printf '%b\n' "$line"; } > "$work/script"
                number=$(($(wc -l < "$work/fronts/$place") + 1))
                ended=0 words=$kind
                if [ "$kind" = live ]; then words="live $port"; fi
                # shellcheck disable=SC2086
                "$program" $words < "$work/script" > "$work/written" 2> "$work/said" || ended=$?
                judge 2 "line $number: $text" "$work/fronts/$place report" "$ended" "$kind $place: $line"
                ;;
        esac
    done < "$file"
done

# A live run with turns and a round between them.
{ cat "$work/fronts/turned"; printf '# a round\nround\nrekey a1\nend\nturn\nturn\n'; } > "$work/script"
(cat "$work/started"; echo "install a1 all gtk 2"; summary 0 0 0 2 0 0 0) > "$work/renewed"
ends 0 "" "$work/renewed" "$work/script" live "$port"

# Events that come of no frame do there what they do in a replay.
(cat "$work/header"; printf 'inject s1 00\nretry a1 s1\nrekey a1\nsend a1 all - 00\nexpire a1 s1\nrevoke a1 s1\nleave s1\n') > "$work/script"
(cat "$work/begun"; echo "took s1 unread refused malformed 1 1 1
idle a1 nothing
install a1 all gtk 2
used a1 all 2 1
sent 2 a1 all data 41
idle a1 nothing
revoke a1 s1 absent
close s1 a1 attempt"; summary 2 0 1 2 0 1 0) > "$work/done"
for words in replay "live $port"; do
    # shellcheck disable=SC2086
    ends 0 "" "$work/done" "$work/script" $words
done

# Lines that open no port: those that a live run refuses, and those that have their meaning in it alone.
refuses_live() { # LINES LINE TEXT
    (head -n "$1" "$work/header"; printf '%s\n' "$2") > "$work/script"
    ends 2 "line $(($1 + 1)): $3" $none "$work/script" live "$port"
}
live_any="that of renew-at with domain 2 without ft-psk, mfp with domain 2 without psk, ap, sta, connect, roam with ft-psk, inject, retry, rekey, send, expire, revoke, leave, secret with domain 2, renew with domain 2 without ft-psk, announce with mfp, round or turn"
refuses_live 1 "seed drawn" "wrong arguments; the form is seed <64 digits or draw>"
refuses_live 5 "frob" "no such word here; the form is $live_any"
refuses_live 5 "turn 1" "wrong arguments; the form is turn"
for line in "deliver 1 to a1" "alter 1 0 01 to a1" "cut 1 1 to a1"; do
    refuses_live 5 "$line" "no such line in this kind of run; the form is $live_any"
done
ends 0 "" "$work/nothing" "$work/least" live "$port"
ends 0 "" "$work/nothing" "$work/least" live "00000$port"
ends 3 "the script could not be read: is a directory" $none / live "$port"

# Two nodes at their ports, which have nothing to take in a turn; the same with a seed that is drawn.
(head -n 7 "$work/header"; echo turn) > "$work/turn"
ends 0 "" "$work/quiet" "$work/turn" live "$port"
sed 's/^seed .*/seed draw/' "$work/turn" > "$work/draw"
ends 0 "" "$work/quiet" "$work/draw" live "$port"
ends 2 "line 2: no such line in this kind of run; the form is seed <64 digits>" $none "$work/draw" replay
(cat "$work/turn"; echo round; echo turn) > "$work/script"
ends 2 "line 10: no such word here; the form is that of inject, retry, rekey, send, expire, revoke or end" "$work/started" "$work/script" live "$port"
if [ -c /dev/full ]; then fills "$work/turn" live "$port"; fi

# While another live run has the ports, the first node cannot be attached.
if [ -r /proc/net/udp ]; then
    mkfifo "$work/lines"
    "$program" live "$port" < "$work/lines" > "$work/first" 2>&1 &
    holder=$!
    exec 9> "$work/lines"
    cat "$work/turn" >&9
    for _ in {1..600}; do
        if is_taken $((port + 1)); then break; fi
        sleep 0.05
    done
    ends 6 "a socket could not be opened, or a frame not be sent or taken: a1, port $port: address in use" "$work/started" "$work/turn" live "$port"
    exec 9>&-
    ended=0
    wait "$holder" || ended=$?
    cp "$work/first" "$work/written"
    : > "$work/said"
    judge 0 "" "$work/quiet" "$ended" "live, beside another live run"
    # Its end left the ports to the next one.
    ends 0 "" "$work/quiet" "$work/turn" live "$port"
else
    echo "skipped: no /proc/net/udp, so no run beside another one"
fi

echo "cases $((right + wrong)) wrong $wrong"
[ "$wrong" = 0 ]
