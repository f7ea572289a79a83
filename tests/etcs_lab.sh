#!/bin/bash
# Test the program etcs_lab: its lines and texts, compared with what plain readers find in the same images and telegrams.
#
#     tests/etcs_lab.sh                            all parts
#     tests/etcs_lab.sh images                     images of each state of a slot, cut off, altered and big ones; examination and replay in
#                                                  one (check); the commands of the pages for investigators, in one folder
#     tests/etcs_lab.sh events [RINGS [SEED]]      events of images, whole and damaged, and of pseudo-random blocks in all three formats
#     tests/etcs_lab.sh replay                     replays, also with the altered fields of tests/etcs_lab/altered_fields.md
#     tests/etcs_lab.sh why                        causes of brakes, of images (why) and of scenarios (run), which etcs has to play alike; and
#                                                  many scenarios in one process (play)
#     tests/etcs_lab.sh telegrams                  telegrams in JSON, and packets by name
#
# ETCS_LAB and ETCS name other programs than those that the full check leaves.
. "$(dirname "$(readlink -f -- "$0")")/both_programs" || exit 1
cd "$top/tests" || exit 1
images() {
    local status=0
    ../tools/python --checks || return 1
    python3 etcs_lab/image_rows.py "$lab" "$etcs" || status=1
    python3 etcs_lab/verdict_rows.py "$lab" || status=1
    python3 documents.py ../README start/investigate howto/why-did-it-brake howto/damaged-image howto/replay howto/seal \
        howto/time-of-day howto/report howto/sql || status=1
    return $status
}
events() { python3 etcs_lab/event_rows.py "$lab" "$@"; }
replay() { python3 etcs_lab/replay_rows.py "$lab" replay; }
why() {
    local status=0
    python3 etcs_lab/why_rows.py "$lab" why || status=1
    python3 etcs_lab/run_rows.py "$lab" "$etcs" || status=1
    python3 etcs_lab/play_rows.py "$lab" "$etcs" || status=1
    return $status
}
telegrams() {
    local status=0
    ../tools/python --checks || return 1
    /usr/bin/python3 etcs_lab/telegram_rows.py "$lab" || status=1
    /usr/bin/python3 etcs_lab/packet_rows.py "$lab" || status=1
    return $status
}
run "images events replay why telegrams" "$@"
