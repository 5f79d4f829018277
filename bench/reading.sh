#!/usr/bin/env bash
# Prints how many lines of definitions a reader must believe to accept the claim of a public contract. The words of a pass (what it has seen, its own calls, what it has left, that it rests) and the history of a book are taken as words.
set -eu
cd "$(dirname "${BASH_SOURCE[0]}")/.."
claim() { # what is called, and then what reading.py is asked
    local name=$1
    shift
    printf '%-32s %s\n' "$name" "$(python3 bench/reading.py --words past,mine,left,Rests,calls_in,history "$@" | tail -1)"
}
# the cases of the other commands, and of the reasons with which these are refused
others=Play,Trial,Drill,Relay,Rounds,Tally,Throttle,command.Play,command.Trial,command.Drill,command.Relay,command.Rounds,command.Tally,command.Throttle,ByScript,ByPlay,ByOrder,ByThrottle,TooManyLines
claim "run, all commands" crates/tool_run/src/runs.rt run ends
claim "run, its part on replay" --without "$others" crates/tool_run/src/runs.rt run ends
claim "replay, bytes to text" --definitions crates/replay_run/specs/Claim.antt:TellsReplay crates/replay_report/specs/Report.antt:report_text crates/trace_text/specs/TraceGrammar.antt:IsTrace crates/trace_text/specs/Records.antt:records_of
claim "replay" crates/replay_run/src/replaying.rt replay told
claim "play_script and trial_script" --definitions crates/script_run/specs/Answered.antt:IsAnswered crates/script_run/specs/Answered.antt:AreInTurn
claim "relay" crates/relay_run/src/relaying.rt relay told
claim "add" crates/fn_funnel/src/waiting.rt add made
claim "add_direct" crates/fn_direct/src/lib.rt add_direct made
claim "Desk::add" crates/quota_pool/src/desks.rt Desk::add made
claim "try_put" crates/tq_queue/src/putting.rt try_put made
claim "AddFuture::poll" crates/fn_future/src/single.rt AddFuture::poll made
claim "finish_all" crates/fn_rounds/src/all_calls.rt finish_all made
claim "rounds_text" crates/fn_rounds/src/script.rt rounds_text told
claim "spread, the results" crates/fn_spread/src/spreading.rt spread results
claim "throttle_text" crates/throttle_run/src/throttling.rt throttle_text told
claim "BucketDesk::take" crates/quota_bucket/src/desks.rt BucketDesk::take takes
claim "after, of the integer" crates/fn_model/src/lib.rt after
