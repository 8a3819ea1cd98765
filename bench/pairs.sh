#!/usr/bin/env bash
# bench/pairs.sh [COMMIT]
# Times the pairs of the transmitter in a proved program, of Idle columns and of Data columns, and where
# a commit is given what stood there. The programs run by turns, and the least time counts. Makes and
# removes a folder of its own.
set -eu
. "$(dirname "$0")/turns.sh"
take_turns pairs "bit_lists mac_columns block66 pcs_bits scramble58 transcode257 rate_match marker_table
    field_base gf1024 gf_lanes symbol_deal rs_code pcs_send" "mac_columns pcs_send" "$@"
show_times
